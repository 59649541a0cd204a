//! Rule tables as text: docs/FORMAT.md, "Rule tables as text".

use std::ffi::OsStr;
use std::ops::Range;

use type_name::{Item, LONGEST_WORD, MOST_ITEMS, MOST_RULES, RuleError, Table};

use crate::cli::Wrong;
use crate::excerpt::excerpt;
use crate::item_text::unquoted;
use crate::source::read_whole;

/// The most bytes of a table's text. 256 rules of the longest words, all in quotes, have fewer.
const MOST_TABLE: u64 = 1 << 24;

const COMMENT: char = '#';

/// A table, with where its rules were written.
pub struct Rules {
    pub table: Table,
    pub written: Vec<Written>,
}

/// A rule as it was written.
pub struct Written {
    /// Its line in the file, from 1.
    pub line: usize,
    /// Its items as they were written, with one blank between them.
    pub text: String,
}

/// What a command says of its TABLE.
pub const HELP: &str = "\
TABLE is a file of rules, one a line (docs/FORMAT.md, \"Rule tables as text\"), or - for standard input.
";

/// What is wrong with a line, and where in it.
struct Fault {
    message: String,
    place: Range<usize>,
}

impl Rules {
    /// The table that the words of a command name, which takes nothing else.
    pub fn of_words(words: &[&OsStr]) -> Result<Self, Wrong> {
        match words {
            [table] => Self::of_file(table),
            [] => Err(missing()),
            [_, second, ..] => {
                let second = second.display();
                Err(Wrong(format!("`{second}` is one word too many")))
            }
        }
    }

    pub fn of_file(path: &OsStr) -> Result<Self, Wrong> {
        let bytes = read_whole(path, MOST_TABLE, "table")?;
        let at = |line: usize, column: usize, message: &str| {
            Wrong(format!("{}:{line}:{column}: {message}", path.display()))
        };
        let text = String::from_utf8(bytes).map_err(|error| {
            let bytes = &error.as_bytes()[..error.utf8_error().valid_up_to()];
            let before = String::from_utf8_lossy(bytes);
            let line = before.rsplit('\n').next().unwrap_or_default();
            let number = before.matches('\n').count() + 1;
            at(number, line.chars().count() + 1, "expected UTF-8")
        })?;
        let mut rules = Self {
            table: Table::new(),
            written: Vec::new(),
        };
        for (number, line) in (1..).zip(text.lines()) {
            rules.add_line(line, number).map_err(|fault| {
                let column = line[..fault.place.start].chars().count() + 1;
                let message = format!("{}\n{}", fault.message, excerpt(line, Some(fault.place)));
                at(number, column, &message)
            })?;
        }
        Ok(rules)
    }

    /// Adds the rule of a line, if it has one.
    fn add_line(&mut self, line: &str, number: usize) -> Result<(), Fault> {
        let found = items(line)?;
        if found.is_empty() {
            return Ok(());
        }
        let items: Vec<Item> = found.iter().map(|(item, _)| item.item()).collect();
        let places: Vec<_> = found.iter().map(|(_, place)| place.clone()).collect();
        let pushed = self.table.push(&items);
        pushed.map_err(|error| of_rule(error, &places))?;
        let texts: Vec<&str> = places.into_iter().map(|place| &line[place]).collect();
        self.written.push(Written {
            line: number,
            text: texts.join(" "),
        });
        Ok(())
    }

    /// A rule in words.
    pub fn rule(&self, place: usize) -> String {
        let Written { line, text } = &self.written[place];
        format!("rule {place}, line {line}: {text}\n")
    }
}

pub fn missing() -> Wrong {
    Wrong("a TABLE is missing; --help says more".into())
}

/// An item as it was read: a word in quotes has its own text.
enum ReadItem<'a> {
    Unquoted(Item<'a>),
    Quoted(String),
}

impl ReadItem<'_> {
    fn item(&self) -> Item<'_> {
        match self {
            Self::Unquoted(item) => *item,
            Self::Quoted(word) => Item::Word(word),
        }
    }
}

/// The items of a line, each with its place.
fn items(line: &str) -> Result<Vec<(ReadItem<'_>, Range<usize>)>, Fault> {
    let mut found = Vec::new();
    let mut at = 0;
    loop {
        let rest = line[at..].trim_start_matches(is_blank);
        if rest.is_empty() || rest.starts_with(COMMENT) {
            return Ok(found);
        }
        at = line.len() - rest.len();
        let (item, length) = item(rest).map_err(|fault| Fault {
            place: at + fault.place.start..at + fault.place.end,
            ..fault
        })?;
        found.push((item, at..at + length));
        at += length;
    }
}

fn is_blank(next: char) -> bool {
    next == ' ' || next == '\t'
}

fn is_end(next: char) -> bool {
    is_blank(next) || next == COMMENT
}

/// The item that begins a text, and its length.
fn item(text: &str) -> Result<(ReadItem<'_>, usize), Fault> {
    if let Some(behind) = text.strip_prefix('"') {
        let (word, length) = quoted(behind)?;
        return Ok((ReadItem::Quoted(word), length));
    }
    let length = text.find(is_end).unwrap_or(text.len());
    let item = unquoted(&text[..length]).map_err(|message| Fault {
        message,
        place: 0..length,
    })?;
    Ok((ReadItem::Unquoted(item), length))
}

/// The word in quotes of which the text stands behind the first quote, and the length with both quotes.
fn quoted(text: &str) -> Result<(String, usize), Fault> {
    let fault = |at: usize, one: char, message: &str| Fault {
        message: message.to_owned(),
        place: 1 + at..1 + at + one.len_utf8(),
    };
    let mut word = String::new();
    let mut letters = text.char_indices();
    while let Some((at, one)) = letters.next() {
        match one {
            '"' => {
                let length = at + 2;
                return match text[at + 1..].chars().next() {
                    Some(next) if !is_end(next) => Err(fault(
                        at + 1,
                        next,
                        "expected a blank behind a word in quotes",
                    )),
                    _ => Ok((word, length)),
                };
            }
            '\\' => match letters.next() {
                Some((_, escaped @ ('"' | '\\'))) => word.push(escaped),
                _ => {
                    return Err(fault(
                        at,
                        one,
                        "expected \\\" or \\\\ for a backslash in quotes",
                    ));
                }
            },
            '!'..='~' => word.push(one),
            _ => {
                let message = "expected a visible ASCII character (33 to 126) or the closing quote";
                return Err(fault(at, one, message));
            }
        }
    }
    Err(fault(text.len(), ' ', "expected the closing quote"))
}

/// What is wrong with a rule of items that stand at these places.
fn of_rule(error: RuleError, places: &[Range<usize>]) -> Fault {
    let whole = || places[0].start..places[places.len() - 1].end;
    let (place, message) = match error {
        RuleError::TableFull => (whole(), format!("expected at most {MOST_RULES} rules")),
        RuleError::TooManyItems(_) => (
            places[MOST_ITEMS].clone(),
            format!("expected at most {MOST_ITEMS} items, rest among them"),
        ),
        RuleError::RestNotLast(item) => {
            let message = "expected rest as a rule's last item alone".to_owned();
            (places[item].clone(), message)
        }
        RuleError::WordLength { item, .. } => (
            places[item].clone(),
            format!("expected a word of 1 to {LONGEST_WORD} characters"),
        ),
        // What remains the text form cannot say.
        RuleError::Empty | RuleError::KindOfWords(_) | RuleError::WordByte { .. } => {
            (whole(), error.to_string())
        }
    };
    Fault { message, place }
}
