//! Real type names: each is lexed by the original's lexer, and its row goes to both readers.

use std::collections::BTreeMap;
use std::fs;

use harness::answer::Answer;
use harness::format::NUMBERS_PER_TOKEN;
use harness::generate::Case;
use harness::names::{Name, names};
use harness::profile::{ARCHIVE_STANDARD, NEWER_STANDARD};

use crate::Tally;

/// Numbers of the buffer beyond those that a row needs.
const SPARE: usize = 5;

/// A standard number and a structure flag, with what they are called.
struct Setting {
    title: &'static str,
    standard: u8,
    flag: u8,
}

/// The first standard that each language declares.
const EARLIEST: u8 = 0;

/// The latest standards (255), those of release archives (254) and the earliest.
const SETTINGS: [Setting; 5] = [
    Setting {
        title: "standard 255, flag 1",
        standard: NEWER_STANDARD,
        flag: 1,
    },
    Setting {
        title: "standard 254, flag 1",
        standard: ARCHIVE_STANDARD,
        flag: 1,
    },
    Setting {
        title: "standard 255, flag 0",
        standard: NEWER_STANDARD,
        flag: 0,
    },
    Setting {
        title: "standard 254, flag 0",
        standard: ARCHIVE_STANDARD,
        flag: 0,
    },
    Setting {
        title: "earliest standard, flag 1",
        standard: EARLIEST,
        flag: 1,
    },
];

/// What became of a name before or in the readers.
enum Outcome {
    /// The lexer's message.
    NotLexed(String),
    Answered(Answer),
}

/// Compares both readers on every name of the file and prints the counts. With `verdicts`, each name with its outcome under
/// the first setting is written there, one a line.
pub fn compare(file: &str, verdicts: Option<&str>, tally: &mut Tally) -> Result<(), String> {
    let content = fs::read_to_string(file).map_err(|error| format!("{file}: {error}"))?;
    let names = names(&content)?;
    println!("{} names", names.len());
    for (number, setting) in SETTINGS.iter().enumerate() {
        let mut counts = Counts::default();
        let mut lines = String::new();
        for name in &names {
            let outcome = answer(name, setting, tally);
            counts.add(name, &outcome);
            lines.push_str(&verdict(name, &outcome));
        }
        counts.print(setting.title);
        if let (0, Some(path)) = (number, verdicts) {
            fs::write(path, lines).map_err(|error| format!("{path}: {error}"))?;
        }
    }
    Ok(())
}

/// Runs both readers on the name's row, the buffer dirty before: just as long as the row needs, and longer.
fn answer(name: &Name, setting: &Setting, tally: &mut Tally) -> Outcome {
    let row = match name.row(setting.standard, setting.flag) {
        Ok(row) => row,
        Err(message) => return Outcome::NotLexed(message),
    };
    let room = NUMBERS_PER_TOKEN * row.tokens.len();
    let mut case = Case {
        file: row.write(),
        tree_len: room,
    };
    let answer = tally.add(&case);
    case.tree_len = room + SPARE;
    tally.add(&case);
    Outcome::Answered(answer)
}

/// `ok NODES`, `no NUMBER TOKEN DETAIL` or `lexer`, then the name's fields and, if the lexer turned it down, its message.
fn verdict(name: &Name, outcome: &Outcome) -> String {
    let (word, message) = match outcome {
        Outcome::NotLexed(message) => ("lexer".to_owned(), message.as_str()),
        Outcome::Answered(Answer::Accepted { nodes, .. }) => (format!("ok {nodes}"), ""),
        Outcome::Answered(Answer::Refused {
            number,
            token,
            detail,
            ..
        }) => (format!("no {number} {token} {detail}"), ""),
    };
    let Name {
        label,
        source,
        text,
        ..
    } = name;
    format!("{word}\t{label}\t{source}\t{text}\t{message}\n")
}

/// How many names had which outcome, by language.
#[derive(Default)]
struct Counts(BTreeMap<String, BTreeMap<String, usize>>);

impl Counts {
    fn add(&mut self, name: &Name, outcome: &Outcome) {
        let key = match outcome {
            Outcome::NotLexed(_) => "not lexed".to_owned(),
            Outcome::Answered(answer) => match answer.refusal() {
                None => "accepted".to_owned(),
                Some(number) => format!("refused {number}"),
            },
        };
        let language = self.0.entry(name.label.to_owned()).or_default();
        *language.entry(key).or_default() += 1;
    }

    fn print(&self, title: &str) {
        println!("{title}");
        for (language, outcomes) in &self.0 {
            let names: usize = outcomes.values().sum();
            let parts: Vec<String> = outcomes
                .iter()
                .map(|(key, n)| format!("{key} {n}"))
                .collect();
            println!("  {language}: {names} names, {}", parts.join(", "));
        }
    }
}
