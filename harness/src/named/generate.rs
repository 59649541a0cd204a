//! Rows for the reading with names, mostly of C++ and with lists, brackets and
//! angles in each other: the same source of random numbers gives the same rows.

use crate::format::{MOST_NESTING, MOST_TOKENS, Token};
use crate::generate::random::Random;
use crate::generate::writer::Writer;
use crate::generate::{Draft, angles, c, cpp, deep, fortran, mutated, words, written};
use crate::kind::Kind;
use crate::lists::text;
use crate::outer;
use crate::profile::HostLanguage;

/// Words of the rows that are made here; names are drawn among them.
const WORDS: [&str; 5] = ["A", "B", "b", "Slots", "int"];

/// One row in so many is at the limits of nesting or length.
const AT_LIMITS: usize = 60;

/// One row in so many keeps a language other than C++, if it has one.
const OTHER_LANGUAGE: usize = 6;

type Style = fn(&mut Random) -> Draft;

#[rustfmt::skip]
const STYLES: [Style; 16] = [
    tangled, tangled, tangled, tangled, tangled, chosen, chosen, single, single,
    angles::angles, angles::angles, cpp, outer::generate::row, mutated::mutated, words::words, one_of_other_language,
];

pub fn row(random: &mut Random) -> Draft {
    let mut draft = if random.one_in(AT_LIMITS) {
        let style = *random.pick(&[deep::deep as Style, nested, nested, long]);
        style(random)
    } else {
        let style = *random.pick(&STYLES);
        style(random)
    };
    // Words, or angles put in, where the prescan lets all pass.
    if random.one_in(8) {
        mutated::mutate(random, &mut draft.tokens);
    }
    if !random.one_in(OTHER_LANGUAGE) {
        draft.language = HostLanguage::Cpp;
    }
    draft
}

fn one_of_other_language(random: &mut Random) -> Draft {
    let style = *random.pick(&[c as Style, fortran]);
    style(random)
}

fn cpp_row(tokens: Vec<Token>) -> Draft {
    let language = HostLanguage::Cpp;
    Draft { language, tokens }
}

/// Each is decided by one of the request's sentences, or by two of them; in most
/// `A` or `B` is meant to be named.
#[rustfmt::skip]
const CHOSEN: &[&str] = &[
    "Slots < ( A < 8 ) >", "Slots < [ A < 8 ] >", "Slots < ( A < 8 > ) >", "Slots < ( A > 8 ) >", "A < ( B < 8 >> 8 ) >",
    "A < b < int >>", "A < B < int >>", "A < B < b < int >> >", "A < B < b < int >> , int >", "A < ( B < b >> ) >", "A < ( B < b > ) >",
    "A < b < int > int >", "A < b < int > , int >", "A < b < int , int > >", "A < ( b , int ) >", "A < ( b , B < int , int > ) >",
    // 27: an empty argument, a bracket over an open list; before 26.
    "A < >", "A < , b >", "A < b , >", "A < b , , b >", "A < B < > >", "A < B < >>", "A < B < b , >>", "b < A < int , >>", "b < A < >>",
    "A < ( b ) , ( int ) >", "A < ( ) >", "A < [ ] >", "A ( B < )", "A ( B < b )", "A ( B < b , )", "A ( B < >> )", "A ( B < b >> )", "A ( B < b , >> )",
    "A [ B < b ]", "A < ( B < b , ) > >", "A < ( [ B < ] > ) >", "A ( B < ( b > ) >",
    // No list at that depth.
    "A ( > )", "A ( >> )", "A ( , )", "A ( b > int )", "A ( b , int )", "A >> b", "A < ( > ) >", "A < ( >> ) >", "A < ( , ) >", "A < ( b >> int ) >",
    "b < ( A < int >> ) >", "b < int > > ", "b < int , int >", "b < >", "b < , >", "A < b > < int >", "A < b > > ", "A ( b ) < int >", "A ( < b > )",
    // Behind a name, though not as one.
    "A < A < A < A < b >> >>", "A < b > :: B < int >", "A :: B < b >", "A < 8 > * B", "int ( A < b > , B < int > )", "A < int [ B < 8 > ] >", "A < b > ( B < int > )",
    // Structure and profile.
    "A < int int >", "A < long long >", "A < b && >", "A < long long long >", "A < ( b < 8 ) && ( 8 > 8 ) >", "A < decltype ( b ) >",
];

fn chosen(random: &mut Random) -> Draft {
    let text = *random.pick(CHOSEN);
    cpp_row(text::tokens(text))
}

/// Single tokens in any order, in brackets and a list or alone.
#[rustfmt::skip]
const SINGLE: &[&str] = &["A", "A", "B", "b", "<", "<", "<", ">", ">", ">>", ">>", ",", ",", "8", "( b )", "[ A < b > ]", "A <", "B <", "*"];

const AROUND: [(&str, &str); 6] = [
    ("A < (", ") >"),
    ("A (", ")"),
    ("b [", "]"),
    ("A < B < (", ") >>"),
    ("b < A < (", ") > >"),
    ("A < b , [", "] >"),
];

fn single(random: &mut Random) -> Draft {
    let (before, behind) = match random.below(8) {
        0 => ("A", ""),
        _ => *random.pick(&AROUND),
    };
    let mut tokens = text::tokens(before);
    for _ in 0..random.below(10) {
        let text = *random.pick(SINGLE);
        tokens.extend(text::tokens(text));
    }
    tokens.extend(text::tokens(behind));
    cpp_row(tokens)
}

/// Lists, brackets and free angles in each other, such as the prescan lets pass:
/// outside brackets each `<` has its `>`, within them anything goes.
fn tangled(random: &mut Random) -> Draft {
    written(random, HostLanguage::Cpp, |writer| {
        writer.any_word();
        writer.list_of_tangles(3);
        match writer.random.below(6) {
            0 => writer.put(Kind::Star),
            1 => {
                writer.put(Kind::Scope);
                writer.any_word();
                writer.list_of_tangles(2);
            }
            2 => writer.parentheses(|writer| writer.tangle(2, true)),
            _ => {}
        }
    })
}

impl Writer<'_> {
    fn any_word(&mut self) {
        self.word_of(&WORDS);
    }

    fn list_of_tangles(&mut self, depth: usize) {
        self.list(|writer| {
            // An empty argument at times.
            writer.comma_separated(3, |writer| {
                if !writer.random.one_in(24) {
                    writer.tangle(depth, false);
                }
            });
        });
    }

    /// One or a few things; within brackets angles and commas among them.
    fn tangle(&mut self, depth: usize, is_bracketed: bool) {
        for _ in 0..*self.random.pick(&[1, 1, 1, 2, 3]) {
            match self.random.below(12) {
                0 => self.put(Kind::Integer),
                1 | 2 if is_bracketed => {
                    self.any_word();
                    self.put_one_of(&[Kind::Less, Kind::Greater, Kind::ShiftRight, Kind::Comma]);
                    self.put_one_of(&[Kind::Integer, Kind::Boolean]);
                }
                3 if is_bracketed => {
                    self.put_one_of(&[Kind::Less, Kind::Greater, Kind::ShiftRight, Kind::Comma]);
                }
                4..7 if depth > 0 => {
                    self.any_word();
                    self.list_of_tangles(depth - 1);
                }
                7 | 8 if depth > 0 => self.parentheses(|writer| writer.tangle(depth - 1, true)),
                9 if depth > 0 => self.brackets(|writer| writer.tangle(depth - 1, true)),
                10 => self.put_one_of(&[Kind::Star, Kind::Scope, Kind::Plus, Kind::LogicalAnd]),
                _ => self.any_word(),
            }
        }
    }

    /// Opens one more and says how it closes.
    fn open_any(&mut self) -> Kind {
        match self.random.below(6) {
            0 => {
                self.put(Kind::LeftParen);
                Kind::RightParen
            }
            1 => {
                self.put(Kind::LeftBracket);
                Kind::RightBracket
            }
            _ => {
                self.word("A");
                self.put(Kind::Less);
                Kind::Greater
            }
        }
    }
}

/// Lists and brackets 61 to 67 deep, with things beside them: what is named
/// decides how deep it is.
fn nested(random: &mut Random) -> Draft {
    written(random, HostLanguage::Cpp, |writer| {
        let depth = MOST_NESTING - 3 + writer.random.below(7);
        let lists_only = writer.random.below(2) == 0;
        let mut closers = Vec::new();
        writer.word("A");
        writer.put(Kind::Less);
        for _ in 1..depth {
            if lists_only {
                let word = *writer
                    .random
                    .pick(&["A", "A", "A", "A", "A", "A", "A", "B"]);
                writer.word(word);
                writer.put(Kind::Less);
                closers.push(Kind::Greater);
            } else {
                closers.push(writer.open_any());
            }
        }
        writer.any_word();
        while let Some(closer) = closers.pop() {
            match closer {
                Kind::Greater => writer.close_angle(),
                closer => writer.put(closer),
            }
            if writer.random.one_in(200) {
                writer.put(Kind::Comma);
                writer.any_word();
            }
        }
        writer.close_angle();
    })
}

/// What long rows repeat; each ends where it began.
#[rustfmt::skip]
const REPEATED: [(&str, &str, &str); 8] = [
    ("A < b", ", b", ">"), ("A < b", ", ( B < 8 )", ">"), ("A ( b", ", B < b >", ")"), ("A ( b", "< 8 >> 8 ,", ")"), ("A", ":: B < b >", ""),
    ("A", "( B < b > )", ""), ("A [ b", "> B < b , b >", "]"), ("A < b", ", A < B < b >>", ">"),
];

/// Rows of 1,015 to 1,026 tokens.
fn long(random: &mut Random) -> Draft {
    let (begin, more, end) = *random.pick(&REPEATED);
    let longest = MOST_TOKENS + 2 - random.below(12);
    let [mut tokens, more, end] = [begin, more, end].map(text::tokens);
    while tokens.len() + more.len() + end.len() <= longest {
        tokens.extend_from_slice(&more);
    }
    tokens.extend(end);
    cpp_row(tokens)
}
