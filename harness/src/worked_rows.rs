//! The rows that document 01 works out, with every number it gives. The
//! expected answers are that document's, none comes from a run.

use HostLanguage::{C, Cpp, Fortran};

use crate::answer::{Answer, NO_TOKEN, Refusal};
use crate::format::{Head, MOST_NESTING, Row, Token};
use crate::kind::Kind;
use crate::lexed;
use crate::listing::listing;
use crate::oracle;
use crate::profile::{self, HostLanguage};

pub struct WorkedRow {
    pub row: Source,
    pub languages: &'static [HostLanguage],
    pub standards: Standards,
    pub flag: u8,
    pub allowance: u32,
    pub expected: Expected,
}

pub enum Source {
    /// Goes through the original's lexer.
    Text(&'static str),
    /// Goes through the original's lexer for C++, whatever the row's language:
    /// Fortran's lexer has no `>>`.
    CppText(&'static str),
    Empty,
    /// `int` and so many nested `()`.
    Groups(usize),
    /// So many nested lists, each opened by `A<`, one word inside, closed by
    /// single `>`.
    Lists(usize),
}

pub enum Standards {
    Every,
    Only(u8),
}

/// What document 01 does not give is `None`.
pub enum Expected {
    Accepted {
        nodes: Option<u32>,
        steps: Option<u32>,
    },
    Refused {
        number: u32,
        token: u32,
        detail: u32,
        steps: Option<u32>,
    },
    /// Lines after the first that the listing must have.
    Lines {
        steps: u32,
        lines: &'static [&'static str],
    },
    Listing(&'static str),
}

/// An allowance that no worked row comes near.
const AMPLE: u32 = 1_000_000;

// The standards that the table names, by their numbers.
const C89: Standards = Standards::Only(0);
const C99: Standards = Standards::Only(1);
const C11: Standards = Standards::Only(2);
const C23: Standards = Standards::Only(4);
const CPP98: Standards = Standards::Only(0);
const CPP11: Standards = Standards::Only(1);
const CPP17: Standards = Standards::Only(3);
const FORTRAN77: Standards = Standards::Only(0);

const EVERY_LANGUAGE: &[HostLanguage] = &[C, Cpp, Fortran];

#[rustfmt::skip]
pub const WORKED_ROWS: &[WorkedRow] = &[
    row(Source::Empty, EVERY_LANGUAGE, Standards::Every, 1, refused(Refusal::EMPTY, NO_TOKEN, 0, Some(0))),
    text("int", &[C], C89, 1, accepted(Some(1), Some(2))),
    text("long long", &[C], C89, 1, refused(Refusal::NOT_AVAILABLE_IN_PROFILE, NO_TOKEN, 1, None)),
    text("long long", &[C], C99, 1, accepted(None, Some(3))),
    text("long long long", &[C], C99, 1, refused(Refusal::NO_TYPE_NAME, NO_TOKEN, 0, None)),
    text("long long long", &[C], C99, 0, accepted(None, None)),
    text("A<b>>", &[Cpp], Standards::Every, 1, refused(Refusal::UNEXPECTED_ANGLE, 3, 0, Some(0))),
    row(Source::CppText("A>>b"), EVERY_LANGUAGE, Standards::Every, 0, accepted(Some(3), Some(3))),
    row(Source::CppText("A>>b"), EVERY_LANGUAGE, Standards::Every, 1, refused(Refusal::NO_TYPE_NAME, NO_TOKEN, 0, None)),
    text("A<B<c>>", &[Cpp], CPP11, 1, accepted(Some(7), Some(8))),
    text("A<b>::C<d", &[Cpp], Standards::Every, 1, refused(Refusal::UNCLOSED_ANGLE, 1, 0, Some(0))),
    text("Slots<(Lanes<8)>", &[Cpp], CPP17, 1, refused(Refusal::UNTERMINATED_GROUP, NO_TOKEN, 0, Some(12))),
    allowing(11, text("Slots<(Lanes<8)>", &[Cpp], CPP17, 1, refused(Refusal::ALLOWANCE_PASSED, NO_TOKEN, 0, Some(11)))),
    text("X<([A<b]>c)>", &[Cpp], Standards::Every, 1, refused(Refusal::MISMATCHED_CLOSING_DELIMITER, NO_TOKEN, 0, None)),
    text("int&", &[C], Standards::Every, 1, refused(Refusal::INVALID_BOUNDARY_TOKEN, NO_TOKEN, 0, Some(0))),
    text("int&", &[Cpp], CPP98, 1, accepted(None, None)),
    row(Source::Groups(MOST_NESTING), EVERY_LANGUAGE, Standards::Every, 0, accepted(None, Some(65))),
    row(Source::Groups(MOST_NESTING + 1), EVERY_LANGUAGE, Standards::Every, 0, refused(Refusal::NESTING_LIMIT_EXCEEDED, NO_TOKEN, 0, None)),
    // Tokens 129 and 195 are the innermost `<` and the last `>`.
    row(Source::Lists(MOST_NESTING + 1), &[Cpp], Standards::Every, 0, Expected::Lines { steps: 132, lines: &["64 T 129 1", "0 T 195 1"] }),
    text("real*8", &[Fortran], FORTRAN77, 1, accepted(Some(3), Some(4))),
    text("character*(*)", &[Fortran], Standards::Every, 1, refused(Refusal::NO_TYPE_NAME, NO_TOKEN, 0, None)),
    text("character*(*)", &[Fortran], Standards::Every, 0, accepted(Some(4), None)),
    text("unsigned _BitInt(8)", &[C], C11, 1, refused(Refusal::NOT_AVAILABLE_IN_PROFILE, NO_TOKEN, 3, None)),
    text("unsigned _BitInt(8)", &[C], C23, 1, accepted(None, None)),
    text("LONG LONG", &[C], C89, 0, refused(Refusal::NOT_AVAILABLE_IN_PROFILE, NO_TOKEN, 1, None)),
    allowing(1_000, text("Lane<(Key<8>>2)>", &[Cpp], CPP17, 0, Expected::Listing(LANE))),
    allowing(1_000, text("Lane<(Key<8>>2)>", &[Cpp], CPP17, 1, Expected::Listing("no 30 65535 0 14\n"))),
];

const LANE: &str = "\
ok 10 8
0 T 0 1
0 L 1 8
1 A 2 7
1 G 2 6
2 T 3 1
2 L 4 3
3 A 5 2
3 T 5 1
2 T 7 1
0 T 9 1
";

const fn row(
    row: Source,
    languages: &'static [HostLanguage],
    standards: Standards,
    flag: u8,
    expected: Expected,
) -> WorkedRow {
    WorkedRow {
        row,
        languages,
        standards,
        flag,
        allowance: AMPLE,
        expected,
    }
}

const fn text(
    text: &'static str,
    languages: &'static [HostLanguage],
    standards: Standards,
    flag: u8,
    expected: Expected,
) -> WorkedRow {
    row(Source::Text(text), languages, standards, flag, expected)
}

const fn allowing(allowance: u32, mut row: WorkedRow) -> WorkedRow {
    row.allowance = allowance;
    row
}

const fn accepted(nodes: Option<u32>, steps: Option<u32>) -> Expected {
    Expected::Accepted { nodes, steps }
}

const fn refused(number: u32, token: u32, detail: u32, steps: Option<u32>) -> Expected {
    Expected::Refused {
        number,
        token,
        detail,
        steps,
    }
}

impl WorkedRow {
    /// The row under each profile it is worked out for.
    pub fn rows(&self) -> Vec<Row> {
        let mut rows = Vec::new();
        for &language in self.languages {
            let standards = profile::standards(language);
            rows.extend(
                standards
                    .filter(|standard| self.standards.include(*standard))
                    .map(|standard| self.under(language, standard)),
            );
        }
        rows
    }

    fn under(&self, language: HostLanguage, standard: u8) -> Row {
        Row {
            head: Head {
                language: profile::language_number(language),
                standard,
                flag: self.flag,
                allowance: self.allowance,
            },
            tokens: self.row.tokens(language, standard),
        }
    }
}

impl Standards {
    fn include(&self, standard: u8) -> bool {
        match self {
            Self::Every => true,
            Self::Only(only) => *only == standard,
        }
    }
}

fn lex(text: &str, language: HostLanguage, standard: u8) -> Vec<Token> {
    let profile = profile::profile(language, standard).expect("a known standard");
    lexed::tokens(text, profile).expect("worked rows can be lexed")
}

impl Source {
    fn tokens(&self, language: HostLanguage, standard: u8) -> Vec<Token> {
        let repeated = |kind, times| std::iter::repeat_n(Token::plain(kind), times);
        match *self {
            Self::Text(text) => lex(text, language, standard),
            Self::CppText(text) => lex(text, Cpp, profile::ARCHIVE_STANDARD),
            Self::Empty => Vec::new(),
            Self::Groups(depth) => [Token::word("int")]
                .into_iter()
                .chain(repeated(Kind::LeftParen, depth))
                .chain(repeated(Kind::RightParen, depth))
                .collect(),
            Self::Lists(depth) => {
                let opener = [Token::word("A"), Token::plain(Kind::Less)];
                let openers = std::iter::repeat_n(opener, depth).flatten();
                let inside = [Token::word("b")];
                let closers = repeated(Kind::Greater, depth);
                openers.chain(inside).chain(closers).collect()
            }
        }
    }
}

impl Expected {
    /// Whether an answer and its tree have every number that is given.
    pub fn holds(&self, answer: Answer, tree: &[u32]) -> bool {
        let given = |wanted: Option<u32>, found: u32| wanted.is_none_or(|wanted| wanted == found);
        match (self, answer) {
            (Self::Accepted { nodes, steps }, Answer::Accepted { nodes: n, steps: s }) => {
                given(*nodes, n) && given(*steps, s)
            }
            (
                Self::Refused {
                    number,
                    token,
                    detail,
                    steps,
                },
                Answer::Refused { steps: s, .. },
            ) => {
                let refusal = Refusal::at(*number, *token).detailed(*detail);
                refusal.after(s) == answer && given(*steps, s)
            }
            (Self::Lines { steps, lines }, Answer::Accepted { steps: s, .. }) => {
                let listed = listing(answer, tree);
                let has = |line: &&str| listed.lines().skip(1).any(|listed| listed == *line);
                *steps == s && lines.iter().all(has)
            }
            (Self::Listing(whole), _) => listing(answer, tree) == *whole,
            _ => false,
        }
    }
}

/// A line for each worked row and profile, and whether all agree.
pub fn check() -> (Vec<String>, bool) {
    let mut lines = Vec::new();
    let mut all = true;
    for worked in WORKED_ROWS {
        for row in worked.rows() {
            let (answer, tree) = oracle::answer_with_tree(&row.write());
            let holds = worked.expected.holds(answer, &tree);
            let verdict = if holds { "agrees" } else { "DIFFERS" };
            let Head {
                language,
                standard,
                flag,
                ..
            } = row.head;
            let name = worked.row.name();
            lines.push(format!(
                "{verdict}: {name}, language {language}, standard {standard}, flag {flag}: {answer}"
            ));
            all &= holds;
        }
    }
    (lines, all)
}

impl Source {
    fn name(&self) -> String {
        match self {
            Self::Text(text) | Self::CppText(text) => format!("`{text}`"),
            Self::Empty => "the empty row".to_owned(),
            Self::Groups(depth) => format!("`int` and {depth} nested `()`"),
            Self::Lists(depth) => format!("{depth} nested lists"),
        }
    }
}
