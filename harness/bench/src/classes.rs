//! The rows that are measured, by class.

use std::fs;

use harness::answer::Refusal;
use harness::format::{Head, MOST_NESTING, MOST_TOKENS, Row, Token, WORD_LENGTHS};
use harness::generate::{self, operators};
use harness::kind::Kind;
use harness::names::names;
use harness::oracle;
use harness::profile::{ARCHIVE_STANDARD, HostLanguage, NEWER_STANDARD};

pub struct Class {
    pub name: String,
    make: Box<dyn Fn() -> Vec<Row>>,
}

impl Class {
    pub fn rows(&self) -> Vec<Row> {
        (self.make)()
    }
}

const SEED: u64 = 20_261_115;

/// Of each generated style.
const GENERATED: usize = 2_000;

/// Of a generated row: some take exponentially many, and would be all that is measured.
const MOST_STEPS: u32 = 10_000;

/// C++, for which the original tries lists.
const CPP: u8 = 1;

/// All classes; `corpus` names a file of real type names.
pub fn classes(corpus: &str) -> Vec<Class> {
    let mut classes = Vec::new();
    for (title, label, standard, flag) in CORPUS {
        let file = corpus.to_owned();
        classes.push(class(title.to_owned(), move || {
            real(&file, label, standard, flag)
        }));
    }
    for style in STYLES {
        classes.push(class(format!("generated: {style}"), move || {
            generated(style)
        }));
    }
    classes.extend(made().map(|(name, tokens)| class(name, move || vec![cpp(tokens.clone())])));
    for (label, language) in EXPRESSIONS {
        let name = format!("operators of {label}, 1,024 tokens");
        classes.push(class(name, move || vec![expression(language)]));
    }
    classes
}

const EXPRESSIONS: [(&str, HostLanguage); 2] =
    [("C", HostLanguage::C), ("Fortran", HostLanguage::Fortran)];

/// Under 254, as all that is not generated: it means what 255 meant when the first figures were taken. Unless the title says 255.
#[rustfmt::skip]
const CORPUS: [(&str, Option<&str>, u8, u8); 6] = [
    ("corpus, flag 1", None, ARCHIVE_STANDARD, 1),
    ("corpus, flag 0", None, ARCHIVE_STANDARD, 0),
    ("corpus under 255, flag 1", None, NEWER_STANDARD, 1),
    ("corpus: C, flag 1", Some("c"), ARCHIVE_STANDARD, 1),
    ("corpus: C++, flag 1", Some("cpp"), ARCHIVE_STANDARD, 1),
    ("corpus: Fortran, flag 1", Some("fortran"), ARCHIVE_STANDARD, 1),
];

const STYLES: [&str; 7] = ["c", "cpp", "fortran", "angles", "words", "mutated", "deep"];

fn class(name: String, make: impl Fn() -> Vec<Row> + 'static) -> Class {
    let make = Box::new(make);
    Class { name, make }
}

/// The rows of the class of this name.
pub fn class_rows(corpus: &str, name: &str) -> Vec<Row> {
    let classes = classes(corpus);
    let class = classes.iter().find(|class| class.name == name);
    class.expect("a class of this name").rows()
}

/// The rows of the corpus that are accepted with the structure check.
pub fn accepted(corpus: &str) -> Vec<Row> {
    let (_, label, standard, flag) = CORPUS[0];
    let mut rows = real(corpus, label, standard, flag);
    rows.retain(|row| oracle::answer_with_tree(&row.write()).0.refusal().is_none());
    rows
}

/// Names that the lexer turns down have no row.
fn real(file: &str, label: Option<&str>, standard: u8, flag: u8) -> Vec<Row> {
    let content = fs::read_to_string(file).expect("the list of type names");
    let names = names(&content).expect("lines of names");
    let wanted = names
        .iter()
        .filter(|name| label.is_none_or(|label| label == name.label));
    wanted
        .filter_map(|name| name.row(standard, flag).ok())
        .collect()
}

/// Rows of a style that the original reads too (the file and its records are well-formed) and in not too many steps.
fn generated(style: &str) -> Vec<Row> {
    let cases = generate::cases(SEED, Some(style)).expect("a style");
    let rows = cases.filter_map(|case| Row::read(&case.file).ok());
    rows.filter_map(comparable).take(GENERATED).collect()
}

fn comparable(mut row: Row) -> Option<Row> {
    row.head.allowance = MOST_STEPS;
    let (answer, _) = oracle::answer_with_tree(&row.write());
    (answer.refusal() != Some(Refusal::ALLOWANCE_PASSED)).then_some(row)
}

/// Rows made for one question each: a fixed cost, growth with tokens, growth with nesting, the reader's worst case, long words.
fn made() -> impl Iterator<Item = (String, Vec<Token>)> {
    let open_list = [word("A"), plain(Kind::Less)];
    let open_group = [word("A"), plain(Kind::LeftParen)];
    let long_words = [word(&"w".repeat(*WORD_LENGTHS.end())), plain(Kind::Scope)];
    let one = [("one token".to_owned(), vec![word("int")])].into_iter();
    let flat = [16, 64, 256, MOST_TOKENS].map(|n| (format!("one list, {n} tokens"), list(n)));
    let lists = [1, 4, 16, MOST_NESTING].map(|n| {
        let row = nested(n, &open_list, Kind::Greater);
        (format!("lists, {n} deep"), row)
    });
    let groups = [1, 4, 16, MOST_NESTING].map(|n| {
        let row = nested(n, &open_group, Kind::RightParen);
        (format!("parentheses, {n} deep"), row)
    });
    let tries = [4, 8, 12].map(|n| (format!("failing lists, {n}"), failing(n)));
    let others = [
        ("words of 255 bytes".to_owned(), repeated(&long_words, 400)),
        ("stars, 1,024 tokens".to_owned(), stars()),
    ];
    one.chain(flat)
        .chain(lists)
        .chain(groups)
        .chain(tries)
        .chain(others)
}

pub fn cpp(tokens: Vec<Token>) -> Row {
    let head = Head {
        language: CPP,
        standard: ARCHIVE_STANDARD,
        flag: 1,
        allowance: u32::MAX,
    };
    Row { head, tokens }
}

fn word(text: &str) -> Token {
    Token::word(text)
}

fn plain(kind: Kind) -> Token {
    Token::plain(kind)
}

/// `A<b,b,..>`
pub fn list(tokens: usize) -> Vec<Token> {
    let mut row = vec![word("A"), plain(Kind::Less)];
    while row.len() + 2 <= tokens {
        row.extend([word("b"), plain(Kind::Comma)]);
    }
    row.pop();
    row.push(plain(Kind::Greater));
    row
}

/// `int` between so many openers and closers.
pub fn nested(depth: usize, opener: &[Token], closer: Kind) -> Vec<Token> {
    let opened = opener.iter().cloned().cycle().take(depth * opener.len());
    let closed = std::iter::repeat_n(plain(closer), depth);
    opened.chain([word("int")]).chain(closed).collect()
}

/// `A(b<b<..b<b)`: each `<` is tried as a list and kept as an operator, and each try repeats those behind it.
fn failing(tries: usize) -> Vec<Token> {
    let mut row = vec![word("A"), plain(Kind::LeftParen)];
    for _ in 0..tries {
        row.extend([word("b"), plain(Kind::Less)]);
    }
    row.extend([word("b"), plain(Kind::RightParen)]);
    row
}

/// So many tokens of these in turn, and a word.
fn repeated(tokens: &[Token], count: usize) -> Vec<Token> {
    let row = tokens.iter().cloned().cycle().take(count);
    row.chain([word("w")]).collect()
}

fn stars() -> Vec<Token> {
    let stars = std::iter::repeat_n(plain(Kind::Star), MOST_TOKENS - 1);
    [word("int")].into_iter().chain(stars).collect()
}

/// `a + a - a ..`: every binary operator of the language in turn, as far as a row has room.
fn expression(language: HostLanguage) -> Row {
    let operators: Vec<Kind> = Kind::ALL
        .iter()
        .copied()
        .filter(|&kind| is_operator(language, kind))
        .collect();
    let around = operators::between_operands(language, &[]).tokens.len();
    let pairs = operators.iter().cycle();
    let tokens: Vec<Token> = pairs
        .flat_map(|&kind| [plain(kind), word("a")])
        .take(MOST_TOKENS - around)
        .collect();
    let mut row = operators::between_operands(language, &tokens);
    row.head.standard = ARCHIVE_STANDARD;
    row
}

/// Between two operands the original takes operators, and what a name follows.
fn is_operator(language: HostLanguage, kind: Kind) -> bool {
    let row = operators::between_operands(language, &[plain(kind)]);
    let accepted = oracle::answer_with_tree(&row.write()).0.refusal().is_none();
    accepted && !matches!(kind, Kind::Dot | Kind::Arrow | Kind::Percent)
}
