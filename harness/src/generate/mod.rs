//! A seeded generator of cases: the same seed gives the same cases.
//!
//! A style draws the tokens of a row; `dressed` adds the head, the spans and
//! the size of the tree buffer. Only `malformed` makes files by itself.

pub mod angles;
pub mod c_family;
pub mod deep;
pub mod exhaustive;
pub mod expression;
pub mod fortran;
pub mod malformed;
pub mod mutated;
pub mod operators;
pub mod random;
pub mod words;
pub mod writer;

use crate::answer::Refusal;
use crate::format::{Head, NUMBERS_PER_TOKEN, Row, Token};
use crate::oracle;
use crate::profile::{self, HostLanguage, LANGUAGES};
use random::Random;
use writer::Writer;

/// The allowance of cases that are to finish. Some rows take exponentially
/// many steps, so every case has an allowance at which it ends soon.
pub const DEFAULT_ALLOWANCE: u32 = 100_000;

#[derive(Debug, Clone, PartialEq, Eq)]
pub struct Case {
    pub file: Vec<u8>,
    pub tree_len: usize,
}

/// A row before it has a head.
pub struct Draft {
    pub language: HostLanguage,
    pub tokens: Vec<Token>,
}

pub type Style = fn(&mut Random) -> Case;

pub const STYLES: [(&str, Style); 8] = [
    ("c", |random| dressed(c(random), random)),
    ("cpp", |random| dressed(cpp(random), random)),
    ("fortran", |random| dressed(fortran(random), random)),
    ("angles", |random| dressed(angles::angles(random), random)),
    ("words", |random| dressed(words::words(random), random)),
    ("mutated", |random| {
        dressed(mutated::mutated(random), random)
    }),
    ("deep", |random| dressed(deep::deep(random), random)),
    ("malformed", malformed::malformed),
];

/// The name under which `cases` gives the exhaustive rows.
pub const EXHAUSTIVE: &str = "exhaustive";

/// An endless run of cases of one style, or of all in turn; `None` if there
/// is no such style.
pub fn cases(seed: u64, style: Option<&str>) -> Option<Box<dyn Iterator<Item = Case>>> {
    let mut random = Random::new(seed);
    if style == Some(EXHAUSTIVE) {
        let rows = exhaustive::rows(exhaustive::MIXED.tokens(), 0..=usize::MAX);
        return Some(Box::new(rows.map(move |tokens| {
            let language = *random.pick(&LANGUAGES);
            dressed(Draft { language, tokens }, &mut random)
        })));
    }
    let chosen = |name: &str| style.is_none_or(|style| style == name);
    let styles = STYLES.iter().filter(|(name, _)| chosen(name));
    let styles: Vec<Style> = styles.map(|&(_, style)| style).collect();
    if styles.is_empty() {
        return None;
    }
    let turns = styles.into_iter().cycle();
    Some(Box::new(turns.map(move |style| style(&mut random))))
}

/// How deep the grammar of a language is followed.
const DEPTH: usize = 3;

pub fn c(random: &mut Random) -> Draft {
    written(random, HostLanguage::C, |w| w.c_family_type(DEPTH))
}

pub fn cpp(random: &mut Random) -> Draft {
    written(random, HostLanguage::Cpp, |w| w.c_family_type(DEPTH))
}

pub fn fortran(random: &mut Random) -> Draft {
    written(random, HostLanguage::Fortran, |w| w.fortran_type(DEPTH))
}

/// A row of any of the three grammars.
pub fn grammatical(random: &mut Random) -> Draft {
    let grammar = *random.pick(&[c, cpp, fortran]);
    grammar(random)
}

pub fn written(
    random: &mut Random,
    language: HostLanguage,
    write: impl FnOnce(&mut Writer),
) -> Draft {
    let mut writer = Writer::new(random, language);
    write(&mut writer);
    let tokens = writer.tokens;
    Draft { language, tokens }
}

/// Draws what a row does not say: standard, flag, allowance, spans, buffer.
pub fn dressed(draft: Draft, random: &mut Random) -> Case {
    let standards: Vec<u8> = profile::standards(draft.language).collect();
    let head = Head {
        language: profile::language_number(draft.language),
        standard: *random.pick(&standards),
        flag: random.below(2) as u8,
        allowance: allowance(random),
    };
    let mut tokens = draft.tokens;
    for (number, token) in (0..).zip(&mut tokens) {
        (token.start, token.end) = span(random, number);
    }
    let tree_len = tree_len(random, tokens.len());
    let file = Row { head, tokens }.write();
    Case { file, tree_len }
}

fn allowance(random: &mut Random) -> u32 {
    match random.below(8) {
        0 => random.below(40) as u32,
        _ => DEFAULT_ALLOWANCE,
    }
}

/// Mostly as a lexer would number them; sometimes the outermost values, or
/// about where 32 bits end.
fn span(random: &mut Random, number: u64) -> (u64, u64) {
    let beyond = u64::from(u32::MAX) + 1;
    match random.below(64) {
        0 => (0, u64::MAX),
        1 => (u64::MAX, u64::MAX),
        2 => (number, number),
        3 => (beyond - 1, beyond),
        4 => (beyond + number, 2 * beyond),
        _ => (2 * number, 2 * number + 1),
    }
}

/// Mostly what the row needs; else one short, longer, or none at all.
fn tree_len(random: &mut Random, tokens: usize) -> usize {
    let needed = NUMBERS_PER_TOKEN * tokens;
    match random.below(32) {
        0 => needed.saturating_sub(1),
        1 => 0,
        2..8 => needed + random.below(8),
        _ => needed,
    }
}

/// The same row with the allowance around its step count (one below, exactly
/// at and one above it, none at all, and the greatest, which is safe because
/// the step count is small) and with other buffers (one number short, longer,
/// none at all). Nothing where the row has no known step count.
pub fn around(case: &Case) -> Vec<Case> {
    let Ok(row) = Row::read(&case.file) else {
        return Vec::new();
    };
    let needed = NUMBERS_PER_TOKEN * row.tokens.len();
    let with = |allowance, tree_len| {
        let mut row = row.clone();
        row.head.allowance = allowance;
        let file = row.write();
        Case { file, tree_len }
    };
    let (answer, _) = oracle::answer_with_tree(&with(DEFAULT_ALLOWANCE, needed).file);
    if answer.refusal() == Some(Refusal::ALLOWANCE_PASSED) {
        return Vec::new();
    }
    let steps = answer.steps();
    let allowances = [steps.saturating_sub(1), steps, steps + 1, 0, u32::MAX];
    let lengths = [needed.saturating_sub(1), needed + 5, 0];
    let by_allowance = allowances.map(|allowance| with(allowance, needed));
    let by_length = lengths.map(|tree_len| with(steps, tree_len));
    by_allowance.into_iter().chain(by_length).collect()
}
