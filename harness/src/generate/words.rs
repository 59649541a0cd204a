//! Rows made of the words that the original knows.

use super::random::Random;
use super::writer::Writer;
use super::{Draft, written};
use crate::kind::Kind;
use crate::profile::LANGUAGES;

/// All words that the original compares with, the builtin type words first.
pub const KNOWN_WORDS: [&str; 42] = [
    "void",
    "bool",
    "_Bool",
    "char",
    "wchar_t",
    "char8_t",
    "char16_t",
    "char32_t",
    "short",
    "int",
    "long",
    "signed",
    "unsigned",
    "float",
    "double",
    "_Complex",
    "_Imaginary",
    "_Decimal32",
    "_Decimal64",
    "_Decimal128",
    "const",
    "volatile",
    "restrict",
    "_Atomic",
    "noexcept",
    "transaction_safe",
    "__restrict",
    "__restrict__",
    "struct",
    "union",
    "enum",
    "class",
    "typename",
    "decltype",
    "typeof",
    "typeof_unqual",
    "__typeof",
    "__typeof__",
    "_BitInt",
    "type",
    "precision",
    "complex",
];

/// How many of the known words are builtin type words.
pub const BUILTIN: usize = 20;

pub fn words(random: &mut Random) -> Draft {
    let language = *random.pick(&LANGUAGES);
    // Builtin type words have rules of their own about each other.
    let pool = *random.pick(&[&KNOWN_WORDS[..], &KNOWN_WORDS[..BUILTIN]]);
    written(random, language, |writer| {
        for _ in 0..=writer.random.below(4) {
            writer.spelled_word(pool);
            if writer.random.one_in(3) {
                writer.after_word();
            }
        }
    })
}

pub fn known(random: &mut Random) -> &'static str {
    random.pick::<&str>(&KNOWN_WORDS)
}

/// The word exactly, in upper case or in mixed case.
pub fn spelled(random: &mut Random, word: &str) -> String {
    match random.below(3) {
        0 => word.to_owned(),
        1 => word.to_ascii_uppercase(),
        _ => mixed(word),
    }
}

/// The case of every other letter changed, that of the first letter too.
pub fn mixed(word: &str) -> String {
    let letters = word.chars().scan(false, |changed, letter| {
        *changed ^= letter.is_ascii_alphabetic();
        Some(if *changed && letter.is_ascii_lowercase() {
            letter.to_ascii_uppercase()
        } else {
            letter.to_ascii_lowercase()
        })
    });
    letters.collect()
}

impl Writer<'_> {
    fn known_word(&mut self) {
        self.spelled_word(&KNOWN_WORDS);
    }

    fn spelled_word(&mut self, pool: &[&str]) {
        let word = *self.random.pick(pool);
        match self.random.below(2) {
            0 => self.word(word),
            _ => {
                let spelled = spelled(self.random, word);
                self.word(&spelled);
            }
        }
    }

    /// What typically stands after a word that a rule knows.
    fn after_word(&mut self) {
        match self.random.below(12) {
            0 => self.parentheses(|_| {}),
            1 => self.parentheses(Self::known_word),
            2 => self.parentheses(Self::name),
            3 => self.parentheses(|w| w.put(Kind::Integer)),
            4 => self.parentheses(|w| w.put(Kind::Star)),
            5 => self.parentheses(|w| w.put_all(&[Kind::Dot, Kind::Dot])),
            6 => self.brackets(|w| w.put(Kind::Integer)),
            7 => self.list(Self::known_word),
            8 => self.put_all(&[Kind::Star, Kind::Integer]),
            9 => self.put(Kind::Scope),
            10 => self.name(),
            _ => self.put_one_of(&[Kind::Star, Kind::Ampersand, Kind::LogicalAnd]),
        }
    }
}
