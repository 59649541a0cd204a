//! All rows over an alphabet, the shorter ones first.

use std::ops::RangeInclusive;

use super::{Case, DEFAULT_ALLOWANCE};
use crate::format::{Head, NUMBERS_PER_TOKEN, Row, Token};
use crate::kind::Kind;
use crate::profile::{LANGUAGES, NEWER_STANDARD, language_number};

/// The tokens that rows are made of: words, then other kinds.
pub struct Alphabet {
    pub name: &'static str,
    words: &'static [&'static str],
    kinds: &'static [Kind],
}

/// Brackets and angles among types, pointers, scopes and values.
pub const MIXED: Alphabet = Alphabet {
    name: "mixed",
    words: &["A", "int"],
    kinds: &[
        Kind::Less,
        Kind::Greater,
        Kind::ShiftRight,
        Kind::Comma,
        Kind::LeftParen,
        Kind::RightParen,
        Kind::LeftBracket,
        Kind::RightBracket,
        Kind::Star,
        Kind::Scope,
        Kind::Integer,
    ],
};

/// All on which the rules of brackets, angles and commas meet.
pub const BRACKETS: Alphabet = Alphabet {
    name: "brackets",
    words: &["A"],
    kinds: &[
        Kind::Less,
        Kind::Greater,
        Kind::ShiftRight,
        Kind::Comma,
        Kind::LeftParen,
        Kind::RightParen,
        Kind::LeftBracket,
        Kind::RightBracket,
    ],
};

/// No more than refusal 22 needs: its shortest row, `A([A<]>)`, has eight
/// tokens, and over a larger alphabet eight would be many rows.
pub const ANGLES: Alphabet = Alphabet {
    name: "angles",
    words: &["A"],
    kinds: &[
        Kind::Less,
        Kind::Greater,
        Kind::LeftParen,
        Kind::RightParen,
        Kind::LeftBracket,
        Kind::RightBracket,
    ],
};

/// A token of every kind.
pub const KINDS: Alphabet = Alphabet {
    name: "kinds",
    words: &["a"],
    kinds: Kind::ALL.split_at(1).1,
};

pub const ALPHABETS: [&Alphabet; 4] = [&MIXED, &BRACKETS, &ANGLES, &KINDS];

impl Alphabet {
    pub fn named(name: &str) -> Option<&'static Self> {
        ALPHABETS.into_iter().find(|alphabet| alphabet.name == name)
    }

    pub fn tokens(&self) -> Vec<Token> {
        let words = self.words.iter().map(|word| Token::word(word));
        let others = self.kinds.iter().map(|&kind| Token::plain(kind));
        words.chain(others).collect()
    }
}

/// The rows over an alphabet that are as long as is said.
pub fn rows(
    alphabet: Vec<Token>,
    lengths: RangeInclusive<usize>,
) -> impl Iterator<Item = Vec<Token>> {
    let size = alphabet.len();
    let (shortest, longest) = lengths.into_inner();
    let first = vec![0; shortest];
    let mut next = (shortest <= longest && (size > 0 || shortest == 0)).then_some(first);
    std::iter::from_fn(move || {
        let places = next.take()?;
        let row = places.iter().map(|&place| alphabet[place].clone());
        let row = row.collect();
        next = following(places, size).filter(|places| places.len() <= longest);
        Some(row)
    })
}

/// Counts one on; after the last row of a length comes the first longer one.
fn following(mut places: Vec<usize>, size: usize) -> Option<Vec<usize>> {
    for place in places.iter_mut().rev() {
        if *place + 1 < size {
            *place += 1;
            return Some(places);
        }
        *place = 0;
    }
    places.push(0);
    (size > 0).then_some(places)
}

/// How many cases `each_way` makes of a row.
pub const WAYS: usize = 2 * LANGUAGES.len();

/// A row in every language, without and with the structure check: without it
/// the tree is seen where the check refuses. Nothing else keeps a row from
/// being read whole: the buffer is just long enough, the allowance ample.
pub fn each_way(tokens: Vec<Token>) -> [Case; WAYS] {
    let tree_len = NUMBERS_PER_TOKEN * tokens.len();
    let head = Head {
        language: 0,
        standard: NEWER_STANDARD,
        flag: 0,
        allowance: DEFAULT_ALLOWANCE,
    };
    let mut row = Row { head, tokens };
    std::array::from_fn(|way| {
        row.head.language = language_number(LANGUAGES[way / 2]);
        row.head.flag = (way % 2) as u8;
        let file = row.write();
        Case { file, tree_len }
    })
}
