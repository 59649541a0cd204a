//! The name list: a file without a head, of token records of kind 0 in the
//! current format.

use std::collections::HashSet;

use crate::format::{Format, Token};
use crate::kind::Kind;

/// The most names of a list.
pub const MOST_NAMES: usize = 512;

/// Words that name templates.
pub struct Names(HashSet<String>);

impl Names {
    /// `None` if the list is malformed, refusal 8.
    pub fn read(file: &[u8]) -> Option<Self> {
        let format = Format::current();
        let mut words = Vec::new();
        let mut rest = file;
        while !rest.is_empty() {
            let record =
                Token::read(format, rest).filter(|token| token.kind == Kind::Identifier)?;
            rest = &rest[record.length(format)..];
            words.push(record.word);
        }
        let count = words.len();
        let distinct = Self(words.into_iter().collect());
        ((1..=MOST_NAMES).contains(&count) && distinct.0.len() == count).then_some(distinct)
    }

    pub fn has(&self, word: &str) -> bool {
        self.0.contains(word)
    }

    /// Whether the token at a place is a `<` behind a name.
    pub fn open_list(&self, tokens: &[Token], place: usize) -> bool {
        tokens[place].kind == Kind::Less
            && place
                .checked_sub(1)
                .map(|before| &tokens[before])
                .is_some_and(|token| token.kind == Kind::Identifier && self.has(&token.word))
    }
}
