//! Writes the tokens of a row, one construct after another.

use super::random::Random;
use super::words;
use crate::format::Token;
use crate::kind::Kind;
use crate::profile::HostLanguage;

pub struct Writer<'r> {
    pub random: &'r mut Random,
    pub language: HostLanguage,
    pub tokens: Vec<Token>,
}

/// Names that no rule knows.
const NAMES: [&str; 6] = ["Lane", "Key", "a", "b", "Slots", "n_1"];

impl<'r> Writer<'r> {
    pub fn new(random: &'r mut Random, language: HostLanguage) -> Self {
        Self {
            random,
            language,
            tokens: Vec::new(),
        }
    }

    pub fn is_cpp(&self) -> bool {
        self.language == HostLanguage::Cpp
    }

    pub fn put(&mut self, kind: Kind) {
        self.tokens.push(Token::plain(kind));
    }

    pub fn put_all(&mut self, kinds: &[Kind]) {
        for &kind in kinds {
            self.put(kind);
        }
    }

    pub fn put_one_of(&mut self, kinds: &[Kind]) {
        let kind = *self.random.pick(kinds);
        self.put(kind);
    }

    pub fn word(&mut self, word: &str) {
        self.tokens.push(Token::word(word));
    }

    pub fn word_of(&mut self, words: &[&str]) {
        let word = *self.random.pick(words);
        self.word(word);
    }

    /// A word whose case may be changed, as where the original ignores case.
    pub fn word_in_any_case(&mut self, word: &str) {
        let spelled = match self.random.below(4) {
            0 => words::spelled(self.random, word),
            _ => word.to_owned(),
        };
        self.word(&spelled);
    }

    pub fn name(&mut self) {
        self.word_of(&NAMES);
    }

    pub fn parentheses(&mut self, inside: impl FnOnce(&mut Self)) {
        self.put(Kind::LeftParen);
        inside(self);
        self.put(Kind::RightParen);
    }

    pub fn brackets(&mut self, inside: impl FnOnce(&mut Self)) {
        self.put(Kind::LeftBracket);
        inside(self);
        self.put(Kind::RightBracket);
    }

    pub fn list(&mut self, inside: impl FnOnce(&mut Self)) {
        self.put(Kind::Less);
        inside(self);
        self.close_angle();
    }

    /// A `>`, or together with one just before it a `>>`.
    pub fn close_angle(&mut self) {
        match self.tokens.last_mut() {
            Some(last) if last.kind == Kind::Greater && self.random.below(3) > 0 => {
                last.kind = Kind::ShiftRight;
            }
            _ => self.put(Kind::Greater),
        }
    }

    /// One to `most` items, with commas between them.
    pub fn comma_separated(&mut self, most: usize, mut item: impl FnMut(&mut Self)) {
        item(self);
        for _ in 0..self.random.below(most) {
            self.put(Kind::Comma);
            item(self);
        }
    }
}
