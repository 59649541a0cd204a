//! A place in a text.

use std::ops::Range;

use type_name::{HostLanguage, HostLanguageProfile};

use super::LexError;

pub struct Cursor<'a> {
    text: &'a str,
    at: usize,
    pub profile: HostLanguageProfile,
}

impl<'a> Cursor<'a> {
    pub fn new(text: &'a str, profile: HostLanguageProfile) -> Self {
        Self {
            text,
            at: 0,
            profile,
        }
    }

    pub fn at(&self) -> usize {
        self.at
    }

    pub fn rest(&self) -> &'a str {
        &self.text[self.at..]
    }

    pub fn since(&self, start: usize) -> &'a str {
        &self.text[start..self.at]
    }

    pub fn is_fortran(&self) -> bool {
        self.profile.language() == HostLanguage::Fortran
    }

    pub fn peek(&self) -> Option<char> {
        self.rest().chars().next()
    }

    pub fn peek_is(&self, test: impl FnOnce(char) -> bool) -> bool {
        self.peek().is_some_and(test)
    }

    pub fn starts_with(&self, text: &str) -> bool {
        self.rest().starts_with(text)
    }

    pub fn skip(&mut self, bytes: usize) {
        self.at += bytes;
    }

    /// Takes the next character.
    pub fn take(&mut self) -> Option<char> {
        let next = self.peek()?;
        self.skip(next.len_utf8());
        Some(next)
    }

    /// Takes this text, if it comes next.
    pub fn take_text(&mut self, text: &str) -> bool {
        let comes = self.starts_with(text);
        if comes {
            self.skip(text.len());
        }
        comes
    }

    /// Takes the next characters as long as they pass, and gives them.
    pub fn take_while(&mut self, test: impl Fn(char) -> bool) -> &'a str {
        let rest = self.rest();
        let end = rest.find(|next| !test(next)).unwrap_or(rest.len());
        self.skip(end);
        &rest[..end]
    }

    /// What is wrong with what was taken since a place.
    pub fn error(&self, start: usize, message: impl Into<String>) -> LexError {
        self.error_at(start..self.at, message)
    }

    pub fn error_at(&self, span: Range<usize>, message: impl Into<String>) -> LexError {
        let message = message.into();
        LexError { message, span }
    }

    /// The profile has no such thing as was taken since a place.
    pub fn lacking(&self, start: usize, what: &str) -> LexError {
        self.error(start, format!("{} has no {what}", self.profile))
    }
}
