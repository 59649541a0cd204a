//! Tokens from the text of a type name, by the languages' lexical rules.
//!
//! This is a convenience beside the proved reader, which takes tokens alone: nothing here is proved. Tokens have the kinds
//! that the original's lexer gives them in a type name; where that lexer turns a text down (raw strings, hexadecimal
//! floating literals, characters outside the language) this one does, too. `harness/side_by_side/tests/lexer.rs` compares
//! both.

mod blanks;
mod cursor;
mod dotted;
mod numbers;
mod quoted;
mod standards;
mod symbols;
mod words;

use std::error::Error;
use std::fmt;
use std::ops::Range;

use type_name::{HostLanguageProfile, Offset, RecordError, Row, TokenKind};

use cursor::Cursor;

/// A token of a text.
#[derive(Debug, Clone, PartialEq, Eq)]
pub struct Lexed {
    /// What sort of token it is.
    pub kind: TokenKind,
    /// Of an identifier its word, which in Fortran is in lower case; else empty.
    pub word: String,
    /// Where it stands in the text.
    pub span: Range<usize>,
}

/// Why a text has no tokens.
#[derive(Debug, Clone, PartialEq, Eq)]
pub struct LexError {
    /// What is wrong, as a part of a sentence.
    pub message: String,
    /// Where.
    pub span: Range<usize>,
}

impl fmt::Display for LexError {
    fn fmt(&self, to: &mut fmt::Formatter<'_>) -> fmt::Result {
        to.write_str(&self.message)
    }
}

impl Error for LexError {}

/// The tokens of a type name's text.
pub fn tokens(text: &str, profile: HostLanguageProfile) -> Result<Vec<Lexed>, LexError> {
    let mut cursor = Cursor::new(text, profile);
    let mut tokens = Vec::new();
    loop {
        blanks::skip(&mut cursor)?;
        if cursor.rest().is_empty() {
            return Ok(tokens);
        }
        tokens.push(next(&mut cursor)?);
    }
}

/// The token at the cursor, which stands on no blank and not at the end.
fn next(cursor: &mut Cursor) -> Result<Lexed, LexError> {
    let start = cursor.at();
    let kind = if let Some(kind) = quoted::take(cursor)? {
        kind
    } else if let Some(kind) = numbers::take(cursor)? {
        kind
    } else if let Some((kind, word)) = words::take(cursor) {
        let span = start..cursor.at();
        return Ok(Lexed { kind, word, span });
    } else if let Some(kind) = dotted::take(cursor)? {
        kind
    } else {
        symbols::take(cursor)?
    };
    let span = start..cursor.at();
    let word = String::new();
    Ok(Lexed { kind, word, span })
}

/// Puts the tokens of a text into a row.
pub fn push_all(row: &mut Row, tokens: &[Lexed]) -> Result<(), LexError> {
    for token in tokens {
        let span = token.span.start as Offset..token.span.end as Offset;
        let pushed = row.push(token.kind, &token.word, span);
        pushed.map_err(|error| LexError {
            message: match error {
                RecordError::WordByte(_) => "a word may have ASCII characters alone".to_owned(),
                _ => error.to_string(),
            },
            span: token.span.clone(),
        })?;
    }
    Ok(())
}

/// How an operator or bracket is spelled, by a symbol if it can be; `Percent` and `Remainder` share theirs.
pub fn spelling(kind: TokenKind) -> Option<&'static str> {
    let symbol = symbols::all().find_map(|(symbol, known)| (known == kind).then_some(symbol));
    symbol.or_else(|| dotted::spelling(kind))
}

/// The operators and brackets that are spelled so, in one language or another.
pub fn spelled(text: &str) -> Vec<TokenKind> {
    let symbols = symbols::all().filter_map(|(symbol, kind)| (symbol == text).then_some(kind));
    symbols.chain(dotted::operator(text)).collect()
}
