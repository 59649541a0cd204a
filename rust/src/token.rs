//! The token records of a row file.

use alloc::vec::Vec;
use core::ops::Range;

use crate::limits::{
    GREATEST_WORD_BYTE, HEAD_LENGTH, LEAST_WORD_BYTE, LONGEST_WORD, Offset, TOKEN_LENGTH,
};
use crate::token_kind::TokenKind;

/// A token of a row.
#[derive(Debug, Clone, Copy, PartialEq, Eq)]
pub struct Token<'a> {
    /// Its place in the row, from 0; of a token that a [`Part`](crate::Part) leads to, its place in the part.
    pub number: u32,
    /// What sort of token it is.
    pub kind: TokenKind,
    /// Of an identifier what stands in the source, else empty.
    pub word: &'a str,
    /// Where it begins in the source.
    pub start: Offset,
    /// Where it ends in the source.
    pub end: Offset,
}

impl Token<'_> {
    /// Where it stands in the source.
    #[must_use]
    pub fn span(&self) -> Range<Offset> {
        self.start..self.end
    }
}

/// The tokens of a row file, in order, up to the file's end or to the first record that is malformed.
///
/// Of a file that [`parse_type_name`](crate::parse_type_name) accepted, or refused from [`Empty`](crate::TypeNameError::Empty)
/// on, these are all of its tokens.
#[derive(Debug, Clone, PartialEq, Eq)]
pub struct Tokens<'a> {
    file: &'a [u8],
    offset: usize,
    number: u32,
}

impl<'a> Tokens<'a> {
    /// Those of a file.
    #[must_use]
    pub fn new(file: &'a [u8]) -> Self {
        Self {
            file,
            offset: HEAD_LENGTH,
            number: 0,
        }
    }

    /// Those of token records without a head: of a name list.
    pub(crate) fn without_head(records: &'a [u8]) -> Self {
        Self {
            file: records,
            offset: 0,
            number: 0,
        }
    }

    /// The number of the token that comes next.
    pub(crate) fn next_number(&self) -> u32 {
        self.number
    }

    /// The same tokens, numbered from 0: those of a part.
    pub(crate) fn renumbered(self) -> Self {
        Self { number: 0, ..self }
    }

    /// Goes forward so that the token of this number comes next.
    pub(crate) fn forward_to(&mut self, number: u32) {
        while self.number < number && self.next().is_some() {}
    }
}

impl<'a> Iterator for Tokens<'a> {
    type Item = Token<'a>;

    fn next(&mut self) -> Option<Token<'a>> {
        let record = self.file.get(self.offset..)?;
        let (token, length) = read(record, self.number)?;
        self.offset += length;
        self.number += 1;
        Some(token)
    }
}

/// The token whose record begins the bytes, and that record's length.
fn read(bytes: &[u8], number: u32) -> Option<(Token<'_>, usize)> {
    let &[l0, l1, k0, k1, ref span @ ..] = bytes.first_chunk::<TOKEN_LENGTH>()?;
    let (&start, &end) = (span.first_chunk()?, span.last_chunk()?);
    let length = usize::from(u16::from_le_bytes([l0, l1]));
    let kind = TokenKind::try_from(u32::from(u16::from_le_bytes([k0, k1]))).ok()?;
    let token = Token {
        number,
        kind,
        word: core::str::from_utf8(bytes.get(TOKEN_LENGTH..length)?).ok()?,
        start: Offset::from_le_bytes(start),
        end: Offset::from_le_bytes(end),
    };
    let word_stands = match kind {
        TokenKind::Identifier => checked_word(token.word).is_ok(),
        _ => token.word.is_empty(),
    };
    (word_stands && token.start <= token.end).then_some((token, length))
}

/// Writes a token's record. The word was checked; of all kinds but identifiers it is empty. The span does not end before it
/// starts.
pub(crate) fn write_record(kind: TokenKind, word: &[u8], span: Range<Offset>, to: &mut Vec<u8>) {
    to.extend(((TOKEN_LENGTH + word.len()) as u16).to_le_bytes());
    to.extend((kind.number() as u16).to_le_bytes());
    to.extend(span.start.to_le_bytes());
    to.extend(span.end.to_le_bytes());
    to.extend(word);
}

/// Why no record can hold a word.
pub(crate) enum WordFault {
    /// It has so many bytes, and not 1 to 255.
    Length(usize),
    /// Its byte at this place is none of 33 to 126.
    Byte(usize),
}

/// The bytes of a word that a record can hold.
pub(crate) fn checked_word(text: &str) -> Result<&[u8], WordFault> {
    let word = text.as_bytes();
    if !(1..=LONGEST_WORD).contains(&word.len()) {
        return Err(WordFault::Length(word.len()));
    }
    let is_word_byte = |byte: &u8| (LEAST_WORD_BYTE..=GREATEST_WORD_BYTE).contains(byte);
    match word.iter().position(|byte| !is_word_byte(byte)) {
        Some(at) => Err(WordFault::Byte(at)),
        None => Ok(word),
    }
}
