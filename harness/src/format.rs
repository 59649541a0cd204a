//! The row file: one head record, then token records to its end. All numbers
//! are little-endian. The numbers of the format stand here once for the whole
//! harness, which knows nothing of the proved reader; `tests/numbers` holds
//! them to the proved definitions.
//!
//! Document 02's request C-14 has widened spans, and C-16 has given standards
//! 254 and 255 their meanings. Rows are read and written in that format unless
//! a `Format` is named; the one before it, which only conversions know, is
//! `Format::old`. A head's standard is the file's number, whatever it means
//! there.

use std::ops::RangeInclusive;

use crate::answer::Refusal;
use crate::kind::Kind;
use crate::profile::{
    self, ARCHIVE_STANDARD, HostLanguageProfile, NEWER_STANDARD, OLD_ARCHIVE_STANDARD,
};

pub const MOST_BYTES: usize = 131_072;
pub const HEAD_LENGTH: usize = 11;
// Where the head has its fields.
pub const LANGUAGE_AT: usize = 4;
pub const STANDARD_AT: usize = 5;
pub const FLAG_AT: usize = 6;
pub const ALLOWANCE_AT: usize = 7;
pub const HEAD_KIND: u16 = 261;
pub const GREATEST_FLAG: u8 = 1;
/// The length of a token record, without its word.
pub const TOKEN_LENGTH: usize = 20;
// The old format's.
pub const OLD_MOST_BYTES: usize = 65_536;
pub const OLD_HEAD_KIND: u16 = 256;
pub const OLD_TOKEN_LENGTH: usize = 12;
pub const WORD_LENGTHS: RangeInclusive<usize> = 1..=255;
pub const WORD_BYTES: RangeInclusive<u8> = 33..=126;
/// The most tokens of a row.
pub const MOST_TOKENS: usize = 1_024;
/// The numbers of a node record.
pub const NODE_WIDTH: usize = 3;
/// The numbers that the tree buffer must hold for each token.
pub const NUMBERS_PER_TOKEN: usize = 6;
/// The numbers of an answer.
pub const ANSWER_LENGTH: usize = 4;
/// How deep groups and lists may nest.
pub const MOST_NESTING: usize = 64;

/// In what the formats differ.
#[derive(Debug, Clone, Copy, PartialEq, Eq)]
pub struct Format {
    pub most_bytes: usize,
    pub head_kind: u16,
    /// Without a word; half of what stands behind length and kind is a span's
    /// start, half its end.
    pub token_length: usize,
    /// The standard number that means C23, Cpp23 or Fortran2023.
    pub newer_standard: Option<u8>,
    /// The one that means C18, Cpp17 or Fortran2018.
    pub archive_standard: u8,
}

#[derive(Debug, Clone, Copy, PartialEq, Eq)]
pub struct Head {
    pub language: u8,
    pub standard: u8,
    pub flag: u8,
    pub allowance: u32,
}

#[derive(Debug, Clone, PartialEq, Eq)]
pub struct Token {
    pub kind: Kind,
    /// Empty except at kind 0.
    pub word: String,
    pub start: u64,
    pub end: u64,
}

#[derive(Debug, Clone, PartialEq, Eq)]
pub struct Row {
    pub head: Head,
    pub tokens: Vec<Token>,
}

/// Where a token record has its span, behind length and kind.
const SPAN_AT: usize = 4;

impl Format {
    /// What every entry reads.
    pub fn current() -> Self {
        Self {
            most_bytes: MOST_BYTES,
            head_kind: HEAD_KIND,
            token_length: TOKEN_LENGTH,
            newer_standard: Some(NEWER_STANDARD),
            archive_standard: ARCHIVE_STANDARD,
        }
    }

    /// Document 01's.
    pub fn old() -> Self {
        Self {
            most_bytes: OLD_MOST_BYTES,
            head_kind: OLD_HEAD_KIND,
            token_length: OLD_TOKEN_LENGTH,
            newer_standard: None,
            archive_standard: OLD_ARCHIVE_STANDARD,
        }
    }

    /// The bytes of a span's start, and of its end.
    pub fn span_width(self) -> usize {
        (self.token_length - SPAN_AT) / 2
    }

    /// The file of a row.
    pub fn write(self, row: &Row) -> Vec<u8> {
        let mut file = Vec::new();
        row.head.write(self, &mut file);
        for token in &row.tokens {
            token.write(self, &mut file);
        }
        file
    }

    /// Takes a file apart, with refusals 1 to 5.
    pub fn read(self, file: &[u8]) -> Result<Row, Refusal> {
        if file.len() > self.most_bytes {
            return Err(Refusal::plain(Refusal::FILE_TOO_LONG));
        }
        let head = Head::read(self, file)?;
        let mut tokens = Vec::new();
        let mut offset = HEAD_LENGTH;
        while offset < file.len() {
            if tokens.len() == MOST_TOKENS {
                return Err(Refusal::plain(Refusal::TOO_MANY_RECORDS));
            }
            let Some(token) = Token::read(self, &file[offset..]) else {
                return Err(Refusal::plain(Refusal::INVALID_RECORD).detailed(offset as u32));
            };
            offset += token.length(self);
            tokens.push(token);
        }
        Ok(Row { head, tokens })
    }
}

impl Head {
    fn write(&self, format: Format, file: &mut Vec<u8>) {
        file.extend((HEAD_LENGTH as u16).to_le_bytes());
        file.extend(format.head_kind.to_le_bytes());
        file.extend([self.language, self.standard, self.flag]);
        file.extend(self.allowance.to_le_bytes());
    }

    /// Refusals 2 and 3.
    fn read(format: Format, file: &[u8]) -> Result<Self, Refusal> {
        let Some(&[l0, l1, k0, k1, language, standard, flag, a0, a1, a2, a3]) =
            file.first_chunk::<HEAD_LENGTH>()
        else {
            return Err(Refusal::plain(Refusal::INVALID_HEAD));
        };
        let length = u16::from_le_bytes([l0, l1]);
        let kind = u16::from_le_bytes([k0, k1]);
        if usize::from(length) != HEAD_LENGTH || kind != format.head_kind || flag > GREATEST_FLAG {
            return Err(Refusal::plain(Refusal::INVALID_HEAD));
        }
        if profile::numbered_in(format, language, standard).is_none() {
            return Err(Refusal::plain(Refusal::UNKNOWN_PROFILE));
        }
        Ok(Self {
            language,
            standard,
            flag,
            allowance: u32::from_le_bytes([a0, a1, a2, a3]),
        })
    }
}

impl Token {
    pub fn plain(kind: Kind) -> Self {
        Self {
            kind,
            word: String::new(),
            start: 0,
            end: 0,
        }
    }

    pub fn word(word: &str) -> Self {
        Self {
            word: word.to_owned(),
            ..Self::plain(Kind::Identifier)
        }
    }

    /// The length of its record.
    pub fn length(&self, format: Format) -> usize {
        format.token_length + self.word.len()
    }

    /// A word that is too long for a record gives a wrong length field, an
    /// offset too great for the format loses its upper bytes.
    pub fn write(&self, format: Format, file: &mut Vec<u8>) {
        file.extend((self.length(format) as u16).to_le_bytes());
        file.extend(self.kind.number().to_le_bytes());
        for offset in [self.start, self.end] {
            file.extend(&offset.to_le_bytes()[..format.span_width()]);
        }
        file.extend(self.word.as_bytes());
    }

    /// The token whose record begins the bytes, `None` if that is malformed.
    pub fn read(format: Format, bytes: &[u8]) -> Option<Self> {
        let (record, _) = bytes.split_at_checked(format.token_length)?;
        let (&[l0, l1, k0, k1], span) = record.split_first_chunk()?;
        let length = usize::from(u16::from_le_bytes([l0, l1]));
        let kind = Kind::numbered(u16::from_le_bytes([k0, k1]))?;
        let (start, end) = span.split_at(span.len() / 2);
        let word = bytes.get(format.token_length..length)?;
        let word_fits = if kind == Kind::Identifier {
            WORD_LENGTHS.contains(&word.len()) && word.iter().all(|byte| WORD_BYTES.contains(byte))
        } else {
            word.is_empty()
        };
        let token = Self {
            kind,
            word: String::from_utf8(word.to_vec()).ok()?,
            start: offset(start),
            end: offset(end),
        };
        (word_fits && token.start <= token.end).then_some(token)
    }
}

/// An offset in the source, of up to eight bytes.
fn offset(bytes: &[u8]) -> u64 {
    let mut whole = u64::MIN.to_le_bytes();
    whole[..bytes.len()].copy_from_slice(bytes);
    u64::from_le_bytes(whole)
}

impl Row {
    /// The file of this row.
    pub fn write(&self) -> Vec<u8> {
        Format::current().write(self)
    }

    /// Takes a file apart, with refusals 1 to 5.
    pub fn read(file: &[u8]) -> Result<Self, Refusal> {
        Format::current().read(file)
    }

    /// The profile that the head's numbers mean.
    pub fn profile(&self) -> HostLanguageProfile {
        self.profile_in(Format::current())
    }

    /// The same for a row that was read in this format.
    pub fn profile_in(&self, format: Format) -> HostLanguageProfile {
        let head = self.head;
        profile::numbered_in(format, head.language, head.standard).expect("a profile of the head")
    }
}
