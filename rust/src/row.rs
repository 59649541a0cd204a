//! Row files: one head record, then a record for each token. All numbers are little-endian.

use alloc::vec::Vec;
use core::error::Error;
use core::fmt;
use core::ops::Range;

use crate::limits::{ALLOWANCE_AT, HEAD_KIND, HEAD_LENGTH, LONGEST_WORD, Offset};
use crate::numbered::numbered;
use crate::profile::HostLanguageProfile;
use crate::token::{WordFault, checked_word, write_record};
use crate::token_kind::TokenKind;

/// An allowance that is ample for real type names. The 5,587 rows of real names that the project is tried with take at most
/// 554 steps, accepted ones at most 293; this is 180 times as many, and bounds a call to some 1.5 ms.
pub const AMPLE_ALLOWANCE: u32 = 100_000;

numbered! {
    /// Whether the tree is checked for naming a type; the number is the head's structure flag.
    #[derive(Default)]
    StructureCheck {
        /// Every tree is accepted whose features the standard has.
        Off = 0,
        /// A tree that names no type is refused.
        #[default]
        On = 1,
    }
}

/// How a type name is to be read. The default: C++23 with the structure check and [`AMPLE_ALLOWANCE`].
#[derive(Debug, Clone, Copy, PartialEq, Eq)]
pub struct Head {
    /// Language and standard. A [`Row`] holds the standard's own number, so that no change of what 254 and 255 mean touches it.
    pub profile: HostLanguageProfile,
    /// Whether the tree is checked for naming a type.
    pub structure: StructureCheck,
    /// The most steps that may be taken, else [`AllowancePassed`](crate::TypeNameError::AllowancePassed). It bounds the
    /// work: a step takes some 15 ns, and there are rows of 64 tokens that take more than four thousand million.
    pub allowance: u32,
}

impl Default for Head {
    fn default() -> Self {
        Self {
            profile: HostLanguageProfile::default(),
            structure: StructureCheck::default(),
            allowance: AMPLE_ALLOWANCE,
        }
    }
}

/// A row file in the making.
///
/// How many tokens a row may have and how long a file may be, the reader tells: refusals 5 and 1.
#[derive(Debug, Clone, PartialEq, Eq)]
pub struct Row {
    bytes: Vec<u8>,
}

impl Row {
    /// The row without tokens.
    #[must_use]
    pub fn new(head: Head) -> Self {
        let mut bytes = Vec::with_capacity(HEAD_LENGTH);
        bytes.extend((HEAD_LENGTH as u16).to_le_bytes());
        bytes.extend(HEAD_KIND.to_le_bytes());
        bytes.push(head.profile.language().number() as u8);
        bytes.push(head.profile.standard() as u8);
        bytes.push(head.structure.number() as u8);
        bytes.extend(head.allowance.to_le_bytes());
        Self { bytes }
    }

    /// Adds a token: its kind, what stands in the source, and where. The text is kept for identifiers alone, as no rule
    /// looks at another token's; the span decides nothing.
    ///
    /// # Errors
    ///
    /// If no record can hold the word or the span. The row stays as it was.
    pub fn push(
        &mut self,
        kind: TokenKind,
        text: &str,
        span: Range<Offset>,
    ) -> Result<(), RecordError> {
        let word = match kind {
            TokenKind::Identifier => checked_word(text)?,
            _ => &[],
        };
        if span.start > span.end {
            return Err(RecordError::SpanReversed);
        }
        write_record(kind, word, span, &mut self.bytes);
        Ok(())
    }

    /// The file.
    #[must_use]
    pub fn bytes(&self) -> &[u8] {
        &self.bytes
    }
}

/// Lowers the allowance of a row file to `most`, if it is greater: for those who read files of others. A file without a
/// whole head stays as it is.
pub fn limit_allowance(file: &mut [u8], most: u32) {
    let head = file.first_chunk_mut::<HEAD_LENGTH>();
    let field = head.and_then(|head| head[ALLOWANCE_AT..].first_chunk_mut());
    if let Some(field) = field {
        *field = u32::from_le_bytes(*field).min(most).to_le_bytes();
    }
}

/// Why no token record can hold a token.
#[derive(Debug, Clone, Copy, PartialEq, Eq)]
pub enum RecordError {
    /// The word has so many bytes, and not 1 to 255.
    WordLength(usize),
    /// The word's byte at this place is none of 33 to 126, the visible characters of ASCII.
    WordByte(usize),
    /// The span ends before it starts.
    SpanReversed,
}

impl From<WordFault> for RecordError {
    fn from(fault: WordFault) -> Self {
        match fault {
            WordFault::Length(bytes) => Self::WordLength(bytes),
            WordFault::Byte(at) => Self::WordByte(at),
        }
    }
}

impl fmt::Display for RecordError {
    fn fmt(&self, to: &mut fmt::Formatter<'_>) -> fmt::Result {
        match self {
            Self::WordLength(bytes) => {
                write!(
                    to,
                    "the word has {bytes} bytes, and not 1 to {LONGEST_WORD}"
                )
            }
            Self::WordByte(at) => {
                write!(to, "byte {at} of the word is no visible ASCII character")
            }
            Self::SpanReversed => to.write_str("the span ends before it starts"),
        }
    }
}

impl Error for RecordError {}
