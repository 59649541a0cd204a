//! Files brought over from the old format, and back.

use alloc::vec;
use alloc::vec::Vec;
use core::error::Error;
use core::fmt;

use crate::answer::{Refusal, TypeNameError};
use crate::limits::{
    ANSWER_LENGTH, HEAD_LENGTH, MOST_BYTES, MOST_TOKENS, OLD_MOST_BYTES, OLD_TOKEN_LENGTH,
    TOKEN_LENGTH,
};
use crate::raw::{type_name_narrow, type_name_widen};

/// A file of the old format in the format that is read: its spans become 8 bytes wide, a standard of 255 becomes 254, and
/// nothing else that it says changes.
///
/// The old format has 4 bytes for each start and end, and head kind 256, and 255 means C18, C++17 or Fortran 2018 there, as 254
/// does in the new one ([`archive_of`](crate::HostLanguageProfile::archive_of)); `docs/FORMAT.md` describes it. So the new file
/// gets the answer and the tree that the old one got, and [`narrow`] gives the old one back, byte for byte. The row is not
/// looked at: a file whose row is refused is widened like others.
///
#[doc = "```"]
#[doc = include_str!("../examples/convert.rs")]
#[doc = "```"]
///
/// # Errors
///
/// If the file is none of the old format: refusals 1 to 5, [`FileTooLong`](TypeNameError::FileTooLong) from
/// [`OLD_MOST_BYTES`] + 1 bytes on. A file of the new format is [`InvalidHead`](TypeNameError::InvalidHead), standard 254 is
/// [`UnknownProfile`](TypeNameError::UnknownProfile).
///
/// # Panics
///
/// Only if the library that is linked is not the proved one: its refusals have other numbers.
pub fn widen(file: &[u8]) -> Result<Vec<u8>, ConversionRefusal> {
    // A longer file is refused, whatever room there is.
    let bytes = file.len().min(OLD_MOST_BYTES);
    let records = (bytes.saturating_sub(HEAD_LENGTH) / OLD_TOKEN_LENGTH).min(MOST_TOKENS);
    let room = bytes + (TOKEN_LENGTH - OLD_TOKEN_LENGTH) * records;
    Conversion::Widen.into_vec(file, room)
}

/// [`widen`] into a buffer of the caller's: the new file, in the buffer's front. Bytes behind it stay, and no refusal touches
/// the buffer.
///
/// [`MOST_WIDENED`](crate::MOST_WIDENED) bytes do for every file; 8 bytes a token more than the file has, for this one.
///
/// # Errors
///
/// As [`widen`]; and [`ShortBuffer`](TypeNameError::ShortBuffer), which is tested last.
///
/// # Panics
///
/// As [`widen`].
pub fn widen_into<'a>(file: &[u8], output: &'a mut [u8]) -> Result<&'a [u8], ConversionRefusal> {
    Conversion::Widen.into_buffer(file, output)
}

/// The inverse of [`widen`]: a file of the format that is read, in the old one.
///
/// A standard of 254 becomes 255, and one of 255 the number that C23, C++23 or Fortran 2023 has itself, as the old format has
/// none that means them all. [`widen`] gives the file back, save that a standard of 255 comes back as that number, which means
/// the same.
///
/// # Errors
///
/// If the file is none of its format: refusals 1 to 5. Then if a span ends at 2<sup>32</sup> or later:
/// [`OffsetOver32Bits`](TypeNameError::OffsetOver32Bits). Then if the old file would have more than [`OLD_MOST_BYTES`] bytes:
/// [`FileTooLong`](TypeNameError::FileTooLong).
///
/// # Panics
///
/// As [`widen`].
pub fn narrow(file: &[u8]) -> Result<Vec<u8>, ConversionRefusal> {
    Conversion::Narrow.into_vec(file, file.len().min(OLD_MOST_BYTES))
}

/// [`narrow`] into a buffer of the caller's, which is treated as by [`widen_into`]. As many bytes as the file has always do,
/// and so do [`OLD_MOST_BYTES`].
///
/// # Errors
///
/// As [`narrow`]; and [`ShortBuffer`](TypeNameError::ShortBuffer), which is tested last.
///
/// # Panics
///
/// As [`widen`].
pub fn narrow_into<'a>(file: &[u8], output: &'a mut [u8]) -> Result<&'a [u8], ConversionRefusal> {
    Conversion::Narrow.into_buffer(file, output)
}

/// Which way a file is converted.
#[derive(Debug, Clone, Copy, PartialEq, Eq, Hash)]
pub enum Conversion {
    /// From the old format: [`widen`].
    Widen,
    /// To the old format: [`narrow`].
    Narrow,
}

impl Conversion {
    /// With room for every file that is accepted.
    fn into_vec(self, file: &[u8], room: usize) -> Result<Vec<u8>, ConversionRefusal> {
        let mut output = vec![0; room];
        let bytes = self.into_buffer(file, &mut output)?.len();
        output.truncate(bytes);
        Ok(output)
    }

    fn into_buffer<'a>(
        self,
        file: &[u8],
        output: &'a mut [u8],
    ) -> Result<&'a [u8], ConversionRefusal> {
        let mut answer = [0; ANSWER_LENGTH];
        match self {
            Self::Widen => type_name_widen(file, output, &mut answer),
            Self::Narrow => type_name_narrow(file, output, &mut answer),
        };
        match Refusal::of_answer(answer) {
            Ok([bytes, ..]) => Ok(&output[..bytes as usize]),
            Err(refusal) => Err(ConversionRefusal {
                refusal,
                conversion: self,
            }),
        }
    }
}

/// A file is not converted.
#[derive(Debug, Clone, Copy, PartialEq, Eq)]
#[must_use]
pub struct ConversionRefusal {
    /// Why. It names no token and has no steps; the detail of [`InvalidRecord`](TypeNameError::InvalidRecord) is an offset in
    /// the file handed in.
    pub refusal: Refusal,
    /// Which way it was to be converted.
    pub conversion: Conversion,
}

/// A sentence with the refusal's number, and with its detail where it has one. The limits are the conversion's.
impl fmt::Display for ConversionRefusal {
    fn fmt(&self, to: &mut fmt::Formatter<'_>) -> fmt::Result {
        let number = self.refusal.error.number();
        match (self.refusal.error, self.conversion) {
            (TypeNameError::FileTooLong, Conversion::Widen) => {
                write!(
                    to,
                    "refusal {number}: the file has more than {OLD_MOST_BYTES} bytes"
                )
            }
            (TypeNameError::FileTooLong, Conversion::Narrow) => write!(
                to,
                "refusal {number}: the file has more than {MOST_BYTES} bytes, or would have more than {OLD_MOST_BYTES} in the \
                 old format"
            ),
            (TypeNameError::ShortBuffer, _) => write!(
                to,
                "refusal {number}: the output buffer has fewer bytes than the converted file"
            ),
            _ => self.refusal.write_sentence(to),
        }
    }
}

impl Error for ConversionRefusal {}
