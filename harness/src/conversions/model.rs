//! What the proved library's two conversions have to answer. What they make of
//! the head's standard is document 02's C-16: "Standard 255 comes to mean C23,
//! Cpp23 and Fortran2023. Release archives relied on C18, Cpp17 and
//! Fortran2018, so 254 names those from now on, and the converter from old
//! files writes 254 where it finds 255; its inverse writes 255 for 254 and the
//! standard's own number for 255. A row accepted before under 255 is accepted
//! now with the same tree. Refusal 3 no longer covers 254, save in old files."
//! So the inverse of a widened file is the old file, and a narrowed file comes
//! back as it was unless it had 255.

use crate::answer::Refusal;
use crate::format::{Format, Head, LANGUAGE_AT, STANDARD_AT};
use crate::rules::model::{Numbers, hand_out};

/// Which way a file is converted.
#[derive(Debug, Clone, Copy, PartialEq, Eq, PartialOrd, Ord)]
pub enum Conversion {
    /// From the old format to the current one.
    Widen,
    /// Back.
    Narrow,
}

/// The file in the other format, or why there is none.
pub type Converted = Result<Vec<u8>, Refusal>;

impl Conversion {
    pub const BOTH: [Self; 2] = [Self::Widen, Self::Narrow];

    /// The format of what is handed in.
    pub fn source(self) -> Format {
        match self {
            Self::Widen => Format::old(),
            Self::Narrow => Format::current(),
        }
    }

    /// The format of what comes out.
    pub fn target(self) -> Format {
        self.inverse().source()
    }

    pub fn inverse(self) -> Self {
        match self {
            Self::Widen => Self::Narrow,
            Self::Narrow => Self::Widen,
        }
    }

    /// Converts a file into so many bytes.
    pub fn convert(self, file: &[u8], room: usize) -> Converted {
        match self {
            Self::Widen => widen(file, room),
            Self::Narrow => narrow(file, room),
        }
    }

    /// What the inverse makes of what a file was converted to: the file again,
    /// but for the standard's own number where a current head has 255.
    pub fn returned(self, file: &[u8]) -> Vec<u8> {
        let mut file = file.to_vec();
        if self == Self::Narrow && file[STANDARD_AT] == 255 {
            file[STANDARD_AT] = own_number(file[LANGUAGE_AT]);
        }
        file
    }

    /// As `type_name_widen` and `type_name_narrow` of the proved library.
    pub fn call(self, file: &[u8], output: &mut [u8], answer: &mut [u32]) -> u32 {
        let converted = self.convert(file, output.len());
        if let Ok(bytes) = &converted {
            output[..bytes.len()].copy_from_slice(bytes);
        }
        hand_out(numbers(&converted), answer)
    }
}

/// C23, Cpp23 and Fortran2023, which 255 means, by their places among the
/// standards that their languages declare.
fn own_number(language: u8) -> u8 {
    [4, 5, 6][usize::from(language)]
}

/// The standard of an old head in a current one.
fn widened(Head { standard, .. }: Head) -> u8 {
    match standard {
        255 => 254,
        declared => declared,
    }
}

/// The standard of a current head in an old one.
fn narrowed(head: Head) -> u8 {
    match head.standard {
        254 => 255,
        255 => own_number(head.language),
        declared => declared,
    }
}

/// Brings an old file over: 1 to 5, then 6.
pub fn widen(file: &[u8], room: usize) -> Converted {
    let mut row = Format::old().read(file)?;
    row.head.standard = widened(row.head);
    fitting(Format::current().write(&row), room)
}

/// Its inverse: 1 to 5, then 7, then 1 if the old form is too long, then 6.
pub fn narrow(file: &[u8], room: usize) -> Converted {
    let mut row = Format::current().read(file)?;
    row.head.standard = narrowed(row.head);
    let most = u64::from(u32::MAX);
    if row.tokens.iter().any(|token| token.end > most) {
        return Err(Refusal::plain(Refusal::OFFSET_OVER_32_BITS));
    }
    let old = Format::old().write(&row);
    if old.len() > Format::old().most_bytes {
        return Err(Refusal::plain(Refusal::FILE_TOO_LONG));
    }
    fitting(old, room)
}

/// A short buffer for output is 6, checked last.
fn fitting(bytes: Vec<u8>, room: usize) -> Converted {
    if bytes.len() > room {
        return Err(Refusal::plain(Refusal::SHORT_BUFFER));
    }
    Ok(bytes)
}

/// The numbers of the answer.
pub fn numbers(converted: &Converted) -> Numbers {
    match converted {
        Ok(bytes) => [0, bytes.len() as u32, 0, 0],
        Err(refusal) => refusal.after(0).numbers(),
    }
}

/// As `type_name_widen` of the proved library.
pub fn type_name_widen(file: &[u8], output: &mut [u8], answer: &mut [u32]) -> u32 {
    Conversion::Widen.call(file, output, answer)
}

/// As `type_name_narrow` of the proved library.
pub fn type_name_narrow(file: &[u8], output: &mut [u8], answer: &mut [u32]) -> u32 {
    Conversion::Narrow.call(file, output, answer)
}
