//! Languages and standards by their numbers in the head record. What the
//! numbers beyond the declared standards mean is the format's (document 02,
//! C-16); where none is named, it is the current one's.

pub use crate::version::{HostLanguage, HostLanguageProfile};

use crate::format::Format;
use crate::version::{CStandard, CppStandard, FortranStandard};

/// Means C23, Cpp23 or Fortran2023.
pub const NEWER_STANDARD: u8 = 255;
/// Means C18, Cpp17 or Fortran2018, on which release archives relied.
pub const ARCHIVE_STANDARD: u8 = 254;
/// The old format's number for these; it has none for the newer ones.
pub const OLD_ARCHIVE_STANDARD: u8 = 255;

pub const LANGUAGES: [HostLanguage; 3] =
    [HostLanguage::C, HostLanguage::Cpp, HostLanguage::Fortran];

const C: [CStandard; 5] = [
    CStandard::C89,
    CStandard::C99,
    CStandard::C11,
    CStandard::C18,
    CStandard::C23,
];

const CPP: [CppStandard; 6] = [
    CppStandard::Cpp98,
    CppStandard::Cpp11,
    CppStandard::Cpp14,
    CppStandard::Cpp17,
    CppStandard::Cpp20,
    CppStandard::Cpp23,
];

const FORTRAN: [FortranStandard; 7] = [
    FortranStandard::Fortran77,
    FortranStandard::Fortran90,
    FortranStandard::Fortran95,
    FortranStandard::Fortran2003,
    FortranStandard::Fortran2008,
    FortranStandard::Fortran2018,
    FortranStandard::Fortran2023,
];

pub fn language_number(language: HostLanguage) -> u8 {
    language as u8
}

/// All standard numbers that a language knows, 254 and 255 included.
pub fn standards(language: HostLanguage) -> impl Iterator<Item = u8> {
    standards_in(Format::current(), language)
}

/// The same for a format's heads.
pub fn standards_in(format: Format, language: HostLanguage) -> impl Iterator<Item = u8> {
    (0..=u8::MAX).filter(move |&standard| profile_in(format, language, standard).is_some())
}

/// The numbers of the standards that a language declares.
pub fn declared(language: HostLanguage) -> impl Iterator<Item = u8> {
    standards(language).filter(|&standard| standard < ARCHIVE_STANDARD)
}

pub fn profile(language: HostLanguage, standard: u8) -> Option<HostLanguageProfile> {
    profile_in(Format::current(), language, standard)
}

/// The profile of a format's head, `None` where refusal 3 is due.
pub fn numbered_in(format: Format, language: u8, standard: u8) -> Option<HostLanguageProfile> {
    profile_in(format, *LANGUAGES.get(usize::from(language))?, standard)
}

pub fn profile_in(
    format: Format,
    language: HostLanguage,
    standard: u8,
) -> Option<HostLanguageProfile> {
    if format.newer_standard == Some(standard) {
        return Some(match language {
            HostLanguage::C => HostLanguageProfile::C(CStandard::C23),
            HostLanguage::Cpp => HostLanguageProfile::Cpp(CppStandard::Cpp23),
            HostLanguage::Fortran => HostLanguageProfile::Fortran(FortranStandard::Fortran2023),
        });
    }
    if format.archive_standard == standard {
        return Some(match language {
            HostLanguage::C => HostLanguageProfile::C(CStandard::C18),
            HostLanguage::Cpp => HostLanguageProfile::Cpp(CppStandard::Cpp17),
            HostLanguage::Fortran => HostLanguageProfile::Fortran(FortranStandard::Fortran2018),
        });
    }
    let place = usize::from(standard);
    Some(match language {
        HostLanguage::C => HostLanguageProfile::C(*C.get(place)?),
        HostLanguage::Cpp => HostLanguageProfile::Cpp(*CPP.get(place)?),
        HostLanguage::Fortran => HostLanguageProfile::Fortran(*FORTRAN.get(place)?),
    })
}
