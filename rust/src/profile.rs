//! Languages and standards, in the original's names and order.

use core::fmt;

use crate::numbered::{UnknownNumberError, numbered};

numbered! {
    /// A language; the number is the one in the head record.
    HostLanguage {
        /// C
        C = 0,
        /// C++
        Cpp = 1,
        /// Fortran
        Fortran = 2,
    }
}

numbered! {
    /// A standard of C. The default, C23, is the one that 255 means in a head record.
    #[derive(Default)]
    CStandard {
        /// ISO/IEC 9899:1990, which ANSI made in 1989.
        C89 = 0,
        /// ISO/IEC 9899:1999
        C99 = 1,
        /// ISO/IEC 9899:2011
        C11 = 2,
        /// ISO/IEC 9899:2018, also called C17.
        C18 = 3,
        /// ISO/IEC 9899:2024
        #[default]
        C23 = 4,
    }
}

numbered! {
    /// A standard of C++. The default, C++23, is the one that 255 means in a head record.
    #[derive(Default)]
    CppStandard {
        /// ISO/IEC 14882:1998
        Cpp98 = 0,
        /// ISO/IEC 14882:2011
        Cpp11 = 1,
        /// ISO/IEC 14882:2014
        Cpp14 = 2,
        /// ISO/IEC 14882:2017
        Cpp17 = 3,
        /// ISO/IEC 14882:2020
        Cpp20 = 4,
        /// ISO/IEC 14882:2024
        #[default]
        Cpp23 = 5,
    }
}

numbered! {
    /// A standard of Fortran. The default, Fortran 2023, is the one that 255 means in a head record.
    #[derive(Default)]
    FortranStandard {
        /// ANSI X3.9-1978
        Fortran77 = 0,
        /// ISO/IEC 1539:1991
        Fortran90 = 1,
        /// ISO/IEC 1539-1:1997
        Fortran95 = 2,
        /// ISO/IEC 1539-1:2004
        Fortran2003 = 3,
        /// ISO/IEC 1539-1:2010
        Fortran2008 = 4,
        /// ISO/IEC 1539-1:2018
        Fortran2018 = 5,
        /// ISO/IEC 1539-1:2023
        #[default]
        Fortran2023 = 6,
    }
}

/// The standard in whose language a type name is read. The default is C++23.
///
/// The defaults were C18, C++17 and Fortran 2018 until 255 came to mean newer standards. [`archive_of`](Self::archive_of) gives
/// those, on which release archives rely.
#[derive(Debug, Clone, Copy, PartialEq, Eq, Hash)]
pub enum HostLanguageProfile {
    /// A standard of C.
    C(CStandard),
    /// A standard of C++.
    Cpp(CppStandard),
    /// A standard of Fortran.
    Fortran(FortranStandard),
}

/// The standard number that means each language's default.
const STANDARD_DEFAULT: u32 = 255;

/// The standard number that means the one on which release archives rely.
const STANDARD_ARCHIVE: u32 = 254;

impl HostLanguageProfile {
    /// The language's default standard, the one that 255 means: C23, C++23 or Fortran 2023.
    #[must_use]
    pub fn default_of(language: HostLanguage) -> Self {
        match language {
            HostLanguage::C => Self::C(CStandard::default()),
            HostLanguage::Cpp => Self::Cpp(CppStandard::default()),
            HostLanguage::Fortran => Self::Fortran(FortranStandard::default()),
        }
    }

    /// The language's standard on which release archives rely, the one that 254 means: C18, C++17 or Fortran 2018. In files of
    /// the old format 255 means it; [`widen`](crate::widen) writes 254 for that, so that they keep it.
    #[must_use]
    pub const fn archive_of(language: HostLanguage) -> Self {
        match language {
            HostLanguage::C => Self::C(CStandard::C18),
            HostLanguage::Cpp => Self::Cpp(CppStandard::Cpp17),
            HostLanguage::Fortran => Self::Fortran(FortranStandard::Fortran2018),
        }
    }

    /// Its language.
    #[must_use]
    pub const fn language(self) -> HostLanguage {
        match self {
            Self::C(_) => HostLanguage::C,
            Self::Cpp(_) => HostLanguage::Cpp,
            Self::Fortran(_) => HostLanguage::Fortran,
        }
    }

    /// The standard's own number in the head record; never 254 or 255.
    #[must_use]
    pub const fn standard(self) -> u32 {
        match self {
            Self::C(standard) => standard.number(),
            Self::Cpp(standard) => standard.number(),
            Self::Fortran(standard) => standard.number(),
        }
    }

    /// All profiles, by language and then by standard.
    pub fn all() -> impl Iterator<Item = Self> {
        let c = CStandard::ALL.into_iter().map(Self::C);
        let cpp = CppStandard::ALL.into_iter().map(Self::Cpp);
        let fortran = FortranStandard::ALL.into_iter().map(Self::Fortran);
        c.chain(cpp).chain(fortran)
    }
}

impl Default for HostLanguageProfile {
    fn default() -> Self {
        Self::default_of(HostLanguage::Cpp)
    }
}

/// The profile of a head record's language and standard; 254 and 255 give the standard that they mean. In the old format, which
/// only [`widen`](crate::widen) reads, 255 means what 254 means here, and 254 nothing.
impl TryFrom<(u32, u32)> for HostLanguageProfile {
    type Error = UnknownNumberError;

    fn try_from((language, standard): (u32, u32)) -> Result<Self, Self::Error> {
        let language = HostLanguage::try_from(language)?;
        Ok(match (standard, language) {
            (STANDARD_DEFAULT, _) => Self::default_of(language),
            (STANDARD_ARCHIVE, _) => Self::archive_of(language),
            (_, HostLanguage::C) => Self::C(standard.try_into()?),
            (_, HostLanguage::Cpp) => Self::Cpp(standard.try_into()?),
            (_, HostLanguage::Fortran) => Self::Fortran(standard.try_into()?),
        })
    }
}

impl fmt::Display for HostLanguage {
    fn fmt(&self, to: &mut fmt::Formatter<'_>) -> fmt::Result {
        to.write_str(match self {
            Self::C => "C",
            Self::Cpp => "C++",
            Self::Fortran => "Fortran",
        })
    }
}

/// `C99`, `C++17`, `Fortran 2018`
impl fmt::Display for HostLanguageProfile {
    fn fmt(&self, to: &mut fmt::Formatter<'_>) -> fmt::Result {
        to.write_str(match self {
            Self::C(CStandard::C89) => "C89",
            Self::C(CStandard::C99) => "C99",
            Self::C(CStandard::C11) => "C11",
            Self::C(CStandard::C18) => "C18",
            Self::C(CStandard::C23) => "C23",
            Self::Cpp(CppStandard::Cpp98) => "C++98",
            Self::Cpp(CppStandard::Cpp11) => "C++11",
            Self::Cpp(CppStandard::Cpp14) => "C++14",
            Self::Cpp(CppStandard::Cpp17) => "C++17",
            Self::Cpp(CppStandard::Cpp20) => "C++20",
            Self::Cpp(CppStandard::Cpp23) => "C++23",
            Self::Fortran(FortranStandard::Fortran77) => "Fortran 77",
            Self::Fortran(FortranStandard::Fortran90) => "Fortran 90",
            Self::Fortran(FortranStandard::Fortran95) => "Fortran 95",
            Self::Fortran(FortranStandard::Fortran2003) => "Fortran 2003",
            Self::Fortran(FortranStandard::Fortran2008) => "Fortran 2008",
            Self::Fortran(FortranStandard::Fortran2018) => "Fortran 2018",
            Self::Fortran(FortranStandard::Fortran2023) => "Fortran 2023",
        })
    }
}
