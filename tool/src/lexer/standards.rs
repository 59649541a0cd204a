//! What the lexical rules of each standard have.

use type_name::{CStandard, CppStandard, FortranStandard, HostLanguageProfile};

/// Whether the profile is of C from one standard on, or of C++ from the other on; Fortran has none of this.
fn since(profile: HostLanguageProfile, c: CStandard, cpp: CppStandard) -> bool {
    match profile {
        HostLanguageProfile::C(standard) => standard >= c,
        HostLanguageProfile::Cpp(standard) => standard >= cpp,
        HostLanguageProfile::Fortran(_) => false,
    }
}

pub fn has_line_comments(profile: HostLanguageProfile) -> bool {
    since(profile, CStandard::C99, CppStandard::Cpp98)
}

/// `0b101` and `1'000`.
pub fn has_binary_and_separators(profile: HostLanguageProfile) -> bool {
    since(profile, CStandard::C23, CppStandard::Cpp14)
}

/// `true` and `false` as literals.
pub fn has_booleans(profile: HostLanguageProfile) -> bool {
    since(profile, CStandard::C23, CppStandard::Cpp98)
}

pub fn has_nullptr(profile: HostLanguageProfile) -> bool {
    since(profile, CStandard::C23, CppStandard::Cpp11)
}

/// `1ll`
pub fn has_long_long_suffix(profile: HostLanguageProfile) -> bool {
    since(profile, CStandard::C99, CppStandard::Cpp11)
}

/// `1z`; of C23 too, as the original's lexer has it.
pub fn has_size_suffix(profile: HostLanguageProfile) -> bool {
    since(profile, CStandard::C23, CppStandard::Cpp23)
}

/// `u"x"`, `U"x"`, and `u8"x"`.
pub fn has_unicode_literals(profile: HostLanguageProfile) -> bool {
    since(profile, CStandard::C11, CppStandard::Cpp11)
}

/// `u8'x'`
pub fn has_utf8_characters(profile: HostLanguageProfile) -> bool {
    since(profile, CStandard::C23, CppStandard::Cpp17)
}

/// What came to Fortran with Fortran 90: `1_8` and `a%b`.
pub fn has_fortran_90(profile: HostLanguageProfile) -> bool {
    profile != HostLanguageProfile::Fortran(FortranStandard::Fortran77)
}
