//! Languages and standards, as the command line names them.

use type_name::{HostLanguage, HostLanguageProfile};

use crate::cli::Wrong;

const LANGUAGES: [(&str, HostLanguage); 4] = [
    ("c", HostLanguage::C),
    ("c++", HostLanguage::Cpp),
    ("cpp", HostLanguage::Cpp),
    ("fortran", HostLanguage::Fortran),
];

/// Stands for the standard of any language on which release archives rely.
const ARCHIVE: &str = "archive";

/// Second names of standards, as compilers have them.
const OTHER_NAMES: [(&str, &str); 2] = [("c90", "c89"), ("c17", "c18")];

/// `c++17` for C++17, `f2018` for Fortran 2018.
pub fn option_name(profile: HostLanguageProfile) -> String {
    let name = profile.to_string().to_lowercase();
    name.replace("fortran ", "f")
}

/// The option that gives a language.
pub fn language_option(language: HostLanguage) -> &'static str {
    let mut known = LANGUAGES.iter();
    let name = known.find_map(|(name, known)| (*known == language).then_some(*name));
    name.unwrap_or_default()
}

/// The profile of the options: C++23 unless said.
pub fn profile(
    language: Option<&str>,
    standard: Option<&str>,
) -> Result<HostLanguageProfile, Wrong> {
    let language = language.map(named_language).transpose()?;
    let or_default = language.unwrap_or(HostLanguageProfile::default().language());
    let Some(standard) = standard else {
        return Ok(HostLanguageProfile::default_of(or_default));
    };
    if standard.eq_ignore_ascii_case(ARCHIVE) {
        return Ok(HostLanguageProfile::archive_of(or_default));
    }
    let profile = named_standard(standard)?;
    match language {
        Some(language) if language != profile.language() => Err(Wrong(format!(
            "{standard} is no standard of {language}; either option alone will do"
        ))),
        _ => Ok(profile),
    }
}

fn named_language(name: &str) -> Result<HostLanguage, Wrong> {
    let lower = name.to_lowercase();
    let mut known = LANGUAGES.iter();
    let found = known.find_map(|(known, language)| (*known == lower).then_some(*language));
    found.ok_or_else(|| Wrong(format!("no language `{name}`: c, c++ or fortran")))
}

fn named_standard(name: &str) -> Result<HostLanguageProfile, Wrong> {
    let lower = name.to_lowercase();
    let mut others = OTHER_NAMES.iter();
    let other = others.find_map(|(other, known)| (*other == lower).then_some(*known));
    let wanted = other.unwrap_or(&lower);
    let found = HostLanguageProfile::all().find(|profile| option_name(*profile) == wanted);
    found.ok_or_else(|| {
        let names: Vec<String> = HostLanguageProfile::all().map(option_name).collect();
        let names = names.join(", ");
        Wrong(format!("no standard `{name}`: {names} or {ARCHIVE}"))
    })
}
