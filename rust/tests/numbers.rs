//! Numbers and names lead to each other. `tests/numbers` holds the numbers themselves to the proved definitions.

use type_name::{
    CStandard, CppStandard, Delimiter, Feature, FortranStandard, Head, HostLanguage,
    HostLanguageProfile, ItemKind, NodeKind, Row, StructureCheck, TokenKind, TypeNameError,
};

/// Each case has its own number and is found by it; no other number is taken.
macro_rules! round_trip {
    ($($name:ident)*) => {
        $(
            let numbers = $name::ALL.map($name::number);
            assert!(numbers.is_sorted_by(|one, next| one < next));
            for number in 0..300 {
                match $name::try_from(number) {
                    Ok(case) => assert_eq!(u32::from(case), number),
                    Err(error) => {
                        assert!(!numbers.contains(&number));
                        let said = format!("{number} is the number of no {}", stringify!($name));
                        assert_eq!(error.to_string(), said);
                    }
                }
            }
        )*
    };
}

#[test]
fn numbers_lead_to_names_and_back() {
    round_trip!(Delimiter Feature HostLanguage ItemKind NodeKind StructureCheck TokenKind TypeNameError);
}

#[test]
fn a_head_s_numbers_lead_to_its_profile() {
    let mut found = Vec::new();
    for language in 0..4 {
        for standard in 0..254 {
            if let Ok(profile) = HostLanguageProfile::try_from((language, standard)) {
                assert_eq!(profile.language().number(), language);
                assert_eq!(profile.standard(), standard);
                found.push(profile);
            }
        }
    }
    assert!(HostLanguageProfile::all().eq(found));
}

/// Of each language, the profile that a number means.
fn meant(standard: u32) -> [HostLanguageProfile; 3] {
    HostLanguage::ALL
        .map(|language| HostLanguageProfile::try_from((language.number(), standard)).unwrap())
}

#[test]
fn standard_255_is_the_default() {
    let defaults = HostLanguage::ALL.map(HostLanguageProfile::default_of);
    assert_eq!(meant(255), defaults);
    let names = defaults.map(|profile| profile.to_string());
    assert_eq!(names, ["C23", "C++23", "Fortran 2023"]);
    assert_eq!(CStandard::default(), CStandard::C23);
    assert_eq!(CppStandard::default(), CppStandard::Cpp23);
    assert_eq!(FortranStandard::default(), FortranStandard::Fortran2023);
    let cpp23 = HostLanguageProfile::Cpp(CppStandard::Cpp23);
    assert_eq!(HostLanguageProfile::default(), cpp23);
    assert_eq!(Head::default().profile, cpp23);
}

#[test]
fn standard_254_is_that_of_archives() {
    let archives = HostLanguage::ALL.map(HostLanguageProfile::archive_of);
    assert_eq!(meant(254), archives);
    let names = archives.map(|profile| profile.to_string());
    assert_eq!(names, ["C18", "C++17", "Fortran 2018"]);
}

#[test]
fn no_other_number_means_a_standard() {
    for language in HostLanguage::ALL {
        for standard in [253, 256, u32::MAX] {
            let found = HostLanguageProfile::try_from((language.number(), standard));
            assert_eq!(found.unwrap_err().number, standard);
        }
    }
    for standard in [254, 255] {
        let found = HostLanguageProfile::try_from((3, standard)).unwrap_err();
        assert_eq!((found.of, found.number), ("HostLanguage", 3));
    }
}

/// So that a row keeps its standard whatever 254 and 255 come to mean.
#[test]
fn a_row_holds_the_standard_s_own_number() {
    let written = |profile| {
        let head = Head {
            profile,
            ..Head::default()
        };
        Row::new(head).bytes()[5]
    };
    assert_eq!(meant(255).map(written), [4, 5, 6]);
    assert_eq!(meant(254).map(written), [3, 3, 5]);
}

#[test]
fn each_error_is_a_sentence_of_its_own() {
    let mut sentences = TypeNameError::ALL.map(|error| error.to_string()).to_vec();
    assert!(sentences.iter().all(|sentence| sentence.contains(' ')));
    sentences.sort();
    sentences.dedup();
    assert_eq!(sentences.len(), TypeNameError::ALL.len());
}
