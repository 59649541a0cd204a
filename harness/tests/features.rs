//! Refusal 40: what each standard lacks, and which standards 254 and 255 mean.

use std::collections::BTreeSet;

use HostLanguage::{C, Cpp, Fortran};

use harness::answer::{Answer, NO_TOKEN, Refusal};
use harness::format::{Format, Head, Row};
use harness::generate::cases;
use harness::profile::{
    HostLanguage, NEWER_STANDARD, declared, language_number, profile, standards, standards_in,
};
use harness::{lexed, oracle};

fn row(language: HostLanguage, standard: u8, flag: u8, text: &str) -> Row {
    // The lexer of another standard may know fewer tokens.
    let lexed_as = profile(language, NEWER_STANDARD).unwrap();
    let head = Head {
        language: language_number(language),
        standard,
        flag,
        allowance: 1_000,
    };
    let tokens = lexed::tokens(text, lexed_as).unwrap();
    Row { head, tokens }
}

fn answer(language: HostLanguage, standard: u8, flag: u8, text: &str) -> Answer {
    oracle::answer_with_tree(&row(language, standard, flag, text).write()).0
}

/// What an old file would get if it were still read.
fn old_answer(language: HostLanguage, standard: u8, flag: u8, text: &str) -> Answer {
    let old = Format::old();
    let file = old.write(&row(language, standard, flag, text));
    oracle::answer_with_tree_in(old, &file).0
}

/// The detail of refusal 40, 0 if accepted.
fn lacking(answer: Answer) -> u32 {
    match answer {
        Answer::Accepted { .. } => 0,
        Answer::Refused {
            number: Refusal::NOT_AVAILABLE_IN_PROFILE,
            token: NO_TOKEN,
            detail,
            ..
        } => detail,
        _ => panic!("{answer}"),
    }
}

/// The place of the first standard that has the feature, its detail, a row.
#[rustfmt::skip]
const FEATURES: [(HostLanguage, u8, u32, u8, &str); 14] = [
    (C, 1, 1, 1, "long long"),
    (C, 2, 2, 1, "_Atomic(int)"),
    (C, 4, 3, 1, "_BitInt(8)"),
    (C, 4, 4, 1, "typeof(int)"),
    (C, 4, 5, 1, "typeof_unqual(int)"),
    (Cpp, 1, 1, 1, "long long"),
    (Cpp, 1, 6, 1, "decltype(x)"),
    (Cpp, 1, 7, 1, "int&&"),
    (Fortran, 1, 8, 1, "real(kind=8)"),
    (Fortran, 1, 9, 1, "type(lane)"),
    (Fortran, 3, 10, 1, "class(lane)"),
    (Fortran, 5, 11, 0, "lane(..)"),
    (C, 1, 1, 0, "LONG Long"),
    (C, 4, 4, 0, "TypeOf(int)"),
];

#[test]
fn a_feature_is_lacking_before_its_standard() {
    for (language, first, detail, flag, text) in FEATURES {
        for standard in declared(language) {
            let wanted = if standard < first { detail } else { 0 };
            let found = lacking(answer(language, standard, flag, text));
            assert_eq!(found, wanted, "{text} under standard {standard}");
        }
    }
}

#[test]
fn the_least_detail_is_given() {
    let rows = [
        (C, 0, 1, "_Atomic(long long)"),
        (C, 0, 2, "_Atomic(_BitInt(8))"),
        (C, 2, 3, "typeof_unqual(_BitInt(8))"),
        (C, 2, 4, "typeof_unqual(typeof(int))"),
        (Cpp, 0, 1, "decltype(x)(long long)"),
        (Cpp, 0, 6, "decltype(x)&&"),
        (Fortran, 0, 8, "type(lane(kind=8))"),
        (Fortran, 0, 9, "type(*)"),
        (Fortran, 1, 11, "type(*)"),
    ];
    for (language, standard, detail, text) in rows {
        let found = lacking(answer(language, standard, 1, text));
        assert_eq!(found, detail, "{text}");
    }
}

#[test]
fn standards_254_and_255_are_the_ones_they_mean() {
    for (language, archive, newer) in [(C, 3, 4), (Cpp, 3, 5), (Fortran, 5, 6)] {
        for (of, _, _, flag, text) in FEATURES {
            if of == language {
                let under = |standard| answer(language, standard, flag, text);
                assert_eq!(under(254), under(archive));
                assert_eq!(under(255), under(newer));
                // In an old file.
                let before = |standard| old_answer(language, standard, flag, text);
                assert_eq!(before(255), under(archive));
                assert_eq!(before(newer), under(newer));
                assert_eq!(before(254).refusal(), Some(Refusal::UNKNOWN_PROFILE));
            }
        }
    }
}

#[test]
fn the_standards_of_each_format() {
    for (language, count) in [(C, 5), (Cpp, 6), (Fortran, 7)] {
        let with =
            |beyond: &[u8]| -> Vec<u8> { (0..count).chain(beyond.iter().copied()).collect() };
        assert_eq!(declared(language).collect::<Vec<_>>(), with(&[]));
        assert_eq!(standards(language).collect::<Vec<_>>(), with(&[254, 255]));
        let old = standards_in(Format::old(), language);
        assert_eq!(old.collect::<Vec<_>>(), with(&[255]));
    }
}

/// Worked out by hand from document 02, C-16: four tokens make three nodes, two
/// at the top, in three steps; structure takes one for the type and one for the
/// expression, and the profile check comes last.
#[test]
fn an_archives_row_and_the_same_now() {
    let text = "_BitInt(8)";
    let lacks = Answer::Refused {
        number: 40,
        token: 65_535,
        detail: 3,
        steps: 5,
    };
    let accepted = Answer::Accepted { nodes: 3, steps: 5 };
    assert_eq!(old_answer(C, 255, 1, text), lacks);
    assert_eq!(answer(C, 254, 1, text), lacks);
    assert_eq!(answer(C, 255, 1, text), accepted);
    let unknown = Refusal::plain(3).after(0);
    assert_eq!(old_answer(C, 254, 1, text), unknown);
    assert_eq!(old_answer(C, 253, 1, text), unknown);
    assert_eq!(answer(C, 253, 1, text), unknown);
}

/// C-16: what was accepted under 255 is accepted with the same tree.
#[test]
fn rows_accepted_before_stay_as_they_are() {
    let mut seen = BTreeSet::new();
    let drawn = cases(16, None).unwrap().take(20_000);
    for mut row in drawn.filter_map(|case| Row::read(&case.file).ok()) {
        for flag in [0, 1] {
            row.head.flag = flag;
            let [before, now] = [254, 255].map(|standard| {
                row.head.standard = standard;
                oracle::answer_with_tree(&row.write())
            });
            let language = row.head.language;
            match before.0.refusal() {
                None => assert_eq!(now, before),
                // What C18 lacks C23 has; the profile check comes last.
                Some(Refusal::NOT_AVAILABLE_IN_PROFILE) => assert_eq!(now.0.refusal(), None),
                Some(_) => assert_eq!(now, before),
            }
            seen.insert((
                language,
                flag,
                before.0.refusal().map(|number| number == 40),
            ));
        }
    }
    // Accepted and refused in each language with either flag, and 40 in C.
    assert_eq!(seen.len(), 3 * 2 * 2 + 2);
}
