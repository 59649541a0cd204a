//! The model of the conversions: the examples worked out by hand, that each is
//! the other's inverse save for standard 255, and what generated files are good
//! for.

use std::collections::BTreeSet;

use harness::answer::{Answer, Refusal};
use harness::conversions::generate::{chosen, damaged, file, long};
use harness::conversions::model::{Conversion, narrow, type_name_narrow, type_name_widen, widen};
use harness::conversions::worked::Entries;
use harness::format::{Format, NUMBERS_PER_TOKEN, Row, STANDARD_AT};
use harness::generate::cases;
use harness::generate::random::Random;
use harness::lists::model::{numbers, numbers_in};
use harness::oracle;

#[test]
fn the_worked_examples() {
    let model = Entries {
        type_name_widen,
        type_name_narrow,
    };
    model.assert_worked();
}

/// Rows of all styles.
fn rows(seed: u64) -> impl Iterator<Item = Row> {
    let cases = cases(seed, None).unwrap();
    cases.filter_map(|case| Row::read(&case.file).ok())
}

/// Chosen, good, damaged and long files.
fn files(conversion: Conversion, seed: u64) -> Vec<Vec<u8>> {
    let mut random = Random::new(seed);
    let format = conversion.source();
    let mut files = chosen(conversion);
    for row in rows(seed).take(5_000) {
        files.push(file(&mut random, format, row.clone()));
        files.push(damaged(&mut random, format, row));
    }
    files.extend((0..300).map(|_| long(&mut random, conversion)));
    files
}

#[test]
fn each_is_the_others_inverse_save_for_255() {
    for conversion in Conversion::BOTH {
        let mut converted = 0;
        let mut standards = BTreeSet::new();
        for file in files(conversion, 1) {
            if let Ok(other) = conversion.convert(&file, usize::MAX) {
                let back = conversion.inverse().convert(&other, file.len());
                assert_eq!(back, Ok(conversion.returned(&file)));
                let back = back.unwrap();
                if conversion == Conversion::Narrow && file[STANDARD_AT] == 255 {
                    // The standard that 255 means: answers stay.
                    let [row, back] = [&file, &back].map(|file| Row::read(file).unwrap());
                    assert_eq!(back.profile(), row.profile());
                    assert_ne!(back.head.standard, 255);
                    assert_eq!(back.tokens, row.tokens);
                } else {
                    assert_eq!(back, file);
                }
                standards.insert((file[4], file[STANDARD_AT]));
                converted += 1;
            }
        }
        assert!(converted > 5_000);
        // Each standard that the format knows, in every language.
        let beyond = match conversion {
            Conversion::Widen => 1,
            Conversion::Narrow => 2,
        };
        assert_eq!(standards.len(), 18 + 3 * beyond);
    }
}

#[test]
fn every_answer_is_drawn() {
    for conversion in Conversion::BOTH {
        let mut refusals = BTreeSet::new();
        for file in files(conversion, 2) {
            let converted = conversion.convert(&file, usize::MAX);
            refusals.extend(converted.as_ref().err().map(|refusal| refusal.number));
            // No output decides anything but 6.
            let without = conversion.convert(&file, 0);
            match converted {
                Ok(_) => assert_eq!(without, Err(Refusal::plain(Refusal::SHORT_BUFFER))),
                Err(_) => assert_eq!(without, converted),
            }
        }
        let expected = match conversion {
            Conversion::Widen => BTreeSet::from([1, 2, 3, 4, 5]),
            Conversion::Narrow => BTreeSet::from([1, 2, 3, 4, 5, 7]),
        };
        assert_eq!(refusals, expected);
    }
}

#[test]
fn narrow_refuses_what_no_old_file_can_hold_and_nothing_else() {
    for file in files(Conversion::Narrow, 3) {
        let Ok(mut row) = Row::read(&file) else {
            continue;
        };
        // An old file has a number for every standard.
        row.head.standard = 0;
        let old = Format::old().write(&row);
        let holds = Format::old().read(&old).as_ref() == Ok(&row);
        assert_eq!(narrow(&file, usize::MAX).is_ok(), holds);
    }
}

#[test]
fn a_widened_file_gets_the_answer_of_the_old_one() {
    let mut random = Random::new(4);
    let mut seen = 0;
    for row in rows(4).take(3_000) {
        let length = NUMBERS_PER_TOKEN * row.tokens.len();
        let mut old = file(&mut random, Format::old(), row);
        // Few steps, so that no row takes long.
        old[8..11].fill(0);
        let Ok(wide) = widen(&old, usize::MAX) else {
            continue;
        };
        let [mut left, mut right] = [vec![7; length], vec![7; length]];
        let answer = oracle::answer_in(Format::old(), &old, &mut left);
        assert_eq!(oracle::answer(&wide, &mut right), answer);
        assert_eq!(left, right);
        seen += usize::from(matches!(answer, Answer::Accepted { .. }));
        let answer = numbers_in(Format::old(), &old, &mut left);
        assert_eq!(numbers(&wide, &mut right), answer);
        assert_eq!(left, right);
        // An old file is no longer read.
        let refused = oracle::answer(&old, &mut right);
        assert_eq!(refused.refusal(), Some(Refusal::INVALID_HEAD));
    }
    assert!(seen > 500);
}
