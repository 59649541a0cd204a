//! The model of the reading with named templates: the examples worked out by
//! hand, the reading beside the original's where both are due, and what generated
//! rows and name lists are good for.

use std::collections::{BTreeMap, BTreeSet};

use harness::answer::{Answer, NO_TOKEN, Refusal};
use harness::format::{NODE_WIDTH, NUMBERS_PER_TOKEN, Row};
use harness::generate::dressed;
use harness::generate::random::Random;
use harness::named::agreement::is_same;
use harness::named::generate::row;
use harness::named::model::{answer, type_name_read_named};
use harness::named::name_lists::name_list;
use harness::named::names::Names;
use harness::named::plain::{self, is_plain};
use harness::named::worked::assert_worked;
use harness::oracle;
use harness::profile::HostLanguage;

/// Few steps, so that no row takes long.
const AMPLE: u32 = 2_000;

#[test]
fn the_worked_examples() {
    assert_worked(type_name_read_named);
}

/// Rows that pass the file checks and a name list for each.
fn drawn(seed: u64, count: usize) -> impl Iterator<Item = (Row, &'static str, Vec<u8>)> {
    let mut random = Random::new(seed);
    let pairs = (0..count).map(move |_| {
        let case = dressed(row(&mut random), &mut random);
        let mut row = Row::read(&case.file).ok()?;
        row.head.allowance = AMPLE;
        let names = name_list(&mut random, &row);
        Some((row, names.sort, names.file))
    });
    pairs.flatten()
}

fn answered(row: &Row, names: &[u8]) -> (Answer, Vec<u32>) {
    let mut tree = vec![0; NUMBERS_PER_TOKEN * row.tokens.len()];
    (answer(&row.write(), names, &mut tree), tree)
}

#[test]
fn a_list_is_as_good_as_its_sort_says() {
    let mut seen: BTreeMap<&str, BTreeSet<bool>> = BTreeMap::new();
    for (_, sort, names) in drawn(1, 60_000) {
        let passes = Names::read(&names).is_some();
        seen.entry(sort).or_default().insert(passes);
    }
    for (sort, passes) in &seen {
        let expected: &[bool] = match sort.split(',').next() {
            Some("good") => &[true],
            Some("bad") => &[false],
            _ => &[false, true],
        };
        let passes: Vec<bool> = passes.iter().copied().collect();
        assert_eq!(passes, expected, "{sort}");
    }
    // The good, four about the limits, sixteen bad and two of either sort.
    assert_eq!(seen.len(), 23);
}

#[test]
fn every_answer_is_drawn_and_never_21_to_23() {
    let mut seen = BTreeSet::new();
    for (row, _, names) in drawn(2, 60_000) {
        let (answer, _) = answered(&row, &names);
        seen.insert(answer.refusal().unwrap_or(0));
    }
    // Few rows pass an ample allowance: the next test lowers it.
    seen.remove(&Refusal::ALLOWANCE_PASSED);
    let expected = [0, 8, 10, 11, 12, 13, 14, 15, 16, 17, 18, 20, 26, 27, 30, 40];
    assert_eq!(seen, BTreeSet::from(expected));
}

#[test]
fn the_steps_of_reading_are_at_most_the_tokens() {
    for (mut row, _, names) in drawn(3, 20_000) {
        row.head.flag = 0;
        let (answer, _) = answered(&row, &names);
        assert!(answer.steps() as usize <= row.tokens.len(), "{row:?}");
        if let Answer::Accepted { nodes, steps } = answer {
            assert!(nodes >= steps, "{row:?}");
        }
    }
}

#[test]
fn an_allowance_below_the_steps_is_passed() {
    let mut seen = 0;
    for (mut row, _, names) in drawn(4, 3_000) {
        let whole = answered(&row, &names);
        let steps = whole.0.steps();
        if steps > 200 {
            continue;
        }
        for allowance in 0..=steps + 1 {
            row.head.allowance = allowance;
            let given = answered(&row, &names);
            if allowance < steps {
                let passed = [Refusal::ALLOWANCE_PASSED, NO_TOKEN, 0, allowance];
                assert_eq!(given.0.numbers(), passed, "{row:?}");
                assert!(given.1.iter().all(|&number| number == 0), "{row:?}");
                seen += 1;
            } else {
                assert_eq!(given, whole, "{row:?}");
            }
        }
    }
    assert!(seen > 10_000);
}

/// Rows of C++ with good names.
fn good(seed: u64, count: usize) -> impl Iterator<Item = (Row, Names, Vec<u8>)> {
    drawn(seed, count).filter_map(|(row, _, file)| {
        let names = Names::read(&file)?;
        (row.profile().language() == HostLanguage::Cpp).then_some((row, names, file))
    })
}

#[test]
fn a_row_without_a_list_is_read_as_the_original_reads_brackets() {
    let mut seen = 0;
    for (row, names, file) in good(5, 30_000) {
        if is_plain(&row, &names) {
            let mut tree = vec![0; NUMBERS_PER_TOKEN * row.tokens.len()];
            let plain = plain::answer(&row, &mut tree);
            assert_eq!(answered(&row, &file), (plain, tree), "{row:?}");
            seen += 1;
        }
    }
    assert!(seen > 5_000);
}

#[test]
fn names_for_all_lists_of_a_row_without_failed_tries_change_nothing() {
    let mut seen = 0;
    for (row, names, file) in good(6, 60_000) {
        let (old, tree) = oracle::answer_with_tree(&row.write());
        let Answer::Accepted { nodes, .. } = old else {
            continue;
        };
        let records = &tree[..NODE_WIDTH * nodes as usize];
        if is_same(&row, &names, records) {
            assert_eq!(answered(&row, &file), (old, tree), "{row:?}");
            seen += usize::from(!is_plain(&row, &names));
        }
    }
    assert!(seen > 2_000);
}
