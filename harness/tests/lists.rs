//! The model of several types in one row: the examples worked out by hand, the
//! parts beside those that refusal 13 gives, and what generated rows are good
//! for.

use std::collections::BTreeSet;
use std::ops::Range;

use harness::answer::{Answer, NO_TOKEN, Refusal};
use harness::format::{Head, NODE_WIDTH, NUMBERS_PER_TOKEN, Row};
use harness::generate::random::Random;
use harness::generate::{DEFAULT_ALLOWANCE, dressed, exhaustive};
use harness::lists::generate::list;
use harness::lists::model::{NO_PART, Numbers, alone, numbers, read, type_name_read_list};
use harness::lists::worked::assert_worked;
use harness::lists::{cut, text};
use harness::oracle;

#[test]
fn the_worked_examples() {
    assert_worked(type_name_read_list);
}

/// Generated rows that pass the file checks, with an ample allowance.
fn rows(seed: u64, count: usize) -> impl Iterator<Item = Row> {
    let mut random = Random::new(seed);
    let drawn = (0..count).map(move |_| dressed(list(&mut random), &mut random));
    drawn.filter_map(|case| {
        let mut row = Row::read(&case.file).ok()?;
        row.head.allowance = DEFAULT_ALLOWANCE;
        Some(row)
    })
}

fn answer(row: &Row) -> Numbers {
    let mut tree = vec![0; NUMBERS_PER_TOKEN * row.tokens.len()];
    numbers(&row.write(), &mut tree)
}

/// The original refuses the comma at which a row is to be cut.
fn parts_by_refusals(row: &Row) -> Vec<Range<usize>> {
    let end = row.tokens.len();
    let mut parts = Vec::new();
    let mut begin = 0;
    loop {
        let (answer, _) = oracle::answer_with_tree(&alone(row, begin..end, 0));
        let Answer::Refused {
            number: Refusal::TOP_LEVEL_COMMA,
            token,
            ..
        } = answer
        else {
            parts.push(begin..end);
            return parts;
        };
        let comma = begin + token as usize;
        parts.push(begin..comma);
        begin = comma + 1;
    }
}

#[test]
fn rows_are_cut_at_the_commas_that_the_original_refuses() {
    let short = |alphabet, longest| {
        let rows = exhaustive::rows(text::tokens(alphabet), 0..=longest);
        let cases = rows.flat_map(exhaustive::each_way);
        cases.map(|case| Row::read(&case.file).expect("a good file"))
    };
    let chosen = short("A , < > >> ( ) [ ] $", 4).chain(short("A , < >", 7));
    let mut most = 0;
    for row in chosen.chain(rows(1, 20_000)) {
        let parts = cut::parts(&row);
        assert_eq!(parts, parts_by_refusals(&row), "{row:?}");
        most = most.max(parts.len());
    }
    assert!(most > 1_000);
}

#[test]
fn every_answer_is_drawn_in_the_first_part_and_in_later_ones() {
    let mut first = BTreeSet::new();
    let mut later = BTreeSet::new();
    let mut most = 0;
    for row in rows(2, 60_000) {
        let [number, .., part] = answer(&row);
        assert_ne!(part, NO_PART);
        match (number, part) {
            (0, parts) => most = most.max(parts),
            // Few rows pass an ample allowance: the next test lowers it.
            (Refusal::ALLOWANCE_PASSED, _) => {}
            (_, 0) => drop(first.insert(number)),
            (_, _) => drop(later.insert(number)),
        }
    }
    // Neither 13 nor 23.
    let expected = [10, 11, 12, 14, 15, 16, 17, 18, 20, 21, 22, 30, 40];
    assert_eq!(first, BTreeSet::from(expected));
    assert_eq!(later, BTreeSet::from(expected));
    assert!(most > 500);
}

#[test]
fn the_allowance_is_shared_from_the_first_part_on() {
    let mut seen = 0;
    for mut row in rows(3, 3_000) {
        let reading = read(&row);
        let steps = *reading.steps.last().expect("a part");
        if steps > 200 {
            continue;
        }
        let whole = answer(&row);
        for allowance in 0..=steps + 1 {
            row.head.allowance = allowance;
            // The first part that ends behind the allowance.
            let passed = reading.steps.iter().position(|&end| end > allowance);
            let expected = match passed {
                Some(part) => [
                    Refusal::ALLOWANCE_PASSED,
                    NO_TOKEN,
                    0,
                    allowance,
                    part as u32,
                ],
                None => whole,
            };
            assert_eq!(answer(&row), expected, "{row:?}");
            seen += usize::from(passed.is_some_and(|part| part > 0));
        }
    }
    assert!(seen > 1_000);
}

#[test]
fn each_tree_begins_where_a_token_node_has_token_0() {
    let head = Head {
        language: 1,
        standard: 3,
        flag: 1,
        allowance: DEFAULT_ALLOWANCE,
    };
    let tokens = text::tokens("A < b , c > , :: d , int ( * ) ( e , f )");
    let reading = read(&Row { head, tokens });
    let (records, _) = reading.tree.as_chunks::<NODE_WIDTH>();
    let first = |record: &[u32; NODE_WIDTH]| record[..2] == [0, 0];
    let begins: Vec<_> = (0..).zip(records).filter(|(_, r)| first(r)).collect();
    let places: Vec<usize> = begins.into_iter().map(|(place, _)| place).collect();
    // `A<b,c>` has 6 nodes and `::d` 2.
    assert_eq!(places, [0, 6, 8]);
}
