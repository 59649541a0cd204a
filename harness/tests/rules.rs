//! The model of rule tables: the examples worked out by hand, and what the
//! search in the product of two rules finds beside all short sequences.

use harness::rules::automaton::{matches, shortest, told_apart};
use harness::rules::format::{self, Item, Rule, of_text};
use harness::rules::model::{Table, type_name_match, type_name_overlap};
use harness::rules::worked::Entries;

#[test]
fn the_worked_examples() {
    let model = Entries {
        type_name_match,
        type_name_overlap,
    };
    model.assert_worked();
}

/// All lists of so many elements.
fn lists<T: Clone>(elements: &[T], length: usize) -> Vec<Vec<T>> {
    let mut all = vec![Vec::new()];
    for _ in 0..length {
        let longer = |list: &Vec<T>| {
            let with = |element: &T| [&list[..], std::slice::from_ref(element)].concat();
            elements.iter().map(with).collect::<Vec<_>>()
        };
        all = all.iter().flat_map(longer).collect();
    }
    all
}

/// All rules of up to two items over few of them, with and without `rest`.
fn rules() -> Vec<Rule> {
    let items = &of_text("A b #2 group list any")[0];
    let closed = (0..=2).flat_map(|length| lists(items, length));
    let both = |rule: Rule| [[&rule[..], &[Item::Rest]].concat(), rule];
    let rules = closed.flat_map(both);
    rules.filter(|rule| !rule.is_empty()).collect()
}

#[test]
fn pairs_and_what_is_shown_are_those_of_all_sequences() {
    let rules = rules();
    let items = of_text("A b #2");
    let nodes = told_apart(&items[0], &[]);
    let sequences: Vec<_> = (0..=3).flat_map(|length| lists(&nodes, length)).collect();
    let matched = |rule: &Vec<Item>| -> Vec<bool> {
        let sequences = sequences.iter();
        sequences.map(|nodes| matches(rule, nodes)).collect()
    };
    let matched: Vec<_> = rules.iter().map(matched).collect();
    let mut overlapping = 0;
    for (i, one) in rules.iter().enumerate() {
        for (j, other) in rules.iter().enumerate().skip(i + 1) {
            let both = matched[i]
                .iter()
                .zip(&matched[j])
                .position(|(a, b)| *a && *b);
            let length = both.map(|at| sequences[at].len());
            assert_eq!(shortest(one, other), length, "{one:?} {other:?}");
            overlapping += usize::from(length.is_some());
            let table = Table::read(&format::file(&[one.clone(), other.clone()])).unwrap();
            let matched = table.pairs().iter().map(|&pair| table.matches_shown(pair));
            let expected = length.map(|_| true).into_iter();
            assert!(matched.eq(expected), "{one:?} {other:?}");
        }
    }
    let pairs = rules.len() * (rules.len() - 1) / 2;
    assert!(overlapping > 500 && pairs - overlapping > 500);
}
