//! What the generated cases are good for.

use std::collections::BTreeSet;
use std::ops::RangeInclusive;

use harness::answer::{Answer, Refusal};
use harness::format::{Head, Row, Token};
use harness::generate::exhaustive::{ALPHABETS, ANGLES, Alphabet, BRACKETS};
use harness::generate::words::{KNOWN_WORDS, mixed};
use harness::generate::{Case, EXHAUSTIVE, STYLES, around, cases, exhaustive};
use harness::kind::Kind;
use harness::oracle;
use harness::profile::{LANGUAGES, language_number, standards};

fn answer(case: &Case) -> Answer {
    oracle::answer(&case.file, &mut vec![0; case.tree_len])
}

fn drawn(seed: u64, style: Option<&str>, count: usize) -> Vec<Case> {
    cases(seed, style).unwrap().take(count).collect()
}

#[test]
fn the_same_seed_gives_the_same_cases() {
    let names = STYLES.iter().map(|(name, _)| *name).chain([EXHAUSTIVE]);
    for style in names.map(Some).chain([None]) {
        assert_eq!(drawn(7, style, 100), drawn(7, style, 100));
        assert_ne!(drawn(7, style, 100), drawn(8, style, 100));
    }
    assert!(cases(7, Some("no such style")).is_none());
}

#[test]
fn every_answer_is_drawn() {
    let mut refusals = BTreeSet::new();
    let mut accepted = BTreeSet::new();
    for case in drawn(1, None, 40_000) {
        match answer(&case) {
            Answer::Accepted { .. } => {
                let head = Row::read(&case.file).unwrap().head;
                accepted.insert((head.language, head.standard, head.flag));
            }
            Answer::Refused { number, detail, .. } => {
                // The details of 4 are offsets.
                let offset = number == Refusal::INVALID_RECORD;
                refusals.insert((number, if offset { 0 } else { detail }));
            }
        }
    }
    let plain = [
        1, 2, 3, 4, 5, 6, 10, 12, 13, 14, 15, 16, 17, 18, 20, 21, 22, 25, 30,
    ];
    let expected: BTreeSet<(u32, u32)> = plain
        .map(|number| (number, 0))
        .into_iter()
        .chain((0..=2).map(|detail| (Refusal::UNEXPECTED_CLOSING_DELIMITER, detail)))
        .chain((1..=11).map(|detail| (Refusal::NOT_AVAILABLE_IN_PROFILE, detail)))
        .collect();
    // In particular 23 never comes.
    assert_eq!(refusals, expected);
    for language in LANGUAGES {
        for standard in standards(language) {
            for flag in [0, 1] {
                assert!(accepted.contains(&(language_number(language), standard, flag)));
            }
        }
    }
}

#[test]
fn every_kind_and_every_word_in_three_spellings_is_drawn() {
    let mut kinds = BTreeSet::new();
    let mut words = BTreeSet::new();
    for case in drawn(2, None, 20_000) {
        for token in Row::read(&case.file).into_iter().flat_map(|row| row.tokens) {
            kinds.insert(token.kind.number());
            words.insert(token.word);
        }
    }
    assert_eq!(kinds.len(), Kind::ALL.len());
    for word in KNOWN_WORDS {
        for spelled in [word.to_owned(), word.to_ascii_uppercase(), mixed(word)] {
            assert!(words.contains(&spelled), "{spelled}");
        }
        assert_ne!(mixed(word), word);
    }
}

#[test]
fn the_allowance_decides_25_and_nothing_else() {
    let mut steps_seen = 0;
    for case in drawn(3, None, 4_000) {
        let [below, at, above, none, greatest, short, longer, empty] = &around(&case)[..] else {
            assert!(around(&case).is_empty());
            continue;
        };
        let result = answer(at);
        let steps = result.steps();
        let passed = |allowance| Refusal::plain(Refusal::ALLOWANCE_PASSED).after(allowance);
        for same in [above, greatest, longer] {
            assert_eq!(answer(same), result);
        }
        if steps > 0 {
            assert_eq!(answer(below), passed(steps - 1));
            assert_eq!(answer(none), passed(0));
            steps_seen += 1;
        } else {
            assert_eq!(answer(none), result);
        }
        if at.tree_len > 0 {
            assert_eq!(answer(short).refusal(), Some(Refusal::SHORT_BUFFER));
            assert_eq!(answer(empty).refusal(), Some(Refusal::SHORT_BUFFER));
        }
    }
    assert!(steps_seen > 1_000);
}

#[test]
fn exhaustive_rows_are_all_rows() {
    for (alphabet, size) in ALPHABETS.into_iter().zip([13, 9, 7, 58]) {
        let of_lengths = |lengths| exhaustive::rows(alphabet.tokens(), lengths);
        let rows: Vec<_> = of_lengths(0..=3).collect();
        assert_eq!(rows.len(), 1 + size + size * size + size * size * size);
        let distinct: BTreeSet<String> = rows.iter().map(|row| format!("{row:?}")).collect();
        assert_eq!(distinct.len(), rows.len());
        assert!(rows.is_sorted_by_key(Vec::len));
        let longer: Vec<_> = of_lengths(2..=3).collect();
        assert_eq!(longer, rows[1 + size..]);
        assert_eq!(of_lengths(RangeInclusive::new(3, 2)).count(), 0);
    }
    assert_eq!(exhaustive::rows(Vec::new(), 0..=3).count(), 1);
    assert_eq!(exhaustive::rows(Vec::new(), 1..=3).count(), 0);
}

#[test]
fn the_long_rows_are_as_many_as_they_should_be() {
    let count = |alphabet: &Alphabet, lengths| exhaustive::rows(alphabet.tokens(), lengths).count();
    assert_eq!(
        count(&BRACKETS, 0..=6),
        1 + 9 + 81 + 729 + 6_561 + 59_049 + 531_441
    );
    assert_eq!(count(&ANGLES, 6..=7), 117_649 + 823_543);
}

#[test]
fn an_exhaustive_row_is_read_in_every_language_with_both_flags() {
    let tokens = vec![Token::word("A"), Token::plain(Kind::Star)];
    let mut heads = BTreeSet::new();
    for case in exhaustive::each_way(tokens.clone()) {
        assert_eq!(case.tree_len, 12);
        let row = Row::read(&case.file).unwrap();
        assert_eq!(row.tokens, tokens);
        let Head {
            language,
            standard,
            flag,
            ..
        } = row.head;
        assert!(heads.insert((language, standard, flag)));
    }
    assert_eq!(heads.len(), exhaustive::WAYS);
    assert!(
        heads
            .iter()
            .all(|&(language, standard, _)| language < 3 && standard == 255)
    );
}

#[test]
fn the_small_alphabet_has_the_shortest_row_of_22() {
    let [
        word,
        less,
        greater,
        left,
        right,
        left_bracket,
        right_bracket,
    ] = ANGLES.tokens().try_into().unwrap();
    let row = vec![
        word.clone(),
        left,
        left_bracket,
        word,
        less,
        right_bracket,
        greater,
        right,
    ];
    let [_, _, cpp, cpp_checked, ..] = exhaustive::each_way(row);
    assert_eq!(
        answer(&cpp).refusal(),
        Some(Refusal::MISMATCHED_CLOSING_DELIMITER)
    );
    assert_eq!(
        answer(&cpp_checked).refusal(),
        Some(Refusal::MISMATCHED_CLOSING_DELIMITER)
    );
}
