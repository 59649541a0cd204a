//! What can stand in a rule table, byte by byte, and what cannot. The bytes are worked out from document 02, C-11.

mod support;

use support::{table, worked_table};
use type_name::Item::{Any, Group, Kind, List, Rest, Word};
use type_name::{
    Item, LONGEST_WORD, MOST_ITEMS, MOST_RULES, RULE_HEAD_LENGTH, Refusal, RuleError, Table,
    TokenKind, TypeNameError,
};

#[test]
fn a_table_is_laid_out_rule_by_rule() {
    let rules: [&[Item]; 3] = [
        &[Word("A"), List],
        &[Kind(TokenKind::Star), Group, Any, Rest],
        &[Kind(TokenKind::End)],
    ];
    let table = table(&rules);
    #[rustfmt::skip]
    let bytes = [
        8, 0, 16, 1, 0, 1, b'A', 3,
        9, 0, 16, 1, 1, 21, 2, 4, 5,
        6, 0, 16, 1, 1, 57,
    ];
    assert_eq!(table.as_bytes(), bytes);
    assert_eq!(table.len(), 3);
    assert_eq!(Table::from_bytes(bytes), Ok(table.clone()));
    let read: Vec<Vec<Item>> = table.rules().map(Iterator::collect).collect();
    assert_eq!(read, rules);
}

#[test]
fn an_empty_file_is_a_table_without_rules() {
    let none = Table::from_bytes([]).unwrap();
    assert_eq!(none, Table::new());
    assert!(none.is_empty() && none.rules().next().is_none());
    assert!(!worked_table().is_empty());
}

fn pushed(items: &[Item]) -> Result<(), RuleError> {
    let mut table = worked_table();
    let before = table.clone();
    let done = table.push(items);
    assert_eq!(done.is_err(), table == before);
    done
}

#[test]
fn what_cannot_stand_is_reported() {
    assert_eq!(pushed(&[]), Err(RuleError::Empty));
    assert_eq!(pushed(&[Any; MOST_ITEMS]), Ok(()));
    // The rest is counted, too.
    let over = [&[Any; MOST_ITEMS][..], &[Rest]].concat();
    assert_eq!(pushed(&over[1..]), Ok(()));
    assert_eq!(pushed(&over), Err(RuleError::TooManyItems(17)));
    assert_eq!(pushed(&[Rest, Any]), Err(RuleError::RestNotLast(0)));
    assert_eq!(pushed(&[Any, Rest, Rest]), Err(RuleError::RestNotLast(1)));
    let word = Kind(TokenKind::Identifier);
    assert_eq!(pushed(&[List, word]), Err(RuleError::KindOfWords(1)));
    assert_eq!(pushed(&[Kind(TokenKind::ReservedKeyword)]), Ok(()));
}

#[test]
fn words_are_those_of_rows() {
    let longest = "w".repeat(LONGEST_WORD + 1);
    let length = |item, bytes| Err(RuleError::WordLength { item, bytes });
    let byte = |item, at| Err(RuleError::WordByte { item, at });
    assert_eq!(pushed(&[Any, Word("")]), length(1, 0));
    assert_eq!(pushed(&[Word(&longest)]), length(0, LONGEST_WORD + 1));
    assert_eq!(pushed(&[Word(&longest[1..])]), Ok(()));
    assert_eq!(pushed(&[Word("!~")]), Ok(()));
    assert_eq!(pushed(&[Word("a b")]), byte(0, 1));
    assert_eq!(pushed(&[Group, Word("ab\u{7f}")]), byte(1, 2));
    assert_eq!(pushed(&[Word("caf\u{e9}")]), byte(0, 3));
}

#[test]
fn a_table_has_at_most_256_rules() {
    let mut full = table(&[&[Any][..]; MOST_RULES]);
    assert_eq!(full.push(&[Any]), Err(RuleError::TableFull));
    assert_eq!(full.len(), MOST_RULES);
    let bytes = full.as_bytes();
    assert_eq!(Table::from_bytes(bytes), Ok(full.clone()));
    let over = [bytes, &bytes[..RULE_HEAD_LENGTH + 1]].concat();
    assert_eq!(Table::from_bytes(over), Err(invalid()));
}

fn invalid() -> Refusal {
    Refusal {
        error: TypeNameError::InvalidRuleTable,
        token: None,
        detail: 0,
        steps: 0,
    }
}

/// A record of these items' bytes.
fn record(items: &[u8]) -> Vec<u8> {
    let length = (RULE_HEAD_LENGTH + items.len()) as u16;
    [&length.to_le_bytes()[..], &[16, 1], items].concat()
}

#[test]
fn files_that_are_no_table_are_refused() {
    #[rustfmt::skip]
    let items: [&[u8]; 14] = [
        &[], &[6], &[4, 255], &[5, 4], &[4; 17], &[4, 4, 4, 4, 4, 4, 4, 4, 4, 4, 4, 4, 4, 4, 4, 4, 5],
        &[0], &[0, 0], &[0, 2, b'A'], &[0, 1, 32], &[0, 1, 127],
        &[1], &[1, 0], &[1, 58],
    ];
    for items in items {
        assert_eq!(
            Table::from_bytes(record(items)),
            Err(invalid()),
            "{items:?}"
        );
    }
    let good = record(&[0, 1, b'A', 3]);
    assert!(Table::from_bytes(good.clone()).is_ok());
    for cut in 1..good.len() {
        assert_eq!(Table::from_bytes(&good[..cut]), Err(invalid()), "{cut}");
    }
    let changed = |at: usize, byte| {
        let mut bytes = good.clone();
        bytes[at] = byte;
        bytes
    };
    for wrong in [
        changed(0, 7),
        changed(0, 9),
        changed(1, 1),
        changed(2, 0),
        changed(3, 0),
    ] {
        assert_eq!(
            Table::from_bytes(wrong.as_slice()),
            Err(invalid()),
            "{wrong:?}"
        );
    }
    assert_eq!(Table::from_bytes([good, vec![0]].concat()), Err(invalid()));
}

#[test]
fn faults_are_printed() {
    let printed = |items: &[Item]| pushed(items).unwrap_err().to_string();
    assert_eq!(
        printed(&[Rest, Any]),
        "item 0 is the rest, and others follow it"
    );
    assert_eq!(
        printed(&[Any; 20]),
        "the rule has 20 items, and not 1 to 16"
    );
    assert_eq!(
        invalid().to_string(),
        "refusal 50: the rule table is not of its form, or has more than 256 rules"
    );
}
