//! Which rules overlap, and the sequence that is shown. The expected answers are worked out from document 02, C-11.

mod support;

use support::{table, worked_table};
use type_name::Item::{Any, Group, Kind, List, Rest, Word};
use type_name::{
    ANSWER_LENGTH, Item, LONGEST_SEQUENCE, LONGEST_WORD, MOST_ITEMS, MOST_RULES, NO_TOKEN,
    TokenKind, type_name_overlap,
};

const DIRT: u8 = 0xa5;

/// The sequence shown for two rules; both ways round they overlap or they do not.
fn shown(earlier: &[Item], later: &[Item]) -> Option<Vec<u8>> {
    let one_way = table(&[earlier, later]);
    let mut pairs = one_way.overlaps();
    let other_way = table(&[later, earlier]).overlaps().count();
    let found = pairs.next().map(|overlap| overlap.as_bytes().to_vec());
    assert_eq!(other_way, usize::from(found.is_some()));
    assert_eq!(pairs.next(), None);
    found
}

/// The same, as items.
fn items(earlier: &[Item], later: &[Item]) -> Vec<String> {
    let table = table(&[earlier, later]);
    let overlap = table.overlaps().next().expect("a pair");
    let named = overlap.sequence().map(|item| format!("{item:?}"));
    named.collect()
}

#[test]
fn all_pairs_of_the_worked_table() {
    let table = worked_table();
    let pairs: Vec<(usize, usize, Vec<u8>)> = table
        .overlaps()
        .map(|overlap| (overlap.earlier, overlap.later, overlap.as_bytes().to_vec()))
        .collect();
    let lists = vec![0, 1, b'A', 3];
    let int = vec![0, 3, b'i', b'n', b't'];
    let expected = [
        (0, 1, lists.clone()),
        (0, 2, lists),
        (1, 2, vec![4]),
        (1, 3, int.clone()),
        (2, 3, int),
    ];
    assert_eq!(pairs, expected);
}

#[test]
fn an_overlap_s_sequence_is_items() {
    let table = table(&[
        &[Any, List, Rest],
        &[Word("Lane"), Any, Kind(TokenKind::Star)],
    ]);
    let overlap = table.overlaps().next().unwrap();
    let sequence: Vec<Item> = overlap.sequence().collect();
    assert_eq!(sequence, [Word("Lane"), List, Kind(TokenKind::Star)]);
}

#[test]
fn the_shown_sequence_is_as_long_as_the_longer_rule() {
    assert_eq!(shown(&[Rest], &[Rest]), Some(vec![]));
    assert_eq!(shown(&[Any, Rest], &[Any, Rest]), Some(vec![4]));
    assert_eq!(
        items(&[Word("A"), Rest], &[Word("A"), Word("b")]),
        ["Word(\"A\")", "Word(\"b\")"]
    );
    assert_eq!(items(&[Group, List, Rest], &[Rest]), ["Group", "List"]);
    assert_eq!(items(&[Rest], &[Group, List, Rest]), ["Group", "List"]);
    assert_eq!(items(&[Group, Any], &[Any, List]), ["Group", "List"]);
    assert_eq!(items(&[Any, Any], &[Any, Any]), ["Any", "Any"]);
}

#[test]
fn rules_that_do_not_overlap() {
    let star = Kind(TokenKind::Star);
    let single = [
        Word("A"),
        Word("a"),
        star,
        Kind(TokenKind::End),
        Group,
        List,
    ];
    for (at, earlier) in single.iter().enumerate() {
        for later in &single[at + 1..] {
            assert_eq!(shown(&[*earlier], &[*later]), None);
            assert_eq!(shown(&[Any, *earlier, Rest], &[*later, *later]), None);
        }
        assert!(shown(&[*earlier], &[*earlier]).is_some());
        assert!(shown(&[*earlier], &[Any]).is_some());
    }
    assert_eq!(shown(&[Any], &[Any, Any]), None);
    assert_eq!(shown(&[Any], &[Any, Any, Rest]), None);
}

#[test]
fn the_longest_sequence_has_room() {
    let word = "w".repeat(LONGEST_WORD);
    let longest = [Word(&word); MOST_ITEMS];
    let bytes = shown(&longest, &[Rest]).unwrap();
    assert_eq!(bytes.len(), LONGEST_SEQUENCE);
}

#[test]
fn all_pairs_come_once_and_then_no_more() {
    let table = table(&[&[Rest][..]; MOST_RULES]);
    let mut overlaps = table.overlaps();
    let pairs: Vec<_> = overlaps
        .by_ref()
        .map(|pair| (pair.earlier, pair.later))
        .collect();
    assert_eq!(pairs.len(), 256 * 255 / 2);
    assert!(pairs.is_sorted_by(|one, next| one < next));
    assert!(pairs.iter().all(|(earlier, later)| earlier < later));
    assert_eq!(overlaps.next(), None);
    assert_eq!(overlaps.next(), None);
}

/// The answer to a call with so much room; what is not written must stay.
fn answer(rules: &[u8], after: (u32, u32), room: usize) -> ([u32; ANSWER_LENGTH], Vec<u8>) {
    let mut sequence = [DIRT; 20];
    let mut answer = [7; ANSWER_LENGTH];
    let (lent, behind) = sequence.split_at_mut(room);
    let returned = type_name_overlap(rules, after.0, after.1, lent, &mut answer);
    assert!(behind.iter().all(|&byte| byte == DIRT));
    assert_eq!(returned, if answer[1] == NO_TOKEN { answer[0] } else { 0 });
    (answer, lent.to_vec())
}

#[test]
fn any_two_places_may_be_handed_in() {
    let worked = worked_table();
    let pair = |earlier, later| {
        let (answer, _) = answer(worked.as_bytes(), (earlier, later), 20);
        (answer[1], answer[2], answer[3])
    };
    assert_eq!(pair(0, 0), (0, 1, 4));
    assert_eq!(pair(0, 1), (0, 2, 4));
    assert_eq!(pair(0, 2), (1, 2, 1));
    assert_eq!(pair(0, u32::MAX), (1, 2, 1));
    assert_eq!(pair(1, 0), (1, 2, 1));
    assert_eq!(pair(1, 3), (2, 3, 5));
    for (earlier, later) in [(2, 3), (3, 0), (u32::MAX, 0), (2, u32::MAX)] {
        assert_eq!(pair(earlier, later), (0, 0, 0));
    }
}

#[test]
fn refusals_come_in_order_and_leave_the_sequence() {
    let worked = worked_table();
    let rules = worked.as_bytes();
    let untouched = vec![DIRT; 3];
    assert_eq!(
        answer(&[0], (0, 0), 3),
        ([50, NO_TOKEN, 0, 0], untouched.clone())
    );
    assert_eq!(answer(rules, (2, 3), 3), ([0; 4], untouched.clone()));
    assert_eq!(answer(rules, (0, 0), 3), ([6, NO_TOKEN, 0, 0], untouched));
    assert_eq!(
        answer(rules, (0, 0), 4),
        ([0, 0, 1, 4], vec![0, 1, b'A', 3])
    );
    assert_eq!(answer(rules, (0, 0), 6).1, [0, 1, b'A', 3, DIRT, DIRT]);
    assert_eq!(answer(&[], (0, 0), 0), ([0; 4], vec![]));
}

#[test]
fn as_many_numbers_of_the_answer_as_have_room_are_written() {
    let worked = worked_table();
    let whole = [0, 0, 1, 4];
    for room in 0..6 {
        let mut answer = [7; 6];
        let mut sequence = [DIRT; 4];
        type_name_overlap(worked.as_bytes(), 0, 0, &mut sequence, &mut answer[..room]);
        let written = room.min(ANSWER_LENGTH);
        assert_eq!(answer[..written], whole[..written]);
        assert!(answer[written..].iter().all(|&number| number == 7));
    }
}
