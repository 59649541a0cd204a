//! Which rule wins, and the order of the refusals. The expected answers are worked out from document 02, C-11.

mod support;

use support::{c, checked, cpp, row, table, unchecked, worked_table};
use type_name::Item::{Any, Group, Kind, List, Rest, Word};
use type_name::{
    ANSWER_LENGTH, CStandard, CppStandard, Head, Item, NO_TOKEN, Refusal, Row, Table, TokenKind,
    TypeNameError, parse_type_name, tree_for, type_name_match,
};

const DIRT: u32 = 0xdead_beef;

/// A table of no form.
const NO_TABLE: [u8; 1] = [0];

fn cpp17() -> Head {
    checked(cpp(CppStandard::Cpp17))
}

fn won(table: &Table, row: &Row) -> Result<usize, Refusal> {
    let mut buffer = tree_for(row.bytes());
    Ok(table.winner(row.bytes(), &mut buffer)?.place)
}

/// Whether the rule matches the row of a text.
fn takes(items: &[Item], text: &str) -> bool {
    let head = unchecked(cpp(CppStandard::Cpp17));
    match won(&table(&[items]), &row(head, text)) {
        Ok(place) => place == 0,
        Err(refusal) => {
            assert_eq!(refusal.error, TypeNameError::NoRuleMatches);
            false
        }
    }
}

#[test]
fn the_first_rule_that_matches_wins() {
    let worked = worked_table();
    assert_eq!(won(&worked, &row(cpp17(), "A<b>")), Ok(0));
    assert_eq!(won(&worked, &row(cpp17(), "int")), Ok(1));
    let turned = table(&[&[Word("int"), Any], &[Rest], &[Any]]);
    assert_eq!(won(&turned, &row(cpp17(), "int")), Ok(1));
}

#[test]
fn an_item_takes_one_node() {
    let star = Kind(TokenKind::Star);
    assert!(takes(&[Word("int"), star], "int *"));
    assert!(takes(&[Word("int"), Group, Group], "int (*)[3]"));
    assert!(takes(&[Word("A"), List], "A<b>"));
    assert!(takes(&[Any, Any, Any], "A<b> (c)"));
    assert!(!takes(&[Any], "int *"));
    assert!(!takes(&[Any, Any, Any], "int *"));
    // A word is no kind, a group is neither of its brackets, a list no angle.
    assert!(!takes(&[Word("int"), Word("*")], "int *"));
    assert!(!takes(&[Any, Kind(TokenKind::LeftParen)], "A (b)"));
    assert!(!takes(&[Any, Kind(TokenKind::Less)], "A<b>"));
    assert!(!takes(&[Any, List], "A (b)"));
    assert!(!takes(&[Any, Group], "A<b>"));
    assert!(!takes(&[Any, Kind(TokenKind::Ampersand)], "int *"));
}

#[test]
fn words_match_byte_for_byte() {
    assert!(takes(&[Word("Lane")], "Lane"));
    for other in ["lane", "Lan", "Lanes", "LANE"] {
        assert!(!takes(&[Word(other)], "Lane"), "{other}");
    }
}

#[test]
fn the_rest_takes_what_is_left() {
    for text in ["A", "A<b>", "A<b> *"] {
        assert!(takes(&[Rest], text));
        assert!(takes(&[Word("A"), Rest], text));
    }
    assert!(!takes(&[Word("A"), List, Rest], "A"));
    assert!(!takes(&[Word("A"), List], "A<b> *"));
}

/// The rest of `>>` that was left over, so that the rule below the lane rule won.
#[test]
fn the_lane_rule_misses_a_split_angle() {
    let lanes = table(&[&[Word("Lane"), List], &[Any, List, Rest]]);
    let text = "Lane<(Key<8>>2)>";
    let split = row(unchecked(cpp(CppStandard::Cpp17)), text);
    assert_eq!(won(&lanes, &split), Ok(1));
    let refusal = won(&lanes, &row(cpp17(), text)).unwrap_err();
    assert_eq!(refusal.error, TypeNameError::NoTypeName);
    assert_eq!(won(&lanes, &row(cpp17(), "Lane<8>")), Ok(0));
}

#[test]
fn the_tree_is_the_reader_s() {
    let row = row(cpp17(), "A<B<c>> *");
    let mut read = vec![DIRT; 100];
    let tree = parse_type_name(row.bytes(), &mut read).unwrap();
    let expected = (tree.steps(), tree.records().to_vec());
    let mut matched = vec![DIRT; 100];
    let any = table(&[&[Rest]]);
    let winner = any.winner(row.bytes(), &mut matched).unwrap();
    let found = (winner.tree.steps(), winner.tree.records().to_vec());
    assert_eq!((winner.place, found), (0, expected));
    assert_eq!(matched, read);
}

#[test]
fn no_rule_matches() {
    let int = row(checked(c(CStandard::C89)), "int");
    let mut buffer = vec![DIRT; 30];
    let refusal = Table::new().winner(int.bytes(), &mut buffer).unwrap_err();
    let expected = Refusal {
        error: TypeNameError::NoRuleMatches,
        token: None,
        detail: 0,
        steps: 2,
    };
    assert_eq!(refusal, expected);
    assert_eq!(
        refusal.to_string(),
        "refusal 51: no rule of the table matches"
    );
    assert_eq!(buffer, [0; 30]);
}

/// The answer's numbers; the buffer must be left so.
fn answer(file: &[u8], rules: &[u8], room: usize, left: u32) -> [u32; ANSWER_LENGTH] {
    let mut tree = vec![DIRT; room];
    let mut answer = [DIRT; ANSWER_LENGTH];
    let returned = type_name_match(file, rules, &mut tree, &mut answer);
    assert_eq!(returned, answer[0]);
    assert!(tree.iter().all(|&number| number == left));
    answer
}

#[test]
fn refusals_come_in_order() {
    let none = NO_TOKEN;
    let long = row(checked(c(CStandard::C89)), "long long");
    let (long, short) = (long.bytes(), 11);
    // The file, the buffer, the table, the row and the standard, the rules.
    assert_eq!(answer(&[], &NO_TABLE, 0, DIRT), [2, none, 0, 0]);
    assert_eq!(answer(long, &NO_TABLE, short, DIRT), [6, none, 0, 0]);
    assert_eq!(answer(long, &NO_TABLE, 12, 0), [50, none, 0, 0]);
    let empty = row(cpp17(), "");
    assert_eq!(answer(empty.bytes(), &NO_TABLE, 9, 0), [50, none, 0, 0]);
    assert_eq!(answer(empty.bytes(), &[], 9, 0), [10, none, 0, 0]);
    assert_eq!(answer(long, &[], 12, 0), [40, none, 1, 3]);
    let int = row(checked(c(CStandard::C89)), "int");
    assert_eq!(answer(int.bytes(), &[], 6, 0), [51, none, 0, 2]);
}

#[test]
fn as_many_numbers_of_the_answer_as_have_room_are_written() {
    let row = row(cpp17(), "A<b>");
    let (rules, whole) = (table(&[&[Group], &[Rest]]), [0, 4, 5, 1]);
    for room in 0..6 {
        let mut answer = [DIRT; 6];
        let mut tree = tree_for(row.bytes());
        let rules = rules.as_bytes();
        type_name_match(row.bytes(), rules, &mut tree, &mut answer[..room]);
        let written = room.min(ANSWER_LENGTH);
        assert_eq!(answer[..written], whole[..written]);
        assert!(answer[written..].iter().all(|&number| number == DIRT));
    }
}
