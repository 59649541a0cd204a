//! The rows that document 01 works out.

use harness::answer::{Answer, Refusal};
use harness::format::{Head, Row, Token};
use harness::listing::{listing, listing_of};
use harness::oracle;
use harness::profile::{HostLanguage, language_number, profile};
use harness::worked_rows::{Expected, WORKED_ROWS, check};

#[test]
fn every_worked_row_has_every_number_given() {
    let (lines, all) = check();
    let differing: Vec<_> = lines.iter().filter(|l| !l.starts_with("agrees")).collect();
    assert!(all, "{differing:#?}");
    assert!(lines.len() > WORKED_ROWS.len());
}

/// The listing of a text for Cpp17 and allowance 1,000.
fn listed(text: &str, flag: u8) -> String {
    let cpp17 = 3;
    let head = Head {
        language: language_number(HostLanguage::Cpp),
        standard: cpp17,
        flag,
        allowance: 1_000,
    };
    let profile = profile(HostLanguage::Cpp, cpp17).unwrap();
    let tokens = harness::lexed::tokens(text, profile).unwrap();
    let (answer, tree) = oracle::answer_with_tree(&Row { head, tokens }.write());
    listing(answer, &tree)
}

#[test]
fn the_listing_of_the_example() {
    let lines = [
        "ok 10 8", "0 T 0 1", "0 L 1 8", "1 A 2 7", "1 G 2 6", "2 T 3 1", "2 L 4 3", "3 A 5 2",
        "3 T 5 1", "2 T 7 1", "0 T 9 1", "",
    ];
    assert_eq!(listed("Lane<(Key<8>>2)>", 0), lines.join("\n"));
    assert_eq!(listed("Lane<(Key<8>>2)>", 1), "no 30 65535 0 14\n");
}

#[test]
fn the_listing_program_has_a_limit_of_its_own() {
    // Of so many words of 255 letters, 275 bytes each, and another.
    let listed = |words: usize, last: usize| {
        let head = Head {
            language: 0,
            standard: 0,
            flag: 0,
            allowance: 1_000,
        };
        let mut tokens = vec![Token::word(&"w".repeat(255)); words];
        tokens.push(Token::word(&"w".repeat(last)));
        let file = Row { head, tokens }.write();
        let (answer, tree) = oracle::answer_with_tree(&file);
        assert_eq!(answer.refusal(), None);
        let listed = listing_of(&file);
        let whole = listed == listing(answer, &tree);
        assert!(whole || listed == "no 1 65535 0 0\n");
        (file.len(), whole)
    };
    assert_eq!(listed(238, 55), (65_536, true));
    assert_eq!(listed(238, 56), (65_537, false));
    assert_eq!(listed(254, 119), (70_000, false));
}

#[test]
fn a_wrong_number_is_found() {
    let accepted = Answer::Accepted { nodes: 0, steps: 2 };
    let refused = Refusal::at(Refusal::UNEXPECTED_ANGLE, 3).after(0);
    let given = |nodes, steps| Expected::Accepted { nodes, steps };
    let expected = |number, token, detail, steps| Expected::Refused {
        number,
        token,
        detail,
        steps,
    };
    assert!(given(Some(0), Some(2)).holds(accepted, &[]));
    assert!(!given(Some(1), None).holds(accepted, &[]));
    assert!(!given(None, Some(3)).holds(accepted, &[]));
    assert!(!given(None, None).holds(refused, &[]));
    assert!(expected(12, 3, 0, Some(0)).holds(refused, &[]));
    assert!(!expected(13, 3, 0, None).holds(refused, &[]));
    assert!(!expected(12, 4, 0, None).holds(refused, &[]));
    assert!(!expected(12, 3, 1, None).holds(refused, &[]));
    assert!(!expected(12, 3, 0, Some(1)).holds(refused, &[]));
    assert!(!expected(12, 3, 0, None).holds(accepted, &[]));
}

/// Counted by hand after document 01: each token or bracket is one entry to
/// `parse_node`, and what structure enters is named beside the row.
#[test]
fn each_of_the_five_entries_counts() {
    let rows = [
        // validate_c_family_type
        ("int", 1 + 1),
        // and validate_abstract_declarator, once and twice
        ("int(*)", 3 + 1 + 1),
        ("int(*(*))", 5 + 1 + 2),
        // and validate_expression
        ("int[8]", 3 + 1 + 1),
        // a parameter list is checked by validate_c_family_type again
        ("int(int,int)", 5 + 1 + 2),
    ];
    for (text, steps) in rows {
        let listed = listed(text, 1);
        let first = listed.lines().next().unwrap();
        assert!(first.starts_with("ok "), "{text}: {first}");
        assert!(first.ends_with(&format!(" {steps}")), "{text}: {first}");
    }
}

#[test]
fn shipped_example_is_document_01s_listing() {
    let file = include_bytes!("../../examples/lane.row");
    let (answer, tree) = oracle::answer_with_tree(file);
    let expected = WORKED_ROWS
        .iter()
        .filter_map(|worked| match worked.expected {
            Expected::Listing(whole) if worked.flag == 0 => Some(whole),
            _ => None,
        });
    assert_eq!(expected.collect::<Vec<_>>(), [listing(answer, &tree)]);
}
