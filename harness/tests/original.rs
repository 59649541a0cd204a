//! What this crate says of the original's text, held against that text, and
//! the two copies held against each other.

use std::collections::BTreeSet;
use std::path::PathBuf;

use harness::copies;
use harness::format::Row;
use harness::generate::{cases, words::KNOWN_WORDS};
use harness::kind::Kind;

fn original(name: &str) -> String {
    let root = PathBuf::from(std::env::var_os("ROUP_SRC").expect("ROUP_SRC is set"));
    std::fs::read_to_string(root.join("src/host").join(name)).unwrap()
}

#[test]
fn kinds_are_numbered_by_their_place() {
    let text = original("lexer.rs");
    let (_, after) = text.split_once("pub enum TokenKind {").unwrap();
    let (variants, _) = after.split_once("\n}").unwrap();
    let name = |line: &str| line.split(['(', ',']).next().unwrap().to_owned();
    let names: Vec<String> = variants.split_whitespace().map(name).collect();
    let ours: Vec<String> = Kind::ALL.iter().map(|kind| format!("{kind:?}")).collect();
    assert_eq!(ours, names);
    assert_eq!(Kind::Identifier.number(), 0);
    assert_eq!(Kind::End.number(), 57);
}

#[test]
fn the_known_words_are_those_the_original_compares_with() {
    let text = original("type_name.rs");
    let is_word = |text: &&str| {
        !text.is_empty() && text.bytes().all(|b| b.is_ascii_alphanumeric() || b == b'_')
    };
    // Every second part between quotes is inside of them.
    let quoted = text
        .lines()
        .flat_map(|line| line.split('"').skip(1).step_by(2));
    let words: BTreeSet<&str> = quoted.filter(is_word).collect();
    assert_eq!(words, BTreeSet::from(KNOWN_WORDS));
}

#[test]
fn the_copies_agree() {
    let mut compared = 0;
    for case in cases(1, None).unwrap() {
        let Ok(row) = Row::read(&case.file) else {
            continue;
        };
        let Some(agree) = copies::agree(&row) else {
            continue;
        };
        assert!(agree, "{row:?}");
        compared += 1;
        if compared == 20_000 {
            break;
        }
    }
}
