//! The Rust crate for users, held against the original: what it answers, the nodes it gives and the row files it lays out.

use harness::answer::{Answer, NO_TOKEN};
use harness::format;
use harness::generate::{Case, cases};
use harness::listing::listing;
use harness::oracle;
use harness::profile::ARCHIVE_STANDARD;
use type_name::{
    Head, HostLanguageProfile, Refusal, Row, StructureCheck, TokenKind, parse_type_name,
};

const CASES: usize = 100_000;

fn drawn() -> impl Iterator<Item = Case> {
    cases(20_261_115, None).unwrap().take(CASES)
}

fn refused(refusal: Refusal) -> Answer {
    Answer::Refused {
        number: refusal.error.number(),
        token: refusal.token.unwrap_or(NO_TOKEN),
        detail: refusal.detail,
        steps: refusal.steps,
    }
}

/// What the program `listing` would print.
fn listed(case: &Case) -> String {
    let mut buffer = vec![0; case.tree_len];
    let tree = match parse_type_name(&case.file, &mut buffer) {
        Ok(tree) => tree,
        Err(refusal) => return format!("{}\n", refused(refusal)),
    };
    let mut text = format!("ok {} {}\n", tree.node_count(), tree.steps());
    for (level, node) in tree.with_levels() {
        let letter = node.kind.letter();
        text += &format!("{level} {letter} {} {}\n", node.token.number, node.extent);
    }
    text
}

#[test]
fn answers_and_nodes_are_the_originals() {
    for case in drawn() {
        let mut tree = vec![0; case.tree_len];
        let answer = oracle::answer(&case.file, &mut tree);
        assert_eq!(listed(&case), listing(answer, &tree));
    }
}

/// The crate's profile of the same name as the harness's.
fn profile(row: &format::Row) -> HostLanguageProfile {
    let name = format!("{:?}", row.profile());
    let mut all = HostLanguageProfile::all();
    all.find(|profile| format!("{profile:?}") == name).unwrap()
}

/// The crate's file of a row.
fn laid_out(row: &format::Row) -> Vec<u8> {
    let mut file = Row::new(Head {
        profile: profile(row),
        structure: StructureCheck::try_from(u32::from(row.head.flag)).unwrap(),
        allowance: row.head.allowance,
    });
    for token in &row.tokens {
        let kind = TokenKind::try_from(u32::from(token.kind.number())).unwrap();
        assert_eq!(format!("{kind:?}"), format!("{:?}", token.kind));
        file.push(kind, &token.word, token.start..token.end)
            .unwrap();
    }
    file.bytes().to_vec()
}

#[test]
fn row_files_are_the_harnesss() {
    let mut compared = 0;
    for case in drawn() {
        // The crate has a name for each standard and none for 254 and 255.
        match format::Row::read(&case.file) {
            Ok(row) if row.head.standard < ARCHIVE_STANDARD => {
                assert_eq!(laid_out(&row), case.file);
                compared += 1;
            }
            _ => {}
        }
    }
    assert!(compared > CASES / 2);
}
