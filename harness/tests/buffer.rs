//! What is left in a tree buffer that held something before.

use HostLanguage::{C, Cpp};

use harness::answer::{Answer, Refusal};
use harness::format::{
    Head, MOST_BYTES, MOST_NESTING, MOST_TOKENS, NODE_WIDTH, NUMBERS_PER_TOKEN, Row, Token,
};
use harness::generate::cases;
use harness::kind::Kind;
use harness::profile::{ARCHIVE_STANDARD, HostLanguage, language_number, profile};
use harness::{lexed, oracle};

const DIRT: u32 = 0xDEAD_BEEF;

/// Whether the buffer is as document 01 wants it after an answer.
fn buffer_is_right(answer: Answer, tree: &[u32]) -> bool {
    match answer {
        Answer::Refused { number: 1..=6, .. } => tree.iter().all(|&number| number == DIRT),
        Answer::Refused { .. } => tree.iter().all(|&number| number == 0),
        Answer::Accepted { nodes, .. } => {
            let (records, rest) = tree.split_at(NODE_WIDTH * nodes as usize);
            let extents = records.chunks(NODE_WIDTH).map(|record| record[2]);
            extents.clone().all(|extent| extent > 0)
                && extents.sum::<u32>() >= nodes
                && !records.contains(&DIRT)
                && rest.iter().all(|&number| number == 0)
        }
    }
}

fn row(language: HostLanguage, flag: u8, tokens: Vec<Token>) -> Row {
    let head = Head {
        language: language_number(language),
        standard: ARCHIVE_STANDARD,
        flag,
        allowance: 1_000,
    };
    Row { head, tokens }
}

fn text(language: HostLanguage, flag: u8, text: &str) -> Row {
    let profile = profile(language, ARCHIVE_STANDARD).unwrap();
    row(language, flag, lexed::tokens(text, profile).unwrap())
}

/// A row for every refusal from 10 on that occurs (23 does not), with the
/// token and the detail that document 01 gives it.
fn refused_rows() -> Vec<(Refusal, Row)> {
    let ends = [Kind::Star, Kind::End, Kind::End].map(Token::plain);
    let mut stopped = text(C, 1, "int");
    stopped.head.allowance = 1;
    let mut too_deep = text(C, 1, "int");
    let nested =
        [Kind::LeftParen, Kind::RightParen].map(|kind| vec![Token::plain(kind); MOST_NESTING + 1]);
    too_deep.tokens.extend(nested.concat());
    vec![
        (Refusal::plain(10), row(C, 1, Vec::new())),
        (Refusal::at(11, 1), text(C, 1, "int)")),
        (Refusal::at(11, 3).detailed(1), text(C, 1, "a(b]")),
        (Refusal::at(11, 4).detailed(2), text(C, 1, "a([b)")),
        (Refusal::at(12, 3), text(Cpp, 1, "A<b>>")),
        (Refusal::at(12, 1), text(C, 1, "A<b>")),
        (Refusal::at(13, 1), text(C, 1, "a,b,c")),
        (Refusal::at(14, 1), row(C, 1, ends.to_vec())),
        (Refusal::at(15, 1), text(C, 1, "a([b]")),
        (Refusal::at(15, 2), text(C, 1, "a([")),
        (Refusal::at(16, 1), text(Cpp, 1, "A<b>::C<d")),
        (Refusal::plain(17), text(C, 1, "8")),
        (Refusal::plain(18), text(C, 1, "int&")),
        (Refusal::plain(20), too_deep),
        (Refusal::plain(21), text(Cpp, 1, "Slots<(Lanes<8)>")),
        (Refusal::plain(22), text(Cpp, 1, "X<([A<b]>c)>")),
        (Refusal::plain(25), stopped),
        (Refusal::plain(30), text(C, 1, "long long long")),
        (
            Refusal::plain(40).detailed(3),
            text(C, 1, "unsigned _BitInt(8)"),
        ),
    ]
}

#[test]
fn refusals_from_10_on_fill_it_with_zeros() {
    for (wanted, row) in refused_rows() {
        for more in [0, 7] {
            let mut tree = vec![DIRT; NUMBERS_PER_TOKEN * row.tokens.len() + more];
            let answer = oracle::answer(&row.write(), &mut tree);
            assert_eq!(answer, wanted.after(answer.steps()));
            assert_eq!(answer.steps() == 0, wanted.number <= 18, "{answer}");
            assert!(tree.iter().all(|&number| number == 0), "{answer}");
        }
    }
}

#[test]
fn refusals_to_6_leave_it_alone() {
    let good = text(C, 1, "int").write();
    let with = |place: usize, byte| {
        let mut file = good.clone();
        file[place] = byte;
        file
    };
    let long_row = row(C, 1, vec![Token::word("int"); MOST_TOKENS + 1]).write();
    let cases = [
        (1, vec![0; MOST_BYTES + 1], 9),
        (2, with(6, 2), 9),
        (3, with(4, 3), 9),
        (4, with(11, 11), 9),
        (5, long_row, 7_000),
        (6, good.clone(), NUMBERS_PER_TOKEN - 1),
    ];
    for (wanted, file, length) in cases {
        let mut tree = vec![DIRT; length];
        let answer = oracle::answer(&file, &mut tree);
        assert_eq!(answer.refusal(), Some(wanted));
        assert!(tree.iter().all(|&number| number == DIRT), "{wanted}");
    }
}

#[test]
fn a_tree_is_followed_by_zeros() {
    let file = text(C, 1, "int").write();
    let mut tree = [DIRT; 9];
    let answer = oracle::answer(&file, &mut tree);
    assert_eq!(answer, Answer::Accepted { nodes: 1, steps: 2 });
    assert_eq!(tree, [0, 0, 1, 0, 0, 0, 0, 0, 0]);
}

#[test]
fn generated_cases_leave_it_right() {
    for case in cases(4, None).unwrap().take(8_000) {
        let mut tree = vec![DIRT; case.tree_len];
        let answer = oracle::answer(&case.file, &mut tree);
        assert!(buffer_is_right(answer, &tree), "{answer}");
    }
}
