//! The replay list: what it holds, and that the program reads this one.

use std::collections::BTreeSet;

use harness::format::{
    ALLOWANCE_AT, Format, HEAD_LENGTH, Head, MOST_BYTES, NUMBERS_PER_TOKEN, Row, TOKEN_LENGTH,
};
use harness::generate::DEFAULT_ALLOWANCE;
use harness::lexed;
use harness::profile::{self, HostLanguage, NEWER_STANDARD};
use harness::replay::list;

/// The list that the program reads.
const PATH: &str = concat!(env!("CARGO_MANIFEST_DIR"), "/../crates/replay/stdin");

/// A case as the list has it.
struct Stored {
    file: Vec<u8>,
    buffer: usize,
    fill: u32,
    answer: [u32; 4],
    tree: Vec<u32>,
    behind: u32,
}

/// Takes a list apart, written from the format's description alone.
fn stored(list: &[u8]) -> Vec<Stored> {
    let mut rest = list;
    let mut cases = Vec::new();
    while !rest.is_empty() {
        let (head, after) = rest.split_at(36);
        let number = |at: usize| u32::from_le_bytes(head[4 * at..4 * at + 4].try_into().unwrap());
        let (file, after) = after.split_at(number(0) as usize);
        let (tree, after) = after.split_at(4 * number(7) as usize);
        cases.push(Stored {
            file: file.to_vec(),
            buffer: number(1) as usize,
            fill: number(2),
            answer: [3, 4, 5, 6].map(number),
            tree: tree
                .as_chunks()
                .0
                .iter()
                .map(|bytes| u32::from_le_bytes(*bytes))
                .collect(),
            behind: number(8),
        });
        rest = after;
    }
    cases
}

/// How a number stands to another one.
fn order(number: u64, other: u64) -> &'static str {
    match number as i64 - other as i64 {
        -1 => "one less",
        0 => "equal",
        1.. => "more",
        _ => "less",
    }
}

#[test]
fn the_list_holds_every_answer_and_is_the_one_that_is_replayed() {
    let list = list();
    assert!(
        std::fs::read(PATH).unwrap() == list,
        "write it anew: harness replay"
    );
    let cases = stored(&list);
    assert!(cases.len() > 6_000);
    let wanted = std::fs::read_to_string(PATH.replace("stdin", "stdout")).unwrap();
    assert_eq!(wanted, format!("{} replayed, 0 differ\n", cases.len()));

    let mut refusals = BTreeSet::new();
    let mut details = BTreeSet::new();
    let mut profiles = BTreeSet::new();
    let mut buffers = BTreeSet::new();
    let mut allowances = BTreeSet::new();
    for case in &cases {
        let [number, _, detail, steps] = case.answer;
        assert_ne!(case.fill, 0);
        let is_kept = (1..=6).contains(&number);
        if case.buffer > case.tree.len() {
            assert_eq!(case.behind, if is_kept { case.fill } else { 0 });
        }
        assert!(case.tree.is_empty() || number == 0);
        refusals.insert(number);
        details.insert((number, detail));
        let Ok(row) = Row::read(&case.file) else {
            continue;
        };
        let head = row.head;
        profiles.insert((head.language, head.standard, head.flag, number == 0));
        let needed = NUMBERS_PER_TOKEN * row.tokens.len();
        buffers.insert((number == 0, order(case.buffer as u64, needed as u64)));
        if number == 0 {
            let steps = case.answer[2];
            allowances.insert(order(head.allowance.into(), steps.into()));
        }
        if number == 25 {
            assert_eq!(steps, head.allowance);
        }
    }
    let every = [
        0, 1, 2, 3, 4, 5, 6, 10, 11, 12, 13, 14, 15, 16, 17, 18, 20, 21, 22, 25, 30, 40,
    ];
    assert_eq!(refusals, BTreeSet::from(every));
    assert!((0..=2).all(|detail| details.contains(&(11, detail))));
    assert!((1..=11).all(|detail| details.contains(&(40, detail))));
    // 18 standards, 254 and 255 in three languages, both flags, accepted and
    // not.
    assert_eq!(profiles.len(), (18 + 2 * 3) * 2 * 2);
    for wanted in ["equal", "more"] {
        assert!(buffers.contains(&(true, wanted)) && allowances.contains(wanted));
    }
    assert!(buffers.contains(&(false, "one less")));
    // One step less than a row takes is 25 after as many.
    let one_less = |case: &&Stored| {
        let with = |allowance: u32| {
            let mut file = case.file.clone();
            file[ALLOWANCE_AT..HEAD_LENGTH].copy_from_slice(&allowance.to_le_bytes());
            file
        };
        case.answer[0] == 25
            && cases.iter().any(|other| {
                other.answer[0] == 0
                    && other.answer[2] == case.answer[3] + 1
                    && other.file == with(other.answer[2])
            })
    };
    assert!(cases.iter().filter(one_less).count() > 10);
}

/// The answers' numbers of the stored files that hold this word and nothing
/// else.
fn answers_of(cases: &[Stored], word: &[u8]) -> BTreeSet<u32> {
    let record = HEAD_LENGTH + TOKEN_LENGTH;
    let holds = |case: &&Stored| {
        case.file.len() == record + word.len()
            && case.file[HEAD_LENGTH + 2..HEAD_LENGTH + 4] == [0, 0]
            && case.file[record..] == *word
    };
    let found = cases.iter().filter(holds);
    found.map(|case| case.answer[0]).collect()
}

#[test]
fn words_are_replayed_at_their_limits() {
    let cases = stored(&std::fs::read(PATH).unwrap());
    let accepted = BTreeSet::from([0]);
    let refused = BTreeSet::from([4]);
    for (length, wanted) in [(254, &accepted), (255, &accepted), (256, &refused)] {
        assert_eq!(answers_of(&cases, &vec![b'w'; length]), *wanted);
    }
    for (byte, wanted) in [
        (32, &refused),
        (33, &accepted),
        (126, &accepted),
        (127, &refused),
    ] {
        assert_eq!(answers_of(&cases, &[byte]), *wanted);
        assert_eq!(answers_of(&cases, &[b'a', byte]), *wanted);
    }
}

#[test]
fn files_are_replayed_at_their_limit_and_in_the_old_format() {
    let cases = stored(&std::fs::read(PATH).unwrap());
    let answers = |length: usize| -> BTreeSet<u32> {
        let found = cases.iter().filter(|case| case.file.len() == length);
        found.map(|case| case.answer[0]).collect()
    };
    assert_eq!(answers(MOST_BYTES), BTreeSet::from([0]));
    assert_eq!(answers(MOST_BYTES + 1), BTreeSet::from([1]));
    let old = |case: &&Stored| Format::old().read(&case.file).is_ok();
    let mut old = cases.iter().filter(old).peekable();
    assert!(old.peek().is_some());
    assert!(old.all(|case| case.answer[0] == 2));
    // An old file with the current head's kind.
    let mixed = |case: &&Stored| {
        let mut file = case.file.clone();
        if let Some(kind) = file.get_mut(2..4) {
            kind.copy_from_slice(&Format::old().head_kind.to_le_bytes());
        }
        file != case.file
            && Format::old()
                .read(&file)
                .is_ok_and(|row| !row.tokens.is_empty())
    };
    let mut mixed = cases.iter().filter(mixed).peekable();
    assert!(mixed.peek().is_some());
    assert!(mixed.all(|case| case.answer[0] != 0));
}

/// The answers' numbers of the stored files that hold one token at this span.
fn answers_at(cases: &[Stored], start: u64, end: u64) -> BTreeSet<u32> {
    let span = [start.to_le_bytes(), end.to_le_bytes()].concat();
    let word = HEAD_LENGTH + TOKEN_LENGTH + "int".len();
    let found = cases.iter().filter(|case| {
        case.file.len() == word && case.file[HEAD_LENGTH + 4..][..span.len()] == span
    });
    found.map(|case| case.answer[0]).collect()
}

#[test]
fn spans_are_replayed_at_the_ends_of_their_halves() {
    let cases = stored(&std::fs::read(PATH).unwrap());
    let spans = [
        (1, 1 << 32),
        ((1 << 32) - 1, 1 << 32),
        ((1 << 63) - 1, 1 << 63),
        (0, u64::MAX),
    ];
    for (less, more) in spans {
        let answers = answers_at(&cases, less, more);
        assert!(answers.contains(&0) && !answers.contains(&4));
        assert_eq!(answers_at(&cases, more, less), BTreeSet::from([4]));
    }
}

/// The answer that the list has for a text under a head.
fn stored_answer(cases: &[Stored], head: Head, text: &str) -> Option<[u32; 4]> {
    let cpp23 = profile::profile(HostLanguage::Cpp, NEWER_STANDARD).unwrap();
    let tokens = lexed::tokens(text, cpp23).unwrap();
    let file = Row { head, tokens }.write();
    let found = cases.iter().find(|case| case.file == file)?;
    Some(found.answer)
}

/// The answer's number and steps that the list has for a text in C++23.
fn answer_of(cases: &[Stored], text: &str, flag: u8, allowance: u32) -> Option<[u32; 2]> {
    let head = Head {
        language: 1,
        standard: NEWER_STANDARD,
        flag,
        allowance,
    };
    Some(match stored_answer(cases, head, text)? {
        [0, _, steps, _] => [0, steps],
        [number, _, _, steps] => [number, steps],
    })
}

#[test]
fn lists_halves_and_tries_are_replayed() {
    let cases = stored(&std::fs::read(PATH).unwrap());
    for text in ["A(b)<c>", "A<(B<c>>D<e>)>", "A<(B<c>>d),e>"] {
        for flag in [0, 1] {
            assert!(answer_of(&cases, text, flag, DEFAULT_ALLOWANCE).is_some());
        }
    }
    // Document 01: 21 after 12 steps; each of them can be the one too many.
    for allowance in 0..12 {
        let answer = answer_of(&cases, "Slots<(Lanes<8)>", 1, allowance);
        assert_eq!(answer, Some([25, allowance]));
    }
    assert_eq!(answer_of(&cases, "Slots<(Lanes<8)>", 1, 12), Some([21, 12]));
}

/// Document 02, C-16, by hand: what C18 lacks and C23 has.
#[test]
fn standards_254_and_255_are_replayed() {
    let cases = stored(&std::fs::read(PATH).unwrap());
    let answer = |standard| {
        let head = Head {
            language: 0,
            standard,
            flag: 1,
            allowance: DEFAULT_ALLOWANCE,
        };
        stored_answer(&cases, head, "_BitInt(8)")
    };
    assert_eq!(answer(255), Some([0, 3, 5, 0]));
    assert_eq!(answer(254), Some([40, 65_535, 3, 5]));
    assert_eq!(answer(253), Some([3, 65_535, 0, 0]));
}
