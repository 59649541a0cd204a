//! Examples that were worked out by hand from document 02. The expected
//! numbers come from there, none from a run.

use super::format::{self, LONGEST_SEQUENCE, MOST_ITEMS, of_text};
use crate::answer::{NO_TOKEN, Refusal};
use crate::format::{ALLOWANCE_AT, ANSWER_LENGTH, HEAD_LENGTH, Head, NUMBERS_PER_TOKEN, Row};
use crate::lexed;
use crate::oracle;
use crate::profile::{HostLanguage, language_number, profile};

type Match = fn(file: &[u8], rules: &[u8], tree: &mut [u32], answer: &mut [u32]) -> u32;
type Overlap =
    fn(rules: &[u8], earlier: u32, later: u32, sequence: &mut [u8], answer: &mut [u32]) -> u32;

/// The two entries, of the model or of the proved library.
pub struct Entries {
    pub type_name_match: Match,
    pub type_name_overlap: Overlap,
}

const DIRT: u32 = 0xDEAD_BEEF;
const DIRTY_BYTE: u8 = 0xA5;

const TABLE: &str = "A list | any rest | rest | int";

/// Which rule wins, or the refusal and its steps.
type Winner = Result<u32, (u32, u32)>;

const C89: (HostLanguage, u8) = (HostLanguage::C, 0);
const CPP17: (HostLanguage, u8) = (HostLanguage::Cpp, 3);
const FORTRAN2018: (HostLanguage, u8) = (HostLanguage::Fortran, 5);

/// Table, row and winner; every row has flag 1.
#[rustfmt::skip]
const WINNERS: &[(&str, (HostLanguage, u8), &str, Winner)] = &[
    (TABLE, CPP17, "A<b>", Ok(0)),
    (TABLE, CPP17, "int", Ok(1)),
    ("rest | int", CPP17, "int", Ok(0)),
    ("int rest | rest", CPP17, "int", Ok(0)),
    ("int any rest | rest", CPP17, "int", Ok(1)),
    ("A | A list any | list A | A list", CPP17, "A<b>", Ok(3)),
    ("Int | INT | int", C89, "int", Ok(2)),
    ("in | intx | iit | int", C89, "int", Ok(3)),
    ("Real | real", FORTRAN2018, "real", Ok(1)),
    ("real list | real group", FORTRAN2018, "real(8)", Ok(1)),
    ("int list | int group", C89, "int[8]", Ok(1)),
    ("int group | int #22 | int #21", C89, "int*", Ok(2)),
    ("#2 | any", C89, "int", Ok(1)),
    // A rule of no items.
    ("", C89, "int", Err((50, 0))),
    ("int any | INT", C89, "int", Err((51, 2))),
    ("rest", C89, "", Err((10, 0))),
    ("rest any", C89, "", Err((50, 0))),
];

/// A pair with the items that are shown for it.
type Shown = (u32, u32, &'static [u8]);

#[rustfmt::skip]
const PAIRS: &[(&str, &[Shown])] = &[
    (TABLE, &[
        (0, 1, &[0, 1, b'A', 3]),
        (0, 2, &[0, 1, b'A', 3]),
        (1, 2, &[4]),
        (1, 3, &[0, 3, b'i', b'n', b't']),
        (2, 3, &[0, 3, b'i', b'n', b't']),
    ]),
    ("rest | rest", &[(0, 1, &[])]),
    ("A rest | A b", &[(0, 1, &[0, 1, b'A', 0, 1, b'b'])]),
    ("A b | A rest", &[(0, 1, &[0, 1, b'A', 0, 1, b'b'])]),
    ("any any | rest | list rest", &[(0, 1, &[4, 4]), (0, 2, &[3, 4]), (1, 2, &[3])]),
    ("any #57 | group any rest", &[(0, 1, &[2, 1, 57])]),
    ("A | a | #1 | #2 | group | list | A A", &[]),
    ("A rest | b rest | b | A", &[(0, 3, &[0, 1, b'A']), (1, 2, &[0, 1, b'b'])]),
    ("rest", &[]),
];

/// Bytes behind a rule's head that has the right length and kind, and whether
/// they are its items.
#[rustfmt::skip]
const ITEMS: &[(&[u8], bool)] = &[
    (&[0, 2, 33, 126], true), (&[0, 1, 32], false), (&[0, 1, 127], false), (&[0, 0], false), (&[0, 2, b'w'], false),
    (&[1, 1], true), (&[1, 57], true), (&[1, 0], false), (&[1, 58], false), (&[1], false),
    (&[5], true), (&[2, 3, 4, 5], true), (&[5, 4], false), (&[5, 5], false), (&[3, 6], false),
    (&[4; 16], true), (&[4; 17], false), (&[], false),
];

/// Files, and whether they are tables: other kinds, other lengths, cut off.
#[rustfmt::skip]
const FILES: &[(&[u8], bool)] = &[
    (&[], true), (&[5, 0, 0x10, 1, 4], true),
    (&[5, 0, 0x0f, 1, 4], false), (&[5, 0, 0x11, 1, 4], false), (&[5, 0, 0x10, 0, 4], false),
    (&[6, 0, 0x10, 1, 4], false), (&[4, 0, 0x10, 1, 4], false), (&[0, 0, 0x10, 1], false),
    (&[5, 0, 0x10], false), (&[5, 0, 0x10, 1], false), (&[5, 0, 0x10, 1, 4, 5], false),
];

/// All of these as files, with the longest word and the most rules.
fn forms() -> Vec<(Vec<u8>, bool)> {
    let around = |items: &[u8]| {
        let length = (4 + items.len()) as u16;
        [&length.to_le_bytes()[..], &[0x10, 1], items].concat()
    };
    let longest_word = around(&[&[0, 255][..], &[b'w'; 255]].concat());
    let most_rules = around(&[4]).repeat(256);
    let too_many = around(&[4]).repeat(257);
    let mut forms = vec![(longest_word, true), (most_rules, true), (too_many, false)];
    forms.extend(ITEMS.iter().map(|&(items, good)| (around(items), good)));
    forms.extend(FILES.iter().map(|&(file, good)| (file.to_vec(), good)));
    forms
}

fn text_file((language, standard): (HostLanguage, u8), text: &str) -> Vec<u8> {
    let head = Head {
        language: language_number(language),
        standard,
        flag: 1,
        allowance: 1_000,
    };
    let profile = profile(language, standard).expect("a known standard");
    let tokens = lexed::tokens(text, profile).expect("a text that can be lexed");
    Row { head, tokens }.write()
}

fn tree_for(file: &[u8]) -> Vec<u32> {
    let tokens = Row::read(file).expect("a good row file").tokens.len();
    vec![DIRT; NUMBERS_PER_TOKEN * tokens + 1]
}

impl Entries {
    /// Asserts all examples.
    pub fn assert_worked(&self) {
        for &(rules, profile, text, winner) in WINNERS {
            let rules = format::file(&of_text(rules));
            self.assert_winner(&text_file(profile, text), &rules, winner);
        }
        for &(rules, pairs) in PAIRS {
            self.assert_pairs(&format::file(&of_text(rules)), pairs);
        }
        self.assert_edges();
        self.assert_forms();
        self.assert_order();
    }

    /// What is no table is refused by both entries, and nothing else is.
    fn assert_forms(&self) {
        let int = text_file(C89, "int");
        for (rules, good) in forms() {
            let found = (self.type_name_match)(&int, &rules, &mut tree_for(&int), &mut []);
            assert_eq!(found != 50, good, "{rules:?}");
            let mut sequence = [0; LONGEST_SEQUENCE];
            let overlap = (self.type_name_overlap)(&rules, 0, 0, &mut sequence, &mut []);
            assert_eq!(overlap, if good { 0 } else { 50 }, "{rules:?}");
        }
    }

    /// 1 to 6, then 50, then 10 to 40, then 51, with as many numbers of the
    /// answer as there is room for.
    fn assert_order(&self) {
        let int = text_file(C89, "int");
        let long_long = text_file(C89, "long long");
        let mut bad_head = int.clone();
        bad_head[2] = 1;
        let mut no_step = int.clone();
        no_step[ALLOWANCE_AT..HEAD_LENGTH].fill(0);
        let bad_table: &[u8] = &[4];
        let cases = [
            (&bad_head, bad_table, 6, 2),
            (&int, bad_table, 5, 6),
            (&no_step, bad_table, 6, 50),
            (&no_step, &[], 6, 25),
            (&long_long, bad_table, 12, 50),
            (&long_long, &[], 12, 40),
            (&int, &[], 6, 51),
        ];
        for (file, rules, room, number) in cases {
            for length in 0..ANSWER_LENGTH {
                let mut answer = vec![DIRT; length];
                let mut tree = vec![DIRT; room];
                let returned = (self.type_name_match)(file, rules, &mut tree, &mut answer);
                assert_eq!(returned, number);
                assert!(answer.iter().take(1).all(|&first| first == number));
                let left = if number <= 6 { DIRT } else { 0 };
                assert!(tree.iter().all(|&number| number == left));
            }
        }
    }

    /// The table of no rules, and rules of 16 and 17 items.
    fn assert_edges(&self) {
        let int = text_file(C89, "int");
        self.assert_winner(&int, &[], Err((Refusal::NO_RULE_MATCHES, 2)));
        self.assert_pairs(&[], &[]);
        let rule = |any: usize| format::file(&of_text(&format!("{} rest", "any ".repeat(any))));
        self.assert_winner(
            &int,
            &rule(MOST_ITEMS - 1),
            Err((Refusal::NO_RULE_MATCHES, 2)),
        );
        let over = rule(MOST_ITEMS);
        self.assert_winner(&int, &over, Err((Refusal::INVALID_RULE_TABLE, 0)));
        let mut answer = [DIRT; ANSWER_LENGTH];
        assert_eq!(
            (self.type_name_overlap)(&over, 0, 0, &mut [], &mut answer),
            50
        );
        assert_eq!(answer, [50, NO_TOKEN, 0, 0]);
    }

    fn assert_winner(&self, file: &[u8], rules: &[u8], winner: Winner) {
        let mut read = tree_for(file);
        let row_answer = oracle::answer(file, &mut read).numbers();
        let mut tree = tree_for(file);
        let mut answer = [DIRT; ANSWER_LENGTH + 1];
        let returned = (self.type_name_match)(file, rules, &mut tree, &mut answer);
        let case = format!("{file:?} {rules:?}");
        match winner {
            Ok(place) => {
                let [accepted, nodes, steps, _] = row_answer;
                assert_eq!(answer, [0, nodes, steps, place, DIRT], "{case}");
                assert_eq!((returned, accepted), (0, 0), "{case}");
                assert_eq!(tree, read, "{case}");
            }
            Err((number, steps)) => {
                assert_eq!(answer, [number, NO_TOKEN, 0, steps, DIRT], "{case}");
                assert_eq!(returned, number, "{case}");
                assert!(tree.iter().all(|&number| number == 0), "{case}");
            }
        }
    }

    /// Walks over the pairs from (0, 0) to the end.
    fn assert_pairs(&self, rules: &[u8], pairs: &[Shown]) {
        let mut numbers = (0, 0);
        for &(earlier, later, shown) in pairs {
            self.assert_shown(rules, numbers, (earlier, later, shown));
            numbers = (earlier, later);
        }
        let mut answer = [DIRT; ANSWER_LENGTH];
        let mut sequence = [DIRTY_BYTE];
        let returned =
            (self.type_name_overlap)(rules, numbers.0, numbers.1, &mut sequence, &mut answer);
        assert_eq!((returned, answer, sequence), (0, [0; 4], [DIRTY_BYTE]));
    }

    /// One pair, in a buffer that is too long, just right and, where there is
    /// something to show, too short.
    fn assert_shown(&self, rules: &[u8], from: (u32, u32), (earlier, later, shown): Shown) {
        let length = shown.len();
        let expected = [0, earlier, later, length as u32];
        for room in [length, length + 2] {
            let mut sequence = vec![DIRTY_BYTE; room];
            let mut answer = [DIRT; ANSWER_LENGTH];
            let returned =
                (self.type_name_overlap)(rules, from.0, from.1, &mut sequence, &mut answer);
            assert_eq!((returned, answer), (0, expected));
            assert_eq!(sequence[..length], *shown);
            assert!(sequence[length..].iter().all(|&byte| byte == DIRTY_BYTE));
        }
        if length > 0 {
            let mut sequence = vec![DIRTY_BYTE; length - 1];
            let mut answer = [DIRT; ANSWER_LENGTH];
            let returned =
                (self.type_name_overlap)(rules, from.0, from.1, &mut sequence, &mut answer);
            assert_eq!((returned, answer), (6, [6, NO_TOKEN, 0, 0]));
            assert!(sequence.iter().all(|&byte| byte == DIRTY_BYTE));
        }
    }
}
