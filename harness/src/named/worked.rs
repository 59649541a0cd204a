//! Examples that were worked out by hand from document 02, with the structure
//! check's steps as document 01's rows have them. None comes from a run.

use super::name_lists::file_of;
use crate::format::{
    ANSWER_LENGTH, FLAG_AT, Format, HEAD_LENGTH, Head, MOST_BYTES, NUMBERS_PER_TOKEN, Row, Token,
};
use crate::kind::Kind;
use crate::lists::text;
use crate::profile::{HostLanguage, language_number};

/// The entry, of the model or of the proved library.
pub type Entry = fn(file: &[u8], names: &[u8], tree: &mut [u32], answer: &mut [u32]) -> u32;

const DIRT: u32 = 0xDEAD_BEEF;

/// The longest `answer` that is lent.
const LONGEST_ANSWER: usize = 6;

const AMPLE: u32 = 1_000;

/// Language, standard and structure flag.
type Setting = (HostLanguage, u8, u8);

const CPP98: Setting = (HostLanguage::Cpp, 0, 0);
const CPP17: Setting = (HostLanguage::Cpp, 3, 1);
const TREE: Setting = (HostLanguage::Cpp, 3, 0);

type Numbers = [u32; ANSWER_LENGTH];

/// No token.
const NONE: u32 = 65_535;

// Nodes by kind, with token and extent.
const fn t(token: u32) -> [u32; 3] {
    [0, token, 1]
}
const fn g(token: u32, extent: u32) -> [u32; 3] {
    [1, token, extent]
}
const fn b(token: u32, extent: u32) -> [u32; 3] {
    [2, token, extent]
}
const fn l(token: u32, extent: u32) -> [u32; 3] {
    [3, token, extent]
}
const fn a(token: u32, extent: u32) -> [u32; 3] {
    [4, token, extent]
}

/// Row, names, setting, steps and tree.
type Accepted = (
    &'static str,
    &'static [&'static str],
    Setting,
    u32,
    &'static [[u32; 3]],
);

#[rustfmt::skip]
const ACCEPTED: &[Accepted] = &[
    ("Slots < ( Lanes < 8 ) >", &["Slots"], CPP17, 10, &[t(0), l(1, 6), a(2, 5), g(2, 4), t(3), t(4), t(5)]),
    ("Slots < ( Lanes < 8 ) >", &["Slots"], TREE, 6, &[t(0), l(1, 6), a(2, 5), g(2, 4), t(3), t(4), t(5)]),
    ("A < b , c >", &["A"], CPP17, 7, &[t(0), l(1, 5), a(2, 2), t(2), a(4, 2), t(4)]),
    // A name is what it is byte for byte, and only right before the `<`.
    ("A < b , c >", &["b"], TREE, 6, &[t(0), t(1), t(2), t(3), t(4), t(5)]),
    ("A < b >", &["a", "AA"], TREE, 4, &[t(0), t(1), t(2), t(3)]),
    ("A < b >", &["a", "AA", "A"], TREE, 3, &[t(0), l(1, 3), a(2, 2), t(2)]),
    ("A ( b ) < c >", &["A", "b"], TREE, 6, &[t(0), g(1, 2), t(2), t(4), t(5), t(6)]),
    // `>>` for two lists.
    ("A < b < c >>", &["A", "b"], CPP17, 8, &[t(0), l(1, 6), a(2, 5), t(2), l(3, 3), a(4, 2), t(4)]),
    ("A < B < C < d >> >", &["A", "B", "C"], TREE, 7,
        &[t(0), l(1, 9), a(2, 8), t(2), l(3, 6), a(4, 5), t(4), l(5, 3), a(6, 2), t(6)]),
    ("A < B < C < d >> >", &["A", "C"], TREE, 8, &[t(0), l(1, 8), a(2, 7), t(2), t(3), t(4), l(5, 3), a(6, 2), t(6), t(8)]),
    // No list to close at that depth: plain tokens.
    ("A >> b", &["A"], TREE, 3, &[t(0), t(1), t(2)]),
    ("A ( b > c )", &["A"], TREE, 5, &[t(0), g(1, 4), t(2), t(3), t(4)]),
    ("A [ b >> c ]", &["A"], TREE, 5, &[t(0), b(1, 4), t(2), t(3), t(4)]),
    ("A < ( b , c ) >", &["A"], TREE, 6, &[t(0), l(1, 6), a(2, 5), g(2, 4), t(3), t(4), t(5)]),
    ("A < [ , ] >", &["A"], TREE, 4, &[t(0), l(1, 4), a(2, 3), b(2, 2), t(3)]),
    ("A < ( ) >", &["A"], TREE, 3, &[t(0), l(1, 3), a(2, 2), g(2, 1)]),
    ("Lane < ( Key < 8 >> 8 ) >", &["Lane"], TREE, 8,
        &[t(0), l(1, 8), a(2, 7), g(2, 6), t(3), t(4), t(5), t(6), t(7)]),
    ("A < ( B < b > > ) >", &["A", "B"], TREE, 7, &[t(0), l(1, 8), a(2, 7), g(2, 6), t(3), l(4, 3), a(5, 2), t(5), t(7)]),
    ("A < b > :: C < d >", &["A"], TREE, 8, &[t(0), l(1, 3), a(2, 2), t(2), t(4), t(5), t(6), t(7), t(8)]),
    // The first `>` closes the list, for whatever `<` it was meant.
    ("A < x < y > z >", &["A"], TREE, 7, &[t(0), l(1, 5), a(2, 4), t(2), t(3), t(4), t(6), t(7)]),
];

/// Row, names, setting, allowance and answer.
#[rustfmt::skip]
const REFUSED: &[(&str, &[&str], Setting, u32, Numbers)] = &[
    ("Slots < ( Lanes < 8 ) >", &["Slots", "Lanes"], CPP17, AMPLE, [27, NONE, 0, 6]),
    ("Slots < ( Lanes < 8 ) >", &["Lanes"], CPP17, AMPLE, [27, NONE, 0, 6]),
    ("A ( B < b )", &["B"], TREE, AMPLE, [27, NONE, 0, 5]),
    ("A [ B < b ]", &["B"], TREE, AMPLE, [27, NONE, 0, 5]),
    ("A ( B < )", &["B"], TREE, AMPLE, [27, NONE, 0, 4]),
    // Empty arguments.
    ("A < >", &["A"], TREE, AMPLE, [27, NONE, 0, 2]),
    ("A < , b >", &["A"], TREE, AMPLE, [27, NONE, 0, 2]),
    ("A < b , >", &["A"], TREE, AMPLE, [27, NONE, 0, 3]),
    ("A < b , , c >", &["A"], TREE, AMPLE, [27, NONE, 0, 3]),
    ("A < B < >>", &["A", "B"], TREE, AMPLE, [27, NONE, 0, 4]),
    // One list at that depth, another outside the bracket or none.
    ("A < b < c >>", &["A"], CPP17, AMPLE, [26, NONE, 0, 5]),
    ("A < b < c >>", &["b"], CPP17, AMPLE, [26, NONE, 0, 5]),
    ("Lane < ( Key < 8 >> 8 ) >", &["Lane", "Key"], TREE, AMPLE, [26, NONE, 0, 6]),
    ("A < ( B < b >> ) >", &["A", "B"], TREE, AMPLE, [26, NONE, 0, 6]),
    // 27 before 26.
    ("x < A < b , >>", &["A"], TREE, AMPLE, [27, NONE, 0, 5]),
    ("x < A < >>", &["A"], TREE, AMPLE, [27, NONE, 0, 4]),
    // The prescan, which counts every `<`.
    ("", &["A"], TREE, AMPLE, [10, NONE, 0, 0]),
    ("a )", &["A"], TREE, AMPLE, [11, 1, 0, 0]),
    ("a ( ]", &["A"], TREE, AMPLE, [11, 2, 1, 0]),
    ("A < b >>", &["A"], TREE, AMPLE, [12, 3, 0, 0]),
    ("A < >>", &["b"], TREE, AMPLE, [12, 2, 0, 0]),
    ("A , b", &["A"], TREE, AMPLE, [13, 1, 0, 0]),
    ("A < $", &["A"], TREE, AMPLE, [14, 2, 0, 0]),
    ("A < ( b", &["A"], TREE, AMPLE, [15, 2, 0, 0]),
    ("A < b > :: C < d", &["C"], TREE, AMPLE, [16, 1, 0, 0]),
    ("::", &["A"], TREE, AMPLE, [17, NONE, 0, 0]),
    ("* A < >", &["A"], TREE, AMPLE, [18, NONE, 0, 0]),
    // Structure and profile, which follow.
    ("A >> b", &["A"], CPP17, AMPLE, [30, NONE, 0, 4]),
    ("A < long long >", &["A"], CPP98, AMPLE, [40, NONE, 1, 4]),
    ("A < long long", &["A"], CPP98, AMPLE, [16, 1, 0, 0]),
    ("A ( long long < )", &["long"], CPP98, AMPLE, [27, NONE, 0, 5]),
    // 25 exactly if a step is one too many.
    ("A < >", &["A"], TREE, 2, [27, NONE, 0, 2]),
    ("A < >", &["A"], TREE, 1, [25, NONE, 0, 1]),
    ("A < >", &["A"], TREE, 0, [25, NONE, 0, 0]),
    ("A < b < c >>", &["A"], CPP17, 5, [26, NONE, 0, 5]),
    ("A < b < c >>", &["A"], CPP17, 4, [25, NONE, 0, 4]),
    ("Slots < ( Lanes < 8 ) >", &["Slots"], CPP17, 6, [25, NONE, 0, 6]),
    ("a )", &["A"], TREE, 0, [11, 1, 0, 0]),
    // C++ only; tested before the prescan and behind 6.
    ("int", &["A"], (HostLanguage::C, 0, 1), AMPLE, [8, NONE, 0, 0]),
    ("real", &["A"], (HostLanguage::Fortran, 0, 1), AMPLE, [8, NONE, 0, 0]),
    ("", &["A"], (HostLanguage::C, 4, 0), 0, [8, NONE, 0, 0]),
];

fn file_of_row((language, standard, flag): Setting, allowance: u32, text: &str) -> Vec<u8> {
    let head = Head {
        language: language_number(language),
        standard,
        flag,
        allowance,
    };
    let tokens = text::tokens(text);
    Row { head, tokens }.write()
}

/// Numbers enough for a text.
fn room(text: &str) -> usize {
    NUMBERS_PER_TOKEN * text::tokens(text).len()
}

/// Asserts all examples.
pub fn assert_worked(entry: Entry) {
    for &(text, names, setting, steps, nodes) in ACCEPTED {
        let names = file_of(names);
        let numbers = [0, nodes.len() as u32, steps, 0];
        // All steps and not one more are as good as any allowance.
        for allowance in [steps, AMPLE, u32::MAX] {
            let file = file_of_row(setting, allowance, text);
            assert_call(entry, &file, &names, room(text), numbers, nodes);
        }
        let file = file_of_row(setting, steps - 1, text);
        let passed = [25, NONE, 0, steps - 1];
        assert_call(entry, &file, &names, room(text), passed, &[]);
    }
    for &(text, names, setting, allowance, numbers) in REFUSED {
        let file = file_of_row(setting, allowance, text);
        assert_call(entry, &file, &file_of(names), room(text), numbers, &[]);
    }
    assert_deep(entry);
    assert_name_lists(entry);
    assert_order(entry);
}

/// Lists of `A` in each other, with something inside.
fn lists(depth: usize, inside: &str) -> String {
    format!("{} {inside} {}", "A < ".repeat(depth), "> ".repeat(depth))
}

/// About the limit of nesting.
fn assert_deep(entry: Entry) {
    let names = file_of(&["A"]);
    let refuse = |text: &str, allowance, numbers| {
        let file = file_of_row(TREE, allowance, text);
        assert_call(entry, &file, &names, room(text), numbers, &[]);
    };
    // A word and a list a level, the 65th list counted.
    refuse(&lists(65, "b"), AMPLE, [20, NONE, 0, 130]);
    refuse(&lists(65, "b"), 130, [20, NONE, 0, 130]);
    refuse(&lists(65, "b"), 129, [25, NONE, 0, 129]);
    refuse(&lists(64, "( b )"), AMPLE, [20, NONE, 0, 129]);
    refuse(&lists(64, "[ b ]"), AMPLE, [20, NONE, 0, 129]);
    refuse(&lists(64, ""), AMPLE, [27, NONE, 0, 128]);
    let groups = |inside: &str| format!("b {} {inside} {}", "( ".repeat(64), ") ".repeat(64));
    refuse(&groups("A < b >"), AMPLE, [20, NONE, 0, 67]);
    // 64 lists are a node each for word, list and argument, and the word inside.
    let text = lists(64, "b");
    let mut nodes = Vec::new();
    for level in 0..64 {
        let list = 1 + 3 * (64 - level);
        nodes.extend([
            t(2 * level),
            l(2 * level + 1, list - 1),
            a(2 * level + 2, list - 2),
        ]);
    }
    nodes.push(t(128));
    let file = file_of_row(TREE, 129, &text);
    assert_call(entry, &file, &names, room(&text), [0, 193, 129, 0], &nodes);
}

/// Which name lists pass.
fn assert_name_lists(entry: Entry) {
    let text = "A < b >";
    let file = file_of_row(TREE, AMPLE, text);
    let pass = |names: &[u8]| {
        let nodes = [t(0), l(1, 3), a(2, 2), t(2)];
        assert_call(entry, &file, names, room(text), [0, 4, 3, 0], &nodes);
    };
    let refuse = |names: &[u8]| {
        assert_call(entry, &file, names, room(text), [8, NONE, 0, 0], &[]);
    };
    let one = file_of(&["A"]);
    let with = |at: usize, byte: u8| {
        let mut names = one.clone();
        names[at] = byte;
        names
    };
    let numbered = |count: usize, length: usize| {
        let mut words: Vec<String> = (1..count).map(|n| format!("{n:@>length$}")).collect();
        words.push("A".to_owned());
        file_of(&words.iter().map(String::as_str).collect::<Vec<_>>())
    };
    let twice = |start: u64| {
        let again = Token {
            start,
            end: u64::MAX,
            ..Token::word("A")
        };
        let mut names = one.clone();
        again.write(Format::current(), &mut names);
        names
    };
    pass(&one);
    pass(&file_of(&["b", "A", "a"]));
    pass(&file_of(&["!", "~", "A"]));
    pass(&file_of(&[&"x".repeat(255), "A"]));
    pass(&numbered(511, 1));
    pass(&numbered(512, 1));
    // More bytes than a row's file may have.
    let most = numbered(512, 255);
    assert!(most.len() > MOST_BYTES);
    pass(&most);
    // The span's end, and its start, in a byte each; the end may not be less.
    pass(&with(12, 1));
    refuse(&with(4, 1));
    refuse(&with(11, 1));
    refuse(&[]);
    refuse(&numbered(513, 1));
    refuse(&numbered(600, 255));
    refuse(&twice(0));
    refuse(&twice(7));
    refuse(&file_of(&["A", "b", "c", "b"]));
    refuse(&file_of(&["A", ""]));
    refuse(&file_of(&["A", &"x".repeat(256)]));
    for byte in [0, 32, 127, 128, 255] {
        refuse(&with(20, byte));
    }
    // Length and kind.
    for length in [0, 20, 22] {
        refuse(&with(0, length));
    }
    refuse(&with(1, 1));
    refuse(&with(2, 1));
    refuse(&with(3, 1));
    let mut behind = one.clone();
    Token::plain(Kind::Star).write(Format::current(), &mut behind);
    refuse(&behind);
    for end in 1..one.len() {
        refuse(&one[..end]);
        refuse(&[&one[..], &one[..end]].concat());
    }
    refuse(&file_of_row(TREE, AMPLE, "A"));
    let mut old = Vec::new();
    Token::word("A").write(Format::old(), &mut old);
    refuse(&old);
}

/// 8 stands between 6 and 10.
fn assert_order(entry: Entry) {
    let text = "A )";
    let good = file_of_row(TREE, 0, text);
    let in_c = file_of_row((HostLanguage::C, 0, 0), 0, text);
    let refused = |number, detail| [number, NONE, detail, 0];
    for names in [vec![], vec![0], file_of(&["A", "A"])] {
        let with_flag = [&good[..FLAG_AT], &[2], &good[FLAG_AT + 1..]].concat();
        let cut = &good[..good.len() - 1];
        // The word's record has 21 bytes.
        let last = HEAD_LENGTH as u32 + 21;
        for room in [0, 11, 12] {
            let long = vec![0; MOST_BYTES + 1];
            assert_call(entry, &long, &names, room, refused(1, 0), &[]);
            assert_call(entry, &with_flag, &names, room, refused(2, 0), &[]);
            assert_call(entry, cut, &names, room, refused(4, last), &[]);
        }
        for file in [&good, &in_c] {
            assert_call(entry, file, &names, 11, refused(6, 0), &[]);
            assert_call(entry, file, &names, 12, refused(8, 0), &[]);
        }
    }
    let names = file_of(&["A"]);
    assert_call(entry, &in_c, &names, 11, refused(6, 0), &[]);
    assert_call(entry, &in_c, &names, 12, refused(8, 0), &[]);
    assert_call(entry, &good, &names, 12, [11, 1, 0, 0], &[]);
}

/// One row with an `answer` of each length and a tree buffer that is dirty and
/// at times longer than it need be.
fn assert_call(
    entry: Entry,
    file: &[u8],
    names: &[u8],
    room: usize,
    numbers: Numbers,
    nodes: &[[u32; 3]],
) {
    for length in 0..=LONGEST_ANSWER {
        let spare = if numbers[0] == 6 { 0 } else { length % 3 };
        let mut tree = vec![DIRT; room + spare];
        let mut answer = vec![DIRT; length];
        let returned = entry(file, names, &mut tree, &mut answer);
        let case = || format!("{file:?} {names:?} {room}");
        assert_eq!(returned, numbers[0], "{}", case());
        let given = length.min(ANSWER_LENGTH);
        assert_eq!(answer[..given], numbers[..given], "{}", case());
        let mut behind = answer[given..].iter();
        assert!(behind.all(|&stays| stays == DIRT), "{}", case());
        let records = nodes.as_flattened();
        let rest = if (1..=6).contains(&returned) { DIRT } else { 0 };
        assert_eq!(tree[..records.len()], *records, "{}", case());
        let mut behind = tree[records.len()..].iter();
        assert!(behind.all(|&number| number == rest), "{}", case());
    }
}
