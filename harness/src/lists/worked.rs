//! Examples that were worked out by hand from document 02, with the steps and
//! nodes that document 01 gives for the parts. None comes from a run.

use super::model::LIST_ANSWER_LENGTH;
use super::text;
use crate::format::{FLAG_AT, HEAD_LENGTH, Head, MOST_BYTES, NUMBERS_PER_TOKEN, Row, STANDARD_AT};
use crate::profile::{HostLanguage, language_number};

/// The entry, of the model or of the proved library.
pub type Entry = fn(file: &[u8], tree: &mut [u32], answer: &mut [u32]) -> u32;

const DIRT: u32 = 0xDEAD_BEEF;

/// The longest `answer` that is lent.
const LONGEST_ANSWER: usize = 8;

const AMPLE: u32 = 1_000;

/// Language, standard and structure flag.
type Setting = (HostLanguage, u8, u8);

const C89: Setting = (HostLanguage::C, 0, 1);
const C99: Setting = (HostLanguage::C, 1, 1);
const C_TREE: Setting = (HostLanguage::C, 0, 0);
const CPP11: Setting = (HostLanguage::Cpp, 1, 1);
const CPP17: Setting = (HostLanguage::Cpp, 3, 1);
const CPP_TREE: Setting = (HostLanguage::Cpp, 3, 0);
const FORTRAN77: Setting = (HostLanguage::Fortran, 0, 1);

type Numbers = [u32; LIST_ANSWER_LENGTH];

/// No token or no part.
const NONE: u32 = 65_535;

// Nodes by kind, with token and extent.
const fn t(token: u32) -> [u32; 3] {
    [0, token, 1]
}
const fn g(token: u32, extent: u32) -> [u32; 3] {
    [1, token, extent]
}
const fn b(token: u32, extent: u32) -> [u32; 3] {
    [2, token, extent]
}
const fn l(token: u32, extent: u32) -> [u32; 3] {
    [3, token, extent]
}
const fn a(token: u32, extent: u32) -> [u32; 3] {
    [4, token, extent]
}

type Accepted = (&'static str, Setting, Numbers, &'static [[u32; 3]]);

#[rustfmt::skip]
const ACCEPTED: &[Accepted] = &[
    ("int", C89, [0, 1, 2, 0, 1], &[t(0)]),
    ("int , long", C89, [0, 2, 4, 0, 2], &[t(0), t(0)]),
    ("long , long long", C99, [0, 3, 5, 0, 2], &[t(0), t(0), t(1)]),
    ("real * 8 , real", FORTRAN77, [0, 4, 6, 0, 2], &[t(0), t(1), t(2), t(0)]),
    ("real , real * 8", FORTRAN77, [0, 4, 6, 0, 2], &[t(0), t(0), t(1), t(2)]),
    // No comma within angles or brackets parts anything.
    ("A < b , c > , d", CPP17, [0, 7, 9, 0, 2], &[t(0), l(1, 5), a(2, 2), t(2), a(4, 2), t(4), t(0)]),
    ("a ( b , c ) , d", C_TREE, [0, 6, 6, 0, 2], &[t(0), g(1, 4), t(2), t(3), t(4), t(0)]),
    ("a [ b , c ] , d", C_TREE, [0, 6, 6, 0, 2], &[t(0), b(1, 4), t(2), t(3), t(4), t(0)]),
    ("A < ( b , c ) > , d", CPP_TREE, [0, 8, 7, 0, 2],
        &[t(0), l(1, 6), a(2, 5), g(2, 4), t(3), t(4), t(5), t(0)]),
    // The prescan's depth decides, whatever the reader makes of `<`.
    ("A < , b >", CPP_TREE, [0, 5, 5, 0, 1], &[t(0), t(1), t(2), t(3), t(4)]),
    ("a , A < , b >", CPP_TREE, [0, 6, 6, 0, 2], &[t(0), t(0), t(1), t(2), t(3), t(4)]),
    // Within brackets no angle counts: this `<` closes nowhere.
    ("a ( < , b ) , c", C_TREE, [0, 6, 6, 0, 2], &[t(0), g(1, 4), t(2), t(3), t(4), t(0)]),
    // `>>` at depth 0 and 2, with a comma behind it.
    ("A >> b , c", CPP_TREE, [0, 4, 4, 0, 2], &[t(0), t(1), t(2), t(0)]),
    ("A < B < c >> , d", CPP11, [0, 8, 10, 0, 2],
        &[t(0), l(1, 6), a(2, 5), t(2), l(3, 3), a(4, 2), t(4), t(0)]),
    ("d , A < B < c >>", CPP11, [0, 8, 10, 0, 2],
        &[t(0), t(0), l(1, 6), a(2, 5), t(2), l(3, 3), a(4, 2), t(4)]),
];

/// Row, setting, allowance and answer.
#[rustfmt::skip]
const REFUSED: &[(&str, Setting, u32, Numbers)] = &[
    // Empty parts.
    ("", C89, AMPLE, [10, NONE, 0, 0, 0]),
    (",", C89, AMPLE, [10, NONE, 0, 0, 0]),
    (", int", C89, AMPLE, [10, NONE, 0, 0, 0]),
    ("int ,", C89, AMPLE, [10, NONE, 0, 2, 1]),
    ("int , , long", C89, AMPLE, [10, NONE, 0, 2, 1]),
    ("int , long ,", C89, AMPLE, [10, NONE, 0, 4, 2]),
    // A fault ends the cutting, and parts before it come first.
    ("int , ) , , a", C89, AMPLE, [11, 0, 0, 2, 1]),
    ("int , ( ]", C89, AMPLE, [11, 1, 1, 2, 1]),
    ("int , a [ b ) , c", C89, AMPLE, [11, 3, 2, 2, 1]),
    ("int , a , b ) , c", CPP_TREE, AMPLE, [11, 1, 0, 2, 2]),
    ("a < b , c", C89, AMPLE, [12, 1, 0, 0, 0]),
    ("int , a < b , c", C89, AMPLE, [12, 1, 0, 2, 1]),
    ("int , < b >", CPP17, AMPLE, [12, 0, 0, 2, 1]),
    ("int , > , a", CPP17, AMPLE, [12, 0, 0, 2, 1]),
    ("int , A < b >> , c", CPP17, AMPLE, [12, 3, 0, 2, 1]),
    ("int , $ , a", C89, AMPLE, [14, 0, 0, 2, 1]),
    ("int , ( $ ) , a", C89, AMPLE, [14, 1, 0, 2, 1]),
    ("long long , )", C89, AMPLE, [40, NONE, 1, 3, 0]),
    (", )", C89, AMPLE, [10, NONE, 0, 0, 0]),
    // What is looked for behind the last token is looked for in each part.
    ("int , ( a , b", C89, AMPLE, [15, 0, 0, 2, 1]),
    ("int , a ( b [ c , d", C89, AMPLE, [15, 3, 0, 2, 1]),
    ("A < b , c", CPP17, AMPLE, [16, 1, 0, 0, 0]),
    ("A < b > , C < d", CPP17, AMPLE, [16, 1, 0, 5, 1]),
    ("int , A < b > :: C < d , e", CPP17, AMPLE, [16, 1, 0, 2, 1]),
    ("int , :: , a", CPP17, AMPLE, [17, NONE, 0, 2, 1]),
    ("int , 8 , a", C89, AMPLE, [17, NONE, 0, 2, 1]),
    ("int , a & , b", C89, AMPLE, [18, NONE, 0, 2, 1]),
    ("int , * a , b", C89, AMPLE, [18, NONE, 0, 2, 1]),
    ("real , real * , 8", FORTRAN77, AMPLE, [30, NONE, 0, 5, 1]),
    // Reading, structure and profile of a later part.
    ("int , Slots < ( Lanes < 8 ) > , )", CPP17, AMPLE, [21, NONE, 0, 14, 1]),
    ("int , long long long", C99, AMPLE, [30, NONE, 0, 6, 1]),
    ("long , long long", C89, AMPLE, [40, NONE, 1, 5, 1]),
    // One allowance for all parts.
    ("int , int", C89, 0, [25, NONE, 0, 0, 0]),
    ("int , int", C89, 1, [25, NONE, 0, 1, 0]),
    ("int , int", C89, 2, [25, NONE, 0, 2, 1]),
    ("int , int", C89, 3, [25, NONE, 0, 3, 1]),
    ("int , int , int", C89, 4, [25, NONE, 0, 4, 2]),
    ("int , Slots < ( Lanes < 8 ) >", CPP17, 14, [21, NONE, 0, 14, 1]),
    ("int , Slots < ( Lanes < 8 ) >", CPP17, 13, [25, NONE, 0, 13, 1]),
    ("long long , )", C89, 2, [25, NONE, 0, 2, 0]),
    // What takes no step is refused as ever where the allowance is used up.
    ("int ,", C89, 2, [10, NONE, 0, 2, 1]),
    ("int ,", C89, 1, [25, NONE, 0, 1, 0]),
    ("int , )", C89, 2, [11, 0, 0, 2, 1]),
    ("int , :: , a", CPP17, 2, [17, NONE, 0, 2, 1]),
    ("", C89, 0, [10, NONE, 0, 0, 0]),
];

fn file_of((language, standard, flag): Setting, allowance: u32, text: &str) -> Vec<u8> {
    let head = Head {
        language: language_number(language),
        standard,
        flag,
        allowance,
    };
    let tokens = text::tokens(text);
    Row { head, tokens }.write()
}

/// Numbers enough for a text.
fn room(text: &str) -> usize {
    NUMBERS_PER_TOKEN * text::tokens(text).len()
}

/// Asserts all examples.
pub fn assert_worked(entry: Entry) {
    for &(text, setting, numbers, nodes) in ACCEPTED {
        // All steps and not one more are as good as any allowance.
        for allowance in [numbers[2], AMPLE, u32::MAX] {
            let file = file_of(setting, allowance, text);
            assert_call(entry, &file, room(text), numbers, nodes);
        }
        let allowance = numbers[2] - 1;
        let passed = [25, NONE, 0, allowance, numbers[4] - 1];
        let file = file_of(setting, allowance, text);
        assert_call(entry, &file, room(text), passed, &[]);
    }
    for &(text, setting, allowance, numbers) in REFUSED {
        let file = file_of(setting, allowance, text);
        assert_call(entry, &file, room(text), numbers, &[]);
    }
    assert_long(entry);
    assert_files(entry);
}

/// As many parts as a row can have.
fn assert_long(entry: Entry) {
    let call = |text: &str, numbers, nodes: &[[u32; 3]]| {
        let file = file_of(CPP17, 10_000, text);
        assert_call(entry, &file, room(text), numbers, nodes);
    };
    let words = |count: usize| "a , ".repeat(count);
    call(
        &format!("{} a", words(511)),
        [0, 512, 1_024, 0, 512],
        &[t(0); 512],
    );
    call(&words(512), [10, NONE, 0, 1_024, 512], &[]);
    call(&format!("{} ,", words(511)), [10, NONE, 0, 1_022, 511], &[]);
    call(&", ".repeat(1_024), [10, NONE, 0, 0, 0], &[]);
    call(&", ".repeat(1_025), [5, NONE, 0, 0, NONE], &[]);
    call(&format!("{} a", words(512)), [5, NONE, 0, 0, NONE], &[]);
}

/// What is refused before any part.
fn assert_files(entry: Entry) {
    let text = "int , long";
    let good = file_of(C89, AMPLE, text);
    let refused = |number, detail| [number, NONE, detail, 0, NONE];
    let with = |at: usize, byte: u8| {
        let mut file = good.clone();
        file[at] = byte;
        file
    };
    let files = [
        (vec![0; MOST_BYTES + 1], refused(1, 0)),
        (good[..HEAD_LENGTH - 1].to_vec(), refused(2, 0)),
        (with(FLAG_AT, 2), refused(2, 0)),
        (with(STANDARD_AT, 5), refused(3, 0)),
        // The length of the comma's record, behind the head and `int`.
        (with(HEAD_LENGTH + 23, 21), refused(4, 11 + 23)),
        // The last word cut off.
        (good[..good.len() - 1].to_vec(), refused(4, 11 + 23 + 20)),
    ];
    for (file, numbers) in files {
        assert_call(entry, &file, room(text), numbers, &[]);
        assert_call(entry, &file, 0, numbers, &[]);
    }
    // The comma needs its numbers, too.
    for room in [0, 12, 17] {
        assert_call(entry, &good, room, refused(6, 0), &[]);
    }
    assert_call(entry, &good, 18, [0, 2, 4, 0, 2], &[t(0), t(0)]);
    // Nothing but 1 to 5 comes before.
    let fault = file_of(C89, 0, "int , )");
    assert_call(entry, &fault, 17, refused(6, 0), &[]);
}

/// One row with an `answer` of each length and a tree buffer that is dirty and
/// at times longer than it need be.
fn assert_call(entry: Entry, file: &[u8], room: usize, numbers: Numbers, nodes: &[[u32; 3]]) {
    for length in 0..=LONGEST_ANSWER {
        let spare = if numbers[0] == 6 { 0 } else { length % 3 };
        let mut tree = vec![DIRT; room + spare];
        let mut answer = vec![DIRT; length];
        let returned = entry(file, &mut tree, &mut answer);
        let case = format!("{file:?} {room}");
        assert_eq!(returned, numbers[0], "{case}");
        let given = length.min(LIST_ANSWER_LENGTH);
        assert_eq!(answer[..given], numbers[..given], "{case}");
        assert!(answer[given..].iter().all(|&stays| stays == DIRT), "{case}");
        let records = nodes.as_flattened();
        let behind = if (1..=6).contains(&returned) { DIRT } else { 0 };
        assert_eq!(tree[..records.len()], *records, "{case}");
        let mut rest = tree[records.len()..].iter();
        assert!(rest.all(|&number| number == behind), "{case}");
    }
}
