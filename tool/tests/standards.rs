//! Which standard is meant where none is named, by `--standard archive`, and by 253, 254 and 255 in a row file. The expected
//! answers are worked out from document 02, C-16.

mod support;

use std::ffi::OsStr;

use support::{accepted, called, called_with, output, refused, wrong};

const BIT_INT: &str = "├─ _BitInt\n└─ ( )\n   └─ 8\n";
const LACKING: &str = "refusal 40: the standard lacks what the type name uses: `_BitInt` (C18)\n";

#[test]
fn newer_standards_unless_said() {
    assert_eq!(accepted(&["--language", "c", "_BitInt(8)"]), BIT_INT);
    let listing = accepted(&["--language", "c", "--listing", "_BitInt(8)"]);
    assert_eq!(listing, "ok 3 5\n0 T 0 1\n0 G 1 2\n1 T 2 1\n");
    // C++23 has `1z`, C++20 does not.
    accepted(&["A<1z>"]);
    assert!(wrong(&["read", "--standard", "c++20", "A<1z>"]).contains("C++20 has no"));
}

#[test]
fn the_archive_s_standard_of_each_language() {
    let archive = ["--standard", "archive", "--language"];
    let of = |words: &[&'static str]| [&archive[..], words].concat();
    let said = refused(&of(&["c", "_BitInt(8)"]));
    let hint = "    _BitInt(8)\nhint: C23 accepts it: --standard c23\n";
    assert_eq!(said, format!("{LACKING}{hint}"));
    let listing = refused(&of(&["c", "--listing", "_BitInt(8)"]));
    assert_eq!(listing, "no 40 65535 3 5\n");
    let in_cpp = wrong(&[&["read"], &of(&["c++", "A<1z>"])[..]].concat());
    assert!(in_cpp.contains("C++17 has no"), "{in_cpp}");
    assert_eq!(accepted(&of(&["fortran", "real*8"])).lines().count(), 3);
    // C++ unless said, in any case.
    assert!(wrong(&["read", "--standard", "Archive", "A<1z>"]).contains("C++17 has no"));
}

/// Another language is named only if it accepts the text by the standard that would be read then.
#[test]
fn a_hint_goes_with_the_archive_s_standard() {
    let text = "_BitInt(8) *";
    assert!(refused(&[text]).ends_with("C accepts it: --language c\n"));
    assert!(!refused(&["--standard", "archive", text]).contains("hint"));
    assert!(refused(&["--standard", "archive", "real*8"]).ends_with(": --language fortran\n"));
}

#[test]
fn help_says_which() {
    for command in ["read", "outer", "match"] {
        let help = called(&[command, "--help"]).out;
        let said: Vec<&str> = help.split_whitespace().collect();
        let said = said.join(" ");
        assert!(said.contains("Unless said: c23, c++23 or f2023, which 255 means"));
        assert!(said.contains("archive: c18, c++17 or f2018, which 254 means"));
    }
    let widen = called(&["widen", "--help"]).out;
    assert!(widen.contains("255, which means c18, c++17 or f2018 in the old format, becomes 254"));
    let narrow = called(&["narrow", "--help"]).out;
    assert!(narrow.contains("254 becomes 255"));
}

/// The head of a format: its kind, language and standard; with the structure check and an allowance of 1,000.
fn head(kind: [u8; 2], language: u8, standard: u8) -> Vec<u8> {
    let [low, high] = kind;
    vec![11, 0, low, high, language, standard, 1, 0xe8, 3, 0, 0]
}

const OLD: [u8; 2] = [0, 1];
const NEW: [u8; 2] = [5, 1];

/// `_BitInt(8)` in C, with spans of so many bytes that are all 0.
fn bit_int(kind: [u8; 2], standard: u8, width: usize) -> Vec<u8> {
    let mut file = head(kind, 0, standard);
    let tokens: [(u8, &[u8]); 4] = [(0, b"_BitInt"), (8, b""), (2, b""), (9, b"")];
    for (kind, word) in tokens {
        file.extend([(4 + 2 * width + word.len()) as u8, 0, kind, 0]);
        file.extend(vec![0; 2 * width]);
        file.extend(word);
    }
    file
}

#[test]
fn of_a_row_file() {
    let read = |standard, form: &[&str]| {
        let words = [&["read"], form, &["--file", "-"]].concat();
        let words: Vec<&OsStr> = words.iter().map(OsStr::new).collect();
        called_with(&words, &bit_int(NEW, standard, 8)).out
    };
    let by_default = "├─ _BitInt\n└─ ( )\n   └─ integer\n";
    assert_eq!(read(255, &[]), by_default);
    assert_eq!(read(4, &[]), by_default);
    assert_eq!(read(254, &[]), LACKING);
    assert_eq!(read(3, &[]), LACKING);
    assert_eq!(read(254, &["--listing"]), "no 40 65535 3 5\n");
    assert_eq!(read(253, &["--listing"]), "no 3 65535 0 0\n");
    let in_list = LACKING.replace(" (C18)", " (part 0) (C18)");
    assert_eq!(read(254, &["--list"]), in_list);
}

/// The file that a conversion writes.
fn converted(command: &str, file: &[u8]) -> Vec<u8> {
    let done = output(&[command, "-"].map(OsStr::new), file);
    assert!(done.status.success() && done.stderr.is_empty());
    done.stdout
}

#[test]
fn conversions_keep_what_a_standard_means() {
    for (language, newest) in (0..).zip([4, 5, 6]) {
        let [old, new] = [head(OLD, language, 255), head(NEW, language, 254)];
        assert_eq!(converted("widen", &old), new);
        assert_eq!(converted("narrow", &new), old);
        let narrowed = converted("narrow", &head(NEW, language, 255));
        assert_eq!(narrowed, head(OLD, language, newest));
        assert_eq!(converted("widen", &narrowed), head(NEW, language, newest));
    }
    let archived = bit_int(OLD, 255, 4);
    let widened = converted("widen", &archived);
    assert_eq!(widened, bit_int(NEW, 254, 8));
    assert_eq!(converted("narrow", &widened), archived);
    // An old file has no 254.
    let done = output(&["widen", "-"].map(OsStr::new), &head(OLD, 0, 254));
    assert_eq!((done.status.code(), done.stdout), (Some(1), vec![]));
    assert!(done.stderr.starts_with(b"refusal 3: "));
}
