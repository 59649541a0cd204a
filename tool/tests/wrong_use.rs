//! Wrong use and wrong input: exit status 2, nothing on standard output, and what is wrong on standard error.

mod support;

use std::ffi::OsStr;
use std::os::unix::ffi::OsStrExt;

use support::{accepted, called, called_with, wrong};

#[test]
fn names_of_files_are_no_texts() {
    assert!(wrong(&["read", "no-such.row"]).contains("no file `no-such.row`"));
    assert!(wrong(&["read", "no/such/file"]).contains("no file `no/such/file`"));
    assert!(wrong(&["read", "."]).contains("`.` is a folder"));
    assert!(wrong(&["read", "lane.row"]).contains("--file reads a row file"));
    assert!(wrong(&["read", "--file", "no-such.row"]).contains("no-such.row: "));
    assert!(wrong(&["read", "--file", "."]).contains(".: "));
}

#[test]
fn texts_with_a_slash_are_texts() {
    accepted(&["A<b/2>"]);
    accepted(&["int /* no / file */"]);
    // Told so, the tool reads even a file's name; that it is no type name is the reader's word.
    assert_eq!(called(&["read", "--text", "lane.row"]).status, 1);
}

/// Wrong calls, and what each is told.
#[rustfmt::skip]
const WRONG: [(&[&str], &str); 45] = [
    (&[], "a command is missing"),
    (&["reed", "int"], "no command `reed`"),
    (&["read"], "a TEXT or --file ROW is missing"),
    (&["read", "int", "long"], "`long` is one word too many"),
    (&["read", "--lang", "c", "int"], "no option --lang"),
    (&["read", "--language", "pascal", "int"], "no language `pascal`"),
    (&["read", "--standard", "c++18", "int"], "no standard `c++18`"),
    (&["read", "--standard", "archives", "int"], "f2018, f2023 or archive\n"),
    (&["read", "--language", "c", "--standard", "f77", "int"], "f77 is no standard of C"),
    (&["read", "int", "--allowance"], "--allowance needs a value"),
    (&["read", "int", "--allowance", "-1"], "--allowance needs a whole number"),
    (&["read", "--json", "--json", "int"], "--json is given twice"),
    (&["read", "--json", "--listing", "int"], "exclude each other"),
    (&["read", "--list"], "a TEXT or --file ROW is missing"),
    (&["read", "--list", "int", "long"], "`long` is one word too many"),
    (&["read", "--list", "lane.row"], "--file reads a row file"),
    (&["read", "--file", "lane.row", "int"], "one of TEXT"),
    (&["read", "--file", "lane.row", "--language", "c"], "the row file says what --language would"),
    (&["read", "--file", "lane.row", "--standard", "archive"], "the row file says what --standard would"),
    (&["outer"], "a TEXT or --file ROW is missing"),
    (&["outer", "int", "long"], "`long` is one word too many"),
    (&["outer", "lane.row"], "--file reads a row file"),
    (&["outer", "--file", "lane.row", "int"], "one of TEXT"),
    (&["outer", "--file", "lane.row", "--no-structure"], "the row file says what --no-structure would"),
    (&["outer", "--listing", "int"], "no option --listing"),
    (&["outer", "--list", "int, long"], "no option --list;"),
    (&["match"], "a TABLE is missing"),
    (&["match", "lane.rules"], "a TEXT or --file ROW is missing"),
    (&["match", "lane.rules", "int", "long"], "`long` is one word too many"),
    (&["match", "no-such.rules", "int"], "no-such.rules: "),
    (&["match", "lane.rules", "--listing", "int"], "no option --listing"),
    (&["match", "lane.rules", "--list", "int, long"], "no option --list;"),
    (&["match", "lane.rules", "lane.row"], "--file reads a row file"),
    (&["match", "-", "-"], "standard input is read once"),
    (&["match", "-", "--file", "-"], "standard input is read once"),
    (&["overlaps"], "a TABLE is missing"),
    (&["overlaps", "lane.rules", "lane.rules"], "`lane.rules` is one word too many"),
    (&["table"], "a TABLE is missing"),
    (&["table", "no-such.rules"], "no-such.rules: "),
    (&["overlaps", "--standard", "c99", "lane.rules"], "no option --standard"),
    (&["widen"], "a FILE is missing"),
    (&["widen", "no-such.row"], "no-such.row: "),
    (&["widen", "lane.row", "lane_checked.row"], "`lane_checked.row` is one word too many; --into takes several"),
    (&["narrow", "-o", "a", "--into", "b", "lane.row"], "exclude each other"),
    (&["narrow", "lane.row", "-o"], "-o needs a value"),
];

#[test]
fn options_are_checked() {
    for (words, expected) in WRONG {
        let said = wrong(words);
        assert!(said.contains(expected), "{words:?}: {said}");
    }
}

#[test]
fn what_has_no_tokens_is_marked() {
    let said = wrong(&["read", "int @ 8"]);
    assert!(
        said.ends_with("no token of C++ begins with `@`\n    int @ 8\n        ^\n"),
        "{said}"
    );
    let said = wrong(&["read", "--language", "c", "--standard", "c11", "int[0b1]"]);
    assert!(said.contains("C11 has no binary integers"), "{said}");
    assert!(wrong(&["read", "caf\u{e9}"]).contains("ASCII"));
    assert!(wrong(&["read", &"a".repeat(256)]).contains("256 bytes"));
}

#[test]
fn input_that_is_no_utf_8_is_told() {
    let latin = OsStr::from_bytes(b"caf\xe9");
    let call = called_with(&[OsStr::new("read"), latin], b"");
    assert_eq!((call.status, call.out.as_str()), (2, ""));
    assert!(call.err.contains("not UTF-8"));
    let words = ["read", "-"].map(OsStr::new);
    let call = called_with(&words, b"caf\xe9");
    assert!(call.status == 2 && call.err.contains("not UTF-8"));
    let call = called_with(&words, &vec![b' '; (1 << 20) + 1]);
    assert!(call.status == 2 && call.err.contains("at most 1048576 bytes"));
    let words = ["overlaps", "-"].map(OsStr::new);
    let call = called_with(&words, b"A\nB caf\xe9");
    assert_eq!((call.status, call.out.as_str()), (2, ""));
    assert_eq!(call.err, "type-name: -:2:6: expected UTF-8\n");
}

#[test]
fn help_is_no_fault() {
    for words in [
        &["--help"][..],
        &["help"],
        &["read", "--help"],
        &["outer", "--help"],
        &["match", "--help"],
        &["overlaps", "--help"],
        &["table", "--help"],
        &["widen", "--help"],
        &["narrow", "--help"],
        &["--version"],
    ] {
        let call = called(words);
        assert_eq!((call.status, call.err.as_str()), (0, ""));
        assert!(call.out.contains("type-name"));
    }
}
