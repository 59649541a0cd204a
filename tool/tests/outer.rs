//! The outer template of a type name. The expected answers are worked out from document 02, C-15.

mod support;

use std::ffi::OsStr;

use support::{called, called_with};

/// What `outer` prints, and its status.
fn outer(words: &[&str]) -> (i32, String) {
    let call = called(&[&["outer"], words].concat());
    assert_eq!(call.err, "", "{words:?}");
    (call.status, call.out)
}

/// What `outer` prints of a type name that is accepted.
fn line(words: &[&str]) -> String {
    let (status, said) = outer(words);
    assert_eq!((status, said.lines().count()), (0, 1), "{said}");
    said.trim_end().to_owned()
}

#[test]
fn the_arguments_are_counted() {
    for (text, expected) in [
        ("Lane<8, Key>", "2 arguments"),
        ("A<b,c>", "2 arguments"),
        ("A<B<c>>", "1 argument"),
        ("A<b> const *", "1 argument"),
        ("A<b, C<d, e>, f(g, h)>::I<j>", "3 arguments"),
        ("A", "no outer template"),
        ("::A<b>", "no outer template"),
        ("const A<b>", "no outer template"),
        ("std::map<Key, Lane<8>>", "no outer template"),
    ] {
        assert_eq!(line(&[text]), expected, "{text}");
    }
}

#[test]
fn a_row_file_and_the_options_are_those_of_read() {
    assert_eq!(line(&["--file", "lane.row"]), "1 argument");
    let (status, said) = outer(&["--file", "lane_checked.row"]);
    let expected = "refusal 30: the tokens name no type\n";
    assert_eq!((status, said.as_str()), (1, expected));
    let lane = "Lane<(Key < 8 >> 2)>";
    assert_eq!(line(&["--no-structure", lane]), "1 argument");
    assert_eq!(outer(&[lane]).0, 1);
    assert_eq!(line(&["--standard", "f77", "REAL*8"]), "no outer template");
    assert_eq!(line(&["--language", "c", "int"]), "no outer template");
    let text = line(&["--no-structure", "--text", "lane.row"]);
    assert_eq!(text, "no outer template");
    let (status, said) = outer(&["--allowance", "1", "int"]);
    assert!(status == 1 && said.starts_with("refusal 25: "), "{said}");
    let words = ["outer", "-"].map(OsStr::new);
    let read = called_with(&words, b"Lane<8,\n Key>\n");
    assert_eq!((read.status, read.out.as_str()), (0, "2 arguments\n"));
}

#[test]
fn a_refusal_is_said_as_read_says_it() {
    for words in [
        &["A<B<C<d>>,e>"][..],
        &["A<b"],
        &["int, long"],
        &["--standard", "c89", "long long"],
        &["--json", "int)"],
    ] {
        let read = called(&[&["read"], words].concat());
        assert_eq!(outer(words), (1, read.out), "{words:?}");
    }
}

#[test]
fn json_has_the_arguments() {
    let some = line(&["--json", "Lane<8, Key>"]);
    assert_eq!(some, r#"{"accepted":true,"steps":8,"arguments":2}"#);
    let none = line(&["--json", "int"]);
    assert_eq!(none, r#"{"accepted":true,"steps":2,"arguments":null}"#);
}
