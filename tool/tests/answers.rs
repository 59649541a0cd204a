//! What the tool prints for accepted and refused names.

mod support;

use std::ffi::OsStr;

use support::{accepted, called, called_with, refused};

#[test]
fn a_tree_is_drawn_as_the_text_spells_it() {
    let drawn = accepted(&["--language", "fortran", "REAL(kind=8)"]);
    let expected = "\
├─ REAL
└─ ( )
   ├─ kind
   ├─ =
   └─ 8
";
    assert_eq!(drawn, expected);
    assert_eq!(accepted(&["int /* a */ const"]), "├─ int\n└─ const\n");
}

#[test]
fn row_files_have_the_shipped_listings() {
    let lane = accepted(&["--listing", "--file", "lane.row"]);
    assert_eq!(lane, include_str!("../../examples/lane.listing"));
    let checked = refused(&["--listing", "--file", "lane_checked.row"]);
    assert_eq!(checked, include_str!("../../examples/lane_checked.listing"));
}

#[test]
fn a_text_has_the_listing_of_its_row() {
    let options = ["--listing", "--no-structure", "--standard", "c++17"];
    let lane = accepted(&[&options[..], &["Lane<(Key<8>>2)>"]].concat());
    assert_eq!(lane, include_str!("../../examples/lane.listing"));
}

#[test]
fn each_token_kind_of_a_file_has_a_spelling() {
    let row = include_bytes!("../../examples/lane.row");
    // The second record, which has no word, with each kind that can stand there; most rows are refused then.
    for kind in 1..57 {
        let mut file = row.to_vec();
        file[11 + 24 + 2] = kind;
        let words = ["read", "--file", "-"].map(OsStr::new);
        let call = called_with(&words, &file);
        assert!(call.status < 2, "kind {kind}: {}", call.err);
        assert!(!call.out.contains("word"), "kind {kind}: {}", call.out);
    }
}

#[test]
fn a_refusal_is_a_sentence_with_its_place() {
    let comma = refused(&["int, long"]);
    let expected = "\
refusal 13: a comma stands outside brackets and angles (token 1)
    int, long
       ^
hint: a type name is read alone; `type-name read --list` accepts this as a list of them
";
    assert_eq!(comma, expected);
    let no_list = refused(&["int, 8"]);
    assert!(
        no_list.ends_with("hint: a type name is read alone, without those beside it\n"),
        "{no_list}"
    );
    let two_lines = refused(&["A<b,\n\tlong>>"]);
    let expected = "\
refusal 12: an angle stands outside brackets where none can stand (token 5)
    \tlong>>
    \t    ^^
";
    assert_eq!(two_lines, expected);
}

#[test]
fn a_refusal_of_a_row_file_names_the_token_s_place() {
    assert!(refused(&["--file", "/dev/null"]).starts_with("refusal 2: the head record"));
    // The last token of `Lane<(Key<8>>2)>` for another: an angle stays open.
    let mut file = include_bytes!("../../examples/lane.row").to_vec();
    let kind = file.len() - 18;
    file[kind] = 21;
    let words = ["read", "--file", "-"].map(OsStr::new);
    let expected =
        "refusal 16: an angle is never closed (token 1)\n    token 1: `<`, from 4 to 5\n";
    assert_eq!(called_with(&words, &file).out, expected);
}

#[test]
fn a_hint_says_what_is_accepted_instead() {
    let hints = [
        ("c++", "A<B<C<d>>,e>", "A<B<C<d> >,e>"),
        ("c++", "A<(b)2>", "A<b(2)>"),
        ("c++", "A<8,(a::b)2>", "A<8,a::b(2)>"),
        ("c++", "a b::*", "a (b::*)"),
        ("c++", "int a::b::* const", "int (a::b::*) const"),
        ("c++", "Slots<(Lanes<8)>", "Slots<((Lanes)<8)>"),
        ("c++", "Lane<(Key < 8 >> 2)>", "Lane<((Key) < 8 >> 2)>"),
        ("c", "a(*())", "a*()"),
        ("c", "complex double", "_Complex double"),
        ("fortran", "CHARACTER*(*)", "CHARACTER(*)"),
    ];
    for (language, text, instead) in hints {
        let said = refused(&["--language", language, text]);
        let (_, hint) = said.split_once("\nhint: ").expect(text);
        assert!(hint.ends_with(&format!(":\n    {instead}\n")), "{said}");
        accepted(&["--language", language, instead]);
    }
}

#[test]
fn a_hint_names_an_option_or_a_limit() {
    let hint = |words: &[&str]| {
        let said = refused(words);
        let hint = said.split_once("\nhint: ").map(|(_, hint)| hint.to_owned());
        hint.unwrap_or(said)
    };
    assert!(hint(&["--standard", "c89", "long long"]).ends_with(": --standard c99\n"));
    assert!(hint(&["--language", "c", "int&"]).ends_with(": --language c++\n"));
    assert!(hint(&["real*8"]).ends_with(": --language fortran\n"));
    assert!(hint(&["--allowance", "1", "int"]).starts_with("--allowance takes"));
    for text in ["A<>", "unsigned __int128", "a(b::c*,d)"] {
        assert!(hint(&[text]).ends_with("not read\n"), "{text}");
    }
    assert!(!refused(&["int)"]).contains("hint"));
}

#[test]
fn json_is_quoted() {
    let tree = accepted(&["--json", "A<'\"'>"]);
    assert!(tree.contains(r#""text":"'\"'""#), "{tree}");
    let refusal = refused(&["--json", "int)"]);
    let expected = concat!(
        r#"{"accepted":false,"refusal":11,"name":"UnexpectedClosingDelimiter","#,
        r#""sentence":"a closing bracket does not close the bracket that was opened last","#,
        r#""token":1,"detail":0,"steps":0,"hint":null}"#,
        "\n"
    );
    assert_eq!(refusal, expected);
}

#[test]
fn standard_input_is_read() {
    let words = ["read", "-"].map(OsStr::new);
    assert_eq!(called_with(&words, b"int *\n").out, "├─ int\n└─ *\n");
    let file = include_bytes!("../../examples/lane.row");
    let words = ["read", "--listing", "--file", "-"].map(OsStr::new);
    assert!(called_with(&words, file).out.starts_with("ok 10 8\n"));
}

#[test]
fn the_allowance_of_a_file_is_only_lowered() {
    let file = ["--listing", "--file", "lane.row", "--allowance"];
    assert_eq!(refused(&[&file[..], &["7"]].concat()), "no 25 65535 0 7\n");
    let lane = include_str!("../../examples/lane.listing");
    assert_eq!(accepted(&[&file[..], &["4294967295"]].concat()), lane);
}

#[test]
fn control_characters_are_not_printed() {
    assert_eq!(accepted(&["A<\"\u{1b}[2J\">"]).matches('\u{1b}').count(), 0);
    let call = called(&["read", "int \u{1b}[2J"]);
    assert_eq!((call.status, call.err.matches('\u{1b}').count()), (2, 0));
}
