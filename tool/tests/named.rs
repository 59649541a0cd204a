//! Type names read by the names of their templates. The expected answers are worked out from document 02, C-17.

mod support;

use std::ffi::OsStr;
use std::fs;
use std::path::PathBuf;

use support::{accepted, called, called_with, refused, wrong};
use type_name::{
    CStandard, FortranStandard, Head, HostLanguageProfile, MOST_NAMES, Row, TokenKind,
};

const LANE: &str = "Lane<(Key < 8 >> 2)>";
const SLOTS: &str = "Slots<(Lanes<8)>";
const COMMA: &str = "A<B<C<d>>,e>";

#[test]
fn the_demanded_row_by_both() {
    let by_names = "\
├─ Lane
└─ < >
   └─ argument
      └─ ( )
         ├─ Key
         ├─ <
         ├─ 8
         ├─ >>
         └─ 2
";
    assert_eq!(accepted(&["--names", "Lane", LANE]), by_names);
    assert!(refused(&[LANE]).starts_with("refusal 30: "));
    // Without the structure check, too, the list of `Lane` closes where C++ has its end: nothing is left over.
    let loose = ["--no-structure", LANE];
    let named = accepted(&[&["--names", "Lane"], &loose[..]].concat());
    assert_eq!(named, by_names);
    assert!(accepted(&loose).ends_with("\n└─ >\n"));
}

#[test]
fn names_that_are_refused_without() {
    let slots = "\
├─ Slots
└─ < >
   └─ argument
      └─ ( )
         ├─ Lanes
         ├─ <
         └─ 8
";
    assert_eq!(accepted(&["--names", "Slots", SLOTS]), slots);
    assert!(refused(&[SLOTS]).starts_with("refusal 21: "));
    let comma = "\
├─ A
└─ < >
   ├─ argument
   │  ├─ B
   │  └─ < >
   │     └─ argument
   │        ├─ C
   │        └─ < >
   │           └─ argument
   │              └─ d
   └─ argument
      └─ e
";
    assert_eq!(accepted(&["--names", "A,B,C", COMMA]), comma);
    assert!(refused(&[COMMA]).starts_with("refusal 30: "));
}

#[test]
fn the_other_forms() {
    let listing = "\
ok 7 10
0 T 0 1
0 L 1 6
1 A 2 5
1 G 2 4
2 T 3 1
2 T 4 1
2 T 5 1
";
    let slots = ["--names", "Slots", SLOTS];
    let with = |form, words: &[&'static str]| [&[form], words].concat();
    assert_eq!(accepted(&with("--listing", &slots)), listing);
    let lanes = ["--names", "Lanes", SLOTS];
    assert_eq!(refused(&with("--listing", &lanes)), "no 27 65535 0 6\n");
    let json = accepted(&with("--json", &["--names", "A", "A<b>"]));
    let expected = concat!(
        r#"{"accepted":true,"steps":5,"nodes":["#,
        r#"{"level":0,"kind":"token","token":0,"extent":1,"start":0,"end":1,"text":"A"},"#,
        r#"{"level":0,"kind":"list","token":1,"extent":3,"start":1,"end":2},"#,
        r#"{"level":1,"kind":"argument","token":2,"extent":2,"start":2,"end":3},"#,
        r#"{"level":1,"kind":"token","token":2,"extent":1,"start":2,"end":3,"text":"b"}]}"#,
        "\n"
    );
    assert_eq!(json, expected);
    let json = refused(&with("--json", &["--names", "A", "A<b<c>>"]));
    let expected = concat!(
        r#"{"accepted":false,"refusal":26,"name":"ShiftWithoutList","#,
        r#""sentence":"a `>>` closes a list, and its second half finds none to close at that bracket depth","#,
        r#""token":null,"detail":0,"steps":5,"hint":"hint: it is accepted with `b` among the names"}"#,
        "\n"
    );
    assert_eq!(json, expected);
}

#[test]
fn a_refusal_has_its_text_and_what_to_do() {
    let said = refused(&["--names", "Lane,Key", LANE]);
    let expected = "\
refusal 26: a `>>` closes a list, and its second half finds none to close at that bracket depth
    Lane<(Key < 8 >> 2)>
hint: it is accepted without `Key` among the names
";
    assert_eq!(said, expected);
    // The prescan's refusals name a token, as ever.
    let said = refused(&["--names", "A", "A<b>>2>"]);
    let expected = "\
refusal 12: an angle stands outside brackets where none can stand (token 3)
    A<b>>2>
       ^^
";
    assert_eq!(said, expected);
}

#[test]
fn a_hint_was_tried() {
    let hint = |words: &[&str]| {
        let said = refused(&[&["--names"], words].concat());
        let hint = said.split_once("\nhint: ").map(|(_, hint)| hint.to_owned());
        hint.unwrap_or(said).trim_end().to_owned()
    };
    let with = |name: &str| format!("it is accepted with `{name}` among the names");
    let without = |name: &str| format!("it is accepted without `{name}` among the names");
    assert_eq!(hint(&["A", "A<b<c>>"]), with("b"));
    assert_eq!(hint(&["B,C", COMMA]), with("A"));
    assert_eq!(hint(&["Lanes,Slots", SLOTS]), without("Lanes"));
    // Two names would have to change.
    let closes = "a list closes before the bracket that it stands in";
    assert!(hint(&["Lanes", SLOTS]).ends_with(closes));
    let shift = "in an argument a shift stands in parentheses";
    assert!(hint(&["A", "x(A<b>>2)"]).ends_with(shift));
    assert!(hint(&["A", "A<>"]).ends_with("list is not read"));
    let alone = "a type name is read alone, without those beside it";
    assert_eq!(hint(&["A", "A<b>, int"]), alone);
    assert!(hint(&["A", "--allowance", "1", "A<b>"]).starts_with("--allowance takes"));
    let later = "C++11 accepts it: --standard c++11";
    assert_eq!(hint(&["A", "--standard", "c++98", "A<b> &&"]), later);
    // What is so of every reading is said; what is so of tries is not, though the reader accepts what it leads to.
    let cast = "a cast is read with its type before the parentheses:\n    A<b(2)>";
    assert_eq!(hint(&["A", "A<(b)2>"]), cast);
    let loose = |text| hint(&["A", "--no-structure", text]);
    accepted(&["--names", "A", "--no-structure", "x(A<b> >,c)"]);
    assert!(loose("x(A<b>>,c)").ends_with(shift));
    accepted(&["--names", "A", "--no-structure", "x((A)<b)"]);
    assert!(loose("x(A<b)").ends_with(closes));
}

/// `A<b>` in a language.
fn file(profile: HostLanguageProfile) -> Vec<u8> {
    let head = Head {
        profile,
        ..Head::default()
    };
    let mut row = Row::new(head);
    let tokens = [
        (TokenKind::Identifier, "A"),
        (TokenKind::Less, ""),
        (TokenKind::Identifier, "b"),
        (TokenKind::Greater, ""),
    ];
    for (kind, word) in tokens {
        row.push(kind, word, 0..1).expect("a token");
    }
    row.bytes().to_vec()
}

#[test]
fn row_files_are_read() {
    let words = ["read", "--names", "Lane", "--file", "lane.row"];
    let read = called(&words);
    assert_eq!((read.status, read.err.as_str()), (0, ""));
    assert!(read.out.contains("├─ >>\n"), "{}", read.out);
    let listing = refused(&["--listing", "--names", "Key", "--file", "lane.row"]);
    // `Lane`, `<`, the group, `Key`, its list and `8`; `>>` closes that list alone.
    assert_eq!(listing, "no 26 65535 0 6\n");
    let said = refused(&["--names", "Lane,Key", "--file", "lane.row"]);
    assert!(said.ends_with("\nhint: it is accepted without `Key` among the names\n"));
}

/// Of a row file the reader tells that its language is another.
#[test]
fn names_are_for_cpp_alone() {
    let words = ["read", "--names", "A", "--file", "-"].map(OsStr::new);
    let read = called_with(&words, &file(HostLanguageProfile::default()));
    assert_eq!(read.status, 0);
    for (profile, language) in [
        (HostLanguageProfile::C(CStandard::C23), "C"),
        (
            HostLanguageProfile::Fortran(FortranStandard::Fortran2023),
            "Fortran",
        ),
    ] {
        let read = called_with(&words, &file(profile));
        let expected = format!(
            "refusal 8: the language is not C++, or the name list is not one of 1 to 512 different names\n\
             hint: names are given for C++ alone, and the row is in {language}; it is read without --names\n"
        );
        assert_eq!((read.status, read.out), (1, expected));
    }
    let c = wrong(&["read", "--names", "A", "--language", "c", "A"]);
    assert_eq!(
        c,
        "type-name: names are given for C++ alone, and the TEXT is in C\n"
    );
    let fortran = wrong(&["read", "--names", "A", "--standard", "f77", "real*8"]);
    assert!(fortran.contains("the TEXT is in Fortran"), "{fortran}");
}

/// A file of names in a folder for tests' files, and its path.
fn names_file(name: &str, content: impl AsRef<[u8]>) -> String {
    let path = PathBuf::from(env!("CARGO_TARGET_TMPDIR")).join(name);
    fs::write(&path, content).expect("a file");
    path.into_os_string().into_string().expect("UTF-8")
}

#[test]
fn a_file_has_a_name_a_line() {
    let path = names_file("names", "A\n\n  B \r\nC");
    let by_file = accepted(&["--names-file", &path, COMMA]);
    assert_eq!(by_file, accepted(&["--names", "A, B ,C", COMMA]));
    let path = names_file("two-names", "A\nC\n");
    let both = accepted(&["--names-file", &path, "--names", "B", COMMA]);
    assert_eq!(both, by_file);
    let words = ["read", "--names-file", "-", COMMA].map(OsStr::new);
    let read = called_with(&words, b"A\nB\nC\n");
    assert_eq!((read.status, read.out), (0, by_file));
}

#[test]
fn as_many_names_as_a_list_may_have() {
    let names = |count: usize| -> String { (0..count).map(|name| format!("A{name}\n")).collect() };
    let most = names_file("most-names", names(MOST_NAMES));
    accepted(&["--names-file", &most, "A511<A0<b>>"]);
    let more = names_file("more-names", names(MOST_NAMES + 1));
    let said = wrong(&["read", "--names-file", &more, "int"]);
    assert_eq!(
        said,
        "type-name: --names-file: there are more than 512 names\n"
    );
    let said = wrong(&["read", "--names-file", &most, "--names", "B", "int"]);
    assert!(said.contains("more than 512 names"), "{said}");
}

#[test]
fn wrong_names_are_told() {
    let said = |names: &str| wrong(&["read", "--names", names, "int"]);
    for names in ["", "A,", ",A", "A,,B", " "] {
        assert_eq!(
            said(names),
            "type-name: --names: a name is empty\n",
            "{names}"
        );
    }
    let twice = "type-name: --names: `A` is given before, at --names\n";
    assert_eq!(said("A,B,A"), twice);
    for names in ["std::map", "A<", "8", "a b", "a-b", "#", "and", "true"] {
        let no_name = format!("`{names}` is no name; a template's name is the one word before");
        assert!(said(names).contains(&no_name), "{names}");
    }
    assert!(said("caf\u{e9}").contains("ASCII characters alone"));
    assert!(said(&"a".repeat(256)).contains("a name has 256 bytes"));
    let of_file = |name: &str, content: &[u8]| {
        let path = names_file(name, content);
        let said = wrong(&["read", "--names-file", &path, "int"]);
        said.replace(&path, "FILE")
    };
    assert_eq!(
        of_file("no-names", b"\n \n"),
        "type-name: --names-file: there is no name\n"
    );
    let twice = "type-name: FILE:4: `A` is given before, at FILE:1\n";
    assert_eq!(of_file("names-twice", b"A\n\nB\nA\n"), twice);
    assert!(of_file("wrong-name", b"A\n8\n").starts_with("type-name: FILE:2: `8` is no name"));
    assert_eq!(
        of_file("latin-names", b"caf\xe9"),
        "type-name: FILE: not UTF-8\n"
    );
    let path = names_file("one-name", "A");
    let both = wrong(&["read", "--names", "A", "--names-file", &path, "int"]);
    assert!(both.contains("`A` is given before, at --names"), "{both}");
}

#[test]
fn wrong_use_is_told() {
    let list = wrong(&["read", "--list", "--names", "A", "int"]);
    assert!(list.contains("--list and --names exclude each other"));
    let list = wrong(&["read", "--list", "--names-file", "-", "int"]);
    assert!(list.contains("--list and --names-file exclude each other"));
    assert!(wrong(&["read", "int", "--names"]).contains("--names needs a value"));
    assert!(wrong(&["read", "--names", "A"]).contains("a TEXT or --file ROW is missing"));
    assert!(wrong(&["read", "--names-file", "no-such", "int"]).contains("no-such: "));
    for words in [&["-"][..], &["--file", "-"]] {
        let call = wrong(&[&["read", "--names-file", "-"], words].concat());
        assert!(call.contains("standard input is read once"), "{call}");
    }
    for command in ["outer", "match"] {
        let said = wrong(&[command, "--names", "A", "A<b>"]);
        assert!(said.contains("no option --names;"), "{said}");
    }
    assert!(
        called(&["read", "--help"])
            .out
            .contains("--names-file FILE")
    );
}
