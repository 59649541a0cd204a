//! Lists of type names. The expected answers are worked out from document 02, C-12.

mod support;

use std::ffi::OsStr;

use support::{accepted, called, called_with, refused};
use type_name::{Head, Row, TokenKind};

#[test]
fn each_part_s_tree_stands_under_its_number() {
    let expected = "\
part 0
└─ int
part 1
├─ Lane
└─ < >
   └─ argument
      └─ Key
";
    assert_eq!(accepted(&["--list", "int, Lane<Key>"]), expected);
    let fortran = accepted(&["--list", "--standard", "f90", "REAL(kind=8), INTEGER"]);
    let expected = "\
part 0
├─ REAL
└─ ( )
   ├─ kind
   ├─ =
   └─ 8
part 1
└─ INTEGER
";
    assert_eq!(fortran, expected);
}

#[test]
fn each_part_is_drawn_as_if_alone() {
    let names = [
        "const std::map<Key, Lane<8>> /* ours */ *",
        "int",
        "A<b, c(d, e)>::F",
        "unsigned long",
    ];
    let alone = names.iter().enumerate();
    let alone = alone.map(|(number, name)| format!("part {number}\n{}", accepted(&[name])));
    let expected: String = alone.collect();
    assert_eq!(accepted(&["--list", &names.join(",\n ")]), expected);
    assert_eq!(accepted(&["--list", "int"]), "part 0\n└─ int\n");
}

#[test]
fn a_listing_has_each_part_s_first_token() {
    let expected = "\
ok 7 9 2
part 0 0 6
0 T 0 1
0 L 1 5
1 A 2 2
1 T 2 1
1 A 4 2
1 T 4 1
part 1 7 1
0 T 0 1
";
    assert_eq!(accepted(&["--list", "--listing", "A<b,c>,d"]), expected);
    let listing = |words: &[&str]| refused(&[&["--list", "--listing"], words].concat());
    assert_eq!(listing(&["A<b>, C<d"]), "no 16 1 0 5 1\n");
    assert_eq!(listing(&["int,"]), "no 10 65535 0 2 1\n");
    let scant = ["--allowance", "2", "int, int"];
    assert_eq!(listing(&scant), "no 25 65535 0 2 1\n");
    assert_eq!(listing(&["--file", "/dev/null"]), "no 2 65535 0 0 65535\n");
}

#[test]
fn json_has_the_parts() {
    let expected = concat!(
        r#"{"accepted":true,"steps":4,"parts":["#,
        r#"{"part":0,"first_token":0,"nodes":[{"level":0,"kind":"token","token":0,"extent":1,"start":0,"end":3,"text":"int"}]},"#,
        r#"{"part":1,"first_token":2,"nodes":[{"level":0,"kind":"token","token":0,"extent":1,"start":5,"end":9,"text":"long"}]}]}"#,
        "\n"
    );
    assert_eq!(accepted(&["--list", "--json", "int, long"]), expected);
    let expected = concat!(
        r#"{"accepted":false,"refusal":16,"name":"UnclosedAngle","sentence":"an angle is never closed","#,
        r#""token":1,"detail":0,"steps":5,"part":1,"first_token":5,"hint":null}"#,
        "\n"
    );
    assert_eq!(refused(&["--list", "--json", "A<b>, C<d"]), expected);
    let file = refused(&["--list", "--json", "--file", "/dev/null"]);
    assert!(
        file.ends_with("\"part\":null,\"first_token\":null,\"hint\":null}\n"),
        "{file}"
    );
}

/// The token is numbered within its part, and marked where it stands in the text.
#[test]
fn a_token_that_is_named_is_marked() {
    let expected = "\
refusal 16: an angle is never closed (part 1, token 1)
    A<b>, C<d
           ^
";
    assert_eq!(refused(&["--list", "A<b>, C<d"]), expected);
    let expected = "\
refusal 12: an angle stands outside brackets where none can stand (part 2, token 5)
    \tlong>>, int
    \t    ^^
";
    assert_eq!(
        refused(&["--list", "int, A(b, c),\nA<b,\n\tlong>>, int"]),
        expected
    );
}

#[test]
fn a_part_without_such_a_token_is_marked() {
    let expected = "\
refusal 30: the tokens name no type (part 1)
    A<b>, long long long, int
          ^^^^^^^^^^^^^^
";
    assert_eq!(refused(&["--list", "A<b>, long long long, int"]), expected);
    let empty = |text: &str| refused(&["--list", text]);
    let expected = "refusal 10: there is no token (part 1)\n    int,\n        ^\n";
    assert_eq!(empty("int,"), expected);
    assert_eq!(empty("int,\n"), expected);
    let expected = "refusal 10: there is no token (part 1)\n    int, , long\n         ^\n";
    assert_eq!(empty("int, , long"), expected);
    let expected = "refusal 10: there is no token (part 0)\n    , int\n    ^\n";
    assert_eq!(empty(", int"), expected);
    assert_eq!(empty(""), "refusal 10: there is no token (part 0)\n");
}

#[test]
fn a_hint_is_about_the_part_or_the_whole() {
    let hint = |words: &[&str]| {
        let said = refused(&[&["--list"], words].concat());
        let hint = said.split_once("\nhint: ").map(|(_, hint)| hint.to_owned());
        hint.unwrap_or(said)
    };
    let shifts = hint(&["A<B<c>>, A<B<C<d>>,e>, int"]);
    assert!(
        shifts.ends_with("write `> >`:\n    A<B<C<d> >,e>\n"),
        "{shifts}"
    );
    assert_eq!(
        hint(&["--standard", "c89", "int, long long"]),
        "C99 accepts it: --standard c99\n"
    );
    let cpp = "it is read as C; C++ accepts it: --language c++\n";
    assert_eq!(hint(&["--language", "c", "int, int&, A<b>"]), cpp);
    assert_eq!(hint(&["--language", "c", "A<b>, int"]), cpp);
    // C++ refuses another part.
    let none = hint(&["--language", "c", "int&, long long long"]);
    assert!(none.starts_with("refusal 18: "), "{none}");
    assert!(hint(&["--allowance", "2", "int, int"]).starts_with("--allowance takes"));
}

/// `A<b>, C`, and a last token.
fn file(last: TokenKind) -> Vec<u8> {
    let mut row = Row::new(Head::default());
    let tokens = [
        (TokenKind::Identifier, "A"),
        (TokenKind::Less, "<"),
        (TokenKind::Identifier, "b"),
        (TokenKind::Greater, ">"),
        (TokenKind::Comma, ","),
        (TokenKind::Identifier, "C"),
        (last, ""),
    ];
    for ((kind, word), start) in tokens.into_iter().zip(10..) {
        row.push(kind, word, start..start + 1).expect("a token");
    }
    row.bytes().to_vec()
}

#[test]
fn row_files_are_read() {
    let words = ["read", "--list", "--file", "-"].map(OsStr::new);
    let read = called_with(&words, &file(TokenKind::Star));
    let expected = "part 0\n├─ A\n└─ < >\n   └─ argument\n      └─ b\npart 1\n├─ C\n└─ *\n";
    assert_eq!((read.status, read.out.as_str()), (0, expected));
    let read = called_with(&words, &file(TokenKind::RightParen));
    let expected = "\
refusal 11: a closing bracket does not close the bracket that was opened last; none was open (part 1, token 1)
    token 1: `)`, from 16 to 17
";
    assert_eq!((read.status, read.out.as_str()), (1, expected));
    let read = called_with(&words, &file(TokenKind::Comma));
    let expected = "refusal 10: there is no token (part 2)\n";
    assert_eq!((read.status, read.out.as_str()), (1, expected));
}

#[test]
fn standard_input_is_read() {
    let words = ["read", "--list", "-"].map(OsStr::new);
    let read = called_with(&words, b"int,\nlong\n");
    assert_eq!(read.out, "part 0\n└─ int\npart 1\n└─ long\n");
    assert!(called(&["read", "--help"]).out.contains("--list "));
}
