//! Rule tables: which rule wins, which rules overlap, and how a table is written. The expected answers are worked out from
//! document 02, C-11.

mod support;

use std::ffi::OsStr;

use support::{called, called_on, output};

/// What `match` prints for a type name, and its status.
fn matched(table: &str, words: &[&str]) -> (i32, String) {
    let call = called_on(&[&["match", "-"], words].concat(), table);
    assert_eq!(call.err, "", "{words:?}");
    (call.status, call.out)
}

/// The place of the rule that wins.
fn winner(table: &str, words: &[&str]) -> Option<usize> {
    let (status, said) = matched(table, words);
    let place = said
        .strip_prefix("rule ")
        .and_then(|said| said.split_once(','));
    let place = place.map(|(place, _)| place.parse().expect("a place"));
    assert_eq!(status, i32::from(place.is_none()), "{said}");
    place
}

fn overlaps(words: &[&str], table: &str) -> (i32, String) {
    let call = called_on(&[&["overlaps", "-"], words].concat(), table);
    assert_eq!(call.err, "", "{table}");
    (call.status, call.out)
}

/// What is said of a table that cannot be read.
fn fault(table: &str) -> String {
    let call = called_on(&["overlaps", "-"], table);
    assert_eq!((call.status, call.out.as_str()), (2, ""), "{table}");
    call.err
}

const WORKED: &str = "A list\nany rest\nrest\nint\n";

#[test]
fn the_winner_is_printed() {
    assert_eq!(
        matched(WORKED, &["A<b>"]),
        (0, "rule 0, line 1: A list\n".into())
    );
    assert_eq!(
        matched(WORKED, &["int"]),
        (0, "rule 1, line 2: any rest\n".into())
    );
    let lane = called(&["match", "lane.rules", "Lane<8>"]);
    assert_eq!(
        (lane.status, lane.out.as_str()),
        (0, "rule 0, line 2: Lane list\n")
    );
}

/// The first half of `>>` closes the inner list, the second the outer one, and a `>` is left over.
#[test]
fn a_row_file_and_the_options_are_those_of_read() {
    let wrong = "rule 1, line 3: any list rest\n";
    let row = called(&["match", "lane.rules", "--file", "lane.row"]);
    assert_eq!((row.status, row.out.as_str()), (0, wrong));
    let text = called(&[
        "match",
        "--no-structure",
        "lane.rules",
        "Lane<(Key < 8 >> 2)>",
    ]);
    assert_eq!((text.status, text.out.as_str()), (0, wrong));
    let checked = called(&["match", "lane.rules", "--file", "lane_checked.row"]);
    let expected = "refusal 30: the tokens name no type\n";
    assert_eq!((checked.status, checked.out.as_str()), (1, expected));
    assert_eq!(
        winner("real * kind:2\n", &["--standard", "f77", "REAL*8"]),
        Some(0)
    );
    assert_eq!(
        winner("REAL rest\n", &["--language", "fortran", "REAL*8"]),
        None
    );
    let scant = matched(WORKED, &["--allowance", "1", "int"]);
    assert!(scant.1.starts_with("refusal 25: "), "{}", scant.1);
}

#[test]
fn a_refusal_is_said_as_read_says_it() {
    let read = called(&["read", "A<B<C<d>>,e>"]);
    assert_eq!(matched(WORKED, &["A<B<C<d>>,e>"]), (1, read.out));
    let read = called(&["read", "--json", "int)"]);
    assert_eq!(matched(WORKED, &["--json", "int)"]), (1, read.out));
}

#[test]
fn a_rule_is_named_where_none_matches() {
    let expected = "\
refusal 51: no rule of the table matches
    const A<b> *
hint: this rule matches it:
    const A list *
";
    assert_eq!(matched("", &["const A<b> *"]), (1, expected.into()));
    assert_eq!(winner("const A list *", &["const A<b> *"]), Some(0));
    let row = called_on(&["match", "-", "--file", "lane.row"], "int\n");
    let expected = "\
refusal 51: no rule of the table matches
hint: this rule matches it:
    Lane list >
";
    assert_eq!((row.status, row.out.as_str()), (1, expected));
    // 18 nodes: the 16th item is the rest.
    let stars = format!("int{}", " *".repeat(17));
    let (_, said) = matched("list", &[&stars]);
    let rule = format!("    int{} rest\n", " *".repeat(14));
    assert!(
        said.ends_with(&format!("hint: this rule matches it:\n{rule}")),
        "{said}"
    );
    assert_eq!(winner(&rule, &[&stars]), Some(0));
}

#[test]
fn overlaps_are_printed_in_order() {
    let expected = "\
rule 0, line 1: A list
rule 1, line 2: any rest
    both match: A list
rule 0, line 1: A list
rule 2, line 3: rest
    both match: A list
rule 1, line 2: any rest
rule 2, line 3: rest
    both match: any
rule 1, line 2: any rest
rule 3, line 4: int
    both match: int
rule 2, line 3: rest
rule 3, line 4: int
    both match: int
5 pairs of rules overlap
";
    assert_eq!(overlaps(&[], WORKED), (1, expected.into()));
    let expected = "\
rule 0, line 1: rest
rule 1, line 3: rest
    both match: (no node)
1 pair of rules overlaps
";
    assert_eq!(overlaps(&[], "rest\n\nrest"), (1, expected.into()));
    for table in ["", "rest", "group\nlist", "A\nA b\nA b c rest"] {
        assert_eq!(overlaps(&[], table), (0, "no rules overlap\n".into()));
    }
}

#[test]
fn json_has_the_rules_by_place_line_and_text() {
    let expected = concat!(
        r#"{"rules":2,"overlaps":[{"earlier":{"place":0,"line":1,"text":"\"any\" rest"},"#,
        r#""later":{"place":1,"line":2,"text":"any *"},"sequence":["\"any\"","*"]}]}"#,
        "\n"
    );
    assert_eq!(
        overlaps(&["--json"], "\"any\" rest\nany *\n"),
        (1, expected.into())
    );
    let none = "{\"rules\":0,\"overlaps\":[]}\n";
    assert_eq!(overlaps(&["--json"], ""), (0, none.into()));
    let expected = concat!(
        r#"{"accepted":true,"steps":2,"rule":{"place":1,"line":2,"text":"any rest"}}"#,
        "\n"
    );
    assert_eq!(matched(WORKED, &["--json", "int"]), (0, expected.into()));
    let (status, said) = matched("list", &["--json", "int"]);
    assert!(
        status == 1 && said.contains("\"refusal\":51,\"name\":\"NoRuleMatches\""),
        "{said}"
    );
}

#[test]
fn blanks_comments_and_line_ends_are_no_rules() {
    let table = "# none\r\n\r\n\t Lane\t list # one\r\n   # none\r\n\"Lane\"#two\r\n";
    let expected = "rule 0, line 3: Lane list\n";
    assert_eq!(matched(table, &["Lane<8>"]), (0, expected.into()));
    let expected = "rule 1, line 5: \"Lane\"\n";
    assert_eq!(matched(table, &["Lane"]), (0, expected.into()));
    assert_eq!(
        overlaps(&[], "# caf\u{e9}\nA\nB # \u{e9}"),
        (0, "no rules overlap\n".into())
    );
}

/// The spellings of docs/FORMAT.md, "Token kinds", that belong to one kind alone.
#[rustfmt::skip]
const SPELLINGS: [(&str, u32); 54] = [
    ("(", 8), (")", 9), ("[", 10), ("]", 11), (",", 12), ("?", 13), (":", 14), ("::", 15), (".", 16), ("->", 18),
    ("+", 19), ("-", 20), ("*", 21), ("/", 22), ("**", 23), ("//", 24), ("!", 26), (".not.", 26), ("~", 27), ("&", 28),
    ("|", 29), ("^", 30), ("&&", 31), (".and.", 31), ("||", 32), (".or.", 32), (".eqv.", 33), (".neqv.", 34), ("=", 36),
    ("==", 37), (".eq.", 37), ("!=", 38), (".ne.", 38), ("<", 39), (".lt.", 39), ("<=", 40), (".le.", 40), (">", 41),
    (".gt.", 41), (">=", 42), (".ge.", 42), ("<<", 43), (">>", 44), ("++", 45), ("--", 46), ("+=", 47), ("-=", 48),
    ("*=", 49), ("&=", 52), ("|=", 53), ("^=", 54), ("<<=", 55), (">>=", 56), ("kind:57", 57),
];

#[test]
fn a_spelling_is_the_item_of_its_kind() {
    for (spelling, number) in SPELLINGS {
        // Two single items overlap if, and only if, they are the same.
        let table = format!("{spelling}\nkind:{number}");
        assert_eq!(overlaps(&[], &table).0, 1, "{table}");
        let other = number % 57 + 1;
        assert_eq!(overlaps(&[], &format!("{spelling}\nkind:{other}")).0, 0);
    }
}

/// What is shown can be read again: as a rule before the one it is shown for, it overlaps with it and shows itself.
#[test]
fn what_is_shown_can_be_read() {
    let kinds = (1..=57).map(|kind| format!("kind:{kind}"));
    let words = [
        "name",
        "group",
        "\"group\"",
        "\"a\\\"\\\\b\"",
        "\"#\"",
        "\"kind:8\"",
        "\"8\"",
        "\"_8\"",
    ];
    for item in kinds.chain(words.map(str::to_owned)) {
        let shown = |rule: &str| {
            let (status, said) = overlaps(&[], &format!("{rule}\n{item}\n"));
            assert_eq!(status, 1, "{item}");
            let (_, shown) = said.split_once("both match: ").expect("a sequence");
            shown.lines().next().expect("a line").to_owned()
        };
        let text = shown("any");
        assert_eq!(shown(&text), text);
    }
}

#[test]
fn a_name_is_a_word_in_every_language() {
    assert_eq!(
        winner("nullptr\n", &["--standard", "c99", "nullptr"]),
        Some(0)
    );
    assert_eq!(winner("A (\nA kind:8\nA group", &["A (b)"]), Some(2));
    assert_eq!(winner("\"list\" list", &["list<b>"]), Some(0));
}

#[test]
fn what_cannot_be_read_is_marked() {
    let expected = "\
type-name: -:2:6: `Lane*` is no item: expected a name, a word in double quotes, a token's spelling, kind:1 to kind:57, \
group, list, any or rest, with a blank before the next
    A \tB Lane* rest
      \t  ^^^^^
";
    assert_eq!(fault("A\nA \tB Lane* rest\n"), expected);
    let expected = "\
type-name: -:1:3: expected rest as a rule's last item alone
    A rest any
      ^^^^
";
    assert_eq!(fault("A rest any\r\n"), expected);
}

/// Tables that cannot be read: line and column, and a part of what is said.
#[rustfmt::skip]
const FAULTS: [(&str, &str, &str); 18] = [
    ("any\n%", "2:1", "`%` is one token in Fortran and another in C and C++: expected kind:17 or kind:25"),
    ("/= any", "1:1", "expected kind:50 or !="),
    ("kind:0", "1:1", "kind:0 is the kind of words: expected the word itself"),
    ("A kind:58", "1:3", "no kind `58`: expected kind:1 to kind:57"),
    ("kind:+1", "1:1", "no kind `+1`"),
    ("kind:", "1:1", "no kind ``"),
    ("8", "1:1", "`8` is no item"),
    ("caf\u{e9} A", "1:1", "`caf\u{e9}` is no item"),
    ("\"\u{e9}\" 8", "1:2", "expected a visible ASCII character (33 to 126) or the closing quote"),
    ("A \"a b\"", "1:5", "expected a visible ASCII character"),
    ("A \"ab", "1:6", "expected the closing quote"),
    ("\"ab\\\"", "1:6", "expected the closing quote"),
    ("\"a\\n\"", "1:3", "expected \\\" or \\\\ for a backslash"),
    ("\"a\\", "1:3", "expected \\\" or \\\\ for a backslash"),
    ("\"a\"b", "1:4", "expected a blank behind a word in quotes"),
    ("\"\" A", "1:1", "expected a word of 1 to 255 characters"),
    ("rest rest", "1:1", "expected rest as a rule's last item alone"),
    ("any any any any any any any any any any any any any any any any rest", "1:65", "expected at most 16 items"),
];

#[test]
fn faults_have_their_line_and_column() {
    for (table, place, expected) in FAULTS {
        let said = fault(table);
        assert!(
            said.starts_with(&format!("type-name: -:{place}: ")),
            "{table}: {said}"
        );
        assert!(said.contains(expected), "{table}: {said}");
    }
    let long = "w".repeat(256);
    assert!(fault(&long).contains("-:1:1: expected a word of 1 to 255 characters"));
    assert_eq!(overlaps(&[], &long[1..]).0, 0);
    let many = "A\n".repeat(257);
    assert!(fault(&many).starts_with("type-name: -:257:1: expected at most 256 rules\n"));
    // 256 rules that are the same: 256 * 255 / 2 pairs.
    assert!(
        overlaps(&[], &many[2..])
            .1
            .ends_with("\n32640 pairs of rules overlap\n")
    );
}

/// A record of 130 bytes has a byte that is no text.
#[test]
fn a_table_s_file_is_written_byte_for_byte() {
    let long = "w".repeat(124);
    let table = format!("A list # one\n* group any rest\n{long}\n");
    #[rustfmt::skip]
    let records = [8, 0, 16, 1, 0, 1, b'A', 3, 9, 0, 16, 1, 1, 21, 2, 4, 5, 130, 0, 16, 1, 0, 124];
    let done = output(&["table", "-"].map(OsStr::new), table.as_bytes());
    assert_eq!(done.stdout, [&records[..], long.as_bytes()].concat());
    assert!(done.status.success() && done.stderr.is_empty());
}

#[test]
fn a_fault_names_the_file() {
    let call = called(&["match", "lane.row", "int"]);
    assert_eq!((call.status, call.out.as_str()), (2, ""));
    assert!(
        call.err.starts_with("type-name: lane.row:1:"),
        "{}",
        call.err
    );
}
