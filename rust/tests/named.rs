//! Type names read by the names of their templates. The expected answers are worked out from document 02, C-17.

mod support;

use support::{Accepted, c, checked, cpp, fortran, row, unchecked};
use type_name::{
    ANSWER_LENGTH, CStandard, CppStandard, Feature, FortranStandard, HEAD_LENGTH, Head,
    LONGEST_WORD, MOST_NAMES, MOST_NESTING, NODE_WIDTH, Names, NamesError, Refusal, Row,
    TOKEN_LENGTH, TREE_LENGTH, TokenKind, TypeNameError, parse_named_type_name, parse_type_name,
    tree_for, type_name_read_named,
};

const DIRT: u32 = 0xdead_beef;

fn cpp17() -> Head {
    checked(cpp(CppStandard::Cpp17))
}

fn loose() -> Head {
    unchecked(cpp(CppStandard::Cpp17))
}

fn names(words: &[&str]) -> Names {
    Names::new(words).expect("a name list")
}

/// The answer to a row; what the buffer holds behind the tree, or after the refusal, is looked at, too.
fn answer_of(row: &Row, list: &Names) -> Result<Accepted, Refusal> {
    let mut buffer = vec![DIRT; TREE_LENGTH];
    let answer = parse_named_type_name(row.bytes(), list, &mut buffer).map(|tree| Accepted {
        nodes: tree.node_count(),
        steps: tree.steps(),
    });
    let (kept, rest) = match &answer {
        Ok(accepted) => (NODE_WIDTH * accepted.nodes, 0),
        Err(refusal) if refusal.error.number() <= 6 => (0, DIRT),
        Err(_) => (0, 0),
    };
    assert!(buffer[kept..].iter().all(|&number| number == rest));
    answer
}

fn answer(head: Head, text: &str, words: &[&str]) -> Result<Accepted, Refusal> {
    answer_of(&row(head, text), &names(words))
}

fn accepted(nodes: usize, steps: u32) -> Result<Accepted, Refusal> {
    Ok(Accepted { nodes, steps })
}

/// A refusal that names no token and has no detail.
fn plain(error: TypeNameError, steps: u32) -> Result<Accepted, Refusal> {
    Err(Refusal {
        error,
        token: None,
        detail: 0,
        steps,
    })
}

fn shift(steps: u32) -> Result<Accepted, Refusal> {
    plain(TypeNameError::ShiftWithoutList, steps)
}

fn no_argument(steps: u32) -> Result<Accepted, Refusal> {
    plain(TypeNameError::EmptyOrUnclosedList, steps)
}

fn invalid_list() -> Result<Accepted, Refusal> {
    plain(TypeNameError::InvalidNameList, 0)
}

/// The nodes by level, letter, token and extent.
fn listed(head: Head, text: &str, words: &[&str]) -> String {
    let row = row(head, text);
    let mut buffer = tree_for(row.bytes());
    let tree = parse_named_type_name(row.bytes(), &names(words), &mut buffer).expect(text);
    let nodes = tree.with_levels().map(|(level, node)| {
        let (letter, token) = (node.kind.letter(), node.token.number);
        format!("{level} {letter} {token} {}", node.extent)
    });
    nodes.collect::<Vec<_>>().join(", ")
}

#[test]
fn rows_worked_by_hand() {
    let slots = "Slots<(Lanes<8)>";
    assert_eq!(answer(cpp17(), slots, &["Slots"]), accepted(7, 10));
    assert_eq!(answer(cpp17(), slots, &["Slots", "Lanes"]), no_argument(6));
    assert_eq!(answer(cpp17(), slots, &["Lanes"]), no_argument(6));
    let nested = "A<b<c>>";
    assert_eq!(answer(cpp17(), nested, &["A"]), shift(5));
    assert_eq!(answer(cpp17(), nested, &["A", "b"]), accepted(7, 8));
    let lane = "Lane<(Key<8>>2)>";
    assert_eq!(answer(loose(), lane, &["Lane"]), accepted(9, 8));
    assert_eq!(answer(loose(), lane, &["Lane", "Key"]), shift(6));
    assert_eq!(answer(cpp17(), "A<>", &["A"]), no_argument(2));
    // At one token 27 comes before 26.
    assert_eq!(answer(cpp17(), "x<A<b,>>", &["A"]), no_argument(5));
    // 8 steps of reading, and one of structure for the whole and for each of the four arguments.
    let comma = "A<B<C<d>>,e>";
    assert_eq!(answer(cpp17(), comma, &["A", "B", "C"]), accepted(12, 13));
}

#[test]
fn trees_worked_by_hand() {
    let lane = "0 T 0 1, 0 L 1 8, 1 A 2 7, 1 G 2 6, 2 T 3 1, 2 T 4 1, 2 T 5 1, 2 T 6 1, 2 T 7 1";
    assert_eq!(listed(loose(), "Lane<(Key<8>>2)>", &["Lane"]), lane);
    let slots = "0 T 0 1, 0 L 1 6, 1 A 2 5, 1 G 2 4, 2 T 3 1, 2 T 4 1, 2 T 5 1";
    assert_eq!(listed(cpp17(), "Slots<(Lanes<8)>", &["Slots"]), slots);
    let comma = "0 T 0 1, 0 L 1 11, 1 A 2 8, 1 T 2 1, 1 L 3 6, 2 A 4 5, 2 T 4 1, 2 L 5 3, 3 A 6 2, \
                 3 T 6 1, 1 A 9 2, 1 T 9 1";
    assert_eq!(listed(cpp17(), "A<B<C<d>>,e>", &["C", "B", "A"]), comma);
    // The list of `A` closes at the first `>`, which was meant for a plain `<`.
    let first = "0 T 0 1, 0 L 1 5, 1 A 2 4, 1 T 2 1, 1 T 3 1, 1 T 4 1, 0 T 6 1, 0 T 7 1";
    assert_eq!(listed(loose(), "A<x<y>z>", &["A"]), first);
    // No list to open, and none to close at that depth: plain tokens, the comma too.
    let tokens = "0 T 0 1, 0 T 1 1, 0 T 2 1, 0 T 3 1, 0 T 4 1, 0 T 5 1";
    assert_eq!(listed(loose(), "A<b,c>", &["b"]), tokens);
    let outside = "0 T 0 1, 0 L 1 7, 1 A 2 6, 1 G 2 5, 2 T 3 1, 2 T 4 1, 2 T 5 1, 2 T 6 1";
    assert_eq!(listed(loose(), "A<(b>,>>)>", &["A"]), outside);
}

/// A list that is open outside the bracket is none of that depth.
#[test]
fn brackets_keep_lists_apart() {
    for (open, close) in [("(", ")"), ("[", "]")] {
        let row = |inner: &str| format!("A<b{open}{inner}{close}>");
        assert_eq!(answer(loose(), &row("C<d>>2"), &["A", "C"]), shift(7));
        assert_eq!(answer(loose(), &row("C<d>"), &["A", "C"]), accepted(9, 7));
        assert_eq!(answer(loose(), &row("C<d"), &["A", "C"]), no_argument(7));
        // Two at that depth.
        let both = row("C<D<e>>");
        assert_eq!(answer(loose(), &both, &["A", "C", "D"]), accepted(12, 9));
    }
}

#[test]
fn a_list_has_arguments_that_are_not_empty() {
    for (text, steps) in [
        ("A<>", 2),
        ("A<,b>", 2),
        ("A<b,>", 3),
        ("A<b,,c>", 3),
        ("A<B<>>", 4),
        ("A<B<c,>>", 5),
        ("A<(B<>)>", 5),
    ] {
        assert_eq!(answer(loose(), text, &["A", "B"]), no_argument(steps));
    }
}

#[test]
fn nesting_over_64() {
    let nested = |depth: usize| {
        let mut row = Row::new(loose());
        let mut push = |kind, text| row.push(kind, text, 0..0).unwrap();
        for _ in 0..depth {
            push(TokenKind::Identifier, "A");
            push(TokenKind::Less, "<");
        }
        push(TokenKind::Identifier, "b");
        for _ in 0..depth {
            push(TokenKind::Greater, ">");
        }
        row
    };
    let list = names(&["A"]);
    // A T and an L each, and the innermost word; the A beside them are no steps.
    let deepest = accepted(3 * MOST_NESTING + 1, 129);
    assert_eq!(answer_of(&nested(MOST_NESTING), &list), deepest);
    let too_deep = nested(MOST_NESTING + 1);
    let refused = plain(TypeNameError::NestingLimitExceeded, 130);
    assert_eq!(answer_of(&too_deep, &list), refused);
    let mut scant = too_deep.bytes().to_vec();
    type_name::limit_allowance(&mut scant, 129);
    let mut answer = [0; ANSWER_LENGTH];
    let mut tree = vec![DIRT; TREE_LENGTH];
    type_name_read_named(&scant, list.as_bytes(), &mut tree, &mut answer);
    assert_eq!(answer, [25, type_name::NO_TOKEN, 0, 129]);
}

#[test]
fn the_allowance_is_that_of_all_steps() {
    let with = |allowance: u32, words: &[&str]| {
        let head = Head {
            allowance,
            ..cpp17()
        };
        answer(head, "Slots<(Lanes<8)>", words)
    };
    let passed = |steps| plain(TypeNameError::AllowancePassed, steps);
    assert_eq!(with(10, &["Slots"]), accepted(7, 10));
    for allowance in 0..10 {
        assert_eq!(with(allowance, &["Slots"]), passed(allowance));
    }
    let both = ["Slots", "Lanes"];
    assert_eq!(with(6, &both), no_argument(6));
    assert_eq!(with(5, &both), passed(5));
}

/// Names are compared byte for byte, whatever their places and the others.
#[test]
fn a_name_is_a_whole_word_with_its_case() {
    for other in ["a", "AA", "B", "b"] {
        let read = listed(loose(), "A<b>", &[other]);
        assert_eq!(read, "0 T 0 1, 0 T 1 1, 0 T 2 1, 0 T 3 1", "{other}");
    }
    let many: Vec<String> = (0..MOST_NAMES).map(|name| format!("A{name}")).collect();
    let list = Names::new(&many).expect("512 names");
    let row = row(loose(), "A511<A0<A255<A>>>");
    // `>>>` is a `>>` and a `>` here.
    assert_eq!(answer_of(&row, &list), accepted(10, 7));
}

/// What is tested before reading, and the profile, are as without names.
#[test]
fn all_else_is_as_without_names() {
    for text in [
        "",
        "A)",
        "A(]",
        "A,b",
        "A $",
        "A((",
        "A<b",
        "*",
        "(A)",
        "A<b>>",
        "A<b>::C<d",
        "int",
    ] {
        let expected = support::answer(cpp17(), text);
        assert_eq!(answer(cpp17(), text, &["A", "C"]), expected, "{text}");
        assert_eq!(answer(cpp17(), text, &["Z"]), expected, "{text}");
    }
    let rvalue = answer(checked(cpp(CppStandard::Cpp98)), "A<b> &&", &["A"]).unwrap_err();
    assert_eq!(rvalue.feature(), Some(Feature::RvalueReference));
    let no_type = answer(cpp17(), "A<x<y>z>", &["A"]).unwrap_err();
    assert_eq!(no_type.error, TypeNameError::NoTypeName);
}

/// Where every list that the other function finds is one of a name, and no `>>` and no comparison stands in the row.
#[test]
fn both_functions_give_such_rows_the_same_tree() {
    let words = ["A", "B", "C", "map", "Lane"];
    for text in [
        "int",
        "unsigned long long",
        "A<b>",
        "A<b,c>",
        "A<B<C<d> >,e>",
        "std::map<Key, Lane<8> > *",
        "A<b>::C<d,e> const &",
        "A<b> (*)(C<d,e>)",
        "A<(b)>[8]",
        "decltype(A<b>)",
    ] {
        for head in [cpp17(), loose()] {
            let row = row(head, text);
            let mut buffers = [vec![DIRT; TREE_LENGTH], vec![DIRT; TREE_LENGTH]];
            let [by_names, without] = &mut buffers;
            let by_names = parse_named_type_name(row.bytes(), &names(&words), by_names);
            let (by_names, without) = (
                by_names.expect(text),
                parse_type_name(row.bytes(), without).expect(text),
            );
            assert_eq!(by_names.records(), without.records(), "{text}");
            assert_eq!(by_names.steps(), without.steps(), "{text}");
            assert_eq!(by_names.outer_arguments(), without.outer_arguments());
        }
    }
    let lane = row(loose(), "Lane<(Key<8>>2)>");
    let mut buffer = tree_for(lane.bytes());
    let tree = parse_named_type_name(lane.bytes(), &names(&["Lane"]), &mut buffer).unwrap();
    assert_eq!(tree.outer_arguments(), Some(1));
}

#[test]
fn names_are_for_cpp_alone() {
    for text in ["A", "A<b>", "", "A)", "A $"] {
        let c = answer(checked(c(CStandard::C23)), text, &["A"]);
        assert_eq!(c, invalid_list(), "{text}");
        let fortran = fortran(FortranStandard::Fortran2023);
        assert_eq!(answer(checked(fortran), text, &["A"]), invalid_list());
    }
}

/// Records by their words, one behind the other, as a carrier's list.
fn records(words: &[&str]) -> Vec<u8> {
    let mut row = Row::new(Head::default());
    for (word, at) in words.iter().zip(7..) {
        row.push(TokenKind::Identifier, word, at..at + 5).unwrap();
    }
    row.bytes()[HEAD_LENGTH..].to_vec()
}

/// The list with one of its bytes changed.
fn changed(list: &[u8], at: usize, byte: u8) -> Vec<u8> {
    let mut list = list.to_vec();
    list[at] = byte;
    list
}

/// What is no name list, each a fault of its own.
fn malformed() -> Vec<Vec<u8>> {
    let one = records(&["Lane"]);
    let mut longer = one.clone();
    longer.push(0);
    let mut lists = vec![
        vec![],
        longer,
        records(&["A", "Lane", "A"]),
        // Another kind, in its two bytes.
        changed(&one, 2, 1),
        changed(&one, 2, 39),
        changed(&one, 3, 1),
        // A span that ends before it starts.
        changed(&one, 4, 13),
        // A blank, a control character and what is not ASCII.
        changed(&one, TOKEN_LENGTH, b' '),
        changed(&one, TOKEN_LENGTH, 127),
        changed(&one, TOKEN_LENGTH + 3, 0xe9),
        // A word of 5 bytes, of which 4 are there, and one of 3.
        changed(&one, 0, 25),
        changed(&one, 0, 23),
        // A word of no byte.
        changed(&one[..TOKEN_LENGTH], 0, TOKEN_LENGTH as u8),
        // A row file: a list has no head.
        row(cpp17(), "Lane").bytes().to_vec(),
        // A record without a word, of a kind that has none.
        row(cpp17(), "*").bytes()[HEAD_LENGTH..].to_vec(),
    ];
    lists.extend((1..one.len()).map(|length| one[..length].to_vec()));
    let many: Vec<String> = (0..=MOST_NAMES).map(|name| format!("A{name}")).collect();
    let many: Vec<&str> = many.iter().map(String::as_str).collect();
    assert!(Names::from_bytes(records(&many[1..])).is_ok());
    lists.push(records(&many));
    lists
}

#[test]
fn a_list_that_is_malformed() {
    let row = row(cpp17(), "Lane<8>");
    for list in malformed() {
        let mut tree = vec![DIRT; TREE_LENGTH];
        let mut answer = [DIRT; ANSWER_LENGTH];
        let number = type_name_read_named(row.bytes(), &list, &mut tree, &mut answer);
        assert_eq!((number, answer), (8, [8, 65_535, 0, 0]), "{list:?}");
        assert!(tree.iter().all(|&number| number == 0));
        let refusal = Names::from_bytes(list.as_slice()).unwrap_err();
        assert_eq!(refusal.error, TypeNameError::InvalidNameList, "{list:?}");
    }
}

/// 8 comes behind what is tested of the file and of the buffer, and before the row.
#[test]
fn when_the_list_is_tested() {
    let number = |file: &[u8], tree: &mut [u32]| {
        let number = type_name_read_named(file, &[], tree, &mut []);
        let left = if number <= 6 { DIRT } else { 0 };
        assert!(tree.iter().all(|&number| number == left));
        number
    };
    let mut tree = [DIRT; 12];
    let file = row(cpp17(), "A)").bytes().to_vec();
    assert_eq!(number(&vec![0; type_name::MOST_BYTES + 1], &mut tree), 1);
    assert_eq!(number(&[], &mut tree), 2);
    assert_eq!(number(&changed(&file, 5, 253), &mut tree), 3);
    assert_eq!(number(&file[..file.len() - 1], &mut tree), 4);
    let many = row(cpp17(), &"A ".repeat(1_025));
    assert_eq!(number(many.bytes(), &mut tree), 5);
    assert_eq!(number(&file, &mut tree[..11]), 6);
    // Another language, too, is told behind a short buffer.
    assert_eq!(number(&changed(&file, 4, 0), &mut tree[..11]), 6);
    assert_eq!(number(&file, &mut tree), 8);
    assert_eq!(number(row(cpp17(), "").bytes(), &mut []), 8);
}

#[test]
fn as_many_numbers_of_the_answer_as_have_room_are_written() {
    let row = row(cpp17(), "Slots<(Lanes<8)>");
    for (word, whole) in [("Slots", [0, 7, 10, 0]), ("Lanes", [27, 65_535, 0, 6])] {
        for room in 0..6 {
            let mut answer = [DIRT; 6];
            let mut tree = tree_for(row.bytes());
            let names = names(&[word]);
            let into = &mut answer[..room];
            let number = type_name_read_named(row.bytes(), names.as_bytes(), &mut tree, into);
            assert_eq!(number, whole[0]);
            let written = room.min(ANSWER_LENGTH);
            assert_eq!(answer[..written], whole[..written]);
            assert!(answer[written..].iter().all(|&number| number == DIRT));
        }
    }
}

#[test]
fn a_list_is_laid_out_as_records_of_words() {
    let list = names(&["Lane", "!~"]);
    let mut expected = vec![24, 0, 0, 0];
    expected.extend([0; 16]);
    expected.extend(b"Lane");
    expected.extend([22, 0, 0, 0]);
    expected.extend([0; 16]);
    expected.extend(b"!~");
    assert_eq!(list.as_bytes(), expected);
    assert!(list.iter().eq(["Lane", "!~"]));
    assert_eq!(Names::from_bytes(expected), Ok(list));
    // Spans decide nothing.
    let elsewhere = Names::from_bytes(records(&["Slots", "A"])).unwrap();
    assert!(elsewhere.iter().eq(["Slots", "A"]));
    let slots = row(cpp17(), "Slots<(Lanes<8)>");
    assert_eq!(answer_of(&slots, &elsewhere), accepted(7, 10));
}

#[test]
fn names_of_which_there_is_no_list() {
    let refused = |words: &[&str]| Names::new(words).unwrap_err();
    assert_eq!(refused(&[]), NamesError::Empty);
    let empty = NamesError::WordLength { name: 1, bytes: 0 };
    assert_eq!(refused(&["A", ""]), empty);
    let longest = "A".repeat(LONGEST_WORD);
    assert!(Names::new([&longest]).is_ok());
    let longer = NamesError::WordLength {
        name: 0,
        bytes: 256,
    };
    assert_eq!(refused(&[&(longest + "A")]), longer);
    let byte = NamesError::WordByte { name: 2, at: 3 };
    assert_eq!(refused(&["A", "B", "caf\u{e9}"]), byte);
    let twice = NamesError::Twice { name: 3, first: 1 };
    assert_eq!(refused(&["A", "B", "b", "B"]), twice);
    let many = (0..MOST_NAMES).map(|name| format!("A{name}"));
    assert_eq!(Names::new(many.clone()).unwrap().iter().count(), MOST_NAMES);
    let one_more = Names::new(many.chain(["B".to_owned()]));
    assert_eq!(one_more, Err(NamesError::TooMany));
}

#[test]
fn each_fault_of_names_is_a_sentence() {
    let sentence = |words: &[&str]| Names::new(words).unwrap_err().to_string();
    assert_eq!(sentence(&[]), "there is no name");
    assert_eq!(sentence(&["A", ""]), "name 1 has 0 bytes, and not 1 to 255");
    let byte = "byte 1 of name 0 is no visible ASCII character";
    assert_eq!(sentence(&["a b"]), byte);
    assert_eq!(sentence(&["A", "A"]), "name 1 is given before, as name 0");
    let many = Names::new((0..600).map(|name| name.to_string()));
    assert_eq!(
        many.unwrap_err().to_string(),
        "there are more than 512 names"
    );
}

#[test]
fn a_refusal_is_a_sentence() {
    let said = |text: &str, words: &[&str]| answer(cpp17(), text, words).unwrap_err().to_string();
    assert_eq!(
        said("A<b<c>>", &["A"]),
        "refusal 26: a `>>` closes a list, and its second half finds none to close at that bracket depth"
    );
    assert_eq!(
        said("A<>", &["A"]),
        "refusal 27: the list of a name is empty, has an empty argument or is not closed"
    );
    let c = answer(checked(c(CStandard::C23)), "A", &["A"]).unwrap_err();
    assert_eq!(
        c.to_string(),
        "refusal 8: the language is not C++, or the name list is not one of 1 to 512 different names"
    );
}
