//! Lists of type names: their parts, and the part that is refused. The expected answers are worked out from document 02, C-12.

mod support;

use support::{c, checked, cpp, fortran, row, unchecked};
use type_name::{
    CStandard, CppStandard, FortranStandard, Head, LIST_ANSWER_LENGTH, ListRefusal, MOST_TOKENS,
    NO_PART, NO_TOKEN, NODE_WIDTH, PartPlace, Refusal, Row, TREE_LENGTH, Token, TokenKind,
    TypeNameError, parse_type_list, parse_type_name, tree_for, type_name_read_list,
};

const DIRT: u32 = 0xdead_beef;

fn c89() -> Head {
    checked(c(CStandard::C89))
}

fn cpp17() -> Head {
    checked(cpp(CppStandard::Cpp17))
}

fn with_allowance(head: Head, allowance: u32) -> Head {
    Head { allowance, ..head }
}

/// The five numbers; the buffer is looked at, too.
fn answer(file: &[u8]) -> [u32; LIST_ANSWER_LENGTH] {
    let mut tree = vec![DIRT; TREE_LENGTH];
    let mut answer = [DIRT; LIST_ANSWER_LENGTH];
    let returned = type_name_read_list(file, &mut tree, &mut answer);
    assert_eq!(returned, answer[0]);
    let (written, left) = match answer[0] {
        0 => (NODE_WIDTH * answer[1] as usize, 0),
        1..=6 => (0, DIRT),
        _ => (0, 0),
    };
    assert!(tree[written..].iter().all(|&number| number == left));
    answer
}

fn numbers(head: Head, text: &str) -> [u32; LIST_ANSWER_LENGTH] {
    answer(row(head, text).bytes())
}

#[test]
fn worked_by_hand() {
    let none = NO_TOKEN;
    let loose = unchecked(cpp(CppStandard::Cpp17));
    assert_eq!(numbers(c89(), "int,long"), [0, 2, 4, 0, 2]);
    assert_eq!(numbers(cpp17(), "A<b,c>,d"), [0, 7, 9, 0, 2]);
    assert_eq!(numbers(c89(), "int,"), [10, none, 0, 2, 1]);
    assert_eq!(numbers(cpp17(), "A<b>,C<d"), [16, 1, 0, 5, 1]);
    assert_eq!(numbers(loose, "A<,b>"), [0, 5, 5, 0, 1]);
    let two = with_allowance(c89(), 2);
    assert_eq!(numbers(two, "int,int"), [25, none, 0, 2, 1]);
    assert_eq!(numbers(two, "int,"), [10, none, 0, 2, 1]);
    assert_eq!(numbers(c89(), "long long,)"), [40, none, 1, 3, 0]);
    assert_eq!(numbers(c89(), ""), [10, none, 0, 0, 0]);
}

/// The angle depth at a comma is the prescan's, whatever the reader makes of the angle.
#[test]
fn a_row_is_cut_outside_brackets_and_angles() {
    let lengths = |head, text: &str| {
        let row = row(head, text);
        let mut buffer = tree_for(row.bytes());
        let list = parse_type_list(row.bytes(), &mut buffer).expect(text);
        let places = list.parts().map(|part| part.place);
        let found: Vec<(u32, u32)> = places
            .map(|place| (place.first_token, place.token_count))
            .collect();
        assert_eq!(found.len(), list.part_count(), "{text}");
        found
    };
    let loose = unchecked(cpp(CppStandard::Cpp17));
    assert_eq!(lengths(loose, "A"), [(0, 1)]);
    assert_eq!(lengths(loose, "A<,b>,c"), [(0, 5), (6, 1)]);
    assert_eq!(
        lengths(loose, "A<b,c>,d(e,f)[g],h"),
        [(0, 6), (7, 9), (17, 1)]
    );
    assert_eq!(lengths(loose, "A<B<c,d>>,e"), [(0, 8), (9, 1)]);
    assert_eq!(lengths(loose, "A<B<C<d>>,e>,f"), [(0, 11), (12, 1)]);
    assert_eq!(lengths(loose, "A>>b,c"), [(0, 3), (4, 1)]);
    assert_eq!(lengths(loose, "A(<),b"), [(0, 4), (5, 1)]);
    let fortran = checked(fortran(FortranStandard::Fortran90));
    assert_eq!(lengths(fortran, "real(kind=8),integer"), [(0, 6), (7, 1)]);
}

/// Type names of which lists are made, with and without the structure check.
const NAMES: [&str; 14] = [
    "int",
    "A<b>",
    "A<B<c>>",
    "Lane<(Key<8>>2)>",
    "const A (*)[8]",
    "A<b,c(d,e)>::F",
    "A>>b",
    "A<,b>",
    "long long long",
    "Slots<(Lanes<8)>",
    "",
    "*",
    "8 A",
    "unsigned A<b",
];

/// A row read as one type name: its records and steps, or why it is refused.
fn alone(row: &Row) -> Result<(Vec<[u32; NODE_WIDTH]>, u32), Refusal> {
    let mut buffer = tree_for(row.bytes());
    let tree = parse_type_name(row.bytes(), &mut buffer)?;
    Ok((tree.records().to_vec(), tree.steps()))
}

/// The answer to three type names with commas between them, by the answers that they get alone.
fn compare(head: Head, names: [&str; 3]) {
    let list = row(head, &names.join(","));
    let mut buffer = vec![DIRT; TREE_LENGTH];
    let answer = parse_type_list(list.bytes(), &mut buffer);
    let mut steps = 0;
    let mut trees = Vec::new();
    for (number, name) in names.into_iter().enumerate() {
        match alone(&row(head, name)) {
            Ok((records, taken)) => {
                steps += taken;
                trees.push(records);
            }
            Err(refusal) => {
                let found = answer.expect_err(name);
                let expected = Refusal {
                    steps: steps + refusal.steps,
                    ..refusal
                };
                assert_eq!(found.refusal, expected, "{names:?}");
                assert_eq!(found.part.map(|part| part.number), Some(number as u32));
                return;
            }
        }
    }
    let list = answer.expect(names[0]);
    assert_eq!((list.part_count(), list.steps()), (3, steps));
    assert_eq!(list.records(), trees.concat());
    assert_eq!(list.node_count(), list.records().len());
    let found: Vec<_> = list.parts().map(|part| part.records().to_vec()).collect();
    assert_eq!(found, trees);
    let counts = list.parts().map(|part| part.node_count());
    assert!(counts.eq(trees.iter().map(Vec::len)));
}

#[test]
fn each_part_is_read_as_if_alone() {
    for head in [cpp17(), unchecked(cpp(CppStandard::Cpp17))] {
        // The last is never closed, so that no comma behind it would cut.
        let (unclosed, closed) = NAMES.split_last().expect("names");
        for first in closed {
            for second in closed {
                for third in closed.iter().chain([unclosed]) {
                    compare(head, [first, second, third]);
                }
            }
        }
    }
}

#[test]
fn nodes_lead_to_the_part_s_tokens() {
    let text = "int, Lane<Key>, A::b *";
    let row = row(cpp17(), text);
    let mut buffer = tree_for(row.bytes());
    let list = parse_type_list(row.bytes(), &mut buffer).unwrap();
    let shown = |token: Token| {
        (
            token.number,
            &text[token.start as usize..token.end as usize],
        )
    };
    let nodes: Vec<Vec<_>> = list
        .parts()
        .map(|part| {
            part.with_levels()
                .map(|(_, node)| shown(node.token))
                .collect()
        })
        .collect();
    let expected = [
        vec![(0, "int")],
        vec![(0, "Lane"), (1, "<"), (2, "Key"), (2, "Key")],
        vec![(0, "A"), (1, "::"), (2, "b"), (3, "*")],
    ];
    assert_eq!(nodes, expected);
    let parts: Vec<_> = list.parts().collect();
    let [_, lane, _] = &parts[..] else {
        panic!("three parts")
    };
    let tokens: Vec<_> = lane.tokens().map(shown).collect();
    assert_eq!(tokens, [(0, "Lane"), (1, "<"), (2, "Key"), (3, ">")]);
    let place = PartPlace {
        number: 1,
        first_token: 2,
        token_count: 4,
    };
    assert_eq!(lane.place, place);
    assert_eq!(lane.top_level().count(), 2);
}

#[test]
fn the_allowance_is_shared() {
    // 2, 5 and 2 steps.
    let text = "int,A<b>,int";
    let ends = [(0..2, 0), (2..7, 1), (7..9, 2)];
    for (allowances, part) in ends {
        for allowance in allowances {
            let expected = [25, NO_TOKEN, 0, allowance, part];
            assert_eq!(numbers(with_allowance(cpp17(), allowance), text), expected);
        }
    }
    assert_eq!(numbers(with_allowance(cpp17(), 9), text), [0, 6, 9, 0, 3]);
    // What the prescan refuses takes no step.
    let spent = with_allowance(cpp17(), 2);
    assert_eq!(numbers(spent, "int,A<b"), [16, 1, 0, 2, 1]);
    assert_eq!(numbers(spent, "int,*"), [17, NO_TOKEN, 0, 2, 1]);
}

#[test]
fn files_and_buffers_are_refused_before_any_part() {
    let refused = |file: &[u8]| {
        let refusal = parse_type_list(file, &mut []).unwrap_err();
        assert_eq!((refusal.part, refusal.token_in_row()), (None, None));
        refusal.refusal.error
    };
    assert_eq!(refused(&[]), TypeNameError::InvalidHead);
    assert_eq!(answer(&[]), [2, NO_TOKEN, 0, 0, NO_PART]);
    let many = "A,".repeat(MOST_TOKENS / 2);
    let longest = row(c89(), &many);
    assert_eq!(answer(longest.bytes())[0], 10);
    let longer = row(c89(), &(many + "A"));
    assert_eq!(answer(longer.bytes()), [5, NO_TOKEN, 0, 0, NO_PART]);
    // Commas are counted, too.
    let three = row(c89(), "int,int");
    assert_eq!(refused(three.bytes()), TypeNameError::ShortBuffer);
    let said = parse_type_list(three.bytes(), &mut [DIRT; 17]).unwrap_err();
    assert_eq!(said.refusal.error, TypeNameError::ShortBuffer);
    assert!(parse_type_list(three.bytes(), &mut [DIRT; 18]).is_ok());
}

#[test]
fn as_many_parts_as_a_row_has_room_for() {
    let text = format!("{}A", "A,".repeat(MOST_TOKENS / 2 - 1));
    let row = row(c89(), &text);
    let mut buffer = tree_for(row.bytes());
    let list = parse_type_list(row.bytes(), &mut buffer).unwrap();
    assert_eq!((list.part_count(), list.node_count()), (512, 512));
    let last = list.parts().last().map(|part| part.place);
    let expected = PartPlace {
        number: 511,
        first_token: 1_022,
        token_count: 1,
    };
    assert_eq!(last, Some(expected));
}

fn refused(head: Head, text: &str) -> ListRefusal {
    let row = row(head, text);
    parse_type_list(row.bytes(), &mut tree_for(row.bytes())).unwrap_err()
}

#[test]
fn a_refusal_names_its_part() {
    let refusal = refused(cpp17(), "A<b>, C<d");
    assert_eq!(refusal.token_in_row(), Some(6));
    assert_eq!(
        refusal.to_string(),
        "refusal 16: an angle is never closed (part 1, token 1)"
    );
    let place = |text: &str| {
        let refusal = refused(cpp17(), text);
        let part = refusal.part.expect("a part");
        let PartPlace {
            number,
            first_token,
            token_count,
        } = part;
        let number_of_refusal = refusal.refusal.error.number();
        (number_of_refusal, number, first_token, token_count)
    };
    assert_eq!(place(""), (10, 0, 0, 0));
    assert_eq!(place("int,,long"), (10, 1, 2, 0));
    assert_eq!(place("int,"), (10, 1, 2, 0));
    assert_eq!(place("int, A>>b, long"), (30, 1, 2, 3));
    // A fault of the prescan ends the cutting.
    assert_eq!(place("int, A), long"), (11, 1, 2, 4));
    assert_eq!(place("int, A>, long"), (12, 1, 2, 4));
    assert_eq!(place("int, A $, long"), (14, 1, 2, 4));
    assert_eq!(place("int, A(b, long"), (15, 1, 2, 5));
    assert_eq!(
        refused(cpp17(), "int,").to_string(),
        "refusal 10: there is no token (part 1)"
    );
    let boundary = refused(c89(), "int &, int").to_string();
    assert_eq!(
        boundary,
        "refusal 18: no type name begins or ends so (part 0)"
    );
    let lacking = refused(c89(), "int, long long").to_string();
    assert_eq!(
        lacking,
        "refusal 40: the standard lacks what the type name uses: `long long` (part 1)"
    );
    let file = parse_type_list(&[], &mut []).unwrap_err().to_string();
    assert!(
        file.starts_with("refusal 2: ") && !file.contains("part"),
        "{file}"
    );
}

fn row_of(head: Head, tokens: &[TokenKind]) -> Row {
    let mut row = Row::new(head);
    for &kind in tokens {
        row.push(kind, "A", 0..0).unwrap();
    }
    row
}

/// The parts of a row as `parse_type_name` finds them: what it refuses as 13 is the next cut.
fn parts_by_reading(head: Head, tokens: &[TokenKind]) -> Vec<PartPlace> {
    let mut places = Vec::new();
    let mut first = 0;
    loop {
        let comma = alone(&row_of(head, &tokens[first..]))
            .err()
            .filter(|refusal| refusal.error == TypeNameError::TopLevelComma)
            .and_then(|refusal| refusal.token);
        let length = comma.map_or(tokens.len() - first, |comma| comma as usize);
        places.push(PartPlace {
            number: places.len() as u32,
            first_token: first as u32,
            token_count: length as u32,
        });
        match comma {
            Some(_) => first += length + 1,
            None => return places,
        }
    }
}

/// The steps of all parts, or the first refusal, by what `parse_type_name` answers to each with what is left of the allowance.
fn answer_by_reading(
    head: Head,
    tokens: &[TokenKind],
    places: &[PartPlace],
) -> Result<u32, ListRefusal> {
    let mut taken = 0;
    for &place in places {
        let first = place.first_token as usize;
        let part = &tokens[first..][..place.token_count as usize];
        match alone(&row_of(with_allowance(head, head.allowance - taken), part)) {
            Ok((_, steps)) => taken += steps,
            Err(refusal) => {
                let steps = taken + refusal.steps;
                return Err(ListRefusal {
                    refusal: Refusal { steps, ..refusal },
                    part: Some(place),
                });
            }
        }
    }
    Ok(taken)
}

fn compare_with_reading(head: Head, tokens: &[TokenKind]) {
    let row = row_of(head, tokens);
    let places = parts_by_reading(head, tokens);
    let expected = answer_by_reading(head, tokens, &places);
    let mut buffer = tree_for(row.bytes());
    let found = parse_type_list(row.bytes(), &mut buffer);
    if let Ok(list) = &found {
        assert_eq!(list.part_count(), places.len(), "{tokens:?}");
        assert!(list.parts().map(|part| part.place).eq(places), "{tokens:?}");
    }
    assert_eq!(found.map(|list| list.steps()), expected, "{tokens:?}");
}

/// On all short rows over the tokens that decide where a row is cut.
#[test]
fn a_list_is_answered_as_its_parts_are() {
    const KINDS: [TokenKind; 7] = [
        TokenKind::Identifier,
        TokenKind::Comma,
        TokenKind::Less,
        TokenKind::Greater,
        TokenKind::ShiftRight,
        TokenKind::LeftParen,
        TokenKind::RightParen,
    ];
    for profile in [cpp(CppStandard::Cpp17), c(CStandard::C99)] {
        for length in 0..=6 {
            for case in 0..KINDS.len().pow(length) {
                let kind = |place: u32| KINDS[case / KINDS.len().pow(place) % KINDS.len()];
                let tokens: Vec<TokenKind> = (0..length).map(kind).collect();
                compare_with_reading(unchecked(profile), &tokens);
                compare_with_reading(with_allowance(checked(profile), 3), &tokens);
            }
        }
    }
}

#[test]
fn as_many_numbers_of_the_answer_as_have_room_are_written() {
    for (text, whole) in [
        ("A<b,c>,d", [0, 7, 9, 0, 2]),
        ("A<b>,C<d", [16, 1, 0, 5, 1]),
    ] {
        let row = row(cpp17(), text);
        for room in 0..7 {
            let mut answer = [DIRT; 7];
            let mut tree = tree_for(row.bytes());
            type_name_read_list(row.bytes(), &mut tree, &mut answer[..room]);
            let written = room.min(LIST_ANSWER_LENGTH);
            assert_eq!(answer[..written], whole[..written]);
            assert!(answer[written..].iter().all(|&number| number == DIRT));
        }
    }
}
