//! Every refusal, by number, token and detail, and what the buffer holds after it. The expected numbers are those of document
//! 01's table; the rows of refusal 40 are those on which the harness finds the original's features.

mod support;

use support::{answer, c, checked, cpp, fortran, row, unchecked};
use type_name::{
    ANSWER_LENGTH, CStandard, CppStandard, Delimiter, Feature, FortranStandard, HEAD_LENGTH, Head,
    HostLanguageProfile, MOST_BYTES, MOST_NESTING, MOST_TOKENS, NO_TOKEN, NODE_WIDTH,
    NUMBERS_PER_TOKEN, Refusal, StructureCheck, TOKEN_LENGTH, TREE_LENGTH, TypeNameError,
    parse_type_name, tree_for, type_name_read,
};

const DIRT: u32 = 0xdead_beef;

fn c18() -> Head {
    checked(c(CStandard::C18))
}

/// The refusal of a file; the buffer is looked at, too.
fn refused(file: &[u8]) -> Refusal {
    let mut tree = vec![DIRT; TREE_LENGTH];
    let refusal = parse_type_name(file, &mut tree).unwrap_err();
    let left = if refusal.error.number() <= 6 { DIRT } else { 0 };
    assert!(tree.iter().all(|&number| number == left), "{refusal}");
    refusal
}

/// Number, token and detail of the refusal of a text.
fn numbers(head: Head, text: &str) -> (u32, Option<u32>, u32) {
    let refusal = refused(row(head, text).bytes());
    (refusal.error.number(), refusal.token, refusal.detail)
}

/// The file of `int` with one of its bytes changed.
fn changed(at: usize, byte: u8) -> Vec<u8> {
    let mut file = row(c18(), "int").bytes().to_vec();
    file[at] = byte;
    file
}

#[test]
fn of_the_file() {
    let number = |file: &[u8]| {
        let refusal = refused(file);
        assert_eq!((refusal.token, refusal.steps), (None, 0));
        (refusal.error, refusal.detail)
    };
    assert_eq!(
        number(&[0; MOST_BYTES + 1]),
        (TypeNameError::FileTooLong, 0)
    );
    // Kind 256 is the old format's.
    for wrong in [
        vec![],
        changed(0, 12),
        changed(2, 0),
        changed(3, 0),
        changed(6, 2),
    ] {
        assert_eq!(number(&wrong), (TypeNameError::InvalidHead, 0));
    }
    for unknown in [changed(4, 3), changed(5, 5), changed(5, 253)] {
        assert_eq!(number(&unknown), (TypeNameError::UnknownProfile, 0));
    }
    let mut cut_off = row(c18(), "int *").bytes().to_vec();
    cut_off.pop();
    let second_record = HEAD_LENGTH + TOKEN_LENGTH + "int".len();
    let expected = (TypeNameError::InvalidRecord, second_record as u32);
    assert_eq!(number(&cut_off), expected);
    let many = "A ".repeat(MOST_TOKENS + 1);
    let many = row(unchecked(c(CStandard::C18)), &many);
    assert_eq!(number(many.bytes()), (TypeNameError::TooManyRecords, 0));
}

/// What `Row::push` does not write is refused where others write it.
#[test]
fn of_what_a_record_cannot_hold() {
    let int = row(c18(), "int").bytes().to_vec();
    let word = HEAD_LENGTH + TOKEN_LENGTH;
    let with_word = |bytes: &[u8]| {
        let mut file = int[..word].to_vec();
        file[HEAD_LENGTH..][..2]
            .copy_from_slice(&((TOKEN_LENGTH + bytes.len()) as u16).to_le_bytes());
        file.extend(bytes);
        file
    };
    let reversed = {
        let mut file = int.clone();
        file[HEAD_LENGTH + 4] = 4;
        file
    };
    assert!(parse_type_name(&with_word(b"int"), &mut tree_for(&int)).is_ok());
    let files = [
        with_word(b""),
        with_word(b"a b"),
        with_word("caf\u{e9}".as_bytes()),
        with_word(&[b'a'; 256]),
        reversed,
    ];
    for file in files {
        let refusal = refused(&file);
        assert_eq!(refusal.error, TypeNameError::InvalidRecord);
        assert_eq!(refusal.detail, HEAD_LENGTH as u32);
    }
}

#[test]
fn of_the_buffer() {
    let row = row(c18(), "int *");
    let needed = 2 * NUMBERS_PER_TOKEN;
    for short in 0..needed {
        let mut tree = vec![DIRT; short];
        let refusal = parse_type_name(row.bytes(), &mut tree).unwrap_err();
        assert_eq!(refusal.error, TypeNameError::ShortBuffer);
        assert_eq!((refusal.token, refusal.detail, refusal.steps), (None, 0, 0));
        assert_eq!(tree, vec![DIRT; short]);
    }
    assert!(parse_type_name(row.bytes(), &mut vec![DIRT; needed]).is_ok());
}

#[test]
fn of_the_prescan() {
    let c18 = c18();
    assert_eq!(numbers(c18, ""), (10, None, 0));
    assert_eq!(numbers(c18, "A)"), (11, Some(1), 0));
    assert_eq!(numbers(c18, "A(]"), (11, Some(2), 1));
    assert_eq!(numbers(c18, "A[)"), (11, Some(2), 2));
    assert_eq!(numbers(c18, "A<b>"), (12, Some(1), 0));
    assert_eq!(numbers(c18, "A,b"), (13, Some(1), 0));
    assert_eq!(numbers(c18, "A $"), (14, Some(1), 0));
    assert_eq!(numbers(c18, "A(["), (15, Some(2), 0));
    assert_eq!(
        numbers(checked(cpp(CppStandard::Cpp17)), "A<b"),
        (16, Some(1), 0)
    );
    assert_eq!(numbers(c18, "*"), (17, None, 0));
    assert_eq!(numbers(c18, "(A)"), (18, None, 0));
}

#[test]
fn of_the_reading_and_the_structure() {
    let cpp17 = checked(cpp(CppStandard::Cpp17));
    let deep = format!(
        "int {}{}",
        "(".repeat(MOST_NESTING + 1),
        ")".repeat(MOST_NESTING + 1)
    );
    assert_eq!(numbers(cpp17, &deep), (20, None, 0));
    assert_eq!(numbers(cpp17, "Slots<(Lanes<8)>"), (21, None, 0));
    assert_eq!(numbers(cpp17, "A([A<]>)"), (22, None, 0));
    let none = Head {
        allowance: 0,
        ..cpp17
    };
    assert_eq!(numbers(none, "int"), (25, None, 0));
    assert_eq!(numbers(cpp17, "A>>b"), (30, None, 0));
}

/// A row that lacks the feature with the standard, and none with the next.
#[rustfmt::skip]
const FEATURES: [(Feature, [HostLanguageProfile; 2], StructureCheck, &str); 11] = [
    (Feature::LongLong, [c(CStandard::C89), c(CStandard::C99)], StructureCheck::On, "long long"),
    (Feature::Atomic, [c(CStandard::C99), c(CStandard::C11)], StructureCheck::On, "_Atomic(int)"),
    (Feature::BitInt, [c(CStandard::C18), c(CStandard::C23)], StructureCheck::On, "_BitInt(8)"),
    (Feature::Typeof, [c(CStandard::C18), c(CStandard::C23)], StructureCheck::On, "typeof(int)"),
    (Feature::TypeofUnqual, [c(CStandard::C18), c(CStandard::C23)], StructureCheck::On, "typeof_unqual(int)"),
    (Feature::Decltype, [cpp(CppStandard::Cpp98), cpp(CppStandard::Cpp11)], StructureCheck::On, "decltype(x)"),
    (Feature::RvalueReference, [cpp(CppStandard::Cpp98), cpp(CppStandard::Cpp11)], StructureCheck::On, "int&&"),
    (Feature::Selector, [fortran(FortranStandard::Fortran77), fortran(FortranStandard::Fortran90)], StructureCheck::On, "real(kind=8)"),
    (Feature::DerivedType, [fortran(FortranStandard::Fortran77), fortran(FortranStandard::Fortran90)], StructureCheck::On, "type(lane)"),
    (Feature::Class, [fortran(FortranStandard::Fortran95), fortran(FortranStandard::Fortran2003)], StructureCheck::On, "class(lane)"),
    (Feature::AssumedTypeOrRank, [fortran(FortranStandard::Fortran2008), fortran(FortranStandard::Fortran2018)], StructureCheck::Off, "lane(..)"),
];

#[test]
fn of_the_profile() {
    for (place, (feature, [lacking, having], structure, text)) in (1..).zip(FEATURES) {
        let head = |profile| Head {
            structure,
            ..checked(profile)
        };
        assert_eq!(numbers(head(lacking), text), (40, None, place), "{text}");
        let refusal = answer(head(lacking), text).unwrap_err();
        assert_eq!(refusal.feature(), Some(feature));
        assert!(answer(head(having), text).is_ok(), "{text}");
    }
}

#[test]
fn what_was_open_is_told() {
    let expected = |text| answer(c18(), text).unwrap_err().expected();
    assert_eq!(expected("A)"), None);
    assert_eq!(expected("A(]"), Some(Delimiter::Parenthesis));
    assert_eq!(expected("A[)"), Some(Delimiter::Bracket));
    // Another refusal's detail is no bracket, and no feature.
    assert_eq!(
        answer(checked(c(CStandard::C89)), "long long")
            .unwrap_err()
            .expected(),
        None
    );
    assert_eq!(answer(c18(), "A(]").unwrap_err().feature(), None);
}

#[test]
fn refusals_are_printed() {
    let printed = |head, text| answer(head, text).unwrap_err().to_string();
    assert_eq!(
        printed(c18(), "A(]"),
        "refusal 11: a closing bracket does not close the bracket that was opened last; `(` was open (token 2)"
    );
    let c89 = checked(c(CStandard::C89));
    assert_eq!(
        printed(c89, "long long"),
        "refusal 40: the standard lacks what the type name uses: `long long`"
    );
    let scant = Head {
        allowance: 1,
        ..c18()
    };
    assert_eq!(
        printed(scant, "int"),
        "refusal 25: reading and checking would pass the allowance of 1 steps"
    );
}

#[test]
fn an_accepted_tree_is_followed_by_zeros() {
    let row = row(c18(), "int (*)[3]");
    let mut tree = vec![DIRT; TREE_LENGTH];
    let nodes = parse_type_name(row.bytes(), &mut tree)
        .unwrap()
        .node_count();
    let (records, behind) = tree.split_at(NODE_WIDTH * nodes);
    // The word, the group with its star, the brackets with their number.
    assert_eq!(records, [0, 0, 1, 1, 1, 2, 0, 2, 1, 2, 4, 2, 0, 5, 1]);
    assert!(behind.iter().all(|&number| number == 0));
}

#[test]
fn the_longest_row_needs_the_longest_buffer() {
    let row = row(unchecked(c(CStandard::C18)), &"A ".repeat(MOST_TOKENS));
    let mut tree = vec![DIRT; TREE_LENGTH];
    let accepted = parse_type_name(row.bytes(), &mut tree).unwrap();
    assert_eq!(accepted.node_count(), MOST_TOKENS);
    assert_eq!(accepted.steps() as usize, MOST_TOKENS);
    let short = parse_type_name(row.bytes(), &mut tree[1..]).unwrap_err();
    assert_eq!(short.error, TypeNameError::ShortBuffer);
    assert_eq!(tree_for(row.bytes()).len(), TREE_LENGTH);
    assert!(tree_for(&[]).is_empty());
}

#[test]
fn as_many_numbers_of_the_answer_as_have_room_are_written() {
    let file = include_bytes!("../../examples/lane_checked.row");
    let whole = [30, NO_TOKEN, 0, 14];
    for room in 0..6 {
        let mut answer = [DIRT; 6];
        let mut tree = tree_for(file);
        assert_eq!(type_name_read(file, &mut tree, &mut answer[..room]), 30);
        let written = room.min(ANSWER_LENGTH);
        assert_eq!(answer[..written], whole[..written]);
        assert!(answer[written..].iter().all(|&number| number == DIRT));
    }
}
