//! The rows that document 01 (the scope paper) works out, with every number it gives. The expected answers are its own, none
//! comes from a run of this reader.

mod support;

use support::{Accepted, answer, c, checked, cpp, fortran, row, unchecked};
use type_name::{
    CStandard, CppStandard, Feature, FortranStandard, Head, MOST_NESTING, Refusal, Row,
    StructureCheck, TokenKind, TypeNameError, parse_type_name, tree_for,
};

/// A refusal that names no token and has no detail.
fn plain(error: TypeNameError, steps: u32) -> Refusal {
    Refusal {
        error,
        token: None,
        detail: 0,
        steps,
    }
}

fn accepted(nodes: usize, steps: u32) -> Result<Accepted, Refusal> {
    Ok(Accepted { nodes, steps })
}

fn error(head: Head, text: &str) -> TypeNameError {
    answer(head, text).unwrap_err().error
}

fn listing(head: Head, text: &str) -> String {
    let row = row(head, text);
    let mut tree = tree_for(row.bytes());
    match parse_type_name(row.bytes(), &mut tree) {
        Err(refusal) => panic!("{text}: {refusal}"),
        Ok(tree) => {
            let mut lines = format!("ok {} {}\n", tree.node_count(), tree.steps());
            for (level, node) in tree.with_levels() {
                let letter = node.kind.letter();
                lines += &format!("{level} {letter} {} {}\n", node.token.number, node.extent);
            }
            lines
        }
    }
}

const CPP17: CppStandard = CppStandard::Cpp17;

#[test]
fn the_empty_row() {
    let profiles = [
        c(CStandard::C89),
        cpp(CppStandard::Cpp23),
        fortran(FortranStandard::Fortran2018),
    ];
    for profile in profiles {
        assert_eq!(
            answer(checked(profile), ""),
            Err(plain(TypeNameError::Empty, 0))
        );
    }
}

#[test]
fn words() {
    let [c89, c99] = [CStandard::C89, CStandard::C99].map(|standard| checked(c(standard)));
    assert_eq!(answer(c89, "int"), accepted(1, 2));
    let lacking = answer(c89, "long long").unwrap_err();
    assert_eq!(lacking.error, TypeNameError::NotAvailableInProfile);
    assert_eq!(lacking.feature(), Some(Feature::LongLong));
    assert_eq!((lacking.token, lacking.detail), (None, 1));
    assert_eq!(answer(c99, "long long").unwrap().steps, 3);
    assert_eq!(error(c99, "long long long"), TypeNameError::NoTypeName);
    assert!(answer(unchecked(c(CStandard::C99)), "long long long").is_ok());
    let upper = answer(unchecked(c(CStandard::C89)), "LONG LONG").unwrap_err();
    assert_eq!(upper.feature(), Some(Feature::LongLong));
    let bits = "unsigned _BitInt(8)";
    let lacking = answer(checked(c(CStandard::C11)), bits).unwrap_err();
    assert_eq!(lacking.feature(), Some(Feature::BitInt));
    assert!(answer(checked(c(CStandard::C23)), bits).is_ok());
}

#[test]
fn angles() {
    let at = |token, refusal| Refusal {
        token: Some(token),
        ..refusal
    };
    let cpp17 = checked(cpp(CPP17));
    let angle = at(3, plain(TypeNameError::UnexpectedAngle, 0));
    assert_eq!(answer(cpp17, "A<b>>"), Err(angle));
    assert_eq!(answer(unchecked(cpp(CPP17)), "A>>b"), accepted(3, 3));
    assert_eq!(error(cpp17, "A>>b"), TypeNameError::NoTypeName);
    let nested = answer(checked(cpp(CppStandard::Cpp11)), "A<B<c>>");
    assert_eq!(nested, accepted(7, 8));
    let open = at(1, plain(TypeNameError::UnclosedAngle, 0));
    assert_eq!(answer(cpp17, "A<b>::C<d"), Err(open));
}

#[test]
fn groups() {
    let cpp17 = checked(cpp(CPP17));
    let slots = "Slots<(Lanes<8)>";
    let not_closed = plain(TypeNameError::UnterminatedGroup, 12);
    assert_eq!(answer(cpp17, slots), Err(not_closed));
    let scant = Head {
        allowance: 11,
        ..cpp17
    };
    let passed = plain(TypeNameError::AllowancePassed, 11);
    assert_eq!(answer(scant, slots), Err(passed));
    let wrong_closer = error(cpp17, "X<([A<b]>c)>");
    assert_eq!(wrong_closer, TypeNameError::MismatchedClosingDelimiter);
}

#[test]
fn boundaries() {
    let in_c = answer(checked(c(CStandard::C18)), "int&");
    let boundary = plain(TypeNameError::InvalidBoundaryToken, 0);
    assert_eq!(in_c, Err(boundary));
    assert!(answer(checked(cpp(CppStandard::Cpp98)), "int&").is_ok());
}

#[test]
fn nesting() {
    let groups = |depth| format!("int {}{}", "(".repeat(depth), ")".repeat(depth));
    let head = unchecked(c(CStandard::C18));
    let steps = answer(head, &groups(MOST_NESTING)).unwrap().steps;
    assert_eq!(steps, 65);
    let too_deep = MOST_NESTING + 1;
    assert_eq!(
        error(head, &groups(too_deep)),
        TypeNameError::NestingLimitExceeded
    );
    // Single `>`, which no lexer would make of so many in a row.
    let mut row = Row::new(unchecked(cpp(CPP17)));
    let mut push = |kind, text| row.push(kind, text, 0..0).unwrap();
    for _ in 0..too_deep {
        push(TokenKind::Identifier, "A");
        push(TokenKind::Less, "<");
    }
    push(TokenKind::Identifier, "b");
    for _ in 0..too_deep {
        push(TokenKind::Greater, ">");
    }
    let mut buffer = tree_for(row.bytes());
    let tree = parse_type_name(row.bytes(), &mut buffer).unwrap();
    assert_eq!(tree.steps(), 132);
    let nodes = tree.with_levels();
    let places: Vec<_> = nodes
        .map(|(level, node)| (level, node.kind.letter(), node.token.number))
        .collect();
    // The innermost `<` and the last `>`.
    assert!(places.contains(&(64, 'T', 129)));
    assert_eq!(places.last(), Some(&(0, 'T', 195)));
}

#[test]
fn in_fortran() {
    let fortran77 = fortran(FortranStandard::Fortran77);
    assert_eq!(answer(checked(fortran77), "real*8"), accepted(3, 4));
    let deferred = "character*(*)";
    assert_eq!(
        error(checked(fortran77), deferred),
        TypeNameError::NoTypeName
    );
    let nodes = answer(unchecked(fortran77), deferred).unwrap().nodes;
    assert_eq!(nodes, 4);
}

const LANE: &str = "Lane<(Key<8>>2)>";

fn lane(structure: StructureCheck) -> Head {
    Head {
        profile: cpp(CPP17),
        structure,
        allowance: 1_000,
    }
}

#[test]
fn the_example() {
    let expected = include_str!("../../examples/lane.listing");
    assert_eq!(listing(lane(StructureCheck::Off), LANE), expected);
    assert_eq!(
        answer(lane(StructureCheck::On), LANE),
        Err(plain(TypeNameError::NoTypeName, 14))
    );
}

#[test]
fn rows_are_laid_out_as_the_shipped_ones() {
    let shipped: [&[u8]; 2] = [
        include_bytes!("../../examples/lane.row"),
        include_bytes!("../../examples/lane_checked.row"),
    ];
    for (structure, file) in StructureCheck::ALL.into_iter().zip(shipped) {
        assert_eq!(row(lane(structure), LANE).bytes(), file);
    }
}
