//! The outer template: how many arguments the list has that a tree begins with, behind a word. The expected answers are worked
//! out from document 02, C-15.

mod support;

use support::{c, checked, cpp, fortran, row, unchecked};
use type_name::{
    CStandard, CppStandard, FortranStandard, Head, NODE_WIDTH, NodeKind, Nodes, Row, TREE_LENGTH,
    TokenKind, parse_type_list, parse_type_name, tree_for, type_name_outer, type_name_read,
};

const DIRT: u32 = 0xdead_beef;

const WORD: [u32; 2] = [NodeKind::Token.number(), 1];

const LIST: u32 = NodeKind::List.number();

const ARGUMENT: u32 = NodeKind::Argument.number();

fn cpp17() -> Head {
    checked(cpp(CppStandard::Cpp17))
}

/// Of a type name that is accepted.
fn outer(head: Head, text: &str) -> Option<usize> {
    let row = row(head, text);
    let mut buffer = tree_for(row.bytes());
    let tree = parse_type_name(row.bytes(), &mut buffer).expect(text);
    tree.outer_arguments()
}

/// The numbers of nodes by kind and extent, with a token number that no row has.
fn numbers(nodes: &[[u32; 2]]) -> Vec<u32> {
    let records = nodes.iter().map(|&[kind, extent]| [kind, DIRT, extent]);
    records.flatten().collect()
}

fn outer_of(nodes: &[[u32; 2]]) -> u32 {
    type_name_outer(&numbers(nodes))
}

#[test]
fn trees_worked_by_hand() {
    assert_eq!(outer(cpp17(), "A<b,c>"), Some(2));
    assert_eq!(outer(cpp17(), "::A<b>"), None);
    assert_eq!(outer(cpp17(), "A"), None);
    assert_eq!(outer(cpp17(), "A<B<c>>"), Some(1));
    assert_eq!(outer(cpp17(), "Lane<8, Key>"), Some(2));
    assert_eq!(outer(cpp17(), "const A<b>"), None);
    assert_eq!(outer(cpp17(), "A::B<c>"), None);
    assert_eq!(outer(cpp17(), "A<b,c>::D<e> *"), Some(2));
    // The first half of `>>` closes the inner list and the second the outer one.
    let loose = unchecked(cpp(CppStandard::Cpp17));
    assert_eq!(outer(loose, "Lane<(Key<8>>2)>"), Some(1));
    // This `<` begins no list.
    assert_eq!(outer(loose, "A<,b>"), None);
}

#[test]
fn numbers_worked_by_hand() {
    assert_eq!(outer_of(&[WORD, [3, 4], [4, 3], [9, 9], [9, 9]]), 1);
    assert_eq!(outer_of(&[WORD, [3, 3], [4, 1], [4, u32::MAX]]), 0);
    assert_eq!(outer_of(&[[0, 2], [3, 2], [4, 1]]), 0);
    assert_eq!(outer_of(&[WORD, [3, 3], [4, 1], [4, 1]]), 2);
    // What stands behind the list is not looked at.
    assert_eq!(outer_of(&[WORD, [3, 2], [4, 1], [DIRT, DIRT]]), 1);
}

/// Each of the faults, in the place of each node that is looked at.
#[test]
fn other_numbers_have_none() {
    let pair = [ARGUMENT, 2];
    let whole = [WORD, [LIST, 5], pair, [0, 1], pair, [0, 1]];
    assert_eq!(outer_of(&whole), 2);
    let with = |node: usize, kind: u32, extent: u32| {
        let mut nodes = whole;
        nodes[node] = [kind, extent];
        outer_of(&nodes)
    };
    for (node, kind, found) in [(0, 0, 1), (1, LIST, 5), (2, ARGUMENT, 2), (4, ARGUMENT, 2)] {
        for other in (0..6).chain([256, u32::MAX]) {
            let expected = if other == kind { 2 } else { 0 };
            assert_eq!(with(node, other, found), expected, "{node}: {other}");
        }
        assert_eq!(with(node, kind, 0), 0, "{node}");
        for extent in [6, 7, 1 << 30, 1 << 31, u32::MAX - 1, u32::MAX] {
            assert_eq!(with(node, kind, extent), 0, "{node}: {extent}");
        }
    }
    assert_eq!(with(0, 0, 2), 0);
    // A list of extent 1, and those that end within an argument or at another one's end.
    for (extent, arguments) in [(1, 0), (2, 0), (3, 1), (4, 0)] {
        assert_eq!(with(1, LIST, extent), arguments, "{extent}");
    }
    // At the first argument: its inner node is no argument; it ends within the other; it takes the other in; it is past the list.
    for (extent, arguments) in [(1, 0), (3, 0), (4, 1), (5, 0)] {
        assert_eq!(with(2, ARGUMENT, extent), arguments, "{extent}");
    }
}

#[test]
fn an_argument_of_extent_0_is_none() {
    assert_eq!(outer_of(&[WORD, [LIST, 2], [ARGUMENT, 0]]), 0);
    assert_eq!(
        outer_of(&[WORD, [LIST, 3], [ARGUMENT, 0], [ARGUMENT, 1]]),
        0
    );
    assert_eq!(
        outer_of(&[WORD, [LIST, 3], [ARGUMENT, 1], [ARGUMENT, 0]]),
        0
    );
}

/// Extents of which a sum, or three times one, would fit into the buffer if it were counted in 32 bits.
#[test]
fn no_sum_begins_again_at_0() {
    for list in [0x5555_5555, 0xaaaa_aaaa, u32::MAX - 1, u32::MAX] {
        assert_eq!(outer_of(&[WORD, [LIST, list], [ARGUMENT, list - 1]]), 0);
        assert_eq!(outer_of(&[WORD, [LIST, list], [ARGUMENT, 1]]), 0);
    }
    for last in [u32::MAX - 3, u32::MAX - 2, u32::MAX - 1, u32::MAX] {
        assert_eq!(outer_of(&[WORD, [LIST, 2], [ARGUMENT, last]]), 0);
        assert_eq!(
            outer_of(&[WORD, [LIST, 3], [ARGUMENT, 1], [ARGUMENT, last]]),
            0
        );
    }
}

/// Counted from the full tree.
fn counted(mut top_level: Nodes) -> Option<usize> {
    let (word, list) = (top_level.next()?, top_level.next()?);
    let is_word = (word.kind, word.token.kind) == (NodeKind::Token, TokenKind::Identifier);
    (is_word && list.kind == NodeKind::List).then(|| list.children().count())
}

/// The numbers of the nodes that are looked at: the first two, and the list's arguments if there is an outer template.
fn looked_at(tree: &[u32], arguments: u32) -> Vec<usize> {
    let mut nodes = vec![0, 1];
    let mut next = 2;
    for _ in 0..arguments {
        nodes.push(next);
        next += tree[NODE_WIDTH * next + 2] as usize;
    }
    nodes
}

/// Holds what is said of a tree's numbers: the same of the whole buffer and of the nodes alone, whatever stands elsewhere, and
/// none of a slice that ends before the list does.
fn compare_numbers(buffer: &[u32], nodes: usize, expected: Option<usize>) {
    let arguments = expected.unwrap_or(0) as u32;
    let tree = &buffer[..NODE_WIDTH * nodes];
    assert_eq!(type_name_outer(buffer), arguments);
    assert_eq!(type_name_outer(tree), arguments);
    let end = match arguments {
        0 => 0,
        _ => NODE_WIDTH * (1 + tree[NODE_WIDTH + 2] as usize),
    };
    for length in 0..tree.len() {
        let left = if length < end { 0 } else { arguments };
        assert_eq!(type_name_outer(&tree[..length]), left);
    }
    for dirt in [0, 1, LIST, ARGUMENT, DIRT, u32::MAX] {
        let mut changed = vec![dirt; buffer.len()];
        for node in looked_at(tree, arguments) {
            // The second node's place behind a tree of one node.
            let Some(record) = buffer.get(NODE_WIDTH * node..NODE_WIDTH * (node + 1)) else {
                continue;
            };
            changed[NODE_WIDTH * node] = record[0];
            changed[NODE_WIDTH * node + 2] = record[2];
        }
        assert_eq!(type_name_outer(&changed), arguments, "{dirt}");
    }
}

/// Whether the row is accepted; if it is, whether it has an outer template.
fn compare(row: &Row) -> Option<bool> {
    let mut buffer = tree_for(row.bytes());
    let tree = parse_type_name(row.bytes(), &mut buffer).ok()?;
    let (nodes, expected) = (tree.node_count(), counted(tree.top_level()));
    assert_eq!(tree.outer_arguments(), expected);
    compare_numbers(&buffer, nodes, expected);
    Some(expected.is_some())
}

/// How many of the names are accepted, and how many of these have an outer template.
fn compare_all(head: Head, names: &[&str]) -> (usize, usize) {
    let answers: Vec<bool> = names
        .iter()
        .filter_map(|name| compare(&row(head, name)))
        .collect();
    let some = answers.iter().filter(|&&is_some| is_some).count();
    (answers.len(), some)
}

const CPP_NAMES: [&str; 26] = [
    "int",
    "unsigned long long",
    "A<b>",
    "A<b,c>",
    "A<b,c,d,e,f,g,h,i>",
    "A<8>",
    "A<(b)>",
    "A<b(c,d)>",
    "A<b[8],c>",
    "A<B<c>>",
    "A<B<c>,D<e,f>,g>",
    "A<B<C<d> >,e>",
    "A<b>::C",
    "A<b>::C<d,e>",
    "A<b> *",
    "A<b,c> &",
    "A<b> const",
    "A<b> (*)(C<d,e>)",
    "A<b>[8]",
    "const A<b>",
    "::A<b>",
    "std::map<Key, Lane<8>>",
    "typename A<b>::C",
    "decltype(A<b>)",
    "A(b<c>)",
    "A (*)[8]",
];

const C_NAMES: [&str; 10] = [
    "int",
    "unsigned long",
    "const A *",
    "struct A",
    "A (*)[8]",
    "A (*)(b, c)",
    "unsigned _BitInt(8)",
    "_Atomic(A)",
    "A[8]",
    "A<b>",
];

const FORTRAN_NAMES: [&str; 9] = [
    "integer",
    "real*8",
    "real(kind=8)",
    "real(8)",
    "character(*)",
    "character(len=8)",
    "type(a)",
    "class(a)",
    "double precision",
];

#[test]
fn it_is_what_the_full_tree_counts() {
    assert_eq!(compare_all(cpp17(), &CPP_NAMES), (26, 17));
    let (accepted, some) = compare_all(checked(c(CStandard::C23)), &C_NAMES);
    assert_eq!((accepted, some), (9, 0));
    let head = checked(fortran(FortranStandard::Fortran2018));
    assert_eq!(compare_all(head, &FORTRAN_NAMES), (9, 0));
    // Deep in each other, and many beside each other.
    let deep = format!("{}A{}", "A<".repeat(64), "> ".repeat(64));
    assert_eq!(outer(cpp17(), &deep), Some(1));
    let wide = format!("A<{}b>", "b,".repeat(510));
    assert_eq!(outer(cpp17(), &wide), Some(511));
    compare(&row(cpp17(), &deep)).expect("a type name");
    compare(&row(cpp17(), &wide)).expect("a type name");
}

/// On all short rows over the tokens that decide about lists.
#[test]
fn it_is_what_the_full_tree_counts_of_short_rows() {
    const KINDS: [TokenKind; 8] = [
        TokenKind::Identifier,
        TokenKind::Less,
        TokenKind::Greater,
        TokenKind::ShiftRight,
        TokenKind::Comma,
        TokenKind::Scope,
        TokenKind::LeftParen,
        TokenKind::RightParen,
    ];
    let mut found = [0; 2];
    for profile in [
        cpp(CppStandard::Cpp17),
        c(CStandard::C99),
        fortran(FortranStandard::Fortran90),
    ] {
        for length in 0..=6 {
            for case in 0..KINDS.len().pow(length) {
                let mut row = Row::new(unchecked(profile));
                for place in 0..length {
                    let kind = KINDS[case / KINDS.len().pow(place) % KINDS.len()];
                    row.push(kind, "A", 0..0).unwrap();
                }
                if let Some(is_some) = compare(&row) {
                    found[usize::from(is_some)] += 1;
                }
            }
        }
    }
    assert!(found.iter().all(|&found| found > 20), "{found:?}");
}

/// Of a list each part has its own, and its buffer that of the first part.
#[test]
fn each_part_of_a_list_has_its_own() {
    let loose = unchecked(cpp(CppStandard::Cpp17));
    for first in CPP_NAMES {
        for second in CPP_NAMES {
            let names = [first, second, "A<b,c,d>"];
            let list = row(loose, &names.join(","));
            let mut buffer = vec![DIRT; TREE_LENGTH];
            let list = parse_type_list(list.bytes(), &mut buffer).expect(first);
            let found: Vec<Option<usize>> =
                list.parts().map(|part| part.outer_arguments()).collect();
            assert_eq!(found, names.map(|name| outer(loose, name)), "{names:?}");
            let full: Vec<Option<usize>> =
                list.parts().map(|part| counted(part.top_level())).collect();
            assert_eq!(found, full, "{names:?}");
            assert_eq!(type_name_outer(&buffer), found[0].unwrap_or(0) as u32);
        }
    }
    for (head, names) in [
        (checked(c(CStandard::C23)), &C_NAMES[..9]),
        (
            checked(fortran(FortranStandard::Fortran2018)),
            &FORTRAN_NAMES,
        ),
    ] {
        let list = row(head, &names.join(","));
        let mut buffer = tree_for(list.bytes());
        let list = parse_type_list(list.bytes(), &mut buffer).expect("a list");
        assert_eq!(list.part_count(), 9);
        assert!(list.parts().all(|part| part.outer_arguments().is_none()));
    }
}

/// A refusal leaves zeros; 1 to 6 leave the tree that was there.
#[test]
fn a_refused_row_has_none() {
    for text in ["A<b", "A<b>)", "A<>", "", "A<b>,A<b>"] {
        let row = row(cpp17(), text);
        let mut tree = numbers(&[WORD, [LIST, 2], [ARGUMENT, 1]]);
        tree.resize(TREE_LENGTH, DIRT);
        assert_eq!(type_name_read(&[], &mut tree, &mut []), 2);
        assert_eq!(type_name_outer(&tree), 1);
        let refused = type_name_read(row.bytes(), &mut tree, &mut []);
        assert!(refused >= 10, "{text}: {refused}");
        assert_eq!(type_name_outer(&tree), 0, "{text}");
    }
    assert_eq!(type_name_outer(&[]), 0);
}
