//! Examples that were worked out by hand from document 02. None comes from a
//! run; the texts are read by the original, and only how their trees begin was
//! worked out.

use super::generate::completing;
use crate::answer::Answer;
use crate::format::{Head, NODE_WIDTH, NUMBERS_PER_TOKEN, Row};
use crate::lists::{model, text};
use crate::oracle;
use crate::profile::{HostLanguage, language_number};

/// The function, of the model or of the proved library.
pub type Entry = fn(tree: &[u32]) -> u32;

/// Language, standard and structure flag.
type Setting = (HostLanguage, u8, u8);

const CPP17: Setting = (HostLanguage::Cpp, 3, 1);
const CPP_TREE: Setting = (HostLanguage::Cpp, 3, 0);
const C_TREE: Setting = (HostLanguage::C, 0, 0);
const FORTRAN90: Setting = (HostLanguage::Fortran, 1, 1);

#[rustfmt::skip]
const TEXTS: &[(&str, Setting, u32)] = &[
    ("A < b >", CPP17, 1),
    ("A < b , c >", CPP17, 2),
    ("A < b , B < c , d > , e >", CPP17, 3),
    ("A < B < c > >", CPP17, 1),
    ("A < B < c >>", CPP17, 1),
    ("A < B < c , d >>", CPP17, 1),
    ("A < 8 , b * >", CPP17, 2),
    ("A < ( b , c ) >", CPP_TREE, 1),
    ("A < b ( c , d ) >", CPP_TREE, 1),
    // What stands behind the list.
    ("A < b > *", CPP17, 1),
    ("A < b , c > &", CPP17, 2),
    ("A < b > :: C", CPP17, 1),
    ("A < b > :: C < d , e >", CPP17, 1),
    ("A < b > ( c , d )", CPP_TREE, 1),
    // This `<` stands behind a list, and opens none.
    ("A < b > < c >", CPP_TREE, 1),
    // No list, or another node before it.
    ("A", CPP17, 0),
    ("int", CPP17, 0),
    ("A *", CPP17, 0),
    (":: A < b >", CPP17, 0),
    ("a :: A < b >", CPP17, 0),
    ("const A < b >", CPP17, 0),
    ("struct A < b >", CPP17, 0),
    ("int ( A < b > )", CPP_TREE, 0),
    ("A [ 8 ]", CPP17, 0),
    ("A ( b ) < c >", CPP_TREE, 0),
    // Read as tokens, since an argument is empty.
    ("A < , b >", CPP_TREE, 0),
    ("A < b , >", CPP_TREE, 0),
    ("a ( b , c )", C_TREE, 0),
    ("a [ b < c ]", C_TREE, 0),
    ("real ( 8 )", FORTRAN90, 0),
];

/// Of several types the first decides.
#[rustfmt::skip]
const LISTS: &[(&str, Setting, u32)] = &[
    ("A < b , c >", CPP17, 2),
    ("A < b , c > , d", CPP17, 2),
    ("A < b > , C < d , e > , f", CPP17, 1),
    ("d , A < b , c >", CPP17, 0),
    ("a , b", CPP17, 0),
    (":: A < b > , C < d >", CPP17, 0),
];

const MAX: u32 = u32::MAX;

/// Kinds and extents, and how many arguments.
#[rustfmt::skip]
const NODES: &[(&[(u32, u32)], u32)] = &[
    // `A<b,c>`, `::A<b>`, `A` and `A<B<c>>`.
    (&[(0, 1), (3, 5), (4, 2), (0, 1), (4, 2), (0, 1)], 2),
    (&[(0, 1), (0, 1), (3, 3), (4, 2), (0, 1)], 0),
    (&[(0, 1)], 0),
    (&[(0, 1), (3, 6), (4, 5), (0, 1), (3, 3), (4, 2), (0, 1)], 1),
    // Neither what is below an argument nor what is behind the list counts.
    (&[(0, 1), (3, 4), (4, 3), (9, 9), (9, 9)], 1),
    (&[(0, 1), (3, 6), (4, 2), (3, 0), (4, 3), (4, 1), (4, 1)], 2),
    (&[(0, 1), (3, 2), (4, 1), (4, 1), (4, 1)], 1),
    (&[(0, 1), (3, 2), (4, 1), (3, 2), (4, 1)], 1),
    (&[(0, 1), (3, 3), (4, 1), (4, 1), (9, 0), (MAX, MAX)], 2),
    // An argument of extent 1 counts.
    (&[(0, 1), (3, 2), (4, 1)], 1),
    (&[(0, 1), (3, 3), (4, 1), (4, 1)], 2),
    (&[(0, 1), (3, 4), (4, 1), (4, 2), (0, 1)], 2),
    (&[(0, 1), (3, 4), (4, 2), (0, 1), (4, 1)], 2),
    // Nothing at all.
    (&[], 0),
    // The word: kind, then extent.
    (&[(1, 1), (3, 2), (4, 1)], 0),
    (&[(2, 1), (3, 2), (4, 1)], 0),
    (&[(3, 1), (3, 2), (4, 1)], 0),
    (&[(4, 1), (3, 2), (4, 1)], 0),
    (&[(5, 1), (3, 2), (4, 1)], 0),
    (&[(256, 1), (3, 2), (4, 1)], 0),
    (&[(MAX, 1), (3, 2), (4, 1)], 0),
    (&[(0, 0), (3, 2), (4, 1)], 0),
    (&[(0, 2), (3, 2), (4, 1)], 0),
    (&[(0, 3), (3, 2), (4, 1)], 0),
    (&[(0, MAX), (3, 2), (4, 1)], 0),
    // The list: kind, then extent.
    (&[(0, 1), (0, 2), (4, 1)], 0),
    (&[(0, 1), (1, 2), (4, 1)], 0),
    (&[(0, 1), (2, 2), (4, 1)], 0),
    (&[(0, 1), (4, 2), (4, 1)], 0),
    (&[(0, 1), (5, 2), (4, 1)], 0),
    (&[(0, 1), (259, 2), (4, 1)], 0),
    (&[(0, 1), (MAX, 2), (4, 1)], 0),
    (&[(0, 1), (3, 0)], 0),
    (&[(0, 1), (3, 0), (4, 1)], 0),
    (&[(0, 1), (3, 1)], 0),
    (&[(0, 1), (3, 1), (4, 1)], 0),
    (&[(0, 1), (3, 1), (0, 1)], 0),
    // The list past the buffer.
    (&[(0, 1), (3, 2)], 0),
    (&[(0, 1), (3, 3), (4, 1)], 0),
    (&[(0, 1), (3, 3), (4, 2)], 0),
    (&[(0, 1), (3, 4), (4, 1), (4, 1)], 0),
    (&[(0, 1), (3, 0x5555_5555), (4, 1)], 0),
    (&[(0, 1), (3, 0x8000_0001), (4, 1)], 0),
    (&[(0, 1), (3, 0xAAAA_AAAB), (4, 1)], 0),
    (&[(0, 1), (3, MAX - 1), (4, 1)], 0),
    (&[(0, 1), (3, MAX), (4, 1)], 0),
    (&[(0, 1), (3, MAX), (4, MAX - 1)], 0),
    // An argument's kind, the first's and a later one's.
    (&[(0, 1), (3, 2), (0, 1)], 0),
    (&[(0, 1), (3, 2), (3, 1)], 0),
    (&[(0, 1), (3, 2), (5, 1)], 0),
    (&[(0, 1), (3, 2), (260, 1)], 0),
    (&[(0, 1), (3, 3), (4, 1), (0, 1)], 0),
    (&[(0, 1), (3, 3), (0, 1), (4, 1)], 0),
    (&[(0, 1), (3, 4), (4, 1), (3, 1), (4, 1)], 0),
    (&[(0, 1), (3, 4), (4, 1), (4, 1), (MAX, 1)], 0),
    // An argument's extent.
    (&[(0, 1), (3, 2), (4, 0)], 0),
    (&[(0, 1), (3, 3), (4, 0), (4, 1)], 0),
    (&[(0, 1), (3, 3), (4, 1), (4, 0)], 0),
    // An argument past its list, in the buffer or past that, too.
    (&[(0, 1), (3, 2), (4, 2)], 0),
    (&[(0, 1), (3, 2), (4, 2), (0, 1)], 0),
    (&[(0, 1), (3, 3), (4, 1), (4, 2)], 0),
    (&[(0, 1), (3, 3), (4, 1), (4, 2), (0, 1), (0, 1)], 0),
    (&[(0, 1), (3, 3), (4, 3), (0, 1), (0, 1), (0, 1)], 0),
    (&[(0, 1), (3, 2), (4, MAX)], 0),
    (&[(0, 1), (3, 2), (4, 0x8000_0000)], 0),
    (&[(0, 1), (3, 3), (4, 1), (4, MAX)], 0),
    (&[(0, 1), (3, 3), (4, 1), (4, MAX - 1)], 0),
    (&[(0, 1), (3, 3), (4, 1), (4, MAX - 2)], 0),
    // Modulo 2^32 this one would lead back to the first argument.
    (&[(0, 1), (3, 4), (4, 1), (4, 1), (4, MAX - 1)], 0),
    // Any fault is as good as another.
    (&[(3, 0), (0, 0), (0, 0)], 0),
    (&[(0, 0), (0, 0), (0, 0)], 0),
    (&[(MAX, MAX), (MAX, MAX), (MAX, MAX)], 0),
];

/// Token numbers, none of which is looked at.
const TOKENS: [u32; 5] = [0, 1, 3, 4, MAX];

/// Asserts all examples.
pub fn assert_worked(entry: Entry) {
    for &(text, setting, arguments) in TEXTS {
        let (answer, tree) = oracle::answer_with_tree(&file_of(setting, text));
        let Answer::Accepted { nodes, .. } = answer else {
            panic!("{text}: {answer}");
        };
        assert_tree(entry, &tree, nodes, arguments);
    }
    for &(text, setting, arguments) in LISTS {
        let mut tree = vec![0; NUMBERS_PER_TOKEN * text::tokens(text).len()];
        let [number, nodes, ..] = model::numbers(&file_of(setting, text), &mut tree);
        assert_eq!(number, 0, "{text}");
        assert_tree(entry, &tree, nodes, arguments);
    }
    for &(nodes, arguments) in NODES {
        for token in TOKENS {
            let record = |&(kind, extent): &(u32, u32)| [kind, token, extent];
            let tree: Vec<u32> = nodes.iter().flat_map(record).collect();
            assert_cut(entry, &tree, arguments);
        }
    }
    assert_long(entry);
}

fn file_of((language, standard, flag): Setting, text: &str) -> Vec<u8> {
    let head = Head {
        language: language_number(language),
        standard,
        flag,
        allowance: 1_000,
    };
    let tokens = text::tokens(text);
    Row { head, tokens }.write()
}

/// The buffer as it is and cut to the tree.
fn assert_tree(entry: Entry, tree: &[u32], nodes: u32, arguments: u32) {
    assert_call(entry, tree, arguments);
    assert_cut(entry, &tree[..NODE_WIDTH * nodes as usize], arguments);
}

/// Numbers with part of a node behind them, and each beginning of them: what is
/// cut off behind the list is as good as it was, and nothing else is.
fn assert_cut(entry: Entry, tree: &[u32], arguments: u32) {
    for more in 0..NODE_WIDTH {
        let behind = (tree.len()..tree.len() + more).map(completing);
        let longer: Vec<u32> = tree.iter().copied().chain(behind).collect();
        assert_call(entry, &longer, arguments);
    }
    let list_end = match arguments {
        0 => usize::MAX,
        _ => NODE_WIDTH * (1 + tree[NODE_WIDTH + 2] as usize),
    };
    for length in 0..tree.len() {
        let left = if length < list_end { 0 } else { arguments };
        assert_call(entry, &tree[..length], left);
    }
}

/// As many arguments as no row has, and one as long.
fn assert_long(entry: Entry) {
    const MANY: u32 = 100_000;
    let begin = [0, 0, 1, 3, 1, 1 + MANY];
    let each = [4, 7, 1].repeat(MANY as usize);
    let many = [&begin[..], &each].concat();
    assert_call(entry, &many, MANY);
    let mut one = many.clone();
    one[8] = MANY;
    assert_call(entry, &one, 1);
    one[8] = MANY + 1;
    assert_call(entry, &one, 0);
    one[8] = MANY - 1;
    assert_call(entry, &one, 2);
    assert_call(entry, &many[..many.len() - 1], 0);
}

fn assert_call(entry: Entry, tree: &[u32], arguments: u32) {
    let lent = tree.to_vec();
    let length = tree.len();
    let case = || format!("{length} numbers {:?}", &tree[..length.min(40)]);
    assert_eq!(entry(&lent), arguments, "{}", case());
    assert_eq!(lent, tree, "{}", case());
}
