//! The tree of an accepted type name.

use alloc::vec;
use alloc::vec::Vec;

use crate::limits::NODE_WIDTH;
use crate::numbered::numbered;
use crate::raw::type_name_outer;
use crate::token::{Token, Tokens};

numbered! {
    /// What sort of node it is.
    NodeKind {
        /// A token by itself.
        Token = 0,
        /// `(`, what stands between, and `)`.
        Parentheses = 1,
        /// `[`, what stands between, and `]`.
        Brackets = 2,
        /// A template argument list, from `<` to its closer. Its children are arguments.
        List = 3,
        /// What stands between two commas of a list.
        Argument = 4,
    }
}

impl NodeKind {
    /// As listings have it.
    #[must_use]
    pub const fn letter(self) -> char {
        match self {
            Self::Token => 'T',
            Self::Parentheses => 'G',
            Self::Brackets => 'B',
            Self::List => 'L',
            Self::Argument => 'A',
        }
    }
}

/// Kind, token, extent.
pub(crate) type Record = [u32; NODE_WIDTH];

/// The first `nodes` records of a buffer.
pub(crate) fn records(buffer: &[u32], nodes: u32) -> &[Record] {
    let (records, _) = buffer.as_chunks();
    &records[..nodes as usize]
}

/// How many arguments the outer template of a tree has, `None` if there is none: the C function says 0 then.
pub(crate) fn outer_arguments(tree: &[Record]) -> Option<usize> {
    match type_name_outer(tree.as_flattened()) {
        0 => None,
        arguments => Some(arguments as usize),
    }
}

/// The tree of an accepted type name.
///
/// It borrows the buffer that holds its node records and the row file that it was read from, so that neither can change
/// under it and each node leads to its token.
#[derive(Debug, Clone, Copy)]
pub struct Tree<'a> {
    file: &'a [u8],
    records: &'a [Record],
    steps: u32,
}

impl<'a> Tree<'a> {
    /// The first `nodes` records of a buffer.
    pub(crate) fn new(file: &'a [u8], buffer: &'a [u32], nodes: u32, steps: u32) -> Self {
        Self {
            file,
            records: records(buffer, nodes),
            steps,
        }
    }

    /// How many nodes it has.
    #[must_use]
    pub fn node_count(&self) -> usize {
        self.records.len()
    }

    /// What reading and checking took, of the allowance.
    #[must_use]
    pub fn steps(&self) -> u32 {
        self.steps
    }

    /// The nodes of the top level, each with what is below it.
    #[must_use]
    pub fn top_level(&self) -> Nodes<'a> {
        Nodes::new(self.records, Tokens::new(self.file))
    }

    /// How many arguments its outer template has, at least one: those of the list that follows the word with which the tree
    /// begins. `None` if it does not begin with a word followed by a list, as the trees of `A`, `::A<b>` and `const A<b>`.
    ///
    /// For a first pass that wants no more than this it is cheap: it looks at the first two nodes and goes from argument to
    /// argument by their extents, past whatever stands below them.
    ///
    #[doc = "```"]
    #[doc = include_str!("../examples/outer.rs")]
    #[doc = "```"]
    #[must_use]
    pub fn outer_arguments(&self) -> Option<usize> {
        outer_arguments(self.records)
    }

    /// All nodes, parents first, each with its level: how many groups and lists it stands in.
    pub fn with_levels(&self) -> impl Iterator<Item = (u32, Node<'a>)> + use<'a> {
        self.top_level().with_levels()
    }

    /// The node records, parents first: kind, token, extent.
    #[must_use]
    pub fn records(&self) -> &'a [Record] {
        self.records
    }
}

/// A node, with what is below it.
#[derive(Debug, Clone, PartialEq, Eq)]
pub struct Node<'a> {
    /// What sort of node it is.
    pub kind: NodeKind,
    /// Its token: of a group or list the opener, of an argument the first one.
    pub token: Token<'a>,
    /// The nodes of its subtree, itself included.
    pub extent: u32,
    below: Nodes<'a>,
}

impl<'a> Node<'a> {
    /// The nodes directly below it.
    #[must_use]
    pub fn children(&self) -> Nodes<'a> {
        self.below.clone()
    }
}

/// Nodes that stand beside each other, in order.
#[derive(Debug, Clone, PartialEq, Eq)]
pub struct Nodes<'a> {
    /// Theirs and all below them.
    records: &'a [Record],
    /// From a token on that is not behind the first node's. Node records have their tokens in order.
    tokens: Tokens<'a>,
}

impl<'a> Nodes<'a> {
    /// Those of a tree, and the tokens of the row that it was read from.
    pub(crate) fn new(records: &'a [Record], tokens: Tokens<'a>) -> Self {
        Self { records, tokens }
    }

    /// These and all nodes below them, parents first, each with its level below these.
    pub fn with_levels(self) -> impl Iterator<Item = (u32, Node<'a>)> + use<'a> {
        let mut open: Vec<(u32, Self)> = vec![(0, self)];
        core::iter::from_fn(move || {
            while let Some((level, siblings)) = open.last_mut() {
                let level = *level;
                if let Some(node) = siblings.next() {
                    // An argument is no level of its own.
                    let inner = level + u32::from(node.kind != NodeKind::Argument);
                    open.push((inner, node.children()));
                    return Some((level, node));
                }
                open.pop();
            }
            None
        })
    }
}

impl<'a> Iterator for Nodes<'a> {
    type Item = Node<'a>;

    fn next(&mut self) -> Option<Node<'a>> {
        let &[kind, token, extent] = self.records.first()?;
        let (subtree, after) = self.records.split_at(extent as usize);
        self.records = after;
        self.tokens.forward_to(token);
        Some(Node {
            kind: NodeKind::try_from(kind).expect("a node record"),
            token: self.tokens.clone().next().expect("a token of the row"),
            extent,
            below: Self {
                records: &subtree[1..],
                tokens: self.tokens.clone(),
            },
        })
    }
}
