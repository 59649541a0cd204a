//! The parts of an accepted list of type names, and which part is refused.

use core::error::Error;
use core::fmt;
use core::iter::FusedIterator;

use crate::answer::{Refusal, TypeNameError};
use crate::cuts::{Cuts, PartPlace};
use crate::limits::NO_PART;
use crate::token::{Token, Tokens};
use crate::tree::{Node, NodeKind, Nodes, Record, outer_arguments, records};

/// An accepted list of type names: the row's parts, each with its tree.
///
#[doc = "```"]
#[doc = include_str!("../examples/list.rs")]
#[doc = "```"]
///
/// It borrows the buffer that holds the trees, one behind the other, and the row file that they were read from.
#[derive(Debug, Clone, Copy)]
pub struct TypeList<'a> {
    file: &'a [u8],
    records: &'a [Record],
    parts: u32,
    steps: u32,
}

impl<'a> TypeList<'a> {
    /// The first `nodes` records of a buffer, trees of so many parts.
    pub(crate) fn new(file: &'a [u8], buffer: &'a [u32], [nodes, steps, parts]: [u32; 3]) -> Self {
        let records = records(buffer, nodes);
        Self {
            file,
            records,
            parts,
            steps,
        }
    }

    /// How many parts it has, at least one.
    #[must_use]
    pub fn part_count(&self) -> usize {
        self.parts as usize
    }

    /// How many nodes its trees have together.
    #[must_use]
    pub fn node_count(&self) -> usize {
        self.records.len()
    }

    /// What reading and checking all parts took, of the allowance.
    #[must_use]
    pub fn steps(&self) -> u32 {
        self.steps
    }

    /// Its parts, in order.
    #[must_use]
    pub fn parts(&self) -> Parts<'a> {
        Parts {
            records: self.records,
            cuts: Cuts::new(self.file),
        }
    }

    /// The node records, tree behind tree, each tree's parents first: kind, token, extent. A tree begins exactly where a
    /// [`NodeKind::Token`] of token 0 stands.
    #[must_use]
    pub fn records(&self) -> &'a [Record] {
        self.records
    }
}

/// The parts of an accepted list, in order.
#[derive(Debug, Clone)]
pub struct Parts<'a> {
    /// Theirs, tree behind tree.
    records: &'a [Record],
    cuts: Cuts<'a>,
}

impl<'a> Iterator for Parts<'a> {
    type Item = Part<'a>;

    fn next(&mut self) -> Option<Part<'a>> {
        let (_, below_first) = self.records.split_first()?;
        let length = below_first.iter().position(begins_tree);
        let length = length.map_or(self.records.len(), |place| place + 1);
        let (tree, after) = self.records.split_at(length);
        let (place, tokens) = self.cuts.next()?;
        self.records = after;
        Some(Part {
            place,
            tree,
            tokens,
        })
    }
}

impl FusedIterator for Parts<'_> {}

/// Whether a tree begins with the record: each begins with its token 0, an identifier or a `::`, which has no other node.
fn begins_tree(&[kind, token, _]: &Record) -> bool {
    (kind, token) == (NodeKind::Token.number(), 0)
}

/// A part of an accepted list, with its tree: the one that the part would get alone.
///
/// Tokens are numbered within the part.
#[derive(Debug, Clone)]
pub struct Part<'a> {
    /// Its number, and where it stands in the row.
    pub place: PartPlace,
    tree: &'a [Record],
    /// From its first on.
    tokens: Tokens<'a>,
}

impl<'a> Part<'a> {
    /// How many nodes its tree has.
    #[must_use]
    pub fn node_count(&self) -> usize {
        self.tree.len()
    }

    /// The nodes of the top level, each with what is below it.
    #[must_use]
    pub fn top_level(&self) -> Nodes<'a> {
        Nodes::new(self.tree, self.tokens.clone())
    }

    /// How many arguments its outer template has, as [`Tree::outer_arguments`](crate::Tree::outer_arguments) counts them; `None`
    /// if there is none.
    #[must_use]
    pub fn outer_arguments(&self) -> Option<usize> {
        outer_arguments(self.tree)
    }

    /// All nodes, parents first, each with its level: how many groups and lists it stands in.
    pub fn with_levels(&self) -> impl Iterator<Item = (u32, Node<'a>)> + use<'a> {
        self.top_level().with_levels()
    }

    /// The node records, parents first: kind, token, extent.
    #[must_use]
    pub fn records(&self) -> &'a [Record] {
        self.tree
    }

    /// Its tokens.
    pub fn tokens(&self) -> impl Iterator<Item = Token<'a>> + use<'a> {
        self.tokens.clone().take(self.place.token_count as usize)
    }
}

/// A list of type names is refused: by its first part that is.
#[derive(Debug, Clone, Copy, PartialEq, Eq)]
#[must_use]
pub struct ListRefusal {
    /// Why. Its token is numbered within the part; its steps are those of all parts so far.
    pub refusal: Refusal,
    /// Which part is refused; none where the file is, before it is cut: refusals 1 to 6.
    pub part: Option<PartPlace>,
}

impl ListRefusal {
    /// Of an answer about this file.
    pub(crate) fn new(refusal: Refusal, part: u32, file: &[u8]) -> Self {
        // These end the cutting, so that the part runs to the row's end.
        let ends_cutting = matches!(
            refusal.error,
            TypeNameError::UnexpectedClosingDelimiter
                | TypeNameError::UnexpectedAngle
                | TypeNameError::UnexpectedEndToken
        );
        let place = || PartPlace::find(file, part, ends_cutting);
        Self {
            refusal,
            part: (part != NO_PART).then(place),
        }
    }

    /// The number that the token at fault has in the row, where the refusal names one.
    #[must_use]
    pub fn token_in_row(&self) -> Option<u32> {
        Some(self.part?.first_token + self.refusal.token?)
    }
}

/// A sentence with the refusal's number, and with its detail, part and token where it has them.
impl fmt::Display for ListRefusal {
    fn fmt(&self, to: &mut fmt::Formatter<'_>) -> fmt::Result {
        self.refusal.write_sentence(to)?;
        match (self.part, self.refusal.token) {
            (None, _) => Ok(()),
            (Some(part), None) => write!(to, " (part {})", part.number),
            (Some(part), Some(token)) => write!(to, " (part {}, token {token})", part.number),
        }
    }
}

impl Error for ListRefusal {}
