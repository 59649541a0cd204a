//! Node records from the original's trees.
//!
//! The original's trees hold no token numbers. They are found by walking the
//! tree along the row, half-used `>>` and all; every step of the walk asserts
//! that tree and row agree.

use crate::format::NODE_WIDTH;
use crate::host::lexer::TokenKind;

#[derive(Debug, Clone, Copy, PartialEq, Eq)]
pub enum NodeKind {
    Token,
    Parentheses,
    Brackets,
    List,
    Argument,
}

#[derive(Debug, Clone, Copy, PartialEq, Eq)]
pub struct Node {
    pub kind: NodeKind,
    pub token: u32,
    pub extent: u32,
}

impl NodeKind {
    const ALL: [Self; 5] = [
        Self::Token,
        Self::Parentheses,
        Self::Brackets,
        Self::List,
        Self::Argument,
    ];

    pub fn letter(self) -> char {
        match self {
            Self::Token => 'T',
            Self::Parentheses => 'G',
            Self::Brackets => 'B',
            Self::List => 'L',
            Self::Argument => 'A',
        }
    }
}

impl Node {
    pub fn record(self) -> [u32; NODE_WIDTH] {
        [self.kind as u32, self.token, self.extent]
    }

    /// The node of a record that this crate wrote.
    pub fn of_record([kind, token, extent]: [u32; NODE_WIDTH]) -> Self {
        Self {
            kind: NodeKind::ALL[kind as usize],
            token,
            extent,
        }
    }
}

/// One level of a tree, whichever copy of the original it comes from.
pub enum Shape<'t, S> {
    Token(&'t TokenKind),
    Parentheses(&'t [S]),
    Brackets(&'t [S]),
    List(&'t [Vec<S>]),
}

pub trait Syntax: Sized {
    fn shape(&self) -> Shape<'_, Self>;
}

/// The tree's nodes, parents first. Panics if the tree is not one of the row.
pub fn nodes<S: Syntax>(tree: &[S], row: &[TokenKind]) -> Vec<Node> {
    let mut walk = Walk {
        row,
        cursor: 0,
        half: false,
        nodes: Vec::new(),
    };
    walk.all(tree);
    assert_eq!(walk.cursor, row.len(), "the tree uses all tokens");
    assert!(!walk.half, "no half of a `>>` is left");
    walk.nodes
}

struct Walk<'r> {
    row: &'r [TokenKind],
    cursor: usize,
    /// One `>` of a `>>` is still to be taken by an enclosing list.
    half: bool,
    nodes: Vec<Node>,
}

impl Walk<'_> {
    fn all<S: Syntax>(&mut self, level: &[S]) {
        for node in level {
            self.one(node);
        }
    }

    fn one<S: Syntax>(&mut self, node: &S) {
        match node.shape() {
            Shape::Token(token) => self.node(NodeKind::Token, |walk| walk.take(token)),
            Shape::Parentheses(inner) => self.node(NodeKind::Parentheses, |walk| {
                walk.take(&TokenKind::LeftParen);
                walk.all(inner);
                walk.take(&TokenKind::RightParen);
            }),
            Shape::Brackets(inner) => self.node(NodeKind::Brackets, |walk| {
                walk.take(&TokenKind::LeftBracket);
                walk.all(inner);
                walk.take(&TokenKind::RightBracket);
            }),
            Shape::List(arguments) => self.node(NodeKind::List, |walk| walk.list(arguments)),
        }
    }

    fn list<S: Syntax>(&mut self, arguments: &[Vec<S>]) {
        let mut before = TokenKind::Less;
        for argument in arguments {
            self.take(&before);
            self.node(NodeKind::Argument, |walk| walk.all(argument));
            before = TokenKind::Comma;
        }
        self.close_angle();
    }

    fn close_angle(&mut self) {
        if self.half {
            self.half = false;
        } else if self.row.get(self.cursor) == Some(&TokenKind::ShiftRight) {
            self.cursor += 1;
            self.half = true;
        } else {
            self.take(&TokenKind::Greater);
        }
    }

    /// Records a node that begins here; its extent is known after `inside`.
    fn node(&mut self, kind: NodeKind, inside: impl FnOnce(&mut Self)) {
        let place = self.nodes.len();
        self.nodes.push(Node {
            kind,
            token: self.cursor as u32,
            extent: 0,
        });
        inside(self);
        self.nodes[place].extent = (self.nodes.len() - place) as u32;
    }

    fn take(&mut self, token: &TokenKind) {
        assert_eq!(self.row.get(self.cursor), Some(token), "tree and row agree");
        self.cursor += 1;
    }
}
