//! The same counted from the full tree of a row that is accepted.

use std::hint::black_box;

use crate::format::{NODE_WIDTH, Row};
use crate::host::lexer::TokenKind;
use crate::token_list::TokenList;
use crate::tree::{NodeKind, Shape, Syntax};

/// What the original's tree of a row says.
#[derive(Debug, Clone, Copy, PartialEq, Eq)]
pub struct Whole {
    /// How many nodes it has.
    pub nodes: usize,
    /// How many arguments its outer template has, 0 if there is none.
    pub arguments: u32,
}

/// `None` if the original refuses the row. It is not stopped at the allowance:
/// for rows that are known to be read in few steps.
pub fn original(row: &Row) -> Option<Whole> {
    let name = TokenList::of(row).read().ok()?;
    let syntax = name.syntax();
    Some(Whole {
        nodes: nodes(syntax),
        arguments: arguments(syntax),
    })
}

/// Whether the tree begins with an identifier and template arguments behind
/// it, and how many these are.
fn arguments<S: Syntax>(tree: &[S]) -> u32 {
    let [first, second, ..] = tree else {
        return 0;
    };
    match (first.shape(), second.shape()) {
        (Shape::Token(TokenKind::Identifier(_)), Shape::List(arguments)) => arguments.len() as u32,
        _ => 0,
    }
}

fn nodes<S: Syntax>(tree: &[S]) -> usize {
    let below = |node: &S| match node.shape() {
        Shape::Token(_) => 0,
        Shape::Parentheses(inner) | Shape::Brackets(inner) => nodes(inner),
        Shape::List(arguments) => arguments.iter().map(|inner| 1 + nodes(inner)).sum(),
    };
    tree.iter().map(|node| 1 + below(node)).sum()
}

/// The places of the nodes that the answer for a tree may depend on: the first
/// two and, if the second is a list, those right below it. Found by a visit of
/// every node.
pub fn looked_at(tree: &[u32]) -> Vec<usize> {
    let (nodes, _) = tree.as_chunks::<NODE_WIDTH>();
    let mut looked_at = Vec::new();
    // The nodes above the one that is visited, with their ends.
    let mut above: Vec<(usize, usize)> = Vec::new();
    for (place, &[_, _, extent]) in nodes.iter().enumerate() {
        above.retain(|&(_, end)| place < end);
        let in_list = above.last().is_some_and(|&(parent, _)| parent == 1);
        if place < 2 || in_list && nodes[1][0] == NodeKind::List as u32 {
            looked_at.push(place);
        }
        above.push((place, place + extent as usize));
    }
    looked_at
}

/// The answer for a tree by a visit of every node.
pub fn by_every_node(tree: &[u32]) -> u32 {
    let (nodes, _) = tree.as_chunks::<NODE_WIDTH>();
    let mut count = 0;
    let mut list_end = 0;
    let mut argument_end = 2;
    for (place, node) in nodes.iter().enumerate() {
        // Else the compiler leaves out the visits that change nothing.
        let &[kind, _, extent] = black_box(node);
        if place == 1 && kind == NodeKind::List as u32 && nodes[0][0] == NodeKind::Token as u32 {
            list_end = place + extent as usize;
        } else if place == argument_end && place < list_end {
            argument_end = place + extent as usize;
            count += 1;
        }
    }
    count
}
