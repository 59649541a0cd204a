//! Where the reading with names and that by trying come to the same: the names
//! are the words with which the tried lists begin, and no try failed.

use super::names::Names;
use crate::format::{NODE_WIDTH, Row};
use crate::kind::Kind;
use crate::tree::{Node, NodeKind};

/// Whether both entries must answer alike to a row that the old one accepted with
/// this tree: it has no `>>`, no `<` behind a word is a T (a try failed there),
/// and every list begins behind a name.
pub fn is_same(row: &Row, names: &Names, tree: &[u32]) -> bool {
    let tokens = &row.tokens;
    let (records, _) = tree.as_chunks::<NODE_WIDTH>();
    let mut nodes = records.iter().map(|&record| Node::of_record(record));
    let agrees = |node: Node| {
        let place = node.token as usize;
        let behind_word = place > 0 && tokens[place - 1].kind == Kind::Identifier;
        match node.kind {
            NodeKind::Token => tokens[place].kind != Kind::Less || !behind_word,
            NodeKind::List => names.open_list(tokens, place),
            _ => true,
        }
    };
    !tokens.iter().any(|token| token.kind == Kind::ShiftRight) && nodes.all(agrees)
}
