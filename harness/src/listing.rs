//! What the program `listing` prints.

use std::fmt::Write;

use crate::answer::{Answer, Refusal};
use crate::format::NODE_WIDTH;
use crate::oracle;
use crate::tree::{Node, NodeKind};

/// The most bytes of a file that the program lists: its own limit, below the
/// format's.
pub const LISTING_LIMIT: usize = 65_536;

/// What it prints of a file.
pub fn listing_of(file: &[u8]) -> String {
    if file.len() > LISTING_LIMIT {
        return listing(Refusal::plain(Refusal::FILE_TOO_LONG).after(0), &[]);
    }
    let (answer, tree) = oracle::answer_with_tree(file);
    listing(answer, &tree)
}

/// The answer's line, and if accepted a line for each node: level, letter,
/// token, extent.
pub fn listing(answer: Answer, tree: &[u32]) -> String {
    let mut text = format!("{answer}\n");
    if let Answer::Accepted { nodes, .. } = answer {
        let (records, _) = tree.as_chunks::<NODE_WIDTH>();
        let nodes: Vec<Node> = records[..nodes as usize]
            .iter()
            .map(|&record| Node::of_record(record))
            .collect();
        list(&nodes, 0, &mut text);
    }
    text
}

/// Lists nodes that stand on one level, each with what is below it.
fn list(nodes: &[Node], level: u32, text: &mut String) {
    let mut rest = nodes;
    while let Some((node, after)) = rest.split_first() {
        let letter = node.kind.letter();
        writeln!(text, "{level} {letter} {} {}", node.token, node.extent)
            .expect("a string takes every write");
        let (below, next) = after.split_at(node.extent as usize - 1);
        // Groups and lists make a level, arguments do not.
        let inner = level + u32::from(node.kind != NodeKind::Argument);
        list(below, inner, text);
        rest = next;
    }
}
