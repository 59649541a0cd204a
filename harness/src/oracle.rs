//! The answer that document 01 asks for, found by running the original.

use crate::answer::{Answer, Refusal};
use crate::copies;
use crate::format::{Format, NODE_WIDTH, NUMBERS_PER_TOKEN};
use crate::tree::Node;

/// Answers a file and leaves in the buffer what document 01 says.
pub fn answer(file: &[u8], tree: &mut [u32]) -> Answer {
    answer_in(Format::current(), file, tree)
}

/// The same if files of this format were read: its standard numbers have the
/// meaning that they have there.
pub fn answer_in(format: Format, file: &[u8], tree: &mut [u32]) -> Answer {
    let row = match format.read(file) {
        Ok(row) => row,
        Err(refusal) => return refusal.after(0),
    };
    if tree.len() < NUMBERS_PER_TOKEN * row.tokens.len() {
        return Refusal::plain(Refusal::SHORT_BUFFER).after(0);
    }
    tree.fill(0);
    let (outcome, steps) = copies::read(&row, row.profile_in(format));
    match outcome {
        None => Refusal::plain(Refusal::ALLOWANCE_PASSED).after(steps),
        Some(Err(refusal)) => refusal.after(steps),
        Some(Ok(nodes)) => {
            write(&nodes, tree);
            let nodes = nodes.len() as u32;
            Answer::Accepted { nodes, steps }
        }
    }
}

/// Writes the records of a tree's nodes.
pub(crate) fn write(nodes: &[Node], tree: &mut [u32]) {
    for (node, record) in nodes.iter().zip(tree.chunks_exact_mut(NODE_WIDTH)) {
        record.copy_from_slice(&node.record());
    }
}

/// The answer, and a tree buffer of just the size that the file needs.
pub fn answer_with_tree(file: &[u8]) -> (Answer, Vec<u32>) {
    answer_with_tree_in(Format::current(), file)
}

/// The same if files of this format were read.
pub fn answer_with_tree_in(format: Format, file: &[u8]) -> (Answer, Vec<u32>) {
    let tokens = format.read(file).map_or(0, |row| row.tokens.len());
    let mut tree = vec![0; NUMBERS_PER_TOKEN * tokens];
    (answer_in(format, file, &mut tree), tree)
}
