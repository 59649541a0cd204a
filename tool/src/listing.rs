//! The lines that the program `listing` prints, and such lines of a list of type names: docs/FORMAT.md, "Listing".

use type_name::{ListRefusal, NO_PART, NO_TOKEN, Nodes, Refusal, Tree, TypeList};

pub fn accepted(tree: &Tree) -> String {
    let nodes = lines(tree.top_level());
    format!("ok {} {}\n{nodes}", tree.node_count(), tree.steps())
}

pub fn accepted_list(list: &TypeList) -> String {
    let (nodes, steps) = (list.node_count(), list.steps());
    let mut text = format!("ok {nodes} {steps} {}\n", list.part_count());
    for part in list.parts() {
        let (place, nodes) = (part.place, part.node_count());
        text += &format!("part {} {} {nodes}\n", place.number, place.first_token);
        text += &lines(part.top_level());
    }
    text
}

/// A line a node.
fn lines(top_level: Nodes) -> String {
    let mut text = String::new();
    for (level, node) in top_level.with_levels() {
        let letter = node.kind.letter();
        text += &format!("{level} {letter} {} {}\n", node.token.number, node.extent);
    }
    text
}

pub fn refused(refusal: Refusal) -> String {
    format!("{}\n", numbers(refusal))
}

pub fn refused_list(refused: &ListRefusal) -> String {
    let part = refused.part.map_or(NO_PART, |part| part.number);
    format!("{} {part}\n", numbers(refused.refusal))
}

fn numbers(refusal: Refusal) -> String {
    let token = refusal.token.unwrap_or(NO_TOKEN);
    format!(
        "no {} {token} {} {}",
        refusal.error.number(),
        refusal.detail,
        refusal.steps
    )
}
