//! Trees as drawings.

use type_name::{Node, NodeKind, Nodes, TypeList};

use crate::excerpt::visible;
use crate::source::Source;

/// A line a node: a token as it is spelled, a group by its brackets, a list by its angles.
pub fn drawing(source: &Source, top_level: Nodes) -> String {
    let mut text = String::new();
    level(source, top_level, "", &mut text);
    text
}

/// Each part's tree under its number.
pub fn drawings(source: &Source, list: &TypeList) -> String {
    list.parts()
        .map(|part| {
            let tree = drawing(source, part.top_level());
            format!("part {}\n{tree}", part.place.number)
        })
        .collect()
}

/// Nodes that stand beside each other, each with what is below it. They nest 64 deep at most.
fn level(source: &Source, nodes: Nodes, before: &str, text: &mut String) {
    let mut nodes = nodes.peekable();
    while let Some(node) = nodes.next() {
        let (branch, line) = match nodes.peek() {
            Some(_) => ("├─ ", "│  "),
            None => ("└─ ", "   "),
        };
        let label = visible(&label(source, &node));
        *text += &format!("{before}{branch}{label}\n");
        level(source, node.children(), &format!("{before}{line}"), text);
    }
}

fn label(source: &Source, node: &Node) -> String {
    match node.kind {
        NodeKind::Token => source.spelling(node.token),
        NodeKind::Parentheses => "( )".to_owned(),
        NodeKind::Brackets => "[ ]".to_owned(),
        NodeKind::List => "< >".to_owned(),
        NodeKind::Argument => "argument".to_owned(),
    }
}
