//! Answers for programs: one JSON object on one line. docs/FORMAT.md, "JSON", describes it.

use type_name::{ListRefusal, Node, NodeKind, Nodes, Overlap, PartPlace, Refusal, Tree, TypeList};

use crate::hints::Hint;
use crate::item_text::item_text;
use crate::rules::Rules;
use crate::source::Source;

pub fn accepted(source: &Source, tree: &Tree) -> String {
    let (steps, nodes) = (tree.steps(), nodes(source, tree.top_level()));
    format!("{{\"accepted\":true,\"steps\":{steps},\"nodes\":[{nodes}]}}\n")
}

pub fn accepted_list(source: &Source, list: &TypeList) -> String {
    let parts: Vec<String> = list
        .parts()
        .map(|part| {
            let (place, nodes) = (of_place(Some(part.place)), nodes(source, part.top_level()));
            format!("{{{place},\"nodes\":[{nodes}]}}")
        })
        .collect();
    let (steps, parts) = (list.steps(), parts.join(","));
    format!("{{\"accepted\":true,\"steps\":{steps},\"parts\":[{parts}]}}\n")
}

/// A part's number, and that of its first token in the row.
fn of_place(part: Option<PartPlace>) -> String {
    let number = or_null(part.map(|part| part.number));
    let first = or_null(part.map(|part| part.first_token));
    format!("\"part\":{number},\"first_token\":{first}")
}

/// The nodes stand in one list, parents first, as the node records do: nested objects would be deeper than many readers
/// of JSON go.
fn nodes(source: &Source, top_level: Nodes) -> String {
    let nodes: Vec<String> = top_level
        .with_levels()
        .map(|(level, node)| of_node(source, level, &node))
        .collect();
    nodes.join(",")
}

fn of_node(source: &Source, level: u32, node: &Node) -> String {
    let kind = match node.kind {
        NodeKind::Token => "token",
        NodeKind::Parentheses => "parentheses",
        NodeKind::Brackets => "brackets",
        NodeKind::List => "list",
        NodeKind::Argument => "argument",
    };
    let token = node.token;
    let spelling = match node.kind {
        NodeKind::Token => format!(",\"text\":{}", string(&source.spelling(token))),
        _ => String::new(),
    };
    format!(
        "{{\"level\":{level},\"kind\":\"{kind}\",\"token\":{},\"extent\":{},\"start\":{},\"end\":{}{spelling}}}",
        token.number, node.extent, token.start, token.end
    )
}

pub fn refused(refusal: Refusal, hint: Option<&Hint>) -> String {
    let (why, hint) = (of_refusal(refusal), of_hint(hint));
    format!("{{\"accepted\":false,{why},{hint}}}\n")
}

pub fn refused_list(refused: &ListRefusal, hint: Option<&Hint>) -> String {
    let (why, hint) = (of_refusal(refused.refusal), of_hint(hint));
    let place = of_place(refused.part);
    format!("{{\"accepted\":false,{why},{place},{hint}}}\n")
}

fn of_refusal(refusal: Refusal) -> String {
    let number = refusal.error.number();
    let name = format!("{:?}", refusal.error);
    let token = or_null(refusal.token);
    let sentence = string(&refusal.error.to_string());
    let why = format!("\"refusal\":{number},\"name\":\"{name}\",\"sentence\":{sentence}");
    let Refusal { detail, steps, .. } = refusal;
    format!("{why},\"token\":{token},\"detail\":{detail},\"steps\":{steps}")
}

fn of_hint(hint: Option<&Hint>) -> String {
    let hint = or_null(hint.map(|hint| string(&hint.to_string())));
    format!("\"hint\":{hint}")
}

fn or_null(value: Option<impl ToString>) -> String {
    value.map_or("null".to_owned(), |value| value.to_string())
}

/// The arguments of the outer template, if there is one.
pub fn outer(arguments: Option<usize>, steps: u32) -> String {
    let arguments = or_null(arguments);
    format!("{{\"accepted\":true,\"steps\":{steps},\"arguments\":{arguments}}}\n")
}

/// The rule that wins.
pub fn matched(rules: &Rules, place: usize, steps: u32) -> String {
    let rule = of_rule(rules, place);
    format!("{{\"accepted\":true,\"steps\":{steps},\"rule\":{rule}}}\n")
}

pub fn overlaps(rules: &Rules, overlaps: &[Overlap]) -> String {
    let pairs: Vec<String> = overlaps
        .iter()
        .map(|pair| {
            let [earlier, later] = [pair.earlier, pair.later].map(|place| of_rule(rules, place));
            let items = pair.sequence().map(|item| string(&item_text(item)));
            let sequence = items.collect::<Vec<_>>().join(",");
            format!("{{\"earlier\":{earlier},\"later\":{later},\"sequence\":[{sequence}]}}")
        })
        .collect();
    let (count, pairs) = (rules.table.len(), pairs.join(","));
    format!("{{\"rules\":{count},\"overlaps\":[{pairs}]}}\n")
}

fn of_rule(rules: &Rules, place: usize) -> String {
    let rule = &rules.written[place];
    let text = string(&rule.text);
    format!(
        "{{\"place\":{place},\"line\":{},\"text\":{text}}}",
        rule.line
    )
}

/// A JSON string.
fn string(text: &str) -> String {
    let mut quoted = String::from("\"");
    for one in text.chars() {
        match one {
            '"' => quoted += "\\\"",
            '\\' => quoted += "\\\\",
            _ if one.is_control() => quoted += &format!("\\u{:04x}", u32::from(one)),
            _ => quoted.push(one),
        }
    }
    quoted + "\""
}
