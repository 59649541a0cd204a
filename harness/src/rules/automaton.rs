//! A rule as an automaton that reads nodes: its states are the places of its
//! items and the place behind the last. What two rules match together is
//! searched for in the product of their automata, not decided item by item.

use std::collections::BTreeSet;

use super::format::{ITEM_KINDS, Item};

/// What rules see of a node.
#[derive(Debug, Clone, Copy, PartialEq, Eq)]
pub enum Seen<'a> {
    Word(&'a [u8]),
    /// A token of a kind other than 0.
    Kind(u8),
    Parentheses,
    Brackets,
    List,
}

impl Item {
    fn takes(&self, node: Seen) -> bool {
        match (self, node) {
            (Self::Word(word), Seen::Word(seen)) => word == seen,
            (Self::Kind(kind), Seen::Kind(seen)) => *kind == seen,
            (Self::Group, Seen::Parentheses | Seen::Brackets) => true,
            (Self::List, Seen::List) => true,
            (Self::Any | Self::Rest, _) => true,
            _ => false,
        }
    }
}

struct Automaton<'r>(&'r [Item]);

impl Automaton<'_> {
    /// The state behind a node, `None` if no match goes on with it.
    fn behind(&self, state: usize, node: Seen) -> Option<usize> {
        let item = self.0.get(state)?;
        let next = match item {
            Item::Rest => state,
            _ => state + 1,
        };
        item.takes(node).then_some(next)
    }

    /// Whether a match may end here.
    fn ends(&self, state: usize) -> bool {
        matches!(self.0.get(state), None | Some(Item::Rest))
    }
}

/// Whether the rule matches all the nodes.
pub fn matches(rule: &[Item], nodes: &[Seen]) -> bool {
    let automaton = Automaton(rule);
    let mut nodes = nodes.iter();
    let last = nodes.try_fold(0, |state, &node| automaton.behind(state, node));
    last.is_some_and(|state| automaton.ends(state))
}

/// How many nodes the shortest sequence has that both rules match, `None` if
/// they match no sequence together.
pub fn shortest(one: &[Item], other: &[Item]) -> Option<usize> {
    let nodes = told_apart(one, other);
    let (one, other) = (Automaton(one), Automaton(other));
    let mut reached = BTreeSet::from([(0, 0)]);
    let mut level = vec![(0, 0)];
    let mut length = 0;
    while !level.is_empty() {
        if level.iter().any(|&(a, b)| one.ends(a) && other.ends(b)) {
            return Some(length);
        }
        let mut next = Vec::new();
        for (a, b) in level {
            for &node in &nodes {
                let states = one.behind(a, node).zip(other.behind(b, node));
                next.extend(states.filter(|&states| reached.insert(states)));
            }
        }
        level = next;
        length += 1;
    }
    None
}

/// More than there are items in two rules.
const FRESH: &[u8] = b"zzzzzzzzzzzzzzzzzzzzzzzzzzzzzzzzzzzzzzzzzzzzzzzzzzzzzzzzzzzz";

/// Nodes of which one stands for each sort that the two rules can tell apart:
/// their words and kinds, a word and a kind of neither, groups, a list.
pub fn told_apart<'r>(one: &'r [Item], other: &'r [Item]) -> Vec<Seen<'r>> {
    let mut nodes = vec![Seen::Parentheses, Seen::Brackets, Seen::List];
    for item in one.iter().chain(other) {
        match item {
            Item::Word(word) => nodes.push(Seen::Word(word)),
            Item::Kind(kind) => nodes.push(Seen::Kind(*kind)),
            _ => {}
        }
    }
    let word = (1..FRESH.len()).map(|length| Seen::Word(&FRESH[..length]));
    let kind = ITEM_KINDS.map(Seen::Kind);
    let fresh = |node: &Seen| !nodes.contains(node);
    let (word, kind) = ({ word }.find(fresh), { kind }.find(fresh));
    nodes.extend(word.into_iter().chain(kind));
    nodes
}
