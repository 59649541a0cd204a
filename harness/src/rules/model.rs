//! What the proved library's two entries for rules have to answer, with the
//! row's own answer and tree found by running the original.

use std::cell::OnceCell;

use super::automaton::{Seen, matches, shortest, told_apart};
use super::format::{self, Item, Rule};
use crate::answer::{Answer, Refusal};
use crate::format::{ANSWER_LENGTH, Format, NODE_WIDTH, Row};
use crate::oracle;
use crate::tree::{Node, NodeKind};

/// The places of two rules, the earlier first.
pub type Pair = (u32, u32);

pub type Numbers = [u32; ANSWER_LENGTH];

/// A good table; its pairs are found when they are first asked for.
pub struct Table {
    rules: Vec<Rule>,
    pairs: OnceCell<Vec<Pair>>,
}

impl Table {
    /// `None` where refusal 50 is due.
    pub fn read(file: &[u8]) -> Option<Self> {
        let rules = format::read(file)?;
        let pairs = OnceCell::new();
        Some(Self { rules, pairs })
    }

    pub fn rules(&self) -> &[Rule] {
        &self.rules
    }

    /// The place of the first rule that matches.
    pub fn winner(&self, nodes: &[Seen]) -> Option<usize> {
        self.rules.iter().position(|rule| matches(rule, nodes))
    }

    /// All pairs that overlap, by the earlier, then the later place.
    pub fn pairs(&self) -> &[Pair] {
        self.pairs.get_or_init(|| {
            let later = |i: usize| (i + 1..self.rules.len()).map(move |j| (i, j));
            let all = (0..self.rules.len()).flat_map(later);
            let overlap = |&(i, j): &(usize, usize)| shortest(&self.rules[i], &self.rules[j]);
            let found = all.filter(|pair| overlap(pair).is_some());
            found.map(|(i, j)| (i as u32, j as u32)).collect()
        })
    }

    /// The first pair behind two numbers in that order.
    pub fn pair_behind(&self, numbers: Pair) -> Option<Pair> {
        let passed = self.pairs().partition_point(|&pair| pair <= numbers);
        self.pairs().get(passed).copied()
    }

    /// The sequence that is shown for a pair.
    pub fn shown(&self, (earlier, later): Pair) -> Vec<Item> {
        let counted = |place: u32| counted(&self.rules[place as usize]);
        let (earlier, later) = (counted(earlier), counted(later));
        let item = |place| {
            let item = earlier.get(place).filter(|item| **item != Item::Any);
            item.or(later.get(place)).unwrap_or(&Item::Any).clone()
        };
        (0..earlier.len().max(later.len())).map(item).collect()
    }

    /// Whether both rules match the sequence that is shown for them, whatever
    /// nodes stand for its `any` items, and no shorter one. For checking the
    /// model: `shown` and `pairs` are found in different ways.
    pub fn matches_shown(&self, pair: Pair) -> bool {
        let rules = [pair.0, pair.1].map(|place| &self.rules[place as usize]);
        let shown = self.shown(pair);
        let fills = told_apart(rules[0], rules[1]);
        let filled = |turn: usize| -> Vec<Seen> {
            let node = |(place, item)| stood_for(item, fills[(turn + place) % fills.len()]);
            shown.iter().enumerate().map(node).collect()
        };
        let both = |nodes: Vec<Seen>| rules.iter().all(|rule| matches(rule, &nodes));
        shortest(rules[0], rules[1]) == Some(shown.len()) && (0..fills.len()).map(filled).all(both)
    }
}

/// A node that a shown item stands for.
fn stood_for<'a>(item: &'a Item, fill: Seen<'a>) -> Seen<'a> {
    match item {
        Item::Word(word) => Seen::Word(word),
        Item::Kind(kind) => Seen::Kind(*kind),
        Item::Group if fill == Seen::Brackets => Seen::Brackets,
        Item::Group => Seen::Parentheses,
        Item::List => Seen::List,
        Item::Any => fill,
        Item::Rest => unreachable!("the rest is never shown"),
    }
}

/// The items that take one node each.
fn counted(rule: &[Item]) -> &[Item] {
    rule.strip_suffix(&[Item::Rest]).unwrap_or(rule)
}

/// What rules see of an accepted row.
pub fn top_level<'r>(row: &'r Row, nodes: u32, tree: &[u32]) -> Vec<Seen<'r>> {
    let (records, _) = tree.as_chunks::<NODE_WIDTH>();
    let mut rest = &records[..nodes as usize];
    let mut seen = Vec::new();
    while let Some(&record) = rest.first() {
        let node = Node::of_record(record);
        seen.push(match node.kind {
            NodeKind::Token => token(row, node.token),
            NodeKind::Parentheses => Seen::Parentheses,
            NodeKind::Brackets => Seen::Brackets,
            NodeKind::List => Seen::List,
            NodeKind::Argument => unreachable!("arguments stand below lists"),
        });
        rest = &rest[node.extent as usize..];
    }
    seen
}

fn token(row: &Row, number: u32) -> Seen<'_> {
    let token = &row.tokens[number as usize];
    match token.kind.number() {
        0 => Seen::Word(token.word.as_bytes()),
        kind => Seen::Kind(kind as u8),
    }
}

/// As `type_name_match` of the proved library.
pub fn type_name_match(file: &[u8], rules: &[u8], tree: &mut [u32], answer: &mut [u32]) -> u32 {
    hand_out(
        match_numbers_in(Format::current(), file, rules, tree),
        answer,
    )
}

/// As `type_name_overlap` of the proved library.
pub fn type_name_overlap(
    rules: &[u8],
    earlier: u32,
    later: u32,
    sequence: &mut [u8],
    answer: &mut [u32],
) -> u32 {
    let table = Table::read(rules);
    overlap(table.as_ref(), (earlier, later), sequence, answer)
}

/// The same for a table that was read before, `None` if it is not good.
pub fn overlap(
    table: Option<&Table>,
    numbers: Pair,
    sequence: &mut [u8],
    answer: &mut [u32],
) -> u32 {
    hand_out(overlap_numbers(table, numbers, sequence), answer)
}

/// Writes as many numbers as there is room for and returns the first.
pub fn hand_out<const N: usize>(numbers: [u32; N], answer: &mut [u32]) -> u32 {
    for (to, number) in answer.iter_mut().zip(numbers) {
        *to = number;
    }
    numbers[0]
}

/// The numbers of the answer to which rule wins, if files of this format were
/// read; leaves in the buffer what the entry does.
pub fn match_numbers_in(format: Format, file: &[u8], rules: &[u8], tree: &mut [u32]) -> Numbers {
    let answer = oracle::answer_in(format, file, tree);
    if matches!(answer.refusal(), Some(1..=Refusal::SHORT_BUFFER)) {
        return answer.numbers();
    }
    let Some(table) = Table::read(rules) else {
        tree.fill(0);
        return Refusal::plain(Refusal::INVALID_RULE_TABLE)
            .after(0)
            .numbers();
    };
    let Answer::Accepted { nodes, steps } = answer else {
        return answer.numbers();
    };
    let row = format.read(file).expect("an accepted file");
    if let Some(place) = table.winner(&top_level(&row, nodes, tree)) {
        return [0, nodes, steps, place as u32];
    }
    tree.fill(0);
    Refusal::plain(Refusal::NO_RULE_MATCHES)
        .after(steps)
        .numbers()
}

fn overlap_numbers(table: Option<&Table>, numbers: Pair, sequence: &mut [u8]) -> Numbers {
    let Some(table) = table else {
        return Refusal::plain(Refusal::INVALID_RULE_TABLE)
            .after(0)
            .numbers();
    };
    let Some(pair) = table.pair_behind(numbers) else {
        return [0; ANSWER_LENGTH];
    };
    let shown = format::written(&table.shown(pair));
    let Some(to) = sequence.get_mut(..shown.len()) else {
        return Refusal::plain(Refusal::SHORT_BUFFER).after(0).numbers();
    };
    to.copy_from_slice(&shown);
    [0, pair.0, pair.1, shown.len() as u32]
}
