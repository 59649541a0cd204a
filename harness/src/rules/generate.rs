//! Rule tables, good and damaged: the same source of random numbers gives the
//! same tables.

// All damages share one type, so that one can be picked.
#![allow(clippy::ptr_arg)]

use super::automaton::{Seen, matches};
use super::format::{self, Item, MOST_ITEMS, MOST_RULES, RULE_HEAD_LENGTH, RULE_KIND, Rule};
use crate::format::{Row, WORD_BYTES, WORD_LENGTHS};
use crate::generate::random::Random;
use crate::kind::Kind;

/// The most rules of a table that is not made to be large.
const RULES: usize = 8;

type Style = fn(&mut Random, &[Seen]) -> Rule;

const STYLES: [Style; 6] = [
    derived,
    derived,
    derived,
    |random, _| drawn(random, small),
    |random, _| drawn(random, edge),
    |random, _| long(random),
];

/// A table in which rules made of the nodes are frequent.
pub fn table(random: &mut Random, nodes: &[Seen]) -> Vec<u8> {
    let style = *random.pick(&STYLES);
    let mixed = random.one_in(4);
    let rule = |random: &mut Random| {
        let other = *random.pick(&STYLES);
        let style = if mixed { other } else { style };
        style(random, nodes)
    };
    let rules = (0..random.below(RULES + 1)).map(|_| rule(random)).collect();
    match random.below(4) {
        0 => damaged(random, rules),
        _ => format::file(&rules),
    }
}

/// A table of many rules, often of as many as it may have, one fewer or one
/// more: short rules, the last of which takes every row.
pub fn large(random: &mut Random, nodes: &[Seen]) -> Vec<u8> {
    let count = match random.below(4) {
        0 => RULES + random.below(MOST_RULES - RULES),
        _ => MOST_RULES - 1 + random.below(3),
    };
    let mut rules: Vec<Rule> = (1..count).map(|_| drawn(random, small)).collect();
    if random.one_in(2) {
        // No rule before the last matches the row.
        rules.retain(|rule| !matches(rule, nodes));
        rules.resize(count - 1, vec![Item::Word(b"none".into())]);
    }
    rules.push(vec![Item::Rest]);
    format::file(&rules)
}

/// The row with words of edge lengths and bytes. Its structure, which may want
/// the words that it had, is not checked.
pub fn with_edge_words(random: &mut Random, row: &Row) -> Row {
    let mut row = row.clone();
    row.head.flag = 0;
    for token in &mut row.tokens {
        if token.kind == Kind::Identifier && random.one_in(2) {
            token.word = String::from_utf8(edge_word(random)).expect("bytes of ASCII");
        }
    }
    row
}

/// A rule of the row's own nodes, changed in up to two places.
fn derived(random: &mut Random, nodes: &[Seen]) -> Rule {
    let mut rule: Rule = nodes.iter().take(MOST_ITEMS + 1).map(of_node).collect();
    if rule.len() > MOST_ITEMS || random.one_in(4) {
        rule.truncate(random.below(rule.len().min(MOST_ITEMS - 1) + 1));
        rule.push(Item::Rest);
    }
    for _ in 0..random.below(3) {
        change(random, &mut rule);
    }
    mended(random, rule)
}

fn of_node(node: &Seen) -> Item {
    match *node {
        Seen::Word(word) => Item::Word(word.into()),
        Seen::Kind(kind) => Item::Kind(kind),
        Seen::Parentheses | Seen::Brackets => Item::Group,
        Seen::List => Item::List,
    }
}

fn change(random: &mut Random, rule: &mut Rule) {
    if rule.is_empty() {
        return;
    }
    let place = random.below(rule.len());
    match random.below(7) {
        0 | 1 => rule[place] = Item::Any,
        2 => rule[place] = small(random),
        3 => drop(rule.remove(place)),
        4 => rule.insert(place, small(random)),
        5 => drop(rule.pop()),
        _ => {
            if let Item::Word(word) = &mut rule[place] {
                change_word(random, word);
            }
        }
    }
}

/// Other case, another last byte, a byte more or a byte fewer.
fn change_word(random: &mut Random, word: &mut Vec<u8>) {
    match random.below(4) {
        0 => word[0] ^= b' ' * u8::from(word[0].is_ascii_alphabetic()),
        1 => *word.last_mut().expect("a word") = *random.pick(&[33, b'x', 126]),
        2 if word.len() < *WORD_LENGTHS.end() => word.push(b'x'),
        _ if word.len() > 1 => drop(word.pop()),
        _ => {}
    }
}

/// Made a rule of the form: `rest` as last item alone, 1 to 16 items.
fn mended(random: &mut Random, mut rule: Rule) -> Rule {
    let rest = rule.last() == Some(&Item::Rest);
    rule.retain(|item| *item != Item::Rest);
    rule.truncate(MOST_ITEMS);
    if rest || rule.is_empty() || random.one_in(8) {
        rule.truncate(MOST_ITEMS - 1);
        rule.push(Item::Rest);
    }
    rule
}

/// A rule of up to five items of a sort.
fn drawn(random: &mut Random, item: fn(&mut Random) -> Item) -> Rule {
    let rule = (0..random.below(6)).map(|_| item(random)).collect();
    mended(random, rule)
}

/// A rule of 15 or 16 items, `rest` included, most of them `any`.
fn long(random: &mut Random) -> Rule {
    let mut rule = vec![Item::Any; MOST_ITEMS - random.below(2)];
    for _ in 0..random.below(4) {
        let place = random.below(rule.len());
        rule[place] = edge(random);
    }
    if random.one_in(2) {
        *rule.last_mut().expect("an item") = Item::Rest;
    }
    rule
}

/// Items of few sorts, so that two rules agree often; words that differ in
/// case alone, and such as begin another.
fn small(random: &mut Random) -> Item {
    const WORDS: [&str; 6] = ["A", "a", "b", "int", "INT", "in"];
    match random.below(6) {
        0 | 1 => Item::Word((*random.pick(&WORDS)).into()),
        2 => Item::Kind(*random.pick(&[2, 15, 21, 41])),
        3 => Item::Group,
        4 => Item::List,
        _ => Item::Any,
    }
}

/// Items at the ends of what may be: words of 1, 254 and 255 bytes, the least
/// and the greatest byte, the first and the last kind.
fn edge(random: &mut Random) -> Item {
    match random.below(3) {
        0 => Item::Kind(*random.pick(&[1, 2, 56, 57])),
        _ => Item::Word(edge_word(random)),
    }
}

fn edge_word(random: &mut Random) -> Vec<u8> {
    let length = *random.pick(&[1, 2, WORD_LENGTHS.end() - 1, *WORD_LENGTHS.end()]);
    let mut word = vec![b'w'; length];
    word[length - 1] = *random.pick(&[*WORD_BYTES.start(), b'w', *WORD_BYTES.end()]);
    word
}

type Damage = fn(&mut Random, &mut Vec<u8>);

/// Of the table's bytes.
const DAMAGES: [Damage; 7] = [
    cut_off,
    record_length,
    record_kind,
    one_byte,
    byte_removed,
    byte_added,
    head_alone,
];

/// A table that is mostly none: a rule that is not of the form among the
/// others, or damaged bytes.
fn damaged(random: &mut Random, mut rules: Vec<Rule>) -> Vec<u8> {
    if random.one_in(2) {
        let place = random.below(rules.len() + 1);
        rules.insert(place, wrong(random));
        return format::file(&rules);
    }
    let mut bytes = format::file(&rules);
    let damage = *random.pick(&DAMAGES);
    damage(random, &mut bytes);
    bytes
}

/// A rule just outside the form.
fn wrong(random: &mut Random) -> Rule {
    let word = |length, byte| Item::Word(vec![byte; length]);
    let items = match random.below(9) {
        0 => return Vec::new(),
        1 => return vec![Item::Any; MOST_ITEMS + 1 + random.below(2)],
        2 => return [vec![Item::Any; MOST_ITEMS], vec![Item::Rest]].concat(),
        3 => vec![Item::Rest, small(random)],
        4 => vec![Item::Rest, Item::Rest],
        5 => vec![word(0, b'w')],
        6 => vec![word(1 + random.below(3), WORD_BYTES.start() - 1)],
        7 => vec![word(1 + random.below(3), WORD_BYTES.end() + 1)],
        _ => vec![Item::Kind(*random.pick(&[0, 58, 255]))],
    };
    let mut rule: Rule = (0..random.below(3)).map(|_| small(random)).collect();
    rule.extend(items);
    rule
}

/// Where a record begins; 0 in a table of no rules.
fn begin(random: &mut Random, bytes: &[u8]) -> usize {
    let mut begins = vec![0];
    let mut at = 0;
    while let Some(&length) = bytes[at..].first_chunk() {
        begins.push(at);
        at += usize::from(u16::from_le_bytes(length));
    }
    *random.pick(&begins)
}

fn cut_off(random: &mut Random, bytes: &mut Vec<u8>) {
    bytes.truncate(random.below(bytes.len() + 1));
}

/// One byte longer or shorter than it is, no longer than its head, or far
/// too long.
#[rustfmt::skip]
fn record_length(random: &mut Random, bytes: &mut Vec<u8>) {
    let at = begin(random, bytes);
    if let Some(field) = bytes[at..].first_chunk_mut() {
        let length = u16::from_le_bytes(*field);
        let head = RULE_HEAD_LENGTH as u16;
        let lengths = [length + 1, length - 1, 0, 1, head - 1, head, length + 256, u16::MAX];
        *field = random.pick(&lengths).to_le_bytes();
    }
}

#[rustfmt::skip]
fn record_kind(random: &mut Random, bytes: &mut Vec<u8>) {
    let at = begin(random, bytes) + 2;
    if let Some(field) = bytes.get_mut(at..at + 2) {
        let kinds = [RULE_KIND - 1, RULE_KIND + 1, RULE_KIND & 255, RULE_KIND + 256, 0, u16::MAX];
        field.copy_from_slice(&random.pick(&kinds).to_le_bytes());
    }
}

fn one_byte(random: &mut Random, bytes: &mut Vec<u8>) {
    if !bytes.is_empty() {
        let place = random.below(bytes.len());
        bytes[place] = random.draw() as u8;
    }
}

fn byte_removed(random: &mut Random, bytes: &mut Vec<u8>) {
    if !bytes.is_empty() {
        bytes.remove(random.below(bytes.len()));
    }
}

fn byte_added(random: &mut Random, bytes: &mut Vec<u8>) {
    let place = random.below(bytes.len() + 1);
    bytes.insert(place, random.below(8) as u8);
}

/// A record of no items at the end, whole or cut off.
fn head_alone(random: &mut Random, bytes: &mut Vec<u8>) {
    let head = format::record(&[]);
    bytes.extend(&head[..=random.below(head.len())]);
}
