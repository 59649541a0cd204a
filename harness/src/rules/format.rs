//! The table file: one record a rule, to its end. All numbers are
//! little-endian.

use std::ops::RangeInclusive;

use crate::format::{WORD_BYTES, WORD_LENGTHS};

pub const RULE_KIND: u16 = 272;
pub const MOST_RULES: usize = 256;
pub const MOST_ITEMS: usize = 16;
/// The bytes of a record before its items: length and kind.
pub const RULE_HEAD_LENGTH: usize = 4;
/// Bytes enough for every sequence that is shown: each item a longest word.
pub const LONGEST_SEQUENCE: usize = MOST_ITEMS * (2 + 255);
/// The token kinds that an item can name; kind 0 has words.
pub const ITEM_KINDS: RangeInclusive<u8> = 1..=57;

#[derive(Debug, Clone, PartialEq, Eq)]
pub enum Item {
    Word(Vec<u8>),
    Kind(u8),
    Group,
    List,
    Any,
    Rest,
}

pub type Rule = Vec<Item>;

impl Item {
    fn number(&self) -> u8 {
        match self {
            Self::Word(_) => 0,
            Self::Kind(_) => 1,
            Self::Group => 2,
            Self::List => 3,
            Self::Any => 4,
            Self::Rest => 5,
        }
    }

    /// A word of more than 255 bytes gives a wrong length byte.
    pub fn write(&self, bytes: &mut Vec<u8>) {
        bytes.push(self.number());
        match self {
            Self::Word(word) => {
                bytes.push(word.len() as u8);
                bytes.extend(word);
            }
            Self::Kind(kind) => bytes.push(*kind),
            _ => {}
        }
    }

    /// The item that begins the bytes and what is behind it, `None` if none
    /// does.
    fn read(bytes: &[u8]) -> Option<(Self, &[u8])> {
        let (&number, behind) = bytes.split_first()?;
        Some(match number {
            0 => {
                let (&length, behind) = behind.split_first()?;
                let (word, behind) = behind.split_at_checked(usize::from(length))?;
                let fits = WORD_LENGTHS.contains(&word.len())
                    && word.iter().all(|byte| WORD_BYTES.contains(byte));
                (fits.then(|| Self::Word(word.to_vec()))?, behind)
            }
            1 => {
                let (&kind, behind) = behind.split_first()?;
                (
                    ITEM_KINDS.contains(&kind).then_some(Self::Kind(kind))?,
                    behind,
                )
            }
            2 => (Self::Group, behind),
            3 => (Self::List, behind),
            4 => (Self::Any, behind),
            5 => (Self::Rest, behind),
            _ => return None,
        })
    }
}

/// The items as bytes, without a record's head.
pub fn written(items: &[Item]) -> Vec<u8> {
    let mut bytes = Vec::new();
    for item in items {
        item.write(&mut bytes);
    }
    bytes
}

/// The record of a rule.
pub fn record(rule: &[Item]) -> Vec<u8> {
    let items = written(rule);
    let length = (RULE_HEAD_LENGTH + items.len()) as u16;
    [&length.to_le_bytes()[..], &RULE_KIND.to_le_bytes(), &items].concat()
}

/// The file of a table.
pub fn file(rules: &[Rule]) -> Vec<u8> {
    rules.iter().flat_map(|rule| record(rule)).collect()
}

/// The rules of a table, `None` where refusal 50 is due.
pub fn read(mut file: &[u8]) -> Option<Vec<Rule>> {
    let mut rules = Vec::new();
    while !file.is_empty() {
        let &[l0, l1, k0, k1] = file.first_chunk()?;
        if u16::from_le_bytes([k0, k1]) != RULE_KIND {
            return None;
        }
        let (record, behind) = file.split_at_checked(usize::from(u16::from_le_bytes([l0, l1])))?;
        rules.push(items(record.get(RULE_HEAD_LENGTH..)?)?);
        file = behind;
    }
    (rules.len() <= MOST_RULES).then_some(rules)
}

/// The items that fill the bytes.
fn items(mut bytes: &[u8]) -> Option<Rule> {
    let mut rule = Vec::new();
    while !bytes.is_empty() {
        let (item, behind) = Item::read(bytes)?;
        rule.push(item);
        bytes = behind;
    }
    let is_last = |place| place + 1 == rule.len();
    let rest = rule.iter().position(|item| *item == Item::Rest);
    let fits = (1..=MOST_ITEMS).contains(&rule.len()) && rest.is_none_or(is_last);
    fits.then_some(rule)
}

/// The table of a text such as `A list | any rest`: rules parted by `|`, in
/// them `group`, `list`, `any`, `rest`, `#` with a kind, or a word.
pub fn of_text(text: &str) -> Vec<Rule> {
    let item = |name: &str| match (name, name.strip_prefix('#')) {
        ("group", _) => Item::Group,
        ("list", _) => Item::List,
        ("any", _) => Item::Any,
        ("rest", _) => Item::Rest,
        (_, Some(kind)) => Item::Kind(kind.parse().expect("a kind's number")),
        (word, None) => Item::Word(word.into()),
    };
    let rules = text.split('|').map(str::split_whitespace);
    rules.map(|names| names.map(item).collect()).collect()
}
