//! The items of a rule, and its record in a table.

use alloc::vec::Vec;
use core::error::Error;
use core::fmt;

use crate::limits::{LONGEST_WORD, MOST_ITEMS, MOST_RULES, RULE_HEAD_LENGTH, RULE_KIND};
use crate::numbered::numbered;
use crate::token::{WordFault, checked_word};
use crate::token_kind::TokenKind;

numbered! {
    /// What sort of item it is; the number is the byte that begins it.
    ItemKind {
        /// A word; behind the byte come its length, of one byte, and the word.
        Word = 0,
        /// A token kind; behind the byte comes its number, of one byte.
        Kind = 1,
        /// A group.
        Group = 2,
        /// A list.
        List = 3,
        /// Any one node.
        Any = 4,
        /// The rest.
        Rest = 5,
    }
}

/// An item of a rule: the top-level nodes that it takes.
#[derive(Debug, Clone, Copy, PartialEq, Eq, Hash)]
pub enum Item<'a> {
    /// A token with this word, byte for byte, of 1 to 255 bytes, each 33 to 126.
    Word(&'a str),
    /// A token of this kind, which is not `Identifier`: a token of that kind is taken by its word.
    Kind(TokenKind),
    /// A group: parentheses or brackets, whatever stands between.
    Group,
    /// A template argument list.
    List,
    /// Any one node.
    Any,
    /// All nodes that are left, which may be none; only as a rule's last item.
    Rest,
}

impl Item<'_> {
    /// What sort of item it is.
    #[must_use]
    pub const fn kind(self) -> ItemKind {
        match self {
            Self::Word(_) => ItemKind::Word,
            Self::Kind(_) => ItemKind::Kind,
            Self::Group => ItemKind::Group,
            Self::List => ItemKind::List,
            Self::Any => ItemKind::Any,
            Self::Rest => ItemKind::Rest,
        }
    }

    /// Of an item that was checked.
    fn write(self, to: &mut Vec<u8>) {
        to.push(self.kind().number() as u8);
        match self {
            Self::Word(word) => {
                to.push(word.len() as u8);
                to.extend(word.as_bytes());
            }
            Self::Kind(kind) => to.push(kind.number() as u8),
            Self::Group | Self::List | Self::Any | Self::Rest => {}
        }
    }
}

/// Items, decoded one after the other from their bytes.
#[derive(Debug, Clone, PartialEq, Eq)]
pub struct Items<'a> {
    bytes: &'a [u8],
}

impl<'a> Items<'a> {
    /// Those of a sequence as [`type_name_overlap`](crate::type_name_overlap) shows it, up to its end or to the first that
    /// is malformed.
    #[must_use]
    pub const fn new(bytes: &'a [u8]) -> Self {
        Self { bytes }
    }
}

impl<'a> Iterator for Items<'a> {
    type Item = Item<'a>;

    fn next(&mut self) -> Option<Item<'a>> {
        let (&byte, behind) = self.bytes.split_first()?;
        let (item, after) = match ItemKind::try_from(u32::from(byte)).ok()? {
            ItemKind::Word => {
                let (&length, behind) = behind.split_first()?;
                let (word, after) = behind.split_at_checked(length.into())?;
                (Item::Word(core::str::from_utf8(word).ok()?), after)
            }
            ItemKind::Kind => {
                let (&number, after) = behind.split_first()?;
                (
                    Item::Kind(TokenKind::try_from(u32::from(number)).ok()?),
                    after,
                )
            }
            ItemKind::Group => (Item::Group, behind),
            ItemKind::List => (Item::List, behind),
            ItemKind::Any => (Item::Any, behind),
            ItemKind::Rest => (Item::Rest, behind),
        };
        self.bytes = after;
        Some(item)
    }
}

/// Writes a rule's record.
pub(crate) fn write_rule(items: &[Item<'_>], to: &mut Vec<u8>) -> Result<(), RuleError> {
    check(items)?;
    let begin = to.len();
    // The length is put in when it is known.
    to.extend([0; 2]);
    to.extend(RULE_KIND.to_le_bytes());
    items.iter().for_each(|item| item.write(to));
    // 16 words of 255 bytes are the most.
    let length = (to.len() - begin) as u16;
    to[begin..][..2].copy_from_slice(&length.to_le_bytes());
    Ok(())
}

/// The rule whose record begins the bytes, and what stands behind that record.
pub(crate) fn read_rule(bytes: &[u8]) -> Option<(Items<'_>, &[u8])> {
    let length = u16::from_le_bytes(*bytes.first_chunk()?);
    let (record, after) = bytes.split_at_checked(length.into())?;
    Some((Items::new(record.get(RULE_HEAD_LENGTH..)?), after))
}

fn check(items: &[Item<'_>]) -> Result<(), RuleError> {
    if items.is_empty() {
        return Err(RuleError::Empty);
    }
    if items.len() > MOST_ITEMS {
        return Err(RuleError::TooManyItems(items.len()));
    }
    let last = items.len() - 1;
    for (place, item) in items.iter().enumerate() {
        match *item {
            Item::Word(word) => {
                checked_word(word).map_err(|fault| RuleError::of_word(place, fault))?;
            }
            Item::Kind(TokenKind::Identifier) => return Err(RuleError::KindOfWords(place)),
            Item::Rest if place < last => return Err(RuleError::RestNotLast(place)),
            _ => {}
        }
    }
    Ok(())
}

/// Why a table cannot have a rule. Items are named by their place in the rule, from 0.
#[derive(Debug, Clone, Copy, PartialEq, Eq)]
pub enum RuleError {
    /// The table has [`MOST_RULES`] rules already.
    TableFull,
    /// The rule has no item.
    Empty,
    /// The rule has so many items, and not 1 to [`MOST_ITEMS`].
    TooManyItems(usize),
    /// The item is the rest, and others follow it.
    RestNotLast(usize),
    /// The item is the kind of words, which are taken by [`Item::Word`] alone.
    KindOfWords(usize),
    /// The item's word has so many bytes, and not 1 to 255.
    WordLength {
        /// The item's place.
        item: usize,
        /// How many bytes the word has.
        bytes: usize,
    },
    /// A byte of the item's word is none of 33 to 126, the visible characters of ASCII.
    WordByte {
        /// The item's place.
        item: usize,
        /// The byte's place in the word.
        at: usize,
    },
}

impl RuleError {
    fn of_word(item: usize, fault: WordFault) -> Self {
        match fault {
            WordFault::Length(bytes) => Self::WordLength { item, bytes },
            WordFault::Byte(at) => Self::WordByte { item, at },
        }
    }
}

impl fmt::Display for RuleError {
    fn fmt(&self, to: &mut fmt::Formatter<'_>) -> fmt::Result {
        match self {
            Self::TableFull => write!(to, "a table has at most {MOST_RULES} rules"),
            Self::Empty => to.write_str("the rule has no item"),
            Self::TooManyItems(items) => {
                write!(to, "the rule has {items} items, and not 1 to {MOST_ITEMS}")
            }
            Self::RestNotLast(item) => {
                write!(to, "item {item} is the rest, and others follow it")
            }
            Self::KindOfWords(item) => {
                write!(to, "item {item} is the kind of words, and no word")
            }
            Self::WordLength { item, bytes } => write!(
                to,
                "the word of item {item} has {bytes} bytes, and not 1 to {LONGEST_WORD}"
            ),
            Self::WordByte { item, at } => write!(
                to,
                "byte {at} of the word of item {item} is no visible ASCII character"
            ),
        }
    }
}

impl Error for RuleError {}
