//! What the proved library's function has to answer, of any numbers.

use crate::format::NODE_WIDTH;
use crate::tree::NodeKind;

const T: u32 = NodeKind::Token as u32;
const L: u32 = NodeKind::List as u32;
const A: u32 = NodeKind::Argument as u32;

/// Which test numbers fail that have no list, the first of them in this order.
#[derive(Debug, Clone, Copy, PartialEq, Eq, PartialOrd, Ord)]
pub enum Fault {
    /// No whole node stands in the buffer.
    NoFirst,
    FirstNoWord,
    WordOf0,
    WordOver1,
    /// No second whole node stands in the buffer.
    NoSecond,
    SecondNoList,
    ListOf0,
    ListOf1,
    ListPastBuffer,
    NoArgument,
    ArgumentOf0,
    ArgumentPastList,
}

impl Fault {
    pub const ALL: [Self; 12] = [
        Self::NoFirst,
        Self::FirstNoWord,
        Self::WordOf0,
        Self::WordOver1,
        Self::NoSecond,
        Self::SecondNoList,
        Self::ListOf0,
        Self::ListOf1,
        Self::ListPastBuffer,
        Self::NoArgument,
        Self::ArgumentOf0,
        Self::ArgumentPastList,
    ];

    pub fn name(self) -> &'static str {
        match self {
            Self::NoFirst => "first node past the buffer",
            Self::FirstNoWord => "first node not T",
            Self::WordOf0 => "word of extent 0",
            Self::WordOver1 => "word of extent over 1",
            Self::NoSecond => "second node past the buffer",
            Self::SecondNoList => "second node not L",
            Self::ListOf0 => "list of extent 0",
            Self::ListOf1 => "list of extent 1",
            Self::ListPastBuffer => "list past the buffer",
            Self::NoArgument => "node in an argument's place not A",
            Self::ArgumentOf0 => "argument of extent 0",
            Self::ArgumentPastList => "argument past its list",
        }
    }
}

/// How many arguments the list has with which the numbers go on behind a word.
pub fn arguments(tree: &[u32]) -> Result<u32, Fault> {
    // A node that is cut off is past the buffer, too.
    let (nodes, _) = tree.as_chunks::<NODE_WIDTH>();
    let &[kind, _, extent] = nodes.first().ok_or(Fault::NoFirst)?;
    match (kind, extent) {
        (T, 0) => return Err(Fault::WordOf0),
        (T, 1) => {}
        (T, _) => return Err(Fault::WordOver1),
        _ => return Err(Fault::FirstNoWord),
    }
    let &[kind, _, extent] = nodes.get(1).ok_or(Fault::NoSecond)?;
    match (kind, extent) {
        (L, 0) => return Err(Fault::ListOf0),
        (L, 1) => return Err(Fault::ListOf1),
        (L, _) => {}
        _ => return Err(Fault::SecondNoList),
    }
    let end = 1 + u64::from(extent);
    if end > nodes.len() as u64 {
        return Err(Fault::ListPastBuffer);
    }
    let mut place = 2;
    let mut count = 0;
    while place < end {
        match nodes[place as usize] {
            [A, _, 0] => return Err(Fault::ArgumentOf0),
            [A, _, extent] => place += u64::from(extent),
            _ => return Err(Fault::NoArgument),
        }
        if place > end {
            return Err(Fault::ArgumentPastList);
        }
        count += 1;
    }
    Ok(count)
}

/// As `type_name_outer` of the proved library.
pub fn type_name_outer(tree: &[u32]) -> u32 {
    arguments(tree).unwrap_or(0)
}
