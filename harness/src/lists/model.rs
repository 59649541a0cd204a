//! What the proved library's entry for several types has to answer, with each
//! part's own answer and tree found by running the original.

use std::ops::Range;

use super::cut;
use crate::answer::{Answer, Refusal};
use crate::format::{Format, Head, NODE_WIDTH, NUMBERS_PER_TOKEN, Row};
use crate::oracle;
use crate::rules::model::hand_out;

/// The numbers of an answer: those for one type, and the parts or the part.
pub const LIST_ANSWER_LENGTH: usize = 5;

/// Stands in place of the part where a refusal comes before any.
pub const NO_PART: u32 = 65_535;

pub type Numbers = [u32; LIST_ANSWER_LENGTH];

/// A row's parts read one after another, up to the first that is refused.
#[derive(Default)]
pub struct Reading {
    /// The node records of the parts that were accepted.
    pub tree: Vec<u32>,
    /// The steps taken by the end of each part, those of the parts before it
    /// included.
    pub steps: Vec<u32>,
    /// Of the last part; `None` if all are accepted.
    pub refusal: Option<Refusal>,
}

/// The file of one part alone.
pub fn alone(row: &Row, part: Range<usize>, allowance: u32) -> Vec<u8> {
    Format::current().write(&part_of(row, part, allowance))
}

fn part_of(row: &Row, part: Range<usize>, allowance: u32) -> Row {
    let head = Head {
        allowance,
        ..row.head
    };
    let tokens = row.tokens[part].to_vec();
    Row { head, tokens }
}

/// Reads the parts; each gets what those before it leave of the allowance. One
/// that is refused by 25 takes all of it, so that the steps are the whole.
pub fn read(row: &Row) -> Reading {
    read_in(Format::current(), row)
}

/// The same for a row that was read in this format.
fn read_in(format: Format, row: &Row) -> Reading {
    let mut reading = Reading::default();
    let mut taken = 0;
    for part in cut::parts(row) {
        let file = format.write(&part_of(row, part, row.head.allowance - taken));
        let (answer, tree) = oracle::answer_with_tree_in(format, &file);
        taken += answer.steps();
        reading.steps.push(taken);
        match answer {
            Answer::Accepted { nodes, .. } => {
                let length = NODE_WIDTH * nodes as usize;
                reading.tree.extend(&tree[..length]);
            }
            Answer::Refused {
                number,
                token,
                detail,
                ..
            } => {
                reading.refusal = Some(Refusal {
                    number,
                    token,
                    detail,
                });
                break;
            }
        }
    }
    reading
}

impl Reading {
    fn numbers(&self) -> Numbers {
        let parts = self.steps.len() as u32;
        let steps = self.steps.last().copied().unwrap_or(0);
        match self.refusal {
            None => [0, (self.tree.len() / NODE_WIDTH) as u32, steps, 0, parts],
            Some(refusal) => numbered(refusal, steps, parts - 1),
        }
    }
}

fn numbered(refusal: Refusal, steps: u32, part: u32) -> Numbers {
    let Refusal {
        number,
        token,
        detail,
    } = refusal;
    [number, token, detail, steps, part]
}

/// As `type_name_read_list` of the proved library.
pub fn type_name_read_list(file: &[u8], tree: &mut [u32], answer: &mut [u32]) -> u32 {
    hand_out(numbers(file, tree), answer)
}

/// The numbers of the answer, however many of them there is room for; leaves
/// in the buffer what the entry does.
pub fn numbers(file: &[u8], tree: &mut [u32]) -> Numbers {
    numbers_in(Format::current(), file, tree)
}

/// The same if files of this format were read.
pub fn numbers_in(format: Format, file: &[u8], tree: &mut [u32]) -> Numbers {
    let row = match format.read(file) {
        Ok(row) => row,
        Err(refusal) => return numbered(refusal, 0, NO_PART),
    };
    if tree.len() < NUMBERS_PER_TOKEN * row.tokens.len() {
        return numbered(Refusal::plain(Refusal::SHORT_BUFFER), 0, NO_PART);
    }
    let reading = read_in(format, &row);
    tree.fill(0);
    if reading.refusal.is_none() {
        tree[..reading.tree.len()].copy_from_slice(&reading.tree);
    }
    reading.numbers()
}
