//! What the proved library's entry for named templates has to answer. Prescan,
//! structure and profile are the original's.

use super::names::Names;
use super::reading;
use crate::answer::{Answer, Refusal};
use crate::copies::{self, Outcome, originals};
use crate::format::{NUMBERS_PER_TOKEN, Row};
use crate::host::counted::{self, TypeSyntax};
use crate::oracle;
use crate::profile::HostLanguage;
use crate::rules::model::hand_out;
use crate::steps;
use crate::tree::nodes;

/// As `type_name_read_named` of the proved library.
pub fn type_name_read_named(
    file: &[u8],
    names: &[u8],
    tree: &mut [u32],
    numbers: &mut [u32],
) -> u32 {
    hand_out(answer(file, names, tree).numbers(), numbers)
}

/// Answers a file and leaves in the buffer what the entry does.
pub fn answer(file: &[u8], names: &[u8], tree: &mut [u32]) -> Answer {
    let row = match Row::read(file) {
        Ok(row) => row,
        Err(refusal) => return refusal.after(0),
    };
    if tree.len() < NUMBERS_PER_TOKEN * row.tokens.len() {
        return Refusal::plain(Refusal::SHORT_BUFFER).after(0);
    }
    tree.fill(0);
    match Names::read(names) {
        Some(names) if row.profile().language() == HostLanguage::Cpp => {
            let read = || reading::read(&row.tokens, &names).map_err(Refusal::plain);
            settled(&row, read, tree)
        }
        _ => Refusal::plain(Refusal::INVALID_NAME_LIST).after(0),
    }
}

/// The answer to a row of which the tree is read so, with its tree left in a
/// buffer of zeros: prescan, reading, structure, profile.
pub(super) fn settled(
    row: &Row,
    read: impl FnOnce() -> Result<Vec<TypeSyntax>, Refusal>,
    tree: &mut [u32],
) -> Answer {
    if let Some(refusal) = prescan(row) {
        return refusal.after(0);
    }
    let (outcome, steps) = steps::within(row.head.allowance, || checked(row, read()?));
    match outcome {
        None => Refusal::plain(Refusal::ALLOWANCE_PASSED).after(steps),
        Some(Err(refusal)) => refusal.after(steps),
        Some(Ok(nodes)) => {
            oracle::write(&nodes, tree);
            let nodes = nodes.len() as u32;
            Answer::Accepted { nodes, steps }
        }
    }
}

/// Refusals 10 to 18: what the original says of a row that may take no step.
fn prescan(row: &Row) -> Option<Refusal> {
    let mut row = row.clone();
    row.head.allowance = 0;
    let (outcome, _) = copies::read(&row, row.profile());
    // `None` if the reading began.
    outcome?.err()
}

/// The nodes of a tree that passes the original's checks. That it is one of the
/// row, written out in its order, is asserted where the nodes are made.
fn checked(row: &Row, tree: Vec<TypeSyntax>) -> Outcome {
    let tokens = originals(row);
    counted::check(&tree, &tokens, row.profile(), row.head.flag != 0)
        .map_err(|error| copies::refusal(error, &tokens))?;
    Ok(nodes(&tree, &tokens))
}
