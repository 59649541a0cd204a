//! Rows in which no `<` stands behind a name: each angle is a plain token, as in
//! the other languages. So the original's own reading of those is the tree.

use super::model::settled;
use super::names::Names;
use crate::answer::Answer;
use crate::copies::{originals, refusal};
use crate::format::Row;
use crate::host::counted::read_without_lists;

/// Whether no list is opened in a row.
pub fn is_plain(row: &Row, names: &Names) -> bool {
    let mut places = 0..row.tokens.len();
    !places.any(|place| names.open_list(&row.tokens, place))
}

/// What is answered to such a row of C++ that passes the tests up to 8, with its
/// tree left in a buffer of zeros.
pub fn answer(row: &Row, tree: &mut [u32]) -> Answer {
    let tokens = originals(row);
    let read = || read_without_lists(&tokens).map_err(|error| refusal(error, &tokens));
    settled(row, read, tree)
}
