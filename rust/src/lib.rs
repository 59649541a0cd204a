//! Reads the name of a C, C++ or Fortran type, given as tokens, into a tree, or refuses it with one number that says why.
//!
//! A lexer's tokens become a row file with [`Row`]; [`parse_type_name`] reads it into a buffer of the caller's and gives a
//! [`Tree`] or a [`Refusal`]; [`parse_named_type_name`] does so by the [`Names`] of the templates, where these are known;
//! [`parse_type_list`] reads several type names with commas between them. Of a tree, [`Tree::outer_arguments`] counts the
//! arguments of the outer template. A [`Table`] of rules over a tree's top-level nodes says which rule wins for a type name, and
//! which of its rules overlap. [`widen`] brings over files of the old format, in which offsets have 32 bits, and [`narrow`]
//! brings them back.
//!
#![doc = "```"]
#![doc = include_str!("../examples/lane.rs")]
#![doc = "```"]
//!
//! The default standard of a language is the one that 255 means in a head record: C23, C++23 or Fortran 2023. Release archives
//! were made when it was C18, C++17 or Fortran 2018; [`widen`] writes 254 for these, so that archives keep their answers, and
//! [`HostLanguageProfile::archive_of`] gives them.
//!
//! The file's format, the token kinds, the tree and the refusals are described in the repository's `docs/FORMAT.md`. The
//! crate links `libtype_name.a`, which `tools/library` makes; it needs `alloc` and no `std`.
//!
//! # What is proved, and what is not
//!
//! Proved, for every file, name list, table and buffer: what the C functions `type_name_read`, `type_name_read_named`,
//! `type_name_read_list`, `type_name_outer`, `type_name_match`, `type_name_overlap`, `type_name_widen` and `type_name_narrow`
//! answer and write. `README.md` says what that comprises, `include/type_name.h` what the caller of those functions sees to.
//!
//! Not proved: this crate. It sees to what no contract covers by handing over slices, which are aligned, as long as they
//! say, never null and, as those that are written are `&mut`, apart from each other. It gives the numbers names and lays out
//! row files, name lists and rule tables; tests hold both to the proved definitions. It finds a list's parts in their row; tests
//! hold that to where the proved reader finds a comma that cuts.

#![no_std]
#![warn(missing_docs)]

extern crate alloc;

mod answer;
mod conversion;
mod cuts;
mod limits;
mod list;
mod names;
mod numbered;
mod overlaps;
mod profile;
mod raw;
mod row;
mod rule;
mod table;
mod token;
mod token_kind;
mod tree;

use alloc::vec;
use alloc::vec::Vec;

pub use answer::{Delimiter, Feature, Refusal, TypeNameError};
pub use conversion::{Conversion, ConversionRefusal, narrow, narrow_into, widen, widen_into};
pub use cuts::PartPlace;
pub use limits::{
    ALLOWANCE_AT, ANSWER_LENGTH, GREATEST_WORD_BYTE, HEAD_KIND, HEAD_LENGTH, LEAST_WORD_BYTE,
    LIST_ANSWER_LENGTH, LONGEST_SEQUENCE, LONGEST_WORD, MOST_BYTES, MOST_ITEMS, MOST_NAMES,
    MOST_NESTING, MOST_RULES, MOST_TOKENS, MOST_WIDENED, NO_PART, NO_TOKEN, NODE_WIDTH,
    NUMBERS_PER_TOKEN, OLD_HEAD_KIND, OLD_MOST_BYTES, OLD_TOKEN_LENGTH, Offset, RULE_HEAD_LENGTH,
    RULE_KIND, TOKEN_LENGTH, TREE_LENGTH,
};
pub use list::{ListRefusal, Part, Parts, TypeList};
pub use names::{Names, NamesError};
pub use numbered::UnknownNumberError;
pub use overlaps::{Overlap, Overlaps};
pub use profile::{CStandard, CppStandard, FortranStandard, HostLanguage, HostLanguageProfile};
pub use raw::{
    type_name_match, type_name_narrow, type_name_outer, type_name_overlap, type_name_read,
    type_name_read_list, type_name_read_named, type_name_widen,
};
pub use row::{AMPLE_ALLOWANCE, Head, RecordError, Row, StructureCheck, limit_allowance};
pub use rule::{Item, ItemKind, Items, RuleError};
pub use table::{Rules, Table, Winner};
pub use token::{Token, Tokens};
pub use token_kind::TokenKind;
pub use tree::{Node, NodeKind, Nodes, Tree};

/// A buffer long enough for this file.
#[must_use]
pub fn tree_for(file: &[u8]) -> Vec<u32> {
    let records = file.len().saturating_sub(HEAD_LENGTH) / TOKEN_LENGTH;
    vec![0; NUMBERS_PER_TOKEN * records.min(MOST_TOKENS)]
}

/// Reads a row file into the tree buffer.
///
/// If the type name is accepted, the buffer gets its node records and zeros behind them. Refusals 1 to 6 leave it as it
/// was, every other refusal fills it with zeros. It needs [`NUMBERS_PER_TOKEN`] numbers a token and may hold anything before.
///
/// Nothing is allocated and no state is kept. Some rows take exponentially many steps in their length; the allowance of the
/// row's [`Head`] bounds them.
///
/// # Errors
///
/// If the type name is refused. Valid names that are refused, and what to write instead: the repository's
/// `docs/DIFFERENCES.md`.
///
/// # Panics
///
/// Only if the library that is linked is not the proved one: its refusals have other numbers.
pub fn parse_type_name<'a>(file: &'a [u8], buffer: &'a mut [u32]) -> Result<Tree<'a>, Refusal> {
    let mut answer = [0; ANSWER_LENGTH];
    type_name_read(file, buffer, &mut answer);
    let [nodes, steps, _] = Refusal::of_answer(answer)?;
    Ok(Tree::new(file, buffer, nodes, steps))
}

/// Reads a row file of C++ into the tree buffer by the names of its templates: `<` opens a list exactly if the word right before
/// it is one of the names.
///
/// [`parse_type_name`] is not given names and tries every `<` behind a word as a list. So it refuses some valid type names and
/// reads others otherwise than C++ means them. Whoever knows the template names calls this function.
///
#[doc = "```"]
#[doc = include_str!("../examples/named.rs")]
#[doc = "```"]
///
/// A list closes only at its own bracket depth: at a `>`, or together with the list around it at a `>>`. An angle that opens and
/// closes no list is a plain token. Nothing is tried, so that reading takes at most a step a token. The buffer is as
/// after [`parse_type_name`].
///
/// # Errors
///
/// If the type name is refused. [`InvalidNameList`](TypeNameError::InvalidNameList) comes where the row's language is not C++.
/// [`ShiftWithoutList`](TypeNameError::ShiftWithoutList) and [`EmptyOrUnclosedList`](TypeNameError::EmptyOrUnclosedList) are
/// this function's own; they come, too, where a word is named whose `<` is a comparison.
///
/// # Panics
///
/// Only if the library that is linked is not the proved one: its refusals have other numbers.
pub fn parse_named_type_name<'a>(
    file: &'a [u8],
    names: &Names,
    buffer: &'a mut [u32],
) -> Result<Tree<'a>, Refusal> {
    let mut answer = [0; ANSWER_LENGTH];
    type_name_read_named(file, names.as_bytes(), buffer, &mut answer);
    let [nodes, steps, _] = Refusal::of_answer(answer)?;
    Ok(Tree::new(file, buffer, nodes, steps))
}

/// Reads a row file as a comma list of type names into the tree buffer.
///
/// The row is cut into parts at its commas outside brackets and angles, and each part is read as a row of its own, with what
/// the parts before it left of the allowance. If all are accepted, the buffer gets their trees, one behind the other, and
/// zeros behind them. Else it is as after [`parse_type_name`], which says how long it must be, too.
///
/// # Errors
///
/// If the file is refused, or a part: the first such part decides. An empty part is [`Empty`](TypeNameError::Empty), and so
/// is a row without tokens, which is one empty part. [`TopLevelComma`](TypeNameError::TopLevelComma) never comes.
///
/// # Panics
///
/// Only if the library that is linked is not the proved one: its refusals have other numbers, or parts that a row has not.
pub fn parse_type_list<'a>(
    file: &'a [u8],
    buffer: &'a mut [u32],
) -> Result<TypeList<'a>, ListRefusal> {
    let mut answer = [0; LIST_ANSWER_LENGTH];
    type_name_read_list(file, buffer, &mut answer);
    let [number, token, detail, steps, part] = answer;
    match Refusal::of_answer([number, token, detail, steps]) {
        Ok([nodes, steps, _]) => Ok(TypeList::new(file, buffer, [nodes, steps, part])),
        Err(refusal) => Err(ListRefusal::new(refusal, part, file)),
    }
}
