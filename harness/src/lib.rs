//! The original reader behind the interface of document 01 (the scope paper;
//! docs/FORMAT.md has what a user needs of it), and a generator of files to
//! compare it with.
//!
//! `oracle::answer` is what document 01's entry has to answer, found by
//! running the original. Everything else serves it: `format` takes files
//! apart, `copies` runs the original, `tree` makes node records of its trees,
//! `listing` prints answers, `generate` makes cases, `worked_rows` holds the
//! rows that document 01 works out, `chosen_rows` such as notice a change of a
//! rule, `replay` writes the list of answers that a
//! program replays, `token_list` is the original for measuring, `rules` and
//! `lists` are models of rule tables and of several types in one row (document
//! 02, C-11 and C-12) on top of `oracle`, `conversions` is one of the
//! conversions between formats (C-14, C-16), `outer` one of the outer template
//! by extents (C-15), `named` one of the reading with named templates (C-17).

pub mod answer;
pub mod chosen_rows;
pub mod conversions;
pub mod copies;
pub mod format;
pub mod generate;
pub mod kind;
pub mod lexed;
pub mod listing;
pub mod lists;
pub mod named;
pub mod names;
pub mod oracle;
pub mod outer;
pub mod profile;
pub mod replay;
pub mod rules;
pub mod token_list;
pub mod tree;
pub mod worked_rows;

mod steps;
mod stub;

// Declares `source`, `version` and `host` from the folder ROUP_SRC names.
include!(concat!(env!("OUT_DIR"), "/original.rs"));
