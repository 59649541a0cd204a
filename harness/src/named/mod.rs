//! The reading with named templates, as document 02's request C-17 has it: a
//! `<` opens a list exactly if it stands behind one of the names, and nothing is
//! tried. Written from that paragraph alone, with no look at the proved
//! definitions.
//!
//! `names` takes a name list apart, `reading` reads a row's tree, `model` answers
//! as the proved library's entry does, `plain` is the original on rows in which
//! no list is opened, `agreement` says where the old entry must answer alike,
//! `generate` makes rows, `name_lists` makes name lists and damages them, `worked`
//! holds the examples that were worked out by hand.

pub mod agreement;
pub mod generate;
pub mod model;
pub mod name_lists;
pub mod names;
pub mod plain;
pub mod reading;
pub mod worked;
