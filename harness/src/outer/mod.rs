//! The outer template by extents, as document 02's request C-15 has it: does a
//! tree begin with a word followed by a list, and how many arguments has that?
//! Written from that paragraph alone, with no look at the proved definitions.
//!
//! `model` answers as the proved library's function does, `whole` counts from
//! the full tree, the original's or its node records, `generate` makes rows and
//! numbers that are nearly trees, `worked` holds the examples that were worked
//! out by hand.

pub mod generate;
pub mod model;
pub mod whole;
pub mod worked;
