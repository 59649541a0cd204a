//! Rule tables, as document 02's request C-11 has them: which rule wins for a
//! row, and which pairs of rules overlap. Written from that paragraph alone,
//! with no look at the proved definitions.
//!
//! `format` takes tables apart, `automaton` says what a rule matches and
//! searches for what two rules match together, `model` answers as the proved
//! library's entries do, `generate` makes tables, `worked` holds the examples
//! that were worked out by hand.

pub mod automaton;
pub mod format;
pub mod generate;
pub mod model;
pub mod worked;
