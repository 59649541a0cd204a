//! Several types in one row, as document 02's request C-12 has them: parts cut
//! at commas, each read as its own row. Written from that paragraph alone,
//! with no look at the proved definitions.
//!
//! `cut` finds the parts, `model` answers as the proved library's entry does,
//! `text` makes rows of texts, `generate` makes rows of several parts, `worked`
//! holds the examples that were worked out by hand.

pub mod cut;
pub mod generate;
pub mod model;
pub mod text;
pub mod worked;
