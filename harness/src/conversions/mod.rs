//! The conversions between the old format and the current one, as document
//! 02's requests C-14 and C-16 have them. Written from these paragraphs alone,
//! with no look at the proved definitions.
//!
//! `model` answers as the proved library's two entries do, `generate` makes
//! files of either format, `worked` holds the examples that were worked out by
//! hand.

pub mod generate;
pub mod model;
pub mod worked;
