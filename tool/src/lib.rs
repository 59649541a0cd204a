//! The command line tool `type-name`, as a library: `cli` is the tool, `lexer` its way from text to tokens.
//!
//! What reads a row is the proved reader, through the crate `type_name`. Nothing here is proved.

pub mod cli;
pub mod lexer;

mod convert;
mod draw;
mod excerpt;
mod hints;
mod input;
mod item_text;
mod json;
mod listing;
mod matching;
mod named_hints;
mod names;
mod options;
mod outer;
mod overlaps;
mod profiles;
mod read;
mod refused;
mod rewrites;
mod rules;
mod source;
mod table;
