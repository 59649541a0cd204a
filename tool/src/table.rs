//! `type-name table`

use std::ffi::OsString;

use crate::cli::{Answer, Done};
use crate::options::{Known, Options};
use crate::rules::{self, Rules};

const USAGE: &str = "\
type-name table TABLE   writes a table's file to standard output, as the functions of the library take it
";

const STATUS: &str = "\
docs/FORMAT.md, \"The rule table\", describes that file byte by byte.
Exit status: 0, or 2 for wrong use or input.
";

const KNOWN: Known = Known {
    flags: &["--help"],
    valued: &[],
};

pub fn command(arguments: &[OsString]) -> Done {
    let options = Options::read(arguments, &KNOWN)?;
    if options.has("--help") {
        return Ok(Answer::Accepted(format!(
            "{USAGE}\n{}{STATUS}",
            rules::HELP
        )));
    }
    let rules = Rules::of_words(options.words())?;
    Ok(Answer::File(rules.table.as_bytes().to_vec()))
}
