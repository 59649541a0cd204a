//! `type-name outer`

use std::ffi::OsString;

use type_name::{parse_type_name, tree_for};

use crate::cli::{Answer, Done};
use crate::hints::hint;
use crate::options::{Known, Options};
use crate::{input, json, refused};

const USAGE: &str = "\
type-name outer [OPTION ..] TEXT       how many arguments the outer template of a type name has, or why it is refused
type-name outer [OPTION ..] --file ROW the same of a row file (docs/FORMAT.md)
";

const FORMS: &str = "    --json                    print one line of JSON

The outer template is the word with which the tree begins and the list right behind it: that of `Lane<8, Key>` has 2
arguments. A type name that begins otherwise, as `int`, `::Lane<8>` and `const Lane<8>` do, has no outer template.
Exit status: 0 accepted, with an outer template or without; 1 refused; 2 wrong use or input.
";

const KNOWN: Known = Known {
    flags: &["--no-structure", "--json", "--help"],
    valued: &[&input::VALUED],
};

pub fn command(arguments: &[OsString]) -> Done {
    let options = Options::read(arguments, &KNOWN)?;
    if options.has("--help") {
        return Ok(Answer::Accepted(format!("{USAGE}\n{}{FORMS}", input::HELP)));
    }
    let source = input::source(&options, options.words())?;
    let json = options.has("--json");
    let mut buffer = tree_for(&source.file);
    Ok(match parse_type_name(&source.file, &mut buffer) {
        Ok(tree) if json => Answer::Accepted(json::outer(tree.outer_arguments(), tree.steps())),
        Ok(tree) => Answer::Accepted(in_words(tree.outer_arguments())),
        Err(refusal) => {
            let hint = hint(&source, refusal);
            Answer::Refused(match json {
                true => json::refused(refusal, hint.as_ref()),
                false => refused::sentence(&source, refusal, hint.as_ref()),
            })
        }
    })
}

fn in_words(arguments: Option<usize>) -> String {
    match arguments {
        None => "no outer template\n".to_owned(),
        Some(1) => "1 argument\n".to_owned(),
        Some(arguments) => format!("{arguments} arguments\n"),
    }
}
