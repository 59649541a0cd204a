//! `type-name match`

use std::ffi::OsString;

use type_name::{Refusal, TypeNameError, tree_for};

use crate::cli::{Answer, Done, Wrong};
use crate::hints::{hint, matching_rule};
use crate::options::{Known, Options};
use crate::rules::{self, Rules};
use crate::source::{STANDARD_INPUT, Source};
use crate::{input, json, refused};

const USAGE: &str = "\
type-name match [OPTION ..] TABLE TEXT       the rule of a table that wins for a type name, or why none does
type-name match [OPTION ..] TABLE --file ROW the same of a row file (docs/FORMAT.md)
";

const FORMS: &str = "    --json                    print one line of JSON

The first rule that matches all top-level nodes of the tree wins: its place from 0, its line and its items are printed.
Exit status: 0 a rule wins, 1 the type name is refused or no rule matches (refusal 51), 2 wrong use or input.
";

const KNOWN: Known = Known {
    flags: &["--no-structure", "--json", "--help"],
    valued: &[&input::VALUED],
};

pub fn command(arguments: &[OsString]) -> Done {
    let options = Options::read(arguments, &KNOWN)?;
    if options.has("--help") {
        let (table, input) = (rules::HELP, input::HELP);
        return Ok(Answer::Accepted(format!("{USAGE}\n{table}{input}{FORMS}")));
    }
    let (rules, source) = inputs(&options)?;
    let json = options.has("--json");
    let mut buffer = tree_for(&source.file);
    Ok(match rules.table.winner(&source.file, &mut buffer) {
        Ok(won) if json => Answer::Accepted(json::matched(&rules, won.place, won.tree.steps())),
        Ok(won) => Answer::Accepted(rules.rule(won.place)),
        Err(refusal) => Answer::Refused(refused(&source, refusal, json)),
    })
}

/// The table and what is to be read.
fn inputs(options: &Options) -> Result<(Rules, Source), Wrong> {
    let (table, words) = options.words().split_first().ok_or_else(rules::missing)?;
    let mut others = words.iter().copied().chain(options.value("--file"));
    if *table == STANDARD_INPUT && others.any(|word| word == STANDARD_INPUT) {
        return Err(Wrong(
            "standard input is read once: a TABLE or a type name".into(),
        ));
    }
    Ok((Rules::of_file(table)?, input::source(options, words)?))
}

fn refused(source: &Source, refusal: Refusal, json: bool) -> String {
    let hint = match refusal.error {
        TypeNameError::NoRuleMatches => matching_rule(source),
        _ => hint(source, refusal),
    };
    match json {
        true => json::refused(refusal, hint.as_ref()),
        false => refused::sentence(source, refusal, hint.as_ref()),
    }
}
