//! `type-name overlaps`

use std::ffi::OsString;

use type_name::Overlap;

use crate::cli::{Answer, Done};
use crate::item_text::items_text;
use crate::json;
use crate::options::{Known, Options};
use crate::rules::{self, Rules};

const USAGE: &str = "\
type-name overlaps [--json] TABLE   the pairs of rules of a table that some sequence of nodes matches together
";

const FORMS: &str = "    --json                    print one line of JSON

Of each pair both rules are printed, by place from 0, with line and items, and a sequence of top-level nodes that both
match, as items (`any` there is any node), be it one of a type name or not. Of two rules that match the earlier wins, and the
later takes what the earlier leaves.
Exit status: 0 no rules overlap, 1 some do, 2 wrong use or input.
";

const KNOWN: Known = Known {
    flags: &["--json", "--help"],
    valued: &[],
};

pub fn command(arguments: &[OsString]) -> Done {
    let options = Options::read(arguments, &KNOWN)?;
    if options.has("--help") {
        return Ok(Answer::Accepted(format!("{USAGE}\n{}{FORMS}", rules::HELP)));
    }
    let rules = Rules::of_words(options.words())?;
    let overlaps: Vec<Overlap> = rules.table.overlaps().collect();
    let said = match options.has("--json") {
        true => json::overlaps(&rules, &overlaps),
        false => in_words(&rules, &overlaps),
    };
    Ok(match overlaps.is_empty() {
        true => Answer::Accepted(said),
        false => Answer::Refused(said),
    })
}

fn in_words(rules: &Rules, overlaps: &[Overlap]) -> String {
    let mut said = String::new();
    for pair in overlaps {
        let items = items_text(pair.sequence());
        let shown = if items.is_empty() {
            "(no node)"
        } else {
            &items
        };
        let [earlier, later] = [pair.earlier, pair.later].map(|place| rules.rule(place));
        said += &format!("{earlier}{later}    both match: {shown}\n");
    }
    said + &match overlaps.len() {
        0 => "no rules overlap\n".to_owned(),
        1 => "1 pair of rules overlaps\n".to_owned(),
        pairs => format!("{pairs} pairs of rules overlap\n"),
    }
}
