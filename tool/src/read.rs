//! `type-name read`

use std::ffi::OsString;

use type_name::{
    ListRefusal, Names, Refusal, Tree, TypeList, parse_named_type_name, parse_type_list,
    parse_type_name, tree_for,
};

use crate::cli::{Answer, Done, Wrong};
use crate::hints::{hint, list_hint};
use crate::named_hints::named_hint;
use crate::options::{Known, Options};
use crate::source::Source;
use crate::{draw, input, json, listing, names, refused};

const USAGE: &str = "\
type-name read [OPTION ..] TEXT       the tree of a type name, or why it is refused
type-name read [OPTION ..] --file ROW the same of a row file (docs/FORMAT.md)
type-name read --names A,B ..         the same of a type name of C++ whose templates are A and B and no others
type-name read --list ..              the same of each type name of a comma list
";

const FORMS: &str =
    "    --list                    read a comma list of type names: print each one's tree under its number, or which is refused
    --listing                 print the lines of the program `listing`: nodes and steps, then a line a node
    --json                    print one line of JSON

The tree is drawn unless said otherwise. A text goes through a lexer that is not proved; what reads the tokens is.
Exit status: 0 accepted, 1 refused, 2 wrong use or input.
";

const KNOWN: Known = Known {
    flags: &["--no-structure", "--list", "--listing", "--json", "--help"],
    valued: &[&input::VALUED, &names::VALUED],
};

/// How the answer is shown.
#[derive(Clone, Copy)]
enum Form {
    Words,
    Listing,
    Json,
}

pub fn command(arguments: &[OsString]) -> Done {
    let options = Options::read(arguments, &KNOWN)?;
    if options.has("--help") {
        let (input, names) = (input::HELP, names::HELP);
        return Ok(Answer::Accepted(format!("{USAGE}\n{input}{names}{FORMS}")));
    }
    let form = match (options.has("--listing"), options.has("--json")) {
        (false, false) => Form::Words,
        (true, false) => Form::Listing,
        (false, true) => Form::Json,
        (true, true) => return Err(Wrong("--listing and --json exclude each other".into())),
    };
    let names = names::given(&options)?;
    let source = input::source(&options, options.words())?;
    if names.is_some() {
        names::check_language(&source)?;
    }
    let mut buffer = tree_for(&source.file);
    if options.has("--list") {
        return Ok(match parse_type_list(&source.file, &mut buffer) {
            Ok(list) => Answer::Accepted(form.accepted_list(&source, &list)),
            Err(refused) => Answer::Refused(form.refused_list(&source, &refused)),
        });
    }
    let names = names.as_ref();
    let read = match names {
        Some(names) => parse_named_type_name(&source.file, names, &mut buffer),
        None => parse_type_name(&source.file, &mut buffer),
    };
    Ok(match read {
        Ok(tree) => Answer::Accepted(form.accepted(&source, &tree)),
        Err(refusal) => Answer::Refused(form.refused(&source, refusal, names)),
    })
}

impl Form {
    fn accepted(self, source: &Source, tree: &Tree) -> String {
        match self {
            Self::Words => draw::drawing(source, tree.top_level()),
            Self::Listing => listing::accepted(tree),
            Self::Json => json::accepted(source, tree),
        }
    }

    fn accepted_list(self, source: &Source, list: &TypeList) -> String {
        match self {
            Self::Words => draw::drawings(source, list),
            Self::Listing => listing::accepted_list(list),
            Self::Json => json::accepted_list(source, list),
        }
    }

    fn refused(self, source: &Source, refusal: Refusal, names: Option<&Names>) -> String {
        let hint = || match names {
            Some(names) => named_hint(source, names, refusal),
            None => hint(source, refusal),
        };
        match self {
            Self::Words => refused::sentence(source, refusal, hint().as_ref()),
            Self::Listing => listing::refused(refusal),
            Self::Json => json::refused(refusal, hint().as_ref()),
        }
    }

    fn refused_list(self, source: &Source, refused: &ListRefusal) -> String {
        let hint = || list_hint(source, refused);
        match self {
            Self::Words => refused::list_sentence(source, refused, hint().as_ref()),
            Self::Listing => listing::refused_list(refused),
            Self::Json => json::refused_list(refused, hint().as_ref()),
        }
    }
}
