//! What commands take a type name from: a text with its options, or a row file.

use std::ffi::OsStr;

use type_name::{Head, StructureCheck};

use crate::cli::Wrong;
use crate::options::{Options, as_text};
use crate::profiles::profile;
use crate::source::{self, Source};

/// The options, for the help of each such command.
pub const HELP: &str = "\
TEXT, or ROW, may be - for standard input. A TEXT that names a file or looks like a path (it ends in .row, or has a /
and none of < > ( ) [ ] * & , : and blanks) is an error, so that no file's name is read as a type name by mistake.

Of a TEXT:
    --language c|c++|fortran  its language, c++ unless said
    --standard NAME           its standard: c89, c99, c11, c18, c23; c++98, c++11, c++14, c++17, c++20, c++23;
                              f77, f90, f95, f2003, f2008, f2018, f2023. Unless said: c23, c++23 or f2023, which 255 means
                              in a ROW. archive: c18, c++17 or f2018, which 254 means, and on which release archives rely
    --no-structure            do not check that the tree names a type
    --text TEXT               the TEXT, even if it looks like a path
Of both:
    --allowance N             the most steps; 100000 unless said. Of a ROW, its head's allowance unless that is greater
";

/// Those of the options that have a value.
pub const VALUED: [&str; 5] = [
    "--language",
    "--standard",
    "--allowance",
    "--file",
    "--text",
];

/// What is to be read; `words` are those of the command line that may give the TEXT.
pub fn source(options: &Options, words: &[&OsStr]) -> Result<Source, Wrong> {
    match (options.value("--file"), options.text("--text")?, words) {
        (Some(path), None, []) => {
            for option in ["--language", "--standard"] {
                if options.value(option).is_some() {
                    return Err(Wrong(format!("the row file says what {option} would")));
                }
            }
            if options.has("--no-structure") {
                return Err(Wrong("the row file says what --no-structure would".into()));
            }
            Source::of_file(path, options.number("--allowance")?)
        }
        (None, Some(text), []) => Source::of_text(text, head(options)?),
        (None, None, [word]) => {
            let text = source::text(as_text("TEXT", word)?)?;
            Source::of_text(&text, head(options)?)
        }
        (None, None, []) => Err(Wrong(
            "a TEXT or --file ROW is missing; --help says more".into(),
        )),
        (None, None, [_, second, ..]) => Err(Wrong(format!(
            "`{}` is one word too many; put the type name in quotes",
            second.display()
        ))),
        _ => Err(Wrong(
            "one of TEXT, --text TEXT and --file ROW is wanted".into(),
        )),
    }
}

fn head(options: &Options) -> Result<Head, Wrong> {
    let default = Head::default();
    Ok(Head {
        profile: profile(options.text("--language")?, options.text("--standard")?)?,
        structure: match options.has("--no-structure") {
            true => StructureCheck::Off,
            false => default.structure,
        },
        allowance: options.number("--allowance")?.unwrap_or(default.allowance),
    })
}
