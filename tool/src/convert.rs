//! `type-name widen` and `type-name narrow`

use std::collections::BTreeSet;
use std::ffi::{OsStr, OsString};
use std::fs;
use std::path::{Path, PathBuf};

use type_name::{Conversion, ConversionRefusal, narrow, widen};

use crate::cli::{Answer, Done, Wrong};
use crate::hints::conversion_hint;
use crate::options::{Known, Options};
use crate::source::{STANDARD_INPUT, row_file};

const WIDEN_USAGE: &str = "\
type-name widen [-o OUTPUT] FILE        brings a row file of the old format over to the one that is read
type-name widen --into FOLDER FILE ..   brings each over, into a file of its name in FOLDER

A head's standard keeps its meaning: 255, which means c18, c++17 or f2018 in the old format, becomes 254, which means these now.
So the converted file gets the answer that FILE got before, and narrow gives FILE back.
";

const NARROW_USAGE: &str = "\
type-name narrow [-o OUTPUT] FILE       brings a row file back to the old format: the inverse of widen
type-name narrow --into FOLDER FILE ..  brings each back, into a file of its name in FOLDER

A head's standard keeps its meaning: 254 becomes 255, which means c18, c++17 or f2018 in the old format, and 255 becomes the
number that c23, c++23 or f2023 has itself. widen gives FILE back, save that such a number stays where 255 was.
";

const FORMS: &str = "
FILE may be - for standard input. The converted file goes to standard output unless -o or --into says where; what was there is
replaced, but never the FILE itself. docs/FORMAT.md describes both formats and what is refused.
A FILE that is refused gives no file. The refusal is printed on standard output, or on standard error where the file would go
to standard output; with --into each refusal behind its FILE's name, and then how many were converted. A FILE that cannot be
read ends the work.
Exit status: 0 converted, 1 refused (with --into: one or more), 2 wrong use or input.
";

const OUTPUT: &str = "-o";
const FOLDER: &str = "--into";

const KNOWN: Known = Known {
    flags: &["--help"],
    valued: &[&[OUTPUT, FOLDER]],
};

pub fn widen_command(arguments: &[OsString]) -> Done {
    command(arguments, Conversion::Widen, WIDEN_USAGE)
}

pub fn narrow_command(arguments: &[OsString]) -> Done {
    command(arguments, Conversion::Narrow, NARROW_USAGE)
}

fn command(arguments: &[OsString], conversion: Conversion, usage: &str) -> Done {
    let options = Options::read(arguments, &KNOWN)?;
    if options.has("--help") {
        return Ok(Answer::Accepted(format!("{usage}{FORMS}")));
    }
    match (
        options.value(OUTPUT),
        options.value(FOLDER),
        options.words(),
    ) {
        (Some(_), Some(_), _) => Err(Wrong(format!("{OUTPUT} and {FOLDER} exclude each other"))),
        (_, _, []) => Err(Wrong("a FILE is missing; --help says more".into())),
        (None, Some(folder), files) => into_folder(conversion, files, Path::new(folder)),
        (None, None, [file]) => Ok(match converted(conversion, file)? {
            Ok(bytes) => Answer::File(bytes),
            Err(said) => Answer::NoFile(said),
        }),
        (Some(output), None, [file]) => {
            Ok(match convert_to(conversion, file, Path::new(output))? {
                Ok(()) => Answer::Accepted(String::new()),
                Err(said) => Answer::Refused(said),
            })
        }
        (_, None, [_, second, ..]) => Err(Wrong(format!(
            "`{}` is one word too many; {FOLDER} takes several",
            second.display()
        ))),
    }
}

/// What a FILE comes to: the converted file, or why there is none, in words.
type Converted<T> = Result<Result<T, String>, Wrong>;

fn converted(conversion: Conversion, path: &OsStr) -> Converted<Vec<u8>> {
    let file = row_file(path)?;
    let done = match conversion {
        Conversion::Widen => widen(&file),
        Conversion::Narrow => narrow(&file),
    };
    Ok(done.map_err(|refused| sentence(&file, refused)))
}

fn sentence(file: &[u8], refused: ConversionRefusal) -> String {
    match conversion_hint(file, refused) {
        Some(hint) => format!("{refused}\n{hint}\n"),
        None => format!("{refused}\n"),
    }
}

/// Writes the converted file; a refused one leaves what is there.
fn convert_to(conversion: Conversion, file: &OsStr, output: &Path) -> Converted<()> {
    if file != STANDARD_INPUT && is_same(Path::new(file), output) {
        return Err(Wrong(format!(
            "{}: a file does not replace the one it is made of",
            output.display()
        )));
    }
    let bytes = match converted(conversion, file)? {
        Ok(bytes) => bytes,
        Err(said) => return Ok(Err(said)),
    };
    let written = fs::write(output, bytes);
    written.map_err(|error| Wrong(format!("{}: {error}", output.display())))?;
    Ok(Ok(()))
}

fn is_same(one: &Path, other: &Path) -> bool {
    match (fs::canonicalize(one), fs::canonicalize(other)) {
        (Ok(one), Ok(other)) => one == other,
        _ => false,
    }
}

/// Converts each file; one that is refused stops none of the others.
fn into_folder(conversion: Conversion, files: &[&OsStr], folder: &Path) -> Done {
    let outputs = outputs(files, folder)?;
    let mut said = String::new();
    let mut refused = 0;
    for (file, output) in files.iter().zip(&outputs) {
        // What was said of the files before is not lost.
        let done = convert_to(conversion, file, output)
            .map_err(|Wrong(message)| Wrong(format!("{message}\n{said}")))?;
        if let Err(sentence) = done {
            said += &format!("{}: {sentence}", file.display());
            refused += 1;
        }
    }
    let done = match conversion {
        Conversion::Widen => "widened",
        Conversion::Narrow => "narrowed",
    };
    said += &format!("{} {done}, {refused} refused\n", files.len() - refused);
    Ok(match refused {
        0 => Answer::Accepted(said),
        _ => Answer::Refused(said),
    })
}

/// Where the converted files go. Two files of one name would replace each other.
fn outputs(files: &[&OsStr], folder: &Path) -> Result<Vec<PathBuf>, Wrong> {
    if !folder.is_dir() {
        return Err(Wrong(format!("no folder `{}`", folder.display())));
    }
    let mut names = BTreeSet::new();
    let output = |file: &&OsStr| {
        let name = Path::new(file).file_name();
        let name = name.filter(|_| *file != STANDARD_INPUT).ok_or_else(|| {
            let file = file.display();
            Wrong(format!("`{file}` has no name for a file in the folder"))
        })?;
        if !names.insert(name.to_owned()) {
            let name = name.display();
            return Err(Wrong(format!("two of the files are named `{name}`")));
        }
        Ok(folder.join(name))
    };
    files.iter().map(output).collect()
}
