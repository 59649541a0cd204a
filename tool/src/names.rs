//! The names of templates that a type name is read by: `--names` and `--names-file`.

use std::ffi::OsStr;

use type_name::{HostLanguage, HostLanguageProfile, Names, NamesError, TokenKind};

use crate::cli::Wrong;
use crate::lexer;
use crate::options::Options;
use crate::source::{STANDARD_INPUT, Source, read_whole};

const NAMES: &str = "--names";
const FILE: &str = "--names-file";

/// Both options have a value.
pub const VALUED: [&str; 2] = [NAMES, FILE];

/// What a command says of them.
pub const HELP: &str = "\
    --names A,B               in C++: read by the names of the templates, 1 to 512 different ones, each the one word before
                              its <. There a list opens, behind no other word
    --names-file FILE         the same, a name a line, FILE or - for standard input; beside --names, the names of both
";

/// The most bytes of a file of names. 512 of the longest have fewer.
const MOST_FILE: u64 = 1 << 20;

/// A name, and where it was given.
struct Given {
    word: String,
    place: String,
}

impl Given {
    fn wrong(&self, message: &str) -> Wrong {
        Wrong(format!("{}: {message}", self.place))
    }

    /// A word that is none would be one that no `<` ever follows.
    fn check(&self) -> Result<(), Wrong> {
        if self.word.is_empty() {
            return Err(self.wrong("a name is empty"));
        }
        let lexed = lexer::tokens(&self.word, HostLanguageProfile::default());
        let is_name = lexed.is_ok_and(|tokens| {
            let [token] = tokens.as_slice() else {
                return false;
            };
            token.kind == TokenKind::Identifier && token.word == self.word
        });
        match is_name {
            true => Ok(()),
            false => Err(self.wrong(&format!(
                "`{}` is no name; a template's name is the one word before its `<`",
                self.word
            ))),
        }
    }
}

/// The names that are given, if any are.
pub fn given(options: &Options) -> Result<Option<Names>, Wrong> {
    let (list, file) = (options.text(NAMES)?, options.value(FILE));
    let Some(option) = VALUED
        .into_iter()
        .find(|name| options.value(name).is_some())
    else {
        return Ok(None);
    };
    if options.has("--list") {
        return Err(Wrong(format!("--list and {option} exclude each other")));
    }
    let mut names: Vec<Given> = list.into_iter().flat_map(in_list).collect();
    if let Some(path) = file {
        check_standard_input(options, path)?;
        names.extend(in_file(path)?);
    }
    names.iter().try_for_each(Given::check)?;
    let found = Names::new(names.iter().map(|name| &name.word));
    found
        .map(Some)
        .map_err(|error| wrong(error, &names, option))
}

fn in_list(list: &str) -> Vec<Given> {
    let words = list.split(',');
    words
        .map(|word| Given {
            word: word.trim().to_owned(),
            place: NAMES.to_owned(),
        })
        .collect()
}

fn in_file(path: &OsStr) -> Result<Vec<Given>, Wrong> {
    let bytes = read_whole(path, MOST_FILE, "file of names")?;
    let path = path.display();
    let text = String::from_utf8(bytes).map_err(|_| Wrong(format!("{path}: not UTF-8")))?;
    let lines = (1..).zip(text.lines().map(str::trim));
    let names = lines.filter(|(_, line)| !line.is_empty());
    Ok(names
        .map(|(number, line)| Given {
            word: line.to_owned(),
            place: format!("{path}:{number}"),
        })
        .collect())
}

fn check_standard_input(options: &Options, path: &OsStr) -> Result<(), Wrong> {
    let mut others = options
        .words()
        .iter()
        .copied()
        .chain(options.value("--file"));
    if path == STANDARD_INPUT && others.any(|word| word == STANDARD_INPUT) {
        return Err(Wrong(
            "standard input is read once: names or a type name".into(),
        ));
    }
    Ok(())
}

/// What there is no list of, and where it was given.
fn wrong(error: NamesError, names: &[Given], option: &str) -> Wrong {
    match error {
        NamesError::Twice { name, first } => {
            let (name, first) = (&names[name], &names[first]);
            name.wrong(&format!(
                "`{}` is given before, at {}",
                name.word, first.place
            ))
        }
        NamesError::WordByte { name, .. } => {
            names[name].wrong("a name may have ASCII characters alone")
        }
        NamesError::WordLength { name, bytes } => {
            names[name].wrong(&format!("a name has {bytes} bytes, and not 1 to 255"))
        }
        NamesError::Empty | NamesError::TooMany => Wrong(format!("{option}: {error}")),
    }
}

/// A text is in C++ where names are given. Of a row file the reader tells: refusal 8.
pub fn check_language(source: &Source) -> Result<(), Wrong> {
    let profile = source.text.as_ref().map(|text| text.head.profile);
    match profile.map(HostLanguageProfile::language) {
        Some(language) if language != HostLanguage::Cpp => Err(Wrong(format!(
            "names are given for C++ alone, and the TEXT is in {language}"
        ))),
        _ => Ok(()),
    }
}
