//! The tool's commands, what it prints and its exit status.

use std::ffi::OsString;
use std::io::{self, Write};
use std::process::ExitCode;

use crate::excerpt::visible;
use crate::{convert, matching, outer, overlaps, read, table};

const HELP: &str = "\
type-name COMMAND ..: reads names of C, C++ and Fortran types with the proved reader

Commands:
    read       the tree of a type name, or of each in a comma list; or why it is refused
    outer      how many arguments the outer template of a type name has
    match      the rule of a table that wins for a type name
    overlaps   the pairs of rules of a table that some sequence of nodes matches together
    table      the file of a table, for the functions of the library
    widen      brings row files of the old format over to the one that is read
    narrow     brings them back
    help       prints this
`type-name COMMAND --help` says more. `type-name --version` prints the version.

Exit status: 0 accepted or converted, or no rules overlap; 1 refused, or some do; 2 wrong use or input.
";

/// What a command comes to.
pub enum Answer {
    /// What to print; exit status 0.
    Accepted(String),
    /// What to print where a type name is refused or rules overlap; exit status 1.
    Refused(String),
    /// A file to write to standard output; exit status 0.
    File(Vec<u8>),
    /// What to print on standard error, as the file is refused that was to be written to standard output; exit status 1.
    NoFile(String),
}

/// Wrong use or input: what to print on standard error; exit status 2.
pub struct Wrong(pub String);

impl<E: std::error::Error> From<E> for Wrong {
    fn from(error: E) -> Self {
        Self(error.to_string())
    }
}

pub type Done = Result<Answer, Wrong>;

type Command = fn(&[OsString]) -> Done;

/// Each command by its name. Later ones are added here.
const COMMANDS: [(&str, Command); 7] = [
    ("read", read::command),
    ("outer", outer::command),
    ("match", matching::command),
    ("overlaps", overlaps::command),
    ("table", table::command),
    ("widen", convert::widen_command),
    ("narrow", convert::narrow_command),
];

/// Runs the tool with the words behind its name.
pub fn run(arguments: Vec<OsString>) -> ExitCode {
    let (bytes, status) = match done(&arguments) {
        Ok(Answer::Accepted(text)) => (text.into_bytes(), 0),
        Ok(Answer::Refused(text)) => (text.into_bytes(), 1),
        Ok(Answer::File(bytes)) => (bytes, 0),
        Ok(Answer::NoFile(text)) => return on_standard_error(&text, 1),
        Err(Wrong(message)) => return wrong(&message),
    };
    match io::stdout().write_all(&bytes) {
        // Whoever reads has seen enough.
        Err(error) if error.kind() == io::ErrorKind::BrokenPipe => ExitCode::from(status),
        Err(error) => wrong(&format!("standard output: {error}")),
        Ok(()) => ExitCode::from(status),
    }
}

fn wrong(message: &str) -> ExitCode {
    on_standard_error(&format!("type-name: {message}"), 2)
}

fn on_standard_error(text: &str, status: u8) -> ExitCode {
    let lines: Vec<String> = text.trim_end().lines().map(visible).collect();
    // There is nowhere to say that this cannot be said.
    let _ = writeln!(io::stderr(), "{}", lines.join("\n"));
    ExitCode::from(status)
}

fn done(arguments: &[OsString]) -> Done {
    let Some((first, rest)) = arguments.split_first() else {
        return Err(Wrong(format!("a command is missing\n\n{HELP}")));
    };
    let name = first.to_str().unwrap_or_default();
    match name {
        "help" | "--help" | "-h" => return Ok(Answer::Accepted(HELP.to_owned())),
        "--version" => return Ok(Answer::Accepted(version())),
        _ => {}
    }
    match COMMANDS.iter().find(|(command, _)| *command == name) {
        Some((_, command)) => command(rest),
        None => Err(Wrong(format!(
            "no command `{}`; `type-name help` lists them",
            first.display()
        ))),
    }
}

fn version() -> String {
    format!("type-name {}\n", env!("CARGO_PKG_VERSION"))
}
