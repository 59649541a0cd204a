//! The command line: see `HELP`.

use std::io::{self, Read, Write};
use std::process::ExitCode;

use harness::format::{Head, NODE_WIDTH, Row};
use harness::generate::{self, Case};
use harness::listing::listing_of;
use harness::oracle;
use harness::profile::{self, HostLanguage, NEWER_STANDARD};
use harness::{answer::Answer, lexed, replay, worked_rows};

const HELP: &str = "\
harness COMMAND: the original type-name reader, run on rows

listing
    Reads a row file from standard input and prints its listing.
row --language c|cpp|fortran [--standard N] [--flag N] [--allowance N] TEXT
    Writes the row file of a type name's text to standard output.
    Standard 255 (C23, C++23, Fortran 2023), flag 1 and allowance 1000000 unless
    given; 254 is C18, C++17 or Fortran 2018.
answers --seed S --count N [--style NAME]
    Prints generated cases, one a line: the file in hexadecimal (`-` if it is
    empty), the length of the tree buffer, the answer as a listing's first
    line has it and, if accepted, `:` and the numbers of the tree.
    Styles: c, cpp, fortran, angles, words, mutated, deep, malformed,
    exhaustive; without one the first eight take turns.
rows
    Checks the rows that document 01 works out.
replay
    Writes the replay list to standard output.
help
    Prints this.
";

fn main() -> ExitCode {
    let arguments: Vec<String> = std::env::args().skip(1).collect();
    let Some((command, rest)) = arguments.split_first() else {
        eprint!("{HELP}");
        return ExitCode::FAILURE;
    };
    let done = match command.as_str() {
        "listing" => print_listing(rest),
        "row" => write_row(rest),
        "answers" => print_answers(rest),
        "rows" => check_rows(rest),
        "replay" => write_replay(rest),
        "help" | "--help" => write(HELP.as_bytes()),
        _ => Err(format!("no command `{command}`; try `harness help`")),
    };
    match done {
        Ok(()) => ExitCode::SUCCESS,
        Err(message) => {
            eprintln!("harness: {message}");
            ExitCode::FAILURE
        }
    }
}

type Done = Result<(), String>;

fn print_listing(arguments: &[String]) -> Done {
    Options::read(arguments, &[])?.no_text()?;
    let mut file = Vec::new();
    let read = io::stdin().read_to_end(&mut file);
    read.map_err(|error| format!("standard input: {error}"))?;
    write(listing_of(&file).as_bytes())
}

fn write_row(arguments: &[String]) -> Done {
    let names = ["--language", "--standard", "--flag", "--allowance"];
    let options = Options::read(arguments, &names)?;
    let language = match options.value("--language") {
        Some("c") => HostLanguage::C,
        Some("cpp") => HostLanguage::Cpp,
        Some("fortran") => HostLanguage::Fortran,
        _ => return Err("row needs --language c, cpp or fortran".to_owned()),
    };
    let standard = options.number("--standard", Some(NEWER_STANDARD))?;
    let profile = profile::profile(language, standard).ok_or("no such standard")?;
    let head = Head {
        language: profile::language_number(language),
        standard,
        flag: options.number("--flag", Some(1))?,
        allowance: options.number("--allowance", Some(1_000_000))?,
    };
    let text = options.text.ok_or("row needs the text of a type name")?;
    let tokens = lexed::tokens(text, profile)?;
    write(&Row { head, tokens }.write())
}

fn print_answers(arguments: &[String]) -> Done {
    let options = Options::read(arguments, &["--seed", "--count", "--style"])?;
    options.no_text()?;
    let seed = options.number("--seed", None)?;
    let count = options.number("--count", None)?;
    let cases = generate::cases(seed, options.value("--style")).ok_or("no such style")?;
    let mut output = io::BufWriter::new(io::stdout().lock());
    for case in cases.take(count) {
        let written = output.write_all(answer_line(&case).as_bytes());
        written.map_err(output_failed)?;
    }
    output.flush().map_err(output_failed)
}

fn answer_line(case: &Case) -> String {
    let mut tree = vec![0; case.tree_len];
    let answer = oracle::answer(&case.file, &mut tree);
    let mut file: String = case.file.iter().map(|byte| format!("{byte:02x}")).collect();
    if file.is_empty() {
        file.push('-');
    }
    let mut line = format!("{file} {} {answer}", case.tree_len);
    if let Answer::Accepted { nodes, .. } = answer {
        line.push_str(" :");
        for number in &tree[..NODE_WIDTH * nodes as usize] {
            line.push_str(&format!(" {number}"));
        }
    }
    line.push('\n');
    line
}

fn check_rows(arguments: &[String]) -> Done {
    Options::read(arguments, &[])?.no_text()?;
    let (lines, all) = worked_rows::check();
    write((lines.join("\n") + "\n").as_bytes())?;
    all.then_some(()).ok_or("not all rows agree".to_owned())
}

fn write_replay(arguments: &[String]) -> Done {
    Options::read(arguments, &[])?.no_text()?;
    write(&replay::list())
}

fn write(bytes: &[u8]) -> Done {
    io::stdout().write_all(bytes).map_err(output_failed)
}

fn output_failed(error: io::Error) -> String {
    format!("standard output: {error}")
}

/// A command's `--name value` pairs, and its text if it has one.
struct Options<'a> {
    pairs: Vec<(&'a str, &'a str)>,
    text: Option<&'a str>,
}

impl<'a> Options<'a> {
    fn read(arguments: &'a [String], names: &[&str]) -> Result<Self, String> {
        let mut options = Self {
            pairs: Vec::new(),
            text: None,
        };
        let mut rest = arguments.iter();
        while let Some(argument) = rest.next() {
            if names.contains(&argument.as_str()) {
                let value = rest.next().ok_or(format!("{argument} needs a value"))?;
                options.pairs.push((argument, value));
            } else if argument.starts_with("--") || options.text.is_some() {
                return Err(format!("unexpected `{argument}`; try `harness help`"));
            } else {
                options.text = Some(argument);
            }
        }
        Ok(options)
    }

    fn no_text(&self) -> Done {
        match self.text {
            None => Ok(()),
            Some(text) => Err(format!("unexpected `{text}`; try `harness help`")),
        }
    }

    fn value(&self, name: &str) -> Option<&'a str> {
        let found = self.pairs.iter().find(|(given, _)| *given == name);
        found.map(|&(_, value)| value)
    }

    fn number<N: std::str::FromStr>(&self, name: &str, or: Option<N>) -> Result<N, String> {
        match self.value(name) {
            Some(value) => value
                .parse()
                .map_err(|_| format!("{name} cannot be `{value}`")),
            None => or.ok_or(format!("{name} is missing")),
        }
    }
}
