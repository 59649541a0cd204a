//! Feeds the original reader and the proved one the same files and compares the answer's four numbers, the number that is
//! returned and every number of the tree buffer, which is filled with other numbers before.

use std::collections::BTreeMap;
use std::process::ExitCode;

use harness::answer::{Answer, Refusal};
use harness::format::FLAG_AT;
use harness::generate::exhaustive::{self, Alphabet};
use harness::generate::{self, Case, operators};
use harness::oracle;
use harness::profile::LANGUAGES;
use type_name::{ANSWER_LENGTH, type_name_read};

mod conversions;
mod corpus;
mod lists;
mod named;
mod notes;
mod outer;
mod rules;

const HELP: &str = "\
side_by_side [--seed S] [--count N] [--style NAME]
    N generated files (default 100000, seed 1), those of the harness's styles in turn.
side_by_side --exhaustive ALPHABET --longest N [--shortest N]
    All rows of so many tokens (from 0 unless said) over an alphabet, each under standard 255 of every language (C23, C++23,
    Fortran 2023) with flag 0 and 1. Alphabets: mixed (13 tokens), brackets (9), angles (7), kinds (58).
side_by_side --operators --longest N
    All rows of up to so many tokens, of every kind, between two operands: int[a .. a] in C and C++, real((a .. a)) in
    Fortran, under standard 255 with flag 1.
side_by_side --corpus FILE [--verdicts FILE]
    The type names of a file (language, source and text, parted by tabs), lexed by the original's lexer: standards 255 and
    254 (C18, C++17, Fortran 2018) with flag 1 and 0, the earliest with flag 1. Verdicts: what each name gets with standard
    255 and flag 1.
side_by_side --rules [--seed S] [--count N]
    N calls or some more (default 100000, seed 1) for the rule that wins and for the pairs of rules that overlap, on tables
    that are chosen, generated and damaged: the harness's model of rule tables and the proved library. Prints how often
    each outcome was seen.
side_by_side --lists [--seed S] [--count N]
    N calls or some more (default 100000, seed 1) for several types in one row: all short rows over an alphabet, then
    generated and damaged ones with allowances about the steps by each part's end: the harness's model of such rows and the
    proved library, which is held to its own reading of each part alone, too. Prints how often each outcome was seen.
side_by_side --conversions [--seed S] [--count N]
    N calls or some more (default 100000, seed 1) for the conversions between the old format and the current one: files that
    are chosen, generated, damaged and at the limits, the harness's model and the proved library; what is converted is
    converted back, and some of what comes out is read. Rows are read as old files under 255 had them, under 254 and under
    255: what was accepted is accepted with the same tree. Prints how often each outcome was seen.
side_by_side --outer [--seed S] [--count N]
    Calls for the outer template by extents: all sequences of up to 5 nodes over few kinds and extents, then N calls or some
    more (default 100000, seed 1) on trees of accepted rows, on such with other numbers where these do not count, on
    damaged ones and on small numbers: the harness's model, the original's full tree and the proved library. Prints how
    often each outcome was seen, and where there was no list, which test was the first that failed.
side_by_side --named [--seed S] [--count N]
    N calls or some more (default 100000, seed 1) for the reading with named templates: rows with lists, brackets and angles
    in each other and name lists for them, both damaged at times, with allowances about the steps: the harness's model and
    the proved library, which is held to the original without lists where no list is opened and to its own old entry where
    that has the same lists. Prints how often each outcome was seen.
side_by_side --named --exhaustive N
    The same on all rows of up to N tokens over two words, of which one is named, angles, brackets and commas.
";

/// What the buffer holds before a call.
const DIRT: u32 = 0xdead_beef;

/// Compares the library with a model of the harness, from a seed on, in so many calls.
type Compare = fn(seed: u64, count: u64) -> ExitCode;

const MODELS: [(&str, Compare); 5] = [
    ("--rules", rules::compare),
    ("--lists", lists::compare),
    ("--conversions", conversions::compare),
    ("--outer", outer::compare),
    ("--named", named::compare),
];

fn main() -> ExitCode {
    let options = Options(std::env::args().skip(1).collect());
    if options.has("--named") && options.has("--exhaustive") {
        let longest = options.number("--exhaustive", None);
        return longest.map_or_else(|message| wrong_use(&message), named::exhaustive);
    }
    for (name, compare) in MODELS {
        if options.has(name) {
            return modelled(&options, compare).unwrap_or_else(|message| wrong_use(&message));
        }
    }
    let mut tally = Tally::default();
    let done = if let Some(file) = options.value("--corpus") {
        corpus::compare(file, options.value("--verdicts"), &mut tally)
    } else if let Some(alphabet) = options.value("--exhaustive") {
        exhaustive(alphabet, &options, &mut tally)
    } else if options.has("--operators") {
        between_operands(&options, &mut tally)
    } else {
        generated(&options, &mut tally)
    };
    match done {
        Ok(()) => tally.report(),
        Err(message) => wrong_use(&message),
    }
}

fn wrong_use(message: &str) -> ExitCode {
    eprint!("side_by_side: {message}\n\n{HELP}");
    ExitCode::FAILURE
}

/// The words behind the program's name.
struct Options(Vec<String>);

impl Options {
    fn has(&self, name: &str) -> bool {
        self.0.iter().any(|word| word == name)
    }

    fn value(&self, name: &str) -> Option<&str> {
        let at = self.0.iter().position(|word| word == name)?;
        self.0.get(at + 1).map(String::as_str)
    }

    fn number(&self, name: &str, or: Option<usize>) -> Result<usize, String> {
        match self.value(name) {
            Some(text) => text.parse().map_err(|_| format!("{name} needs a number")),
            None => or.ok_or(format!("{name} is missing")),
        }
    }
}

/// The seed and how many are asked for.
fn seed_and_count(options: &Options) -> Result<(u64, usize), String> {
    let seed = options.number("--seed", Some(1))? as u64;
    Ok((seed, options.number("--count", Some(100_000))?))
}

fn modelled(options: &Options, compare: Compare) -> Result<ExitCode, String> {
    let (seed, count) = seed_and_count(options)?;
    Ok(compare(seed, count as u64))
}

fn generated(options: &Options, tally: &mut Tally) -> Result<(), String> {
    let (seed, count) = seed_and_count(options)?;
    let cases = generate::cases(seed, options.value("--style")).ok_or("no such style")?;
    for case in cases.take(count) {
        tally.add(&case);
    }
    Ok(())
}

fn exhaustive(alphabet: &str, options: &Options, tally: &mut Tally) -> Result<(), String> {
    let alphabet = Alphabet::named(alphabet).ok_or("no such alphabet")?;
    let shortest = options.number("--shortest", Some(0))?;
    let longest = options.number("--longest", None)?;
    let mut rows = 0_u64;
    for tokens in exhaustive::rows(alphabet.tokens(), shortest..=longest) {
        rows += 1;
        for case in exhaustive::each_way(tokens) {
            tally.add(&case);
        }
    }
    println!("{rows} rows");
    Ok(())
}

fn between_operands(options: &Options, tally: &mut Tally) -> Result<(), String> {
    let longest = options.number("--longest", None)?;
    for tokens in exhaustive::rows(exhaustive::KINDS.tokens(), 0..=longest) {
        for language in LANGUAGES {
            tally.add(&operators::case(language, &tokens));
        }
    }
    Ok(())
}

#[derive(Default)]
struct Tally {
    files: u64,
    differ: u64,
    checked: u64,
    /// By the refusal's number.
    answers: BTreeMap<Option<u32>, u64>,
}

impl Tally {
    /// Runs both readers and gives the original's answer.
    fn add(&mut self, case: &Case) -> Answer {
        self.files += 1;
        let mut expected = vec![DIRT; case.tree_len];
        let answer = oracle::answer(&case.file, &mut expected);
        *self.answers.entry(answer.refusal()).or_default() += 1;
        let read_whole = matches!(
            answer.refusal(),
            None | Some(Refusal::NO_TYPE_NAME | Refusal::NOT_AVAILABLE_IN_PROFILE)
        );
        self.checked += u64::from(read_whole && case.file.get(FLAG_AT) == Some(&1));
        let mut tree = vec![DIRT; case.tree_len];
        let mut numbers = [DIRT; ANSWER_LENGTH];
        let returned = type_name_read(&case.file, &mut tree, &mut numbers);
        if numbers != answer.numbers() || returned != numbers[0] || tree != expected {
            self.differ += 1;
            if self.differ <= 10 {
                let file = hex(&case.file);
                let room = case.tree_len;
                println!("differs: {file} room {room} original {answer} new {numbers:?}");
            }
        }
        answer
    }

    fn report(&self) -> ExitCode {
        let answers: Vec<String> = self
            .answers
            .iter()
            .map(|(refusal, n)| match refusal {
                None => format!("ok: {n}"),
                Some(number) => format!("no {number}: {n}"),
            })
            .collect();
        println!("{}", answers.join(", "));
        println!("{} trees checked for structure", self.checked);
        println!("{} files, {} differ", self.files, self.differ);
        verdict(self.differ)
    }
}

fn verdict(differ: u64) -> ExitCode {
    match differ {
        0 => ExitCode::SUCCESS,
        _ => ExitCode::FAILURE,
    }
}

fn hex(bytes: &[u8]) -> String {
    bytes.iter().map(|byte| format!("{byte:02x}")).collect()
}
