//! Measures the original reader, from its token list to its tree, and the proved one, from the file's bytes to its tree, on the
//! same rows: see `HELP`.

use std::convert::identity;
use std::env;
use std::hint::black_box;
use std::process::{Command, ExitCode};
use std::time::{Duration, Instant};

use harness::conversions::model::Conversion;
use harness::format::{NUMBERS_PER_TOKEN, Row};
use harness::token_list::{TokenList, TypeName, TypeNameError};
use type_name::{ANSWER_LENGTH, type_name_read, type_name_read_list};

mod classes;
mod conversions;
mod lists;
mod named;
mod outer;
mod rules;
mod stack;

const HELP: &str = "\
bench CORPUS [--class TEXT]
    For each class of rows (whose name contains TEXT): rows, tokens; nanoseconds a token and instructions a token, as
    callgrind counts them (needs valgrind), of the original, of the original with the freeing of its tree, and of the proved
    reader; how many times as much the first two take as the third.
    CORPUS is a list of real type names, as harness/corpus/names.tsv.
    Original: its token list is made before and handed over; allocating and making the tree are counted.
    Proved reader: the file is made before; decoding, checking and clearing are counted. It allocates nothing: the tree
    buffer is lent, of just the size that the row needs, with what the row before left in it.
bench CORPUS --stack
    For each class the most bytes of stack that the proved reader takes for a row of it, type_name_read_list for the row
    twice, as a list, and type_name_read_named for the row with the names of its own templates; then those of both conversions
    for an accepted row of the corpus.
bench CORPUS --rules
    Time and instructions a row of type_name_match, beside type_name_read, on the accepted rows of the corpus with tables
    of 32 rules; the time of all calls of type_name_overlap over the greatest tables; the most bytes of stack of both.
bench CORPUS --lists
    Time and instructions of type_name_read_list on rows of 1 to 8 accepted types of the corpus and on rows of one type over
    and over, a row and a part, beside those of type_name_read on the parts alone.
bench CORPUS --conversions [--class TEXT]
    Time and instructions a token of type_name_widen and type_name_narrow on each class of rows (whose name contains TEXT),
    beside those of type_name_read; spans are as a lexer gives them.
bench CORPUS --outer
    How many accepted names of the corpus have an outer template, by language; time and instructions a call of
    type_name_outer beside the same count by a visit of every node of the tree, for the corpus, for one list of 1 to 256
    arguments and for one argument of 1 to 256 nodes. Instructions are those within the function that counts.
bench CORPUS --named
    Time and instructions a token of type_name_read_named beside type_name_read: on the C++ names of the corpus, each with the
    names of its own templates and all with 1, 16 and 512 names; on those without a list; on one token, where little else is
    done than reading the names; on lists of up to 1,024 tokens and 64 deep; on lists that fail; and with 512 names that share
    a bucket of the table that the library makes of them. How many rows each accepts; the most bytes of stack of both.
";

/// A round goes over a class as often as the original gets through it in this time, and once more.
const ROUND: Duration = Duration::from_millis(20);

/// The fastest of so many rounds is taken.
const ROUNDS: usize = 9;

/// What a lent buffer holds.
const DIRT: u32 = 0xdead_beef;

fn main() -> ExitCode {
    let arguments: Vec<String> = env::args().skip(1).collect();
    let words: Vec<&str> = arguments.iter().map(String::as_str).collect();
    let done = match words[..] {
        [corpus] => table(corpus, ""),
        [corpus, "--class", text] => table(corpus, text),
        [corpus, "--stack"] => stacks(corpus),
        [corpus, "--rules"] => rules::table(corpus),
        [corpus, "--rules-once", name] => rules::once(corpus, name),
        [corpus, "--lists"] => lists::table(corpus),
        [corpus, "--lists-once", read, name] => lists::once(corpus, read, name),
        [corpus, "--conversions"] => conversions::table(corpus, ""),
        [corpus, "--conversions", "--class", text] => conversions::table(corpus, text),
        [corpus, "--outer"] => outer::table(corpus),
        [corpus, "--outer-once", count, name] => outer::once(corpus, count, name),
        [corpus, "--named"] => named::table(corpus),
        [corpus, "--named-once", entry, place] => named::once(corpus, entry, place),
        [corpus, "--once", reader, name] => once(corpus, reader, name),
        _ => Err(HELP.to_owned()),
    };
    match done {
        Ok(()) => ExitCode::SUCCESS,
        Err(message) => {
            eprintln!("{message}");
            ExitCode::FAILURE
        }
    }
}

/// What is measured: the original, the original with the freeing of its tree, the proved reader.
const READERS: [&str; 3] = ["original", "original-freed", "proved"];

fn table(corpus: &str, text: &str) -> Result<(), String> {
    println!(
        "| Rows | Number | Tokens | ns: original | freed | here | Times | Instructions: original | freed | here | Times |"
    );
    println!("|---|---|---|---|---|---|---|---|---|---|---|");
    for class in classes::classes(corpus) {
        if !class.name.contains(text) {
            continue;
        }
        let rows = class.rows();
        let tokens: usize = rows.iter().map(|row| row.tokens.len()).sum();
        let times = columns(times(&rows, tokens));
        let mut counts = [0.0; 3];
        for (count, reader) in counts.iter_mut().zip(READERS) {
            let once = [corpus, "--once", reader, &class.name];
            *count = counted(&once)? as f64 / tokens as f64;
        }
        let counts = columns(counts);
        let number = rows.len();
        println!(
            "| {} | {number} | {tokens} | {times} | {counts} |",
            class.name
        );
    }
    Ok(())
}

/// The three measures, and how many times the third goes into the first two.
fn columns([original, freed, proved]: [f64; 3]) -> String {
    let (times, times_freed) = (original / proved, freed / proved);
    format!("{original:.0} | {freed:.0} | {proved:.0} | {times:.1} to {times_freed:.1}")
}

fn stacks(corpus: &str) -> Result<(), String> {
    for class in classes::classes(corpus) {
        let rows = class.rows();
        let one = stack::most(&rows, type_name_read);
        let list = stack::most(&lists::doubled(&rows), type_name_read_list);
        let named = named::stack(&rows);
        println!("{}: {one}", class.name);
        println!("{}, twice in a list: {list}", class.name);
        println!("{}, by its names: {named}", class.name);
    }
    let rows = classes::accepted(corpus);
    for conversion in Conversion::BOTH {
        let converted = conversions::stack(&rows, conversion);
        println!("corpus, {conversion:?}: {converted}");
    }
    Ok(())
}

/// What both readers get, made before anything is measured.
struct Inputs {
    lists: Vec<TokenList>,
    files: Vec<Vec<u8>>,
    rooms: Vec<usize>,
}

impl Inputs {
    fn of(rows: &[Row]) -> Self {
        Self {
            lists: rows.iter().map(TokenList::of).collect(),
            files: rows.iter().map(Row::write).collect(),
            rooms: rows
                .iter()
                .map(|row| NUMBERS_PER_TOKEN * row.tokens.len())
                .collect(),
        }
    }

    fn longest(&self) -> usize {
        self.rooms.iter().copied().max().unwrap_or(0)
    }
}

type Read = Result<TypeName, TypeNameError>;

/// What is to be freed outside goes to `kept`.
#[inline(never)]
fn original_reads<T>(lists: Vec<TokenList>, keep: impl Fn(Read) -> T, kept: &mut Vec<T>) {
    for list in lists {
        kept.push(keep(list.read()));
    }
}

/// Runs the original on all lists and gives the time.
fn original<T>(lists: Vec<TokenList>, keep: impl Fn(Read) -> T) -> Duration {
    let mut kept = Vec::with_capacity(lists.len());
    let begin = Instant::now();
    original_reads(lists, keep, &mut kept);
    begin.elapsed()
}

#[inline(never)]
fn proved_reads(inputs: &Inputs, tree: &mut [u32]) -> u32 {
    let mut sum = 0u32;
    for (file, &room) in inputs.files.iter().zip(&inputs.rooms) {
        let mut answer = [0; ANSWER_LENGTH];
        sum = sum.wrapping_add(type_name_read(file, &mut tree[..room], &mut answer));
    }
    sum
}

/// Nanoseconds a token, the rounds of the three taking turns.
fn times(rows: &[Row], tokens: usize) -> [f64; 3] {
    let inputs = Inputs::of(rows);
    let pass = original(inputs.lists.clone(), identity);
    let passes = 1 + (ROUND.as_nanos() / pass.as_nanos()) as usize;
    let lists = || (0..passes).flat_map(|_| inputs.lists.clone()).collect();
    let mut tree = vec![DIRT; inputs.longest()];
    let mut best = [Duration::MAX; 3];
    for _ in 0..ROUNDS {
        best[0] = best[0].min(original(lists(), identity));
        best[1] = best[1].min(original(lists(), drop));
        let begin = Instant::now();
        for _ in 0..passes {
            black_box(proved_reads(&inputs, &mut tree));
        }
        best[2] = best[2].min(begin.elapsed());
    }
    best.map(|time| time.as_nanos() as f64 / (passes * tokens) as f64)
}

/// One pass over a class by one reader, for callgrind.
fn once(corpus: &str, reader: &str, name: &str) -> Result<(), String> {
    let classes = classes::classes(corpus);
    let class = classes.iter().find(|class| class.name == name);
    let rows = class.ok_or("no such class")?.rows();
    let inputs = Inputs::of(&rows);
    match reader {
        "original" => drop(original(inputs.lists, identity)),
        "original-freed" => drop(original(inputs.lists, drop)),
        "widen" => conversions::once(&rows, Conversion::Widen),
        "narrow" => conversions::once(&rows, Conversion::Narrow),
        _ => {
            let mut tree = vec![DIRT; inputs.longest()];
            black_box(proved_reads(&inputs, &mut tree));
        }
    }
    Ok(())
}

/// The instructions that callgrind counts in one pass.
fn counted(arguments: &[&str]) -> Result<u64, String> {
    let program = env::current_exe().map_err(|error| error.to_string())?;
    let run = Command::new("valgrind")
        .args(["--tool=callgrind", "--callgrind-out-file=/dev/null"])
        .arg("--toggle-collect=*original_reads*")
        .arg("--toggle-collect=*proved_reads*")
        .arg("--toggle-collect=*proved_matches*")
        .arg("--toggle-collect=*proved_lists*")
        .arg("--toggle-collect=*proved_conversions*")
        .arg("--toggle-collect=*proved_named*")
        .arg("--toggle-collect=type_name_outer")
        .arg("--toggle-collect=*by_every_node*")
        .arg(program)
        .args(arguments)
        .output()
        .map_err(|error| format!("valgrind: {error}"))?;
    let report = String::from_utf8_lossy(&run.stderr);
    let line = report
        .lines()
        .find_map(|line| line.split_once("Collected : "));
    let count = line.and_then(|(_, count)| count.trim().parse().ok());
    count.ok_or(format!("valgrind counted nothing: {report}"))
}
