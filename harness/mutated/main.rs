//! Runs a model that holds many changes, one at a time, on cases.
//!
//! `replay LIST NUMBER...` prints for each change the first case of the
//! replay list that notices it, or `-`. `search SEED COUNT NUMBER...` draws
//! cases, adds all short rows and prints for each change the shortest file
//! that notices it.

#![allow(warnings)]

use std::panic::{AssertUnwindSafe, catch_unwind};

mod modules;
pub use modules::*;

use format::Token;
use generate::{Case, exhaustive};
use kind::Kind;
use mutant::NONE;

/// What a run comes to: answer and final buffer, `None` where it panicked.
type Result = Option<([u32; 4], Vec<u32>)>;

/// What the buffer holds before.
const FILL: u32 = 7;

struct Stored {
    case: Case,
    fill: u32,
    wanted: Result,
    ticks: u64,
}

fn main() {
    std::panic::set_hook(Box::new(|_| {}));
    let deep = std::thread::Builder::new().stack_size(1 << 30);
    let done = deep.spawn(run).expect("a thread").join();
    done.expect("the run ends");
}

fn run() {
    let arguments: Vec<String> = std::env::args().skip(1).collect();
    let numbers = |from: usize| {
        arguments[from..]
            .iter()
            .map(|word| word.parse().expect("a number"))
    };
    match arguments[0].as_str() {
        "replay" => replay(&arguments[1], numbers(2)),
        _ => search(
            numbers(1).next().unwrap() as u64,
            numbers(2).next().unwrap(),
            numbers(3).collect(),
        ),
    }
}

fn answered(case: &Case, fill: u32, change: usize, most: u64) -> (Result, u64) {
    mutant::with(change, most, || {
        let run = || {
            let mut tree = vec![fill; case.tree_len];
            let answer = oracle::answer(&case.file, &mut tree);
            (answer.numbers(), tree)
        };
        catch_unwind(AssertUnwindSafe(run)).ok()
    })
}

/// A changed run may take ten times the work of an unchanged one.
fn enough(ticks: u64) -> u64 {
    10 * ticks + 10_000
}

fn replay(path: &str, changes: impl Iterator<Item = usize>) {
    let list = std::fs::read(path).expect("the replay list");
    let mut cases = stored(&list);
    for (number, case) in cases.iter_mut().enumerate() {
        let (found, ticks) = answered(&case.case, case.fill, NONE, u64::MAX);
        if found != case.wanted {
            eprintln!("the unchanged model differs at case {number}: write the replay list anew");
            std::process::exit(1);
        }
        case.ticks = ticks;
    }
    for change in changes {
        let notices = |case: &Stored| {
            answered(&case.case, case.fill, change, enough(case.ticks)).0 != case.wanted
        };
        match cases.iter().position(notices) {
            Some(case) => println!("{change} {case}"),
            None => println!("{change} -"),
        }
    }
}

/// The replay list taken apart; docs/PROOFS.md has its format.
fn stored(list: &[u8]) -> Vec<Stored> {
    let mut rest = list;
    let mut cases = Vec::new();
    while !rest.is_empty() {
        let (head, after) = rest.split_at(36);
        let number = |at: usize| u32::from_le_bytes(head[4 * at..4 * at + 4].try_into().unwrap());
        let (file, after) = after.split_at(number(0) as usize);
        let (stored, after) = after.split_at(4 * number(7) as usize);
        let mut tree: Vec<u32> = stored
            .as_chunks()
            .0
            .iter()
            .map(|bytes| u32::from_le_bytes(*bytes))
            .collect();
        tree.resize(number(1) as usize, number(8));
        let case = Case {
            file: file.to_vec(),
            tree_len: tree.len(),
        };
        let wanted = Some(([3, 4, 5, 6].map(number), tree));
        cases.push(Stored {
            case,
            fill: number(2),
            wanted,
            ticks: 0,
        });
        rest = after;
    }
    cases
}

/// Words of each sort that the specifiers know.
const WORDS: [&str; 5] = ["a", "const", "int", "struct", "_BitInt"];

const KINDS: [Kind; 7] = [
    Kind::Scope,
    Kind::Star,
    Kind::Less,
    Kind::Greater,
    Kind::LeftParen,
    Kind::RightParen,
    Kind::Integer,
];

/// All rows of up to four of these tokens, with the structure check.
fn short_rows() -> impl Iterator<Item = Case> {
    let words = WORDS.map(Token::word);
    let alphabet = words.into_iter().chain(KINDS.map(Token::plain)).collect();
    let rows = exhaustive::rows(alphabet, 1..=4);
    rows.flat_map(|row| exhaustive::each_way(row).into_iter().skip(1).step_by(2))
}

/// The shortest file of the drawn cases and short rows that notices each
/// change.
fn search(seed: u64, count: usize, changes: Vec<usize>) {
    let drawn = generate::cases(seed, None).expect("all styles").take(count);
    let mut cases: Vec<Case> = drawn.chain(short_rows()).collect();
    cases.sort_by_key(|case| case.file.len());
    let answered_first = |case: &Case| answered(case, FILL, NONE, u64::MAX);
    let unchanged: Vec<(Result, u64)> = cases.iter().map(answered_first).collect();
    for change in changes {
        let notices = |&(case, (wanted, ticks)): &(&Case, &(Result, u64))| {
            answered(case, FILL, change, enough(*ticks)).0 != *wanted
        };
        let Some((case, _)) = cases.iter().zip(&unchanged).find(notices) else {
            println!("{change} -");
            continue;
        };
        let file: String = case.file.iter().map(|byte| format!("{byte:02x}")).collect();
        println!("{change} {file} {}", case.tree_len);
    }
}
