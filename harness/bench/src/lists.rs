//! Measures the entry for several types in one row.

use std::hint::black_box;
use std::time::Instant;

use harness::format::{MOST_TOKENS, NUMBERS_PER_TOKEN, Row, Token};
use harness::kind::Kind;
use harness::lists::model::{self, LIST_ANSWER_LENGTH};
use harness::lists::text;
use type_name::type_name_read_list;

use crate::rules::fastest;
use crate::{DIRT, Inputs, ROUND, classes, counted, proved_reads};

/// How many real type names stand in a row.
const JOINED: [usize; 4] = [1, 2, 4, 8];

/// One type over and over: how often, up to as often as a row has room for.
const REPEATED: [(&str, [usize; 4]); 2] =
    [("a", [1, 8, 64, 512]), ("A < b , c >", [1, 8, 64, 146])];

/// What is read: the rows, or each of their parts by a call of its own.
const READ: [&str; 2] = ["rows", "parts alone"];

/// How rows of several types are made.
enum Types {
    /// So many real type names a row.
    Real(usize),
    /// One type so many times.
    Repeated(&'static str, usize),
}

fn all() -> impl Iterator<Item = Types> {
    let repeated =
        |(text, counts): (_, [usize; 4])| counts.map(|count| Types::Repeated(text, count));
    let real = JOINED.into_iter().map(Types::Real);
    real.chain(REPEATED.into_iter().flat_map(repeated))
}

impl Types {
    fn name(&self) -> String {
        match self {
            Self::Real(count) => format!("corpus, {count} a row"),
            Self::Repeated(text, count) => format!("`{}`, {count} a row", text.replace(' ', "")),
        }
    }

    /// The parts of each row.
    fn parts(&self, corpus: &str) -> Vec<Vec<Row>> {
        match *self {
            Self::Real(count) => {
                let mut accepted = classes::accepted(corpus);
                accepted.sort_by_key(|row| row.head.language);
                let languages = accepted.chunk_by(|one, next| one.head == next.head);
                let rows = languages.flat_map(|rows| rows.chunks_exact(count));
                let fitting = rows.filter(|parts| fits(&joined(parts)));
                fitting.map(<[Row]>::to_vec).collect()
            }
            Self::Repeated(text, count) => vec![vec![classes::cpp(text::tokens(text)); count]],
        }
    }
}

/// The row of several types.
fn joined(parts: &[Row]) -> Row {
    let tokens: Vec<_> = parts.iter().map(|part| &part.tokens[..]).collect();
    Row {
        head: parts[0].head,
        tokens: tokens.join(&Token::plain(Kind::Comma)),
    }
}

/// Whether it has no more tokens and bytes than a row may have.
fn fits(row: &Row) -> bool {
    Row::read(&row.write()).is_ok()
}

/// Each row with itself behind it, or alone if both do not fit.
pub fn doubled(rows: &[Row]) -> Vec<Row> {
    let doubled = |row: &Row| {
        let twice = joined(&[row.clone(), row.clone()]);
        if fits(&twice) { twice } else { row.clone() }
    };
    rows.iter().map(doubled).collect()
}

/// Whether the row of these types is accepted, as so many parts.
fn is_accepted(parts: &[Row]) -> bool {
    let mut tree = [DIRT; NUMBERS_PER_TOKEN * MOST_TOKENS];
    let [number, .., found] = model::numbers(&joined(parts).write(), &mut tree);
    number == 0 && found as usize == parts.len()
}

fn pass(parts: &[Vec<Row>], read: &str) -> Pass {
    if read == READ[0] {
        let rows: Vec<Row> = parts.iter().map(|parts| joined(parts)).collect();
        Pass::new(&rows, proved_lists)
    } else {
        Pass::new(&parts.concat(), proved_reads)
    }
}

/// One pass of a function over its inputs.
struct Pass {
    inputs: Inputs,
    tree: Vec<u32>,
    read: fn(&Inputs, &mut [u32]) -> u32,
}

impl Pass {
    fn new(rows: &[Row], read: fn(&Inputs, &mut [u32]) -> u32) -> Self {
        let inputs = Inputs::of(rows);
        let tree = vec![DIRT; inputs.longest()];
        Self { inputs, tree, read }
    }

    fn run(&mut self) {
        black_box((self.read)(&self.inputs, &mut self.tree));
    }

    fn nanoseconds(&mut self) -> f64 {
        let begin = Instant::now();
        self.run();
        let passes = 1 + (ROUND.as_nanos() / begin.elapsed().as_nanos()) as u32;
        let round = fastest(|| (0..passes).for_each(|_| self.run()));
        round.as_nanos() as f64 / f64::from(passes)
    }
}

#[inline(never)]
fn proved_lists(inputs: &Inputs, tree: &mut [u32]) -> u32 {
    let mut sum = 0u32;
    for (file, &room) in inputs.files.iter().zip(&inputs.rooms) {
        let mut answer = [0; LIST_ANSWER_LENGTH];
        let returned = type_name_read_list(file, &mut tree[..room], &mut answer);
        sum = sum.wrapping_add(returned);
    }
    sum
}

/// One pass, for callgrind.
pub fn once(corpus: &str, read: &str, name: &str) -> Result<(), String> {
    let found = all().find(|types| types.name() == name);
    let parts = found.ok_or("no such types")?.parts(corpus);
    pass(&parts, read).run();
    Ok(())
}

pub fn table(corpus: &str) -> Result<(), String> {
    println!(
        "| Types | Rows | Tokens a row | ns a row | parts alone | Instructions a row | parts alone | a part |"
    );
    println!("|---|---|---|---|---|---|---|---|");
    for types in all() {
        let (name, parts) = (types.name(), types.parts(corpus));
        assert!(parts.iter().all(|parts| is_accepted(parts)), "{name}");
        let rows = parts.len() as f64;
        let tokens: usize = parts.iter().map(|parts| joined(parts).tokens.len()).sum();
        let tokens = tokens as f64 / rows;
        let [time, time_alone] = READ.map(|read| pass(&parts, read).nanoseconds() / rows);
        let mut instructions = [0.0; 2];
        for (count, read) in instructions.iter_mut().zip(READ) {
            *count = counted(&[corpus, "--lists-once", read, &name])? as f64 / rows;
        }
        let [all, alone] = instructions;
        let each = all / parts[0].len() as f64;
        println!(
            "| {name} | {rows} | {tokens:.1} | {time:.0} | {time_alone:.0} | {all:.0} | {alone:.0} | {each:.0} |"
        );
    }
    Ok(())
}
