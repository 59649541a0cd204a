//! Measures the conversions between the old format and the current one.

use std::hint::black_box;
use std::time::Instant;

use harness::conversions::model::{Conversion, narrow};
use harness::format::{ANSWER_LENGTH, Row};
use type_name::{type_name_narrow, type_name_widen};

use crate::rules::fastest;
use crate::{DIRT, Inputs, ROUND, classes, counted, proved_reads, stack};

/// What is measured: both conversions, and the reader beside them.
const MEASURED: [(&str, Option<Conversion>); 3] = [
    ("widen", Some(Conversion::Widen)),
    ("narrow", Some(Conversion::Narrow)),
    ("proved", None),
];

type Convert = fn(&[u8], &mut [u8], &mut [u32]) -> u32;

fn entry(conversion: Conversion) -> Convert {
    match conversion {
        Conversion::Widen => type_name_widen,
        Conversion::Narrow => type_name_narrow,
    }
}

/// The rows' files in the format that is converted, with spans as a lexer gives them, each with the length of the other one.
fn files(rows: &[Row], conversion: Conversion) -> Vec<(Vec<u8>, usize)> {
    let one = |row: &Row| {
        let mut row = row.clone();
        for (number, token) in (0..).zip(&mut row.tokens) {
            (token.start, token.end) = (2 * number, 2 * number + 1);
        }
        let current = row.write();
        let old = narrow(&current, usize::MAX).expect("an old form that is not too long");
        match conversion {
            Conversion::Widen => (old, current.len()),
            Conversion::Narrow => (current, old.len()),
        }
    };
    rows.iter().map(one).collect()
}

#[inline(never)]
fn proved_conversions(files: &[(Vec<u8>, usize)], convert: Convert, output: &mut [u8]) -> u32 {
    let mut sum = 0u32;
    for (file, room) in files {
        let mut answer = [0; ANSWER_LENGTH];
        sum = sum.wrapping_add(convert(file, &mut output[..*room], &mut answer));
    }
    sum
}

/// A pass over rows, by a conversion or by the reader.
fn pass(rows: &[Row], conversion: Option<Conversion>) -> Box<dyn FnMut()> {
    let Some(conversion) = conversion else {
        let inputs = Inputs::of(rows);
        let mut tree = vec![DIRT; inputs.longest()];
        return Box::new(move || {
            black_box(proved_reads(&inputs, &mut tree));
        });
    };
    let files = files(rows, conversion);
    let longest = files.iter().map(|&(_, length)| length).max().unwrap_or(0);
    let mut output = vec![0; longest];
    let convert = entry(conversion);
    Box::new(move || {
        black_box(proved_conversions(&files, convert, &mut output));
    })
}

/// One pass of a conversion, for callgrind.
pub fn once(rows: &[Row], conversion: Conversion) {
    pass(rows, Some(conversion))();
}

pub fn table(corpus: &str, text: &str) -> Result<(), String> {
    println!(
        "| Rows | Number | Tokens | ns: widen | narrow | read | Instructions: widen | narrow | read |"
    );
    println!("|---|---|---|---|---|---|---|---|---|");
    for class in classes::classes(corpus) {
        if !class.name.contains(text) {
            continue;
        }
        let rows = class.rows();
        let tokens: usize = rows.iter().map(|row| row.tokens.len()).sum();
        let tokens = tokens as f64;
        let times = MEASURED.map(|(_, conversion)| nanoseconds(pass(&rows, conversion)) / tokens);
        let mut counts = [0.0; MEASURED.len()];
        for (count, (measured, _)) in counts.iter_mut().zip(MEASURED) {
            let once = [corpus, "--once", measured, &class.name];
            *count = counted(&once)? as f64 / tokens;
        }
        let columns = |figures: [f64; 3]| figures.map(|figure| format!("{figure:.1}")).join(" | ");
        let (name, number) = (&class.name, rows.len());
        let (times, counts) = (columns(times), columns(counts));
        println!("| {name} | {number} | {tokens} | {times} | {counts} |");
    }
    Ok(())
}

/// How long a pass takes: the fastest round's share.
pub fn nanoseconds(mut pass: impl FnMut()) -> f64 {
    let begin = Instant::now();
    pass();
    let passes = 1 + (ROUND.as_nanos() / begin.elapsed().as_nanos().max(1)) as u32;
    let round = fastest(|| (0..passes).for_each(|_| pass()));
    round.as_nanos() as f64 / f64::from(passes)
}

/// The most bytes of stack that a conversion takes over these rows.
pub fn stack(rows: &[Row], conversion: Conversion) -> usize {
    let inputs = files(rows, conversion).into_iter();
    let inputs = inputs.map(|(file, length)| (file, vec![0; length]));
    let convert = entry(conversion);
    stack::taken(inputs.collect(), move |(file, output)| {
        convert(file, output, &mut [0; ANSWER_LENGTH]);
    })
}
