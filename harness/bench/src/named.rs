//! Measures the entry that is given the names of templates, beside the one that tries.

use std::collections::BTreeMap;
use std::hint::black_box;
use std::time::{Duration, Instant};

use harness::format::{
    ANSWER_LENGTH, Format, MOST_NESTING, MOST_TOKENS, NUMBERS_PER_TOKEN, Row, Token, WORD_LENGTHS,
};
use harness::kind::Kind;
use type_name::{type_name_read, type_name_read_named};

use crate::{DIRT, Inputs, ROUND, ROUNDS, classes, counted, proved_reads, stack};

const MOST_NAMES: usize = 512;

/// How many names are given.
const COUNTS: [usize; 3] = [1, 16, MOST_NAMES];

/// The bytes of short names that share a bucket.
const SHORT: usize = 4;

/// How many `<` a row has behind words that are looked up among names that share a bucket: as many as it has room for, where the
/// words are long.
const LOOKED_UP: usize = 400;

/// The classes of rows whose stack is measured.
const DEEP: [&str; 4] = [
    "one token",
    "corpus: C++, flag 1",
    "lists, 64 deep",
    "generated: deep",
];

const ENTRIES: [&str; 2] = ["read", "named"];

/// Which names rows are read with.
#[derive(Clone)]
enum Names {
    /// Those before the row's own lists; one that it does not have if there is none.
    Own,
    /// The most frequent of the rows' own, so many.
    Frequent(usize),
    /// These.
    Given(Vec<String>),
}

/// Which rows are read.
#[derive(Clone)]
enum Rows {
    /// The C++ names of the corpus.
    Real,
    /// Those of them without a list.
    Plain,
    Made(Vec<Token>),
}

/// Rows, the names that they are read with, and whether `type_name_read` gets through them: it takes exponentially many steps on
/// lists that fail.
struct Measured {
    name: String,
    rows: Rows,
    names: Names,
    tried: bool,
}

impl Measured {
    /// The rows, each with its name list's file.
    fn inputs(&self, corpus: &str) -> (Vec<Row>, Vec<Vec<u8>>) {
        let mut rows = match &self.rows {
            Rows::Real | Rows::Plain => classes::class_rows(corpus, "corpus: C++, flag 1"),
            Rows::Made(tokens) => vec![classes::cpp(tokens.clone())],
        };
        let given = match &self.names {
            Names::Own => None,
            Names::Frequent(count) => Some(file(&frequent(&rows, *count))),
            Names::Given(names) => Some(file(names)),
        };
        if let Rows::Plain = self.rows {
            rows.retain(|row| before_lists(row).is_empty());
        }
        let list = |row| given.clone().unwrap_or_else(|| file(&own(row)));
        let lists = rows.iter().map(list).collect();
        (rows, lists)
    }

    fn count(&self) -> String {
        match &self.names {
            Names::Own => "its own".to_owned(),
            Names::Frequent(count) => count.to_string(),
            Names::Given(names) => names.len().to_string(),
        }
    }
}

/// The name list's file.
fn file(names: &[String]) -> Vec<u8> {
    let mut file = Vec::new();
    for name in names {
        Token::word(name).write(Format::current(), &mut file);
    }
    file
}

fn own(row: &Row) -> Vec<String> {
    let mut words = before_lists(row);
    words.sort();
    words.dedup();
    if words.is_empty() {
        words = absent(1);
    }
    words
}

/// The words directly before each `<`.
fn before_lists(row: &Row) -> Vec<String> {
    let pairs = row.tokens.windows(2);
    let words = pairs.filter(|pair| pair[0].kind == Kind::Identifier && pair[1].kind == Kind::Less);
    words.map(|pair| pair[0].word.clone()).collect()
}

/// Words that no row of the corpus has before a list, of a usual length.
fn absent(count: usize) -> Vec<String> {
    (0..count)
        .map(|number| format!("Absent_{number:03}"))
        .collect()
}

/// The words before the lists of these rows, the most frequent first, and others up to so many.
fn frequent(rows: &[Row], count: usize) -> Vec<String> {
    let mut seen: BTreeMap<String, usize> = BTreeMap::new();
    for word in rows.iter().flat_map(before_lists) {
        *seen.entry(word).or_default() += 1;
    }
    let mut words: Vec<(String, usize)> = seen.into_iter().collect();
    words.sort_by_key(|&(_, times)| std::cmp::Reverse(times));
    let words = words.into_iter().map(|(word, _)| word);
    words.chain(absent(MOST_NAMES)).take(count).collect()
}

/// Words of one bucket of the table that the library keeps, all of one length and different in their last bytes only.
fn of_one_bucket(length: usize, count: usize) -> Vec<String> {
    let bucket = |word: &str| {
        word.bytes()
            .fold(0, |sum, byte| (sum * 31 + usize::from(byte)) % 512)
    };
    let letters = || (33..=126).map(char::from);
    let ends =
        letters().flat_map(move |a| letters().flat_map(move |b| letters().map(move |c| [a, b, c])));
    let words = ends.map(|end| "w".repeat(length - 3) + &String::from_iter(end));
    words.filter(|word| bucket(word) == 0).take(count).collect()
}

/// `A(b<b<..b<b)`, so many `<`
fn failing(word: &str, tries: usize) -> Vec<Token> {
    let tries = (0..tries).flat_map(|_| [Token::word(word), Token::plain(Kind::Less)]);
    [Token::word("A"), Token::plain(Kind::LeftParen)]
        .into_iter()
        .chain(tries)
        .chain([Token::word(word), Token::plain(Kind::RightParen)])
        .collect()
}

fn all() -> Vec<Measured> {
    let mut all = Vec::new();
    let mut add = |name: &str, rows: Rows, names: Names, tried| {
        let name = name.to_owned();
        all.push(Measured {
            name,
            rows,
            names,
            tried,
        });
    };
    add("corpus: C++", Rows::Real, Names::Own, true);
    for count in COUNTS {
        add("corpus: C++", Rows::Real, Names::Frequent(count), true);
    }
    for count in COUNTS {
        let names = Names::Frequent(count);
        add("corpus: C++ without a list", Rows::Plain, names, true);
    }
    let one_token = || Rows::Made(vec![Token::word("int")]);
    for count in COUNTS {
        add("one token", one_token(), Names::Given(absent(count)), true);
    }
    let template = || Names::Given(vec!["A".to_owned()]);
    for tokens in [16, 64, 256, MOST_TOKENS] {
        let rows = Rows::Made(classes::list(tokens));
        add(
            &format!("one list, {tokens} tokens"),
            rows,
            template(),
            true,
        );
    }
    let opener = [Token::word("A"), Token::plain(Kind::Less)];
    for depth in [1, 4, 16, MOST_NESTING] {
        let rows = Rows::Made(classes::nested(depth, &opener, Kind::Greater));
        add(&format!("lists, {depth} deep"), rows, template(), true);
    }
    for (tries, tried) in [(4, true), (8, true), (12, true), (64, false), (510, false)] {
        let rows = Rows::Made(failing("b", tries));
        add(&format!("failing lists, {tries}"), rows, template(), tried);
    }
    for length in [SHORT, *WORD_LENGTHS.end()] {
        let mut names = of_one_bucket(length, MOST_NAMES + 1);
        // The one that is not given: each `<` behind it looks through all names.
        let sought = names.pop().expect("a name more");
        let names = Names::Given(names);
        let bucket = format!("names of {length} bytes in one bucket");
        add(
            &format!("one token, {bucket}"),
            one_token(),
            names.clone(),
            true,
        );
        let rows = Rows::Made(failing(&sought, LOOKED_UP));
        let name = format!("failing lists, {LOOKED_UP}, {bucket}, as the word");
        add(&name, rows, names, false);
    }
    all
}

#[inline(never)]
fn proved_named(inputs: &Inputs, lists: &[Vec<u8>], tree: &mut [u32]) -> u32 {
    let mut sum = 0u32;
    for ((file, &room), names) in inputs.files.iter().zip(&inputs.rooms).zip(lists) {
        let mut answer = [0; ANSWER_LENGTH];
        let returned = type_name_read_named(file, names, &mut tree[..room], &mut answer);
        sum = sum.wrapping_add(returned);
    }
    sum
}

/// One pass of an entry.
fn pass(rows: &[Row], lists: Vec<Vec<u8>>, entry: &str) -> Box<dyn FnMut()> {
    let inputs = Inputs::of(rows);
    let mut tree = vec![DIRT; inputs.longest()];
    if entry == ENTRIES[0] {
        return Box::new(move || {
            black_box(proved_reads(&inputs, &mut tree));
        });
    }
    Box::new(move || {
        black_box(proved_named(&inputs, &lists, &mut tree));
    })
}

/// One pass over the rows of a place in the table, for callgrind.
pub fn once(corpus: &str, entry: &str, place: &str) -> Result<(), String> {
    let all = all();
    let measured = place.parse().ok().and_then(|place: usize| all.get(place));
    let (rows, lists) = measured.ok_or("no such place")?.inputs(corpus);
    pass(&rows, lists, entry)();
    Ok(())
}

/// How many rows an entry accepts.
fn accepted(rows: &[Row], lists: &[Vec<u8>], entry: &str) -> usize {
    let inputs = Inputs::of(rows);
    let mut tree = vec![DIRT; inputs.longest()];
    let mut is_accepted = |file: &[u8], room: usize, names: &[u8]| {
        let (tree, answer) = (&mut tree[..room], &mut [0; ANSWER_LENGTH]);
        if entry == ENTRIES[0] {
            type_name_read(file, tree, answer) == 0
        } else {
            type_name_read_named(file, names, tree, answer) == 0
        }
    };
    let calls = inputs.files.iter().zip(&inputs.rooms).zip(lists);
    calls
        .filter(|&((file, &room), names)| is_accepted(file, room, names))
        .count()
}

/// The most bytes of stack that the entry takes over these rows, each with its own names.
pub fn stack(rows: &[Row]) -> usize {
    let input = |row: &Row| {
        let tree = vec![0; NUMBERS_PER_TOKEN * row.tokens.len()];
        (row.write(), file(&own(row)), tree)
    };
    let inputs = rows.iter().map(input).collect();
    stack::taken(inputs, |(file, names, tree)| {
        type_name_read_named(file, names, tree, &mut [0; ANSWER_LENGTH]);
    })
}

/// Nanoseconds of a pass of each entry, their rounds taking turns.
fn times(rows: &[Row], lists: &[Vec<u8>], entries: &[&str]) -> Vec<f64> {
    let mut passes: Vec<_> = entries
        .iter()
        .map(|entry| pass(rows, lists.to_vec(), entry))
        .collect();
    let begin = Instant::now();
    passes.iter_mut().for_each(|pass| pass());
    let repeated = 1 + (ROUND.as_nanos() / begin.elapsed().as_nanos().max(1)) as u32;
    let mut best = vec![Duration::MAX; passes.len()];
    for _ in 0..ROUNDS {
        for (best, pass) in best.iter_mut().zip(&mut passes) {
            let begin = Instant::now();
            (0..repeated).for_each(|_| pass());
            *best = begin.elapsed().min(*best);
        }
    }
    let one = |best: Duration| best.as_nanos() as f64 / f64::from(repeated);
    best.into_iter().map(one).collect()
}

/// The figures of both entries and how many times the first goes into the second; of the second alone if the first has none.
fn columns(figures: &[f64]) -> String {
    match figures {
        [read, named] => format!("{read:.0} | {named:.0} | {:.2}", named / read),
        figures => format!(" | {:.0} | ", figures[0]),
    }
}

pub fn table(corpus: &str) -> Result<(), String> {
    println!(
        "| Rows | Names | Number | Accepted: read | named | Tokens | ns: read | named | Times | Instructions: read | named | Times |"
    );
    println!("|---|---|---|---|---|---|---|---|---|---|---|---|");
    for (place, measured) in all().iter().enumerate() {
        let (rows, lists) = measured.inputs(corpus);
        let entries = &ENTRIES[usize::from(!measured.tried)..];
        let tokens: usize = rows.iter().map(|row| row.tokens.len()).sum();
        let a_token = |figure: f64| figure / tokens as f64;
        let times = times(&rows, &lists, entries).into_iter().map(a_token);
        let times = columns(&times.collect::<Vec<_>>());
        let mut counts = Vec::new();
        for entry in entries {
            let count = counted(&[corpus, "--named-once", entry, &place.to_string()])?;
            counts.push(a_token(count as f64));
        }
        let counts = columns(&counts);
        let [read, named] = ENTRIES.map(|entry| match entries.contains(&entry) {
            true => accepted(&rows, &lists, entry).to_string(),
            false => String::new(),
        });
        let (name, names, number) = (&measured.name, measured.count(), rows.len());
        println!(
            "| {name} | {names} | {number} | {read} | {named} | {tokens} | {times} | {counts} |"
        );
    }
    println!();
    println!("| Rows | Stack in bytes: read | named |");
    println!("|---|---|---|");
    for name in DEEP {
        let rows = classes::class_rows(corpus, name);
        let (read, named) = (stack::most(&rows, type_name_read), stack(&rows));
        println!("| {name} | {read} | {named} |");
    }
    Ok(())
}
