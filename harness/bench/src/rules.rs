//! Measures the entries for rule tables.

use std::hint::black_box;
use std::time::{Duration, Instant};

use harness::format::ANSWER_LENGTH;
use harness::rules::format::{self, Item, LONGEST_SEQUENCE, MOST_ITEMS, MOST_RULES, Rule, of_text};

use type_name::type_name_read;

use crate::{DIRT, Inputs, ROUNDS, classes, counted, proved_reads, stack};
use type_name::{type_name_match, type_name_overlap};

/// 31 rules such as a planner writes.
const RULES: &str = "\
    int | unsigned int | long | double | float | char #21 | const char #21 | void #21 | struct any | struct any #21 \
    | const struct any #21 | std #15 string | std #15 vector list | std #15 map list | std #15 complex list \
    | std #15 pair list | any list | any #15 any | any #15 any list | any #15 any list #15 any | const any #28 \
    | const any list #28 | any group | any group group | real group | integer group | character group | type group \
    | class group | any #21 group | any any any";

/// The last place of a table of these and one more.
const LAST: usize = 31;

/// What is measured on the corpus, by name: the table, none for the reader alone.
fn measured() -> [(&'static str, Option<Vec<u8>>); 5] {
    [
        ("type_name_read", None),
        ("match: rule 0 of 32 wins", Some(won_at(0))),
        ("match: rule 15 of 32 wins", Some(won_at(15))),
        ("match: rule 31 of 32 wins", Some(won_at(LAST))),
        ("match: the first of 32 that fits wins", Some(as_it_falls())),
    ]
}

/// A table in which the rule at this place matches every row, and no other matches any: the others end with the token kind
/// that no row has.
fn won_at(place: usize) -> Vec<u8> {
    let never = |mut rule: Rule| {
        rule.push(Item::Kind(57));
        rule
    };
    let mut rules: Vec<Rule> = of_text(RULES).into_iter().map(never).collect();
    rules.insert(place, vec![Item::Rest]);
    format::file(&rules)
}

fn as_it_falls() -> Vec<u8> {
    let mut rules = of_text(RULES);
    rules.push(vec![Item::Rest]);
    format::file(&rules)
}

#[inline(never)]
fn proved_matches(inputs: &Inputs, rules: &[u8], tree: &mut [u32]) -> u32 {
    let mut sum = 0u32;
    for (file, &room) in inputs.files.iter().zip(&inputs.rooms) {
        let mut answer = [0; ANSWER_LENGTH];
        let returned = type_name_match(file, rules, &mut tree[..room], &mut answer);
        sum = sum.wrapping_add(returned);
    }
    sum
}

/// One pass over the rows.
fn pass(inputs: &Inputs, rules: Option<&[u8]>, tree: &mut [u32]) {
    black_box(match rules {
        None => proved_reads(inputs, tree),
        Some(rules) => proved_matches(inputs, rules, tree),
    });
}

/// The same, for callgrind.
pub fn once(corpus: &str, name: &str) -> Result<(), String> {
    let found = measured().into_iter().find(|(known, _)| *known == name);
    let (_, rules) = found.ok_or("no such call")?;
    let inputs = Inputs::of(&classes::accepted(corpus));
    let mut tree = vec![DIRT; inputs.longest()];
    pass(&inputs, rules.as_deref(), &mut tree);
    Ok(())
}

pub fn table(corpus: &str) -> Result<(), String> {
    matches(corpus)?;
    println!();
    overlaps();
    println!();
    stacks(corpus);
    Ok(())
}

fn matches(corpus: &str) -> Result<(), String> {
    let inputs = Inputs::of(&classes::accepted(corpus));
    let mut tree = vec![DIRT; inputs.longest()];
    let count = inputs.files.len() as f64;
    println!("| Accepted rows of the corpus, {count} | ns a row | Instructions a row |");
    println!("|---|---|---|");
    for (name, rules) in measured() {
        let time = fastest(|| pass(&inputs, rules.as_deref(), &mut tree));
        let instructions = counted(&[corpus, "--rules-once", name])? as f64;
        let (time, instructions) = (time.as_nanos() as f64 / count, instructions / count);
        println!("| {name} | {time:.0} | {instructions:.0} |");
    }
    Ok(())
}

fn overlaps() {
    println!(
        "| All overlaps, {MOST_RULES} rules of {MOST_ITEMS} items | Pairs | Table, bytes | Seconds | µs a call |"
    );
    println!("|---|---|---|---|---|");
    for (name, rules) in overlapping() {
        let rules = format::file(&rules);
        let begin = Instant::now();
        let pairs = walk(&rules);
        let time = begin.elapsed().as_secs_f64();
        let call = 1e6 * time / (pairs + 1) as f64;
        let bytes = rules.len();
        println!("| {name} | {pairs} | {bytes} | {time:.3} | {call:.1} |");
    }
}

fn stacks(corpus: &str) {
    println!("| Stack, bytes at most | type_name_read | type_name_match |");
    println!("|---|---|---|");
    for class in classes::classes(corpus) {
        let rows = class.rows();
        let read = stack::most(&rows, type_name_read);
        let rules = won_at(LAST);
        let matched = stack::most(&rows, move |file, tree, answer| {
            type_name_match(file, &rules, tree, answer)
        });
        println!("| {} | {read} | {matched} |", class.name);
    }
    let tables = overlapping().map(|(_, rules)| (format::file(&rules), [0; LONGEST_SEQUENCE]));
    let overlap = stack::taken(tables.into(), |(rules, sequence)| {
        type_name_overlap(rules, 0, 0, sequence, &mut [0; ANSWER_LENGTH]);
    });
    println!("type_name_overlap: {overlap} bytes of stack");
}

pub fn fastest(mut run: impl FnMut()) -> Duration {
    let round = |_| {
        let begin = Instant::now();
        run();
        begin.elapsed()
    };
    (0..ROUNDS).map(round).min().expect("a round")
}

/// How many pairs of the table overlap, asked for one after another.
fn walk(rules: &[u8]) -> u64 {
    let mut sequence = vec![0; LONGEST_SEQUENCE];
    let mut answer = [0; ANSWER_LENGTH];
    for pairs in 0.. {
        type_name_overlap(rules, answer[1], answer[2], &mut sequence, &mut answer);
        if answer[2] == 0 {
            return pairs;
        }
    }
    unreachable!("a table has an end of pairs")
}

/// The greatest tables: every two rules overlap, or they agree up to their last item and none do.
fn overlapping() -> [(&'static str, Vec<Rule>); 4] {
    let kind = |place: usize| Item::Kind(1 + place as u8);
    // The last two bytes tell 256 words apart.
    let word = |place: usize| {
        let last = [33 + (place / 16) as u8, 33 + (place % 16) as u8];
        Item::Word([&[b'w'; 253][..], &last].concat())
    };
    let rules = |item: &dyn Fn(usize) -> Rule| (0..MOST_RULES).map(item).collect();
    let same = |item: Item| rules(&|_| vec![item.clone(); MOST_ITEMS]);
    // The last two items tell 256 rules apart.
    let kinds = |place: usize| {
        let last = [kind(place / 16), kind(place % 16)];
        [&vec![kind(0); MOST_ITEMS - 2][..], &last].concat()
    };
    let words = |place: usize| [vec![word(0); MOST_ITEMS - 1], vec![word(place)]].concat();
    [
        ("any: all", same(Item::Any)),
        ("words of 255 bytes: all", same(word(0))),
        ("kinds, up to the last two: none", rules(&kinds)),
        ("words of 255 bytes, up to the last: none", rules(&words)),
    ]
}
