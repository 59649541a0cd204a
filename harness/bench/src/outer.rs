//! Measures the outer template by extents, beside the same count by a visit of every node.

use std::hint::black_box;

use harness::format::{ANSWER_LENGTH, NODE_WIDTH, NUMBERS_PER_TOKEN, Row, Token};
use harness::kind::Kind;
use harness::outer::model;
use harness::outer::whole::by_every_node;
use harness::profile::{HostLanguage, language_number};
use type_name::{type_name_outer, type_name_read};

use crate::conversions::nanoseconds;
use crate::{classes, counted};

type Count = fn(&[u32]) -> u32;

/// What is measured, by name.
const COUNTS: [(&str, Count); 2] = [("extents", type_name_outer), ("every node", by_every_node)];

/// How many arguments a list has, or how many nodes its only argument has below it.
const SIZES: [usize; 5] = [1, 4, 16, 64, 256];

const LANGUAGES: [(&str, HostLanguage); 3] = [
    ("C", HostLanguage::C),
    ("C++", HostLanguage::Cpp),
    ("Fortran", HostLanguage::Fortran),
];

/// How often a made tree is counted in one pass.
const REPEATED: usize = 1_000;

/// Which trees are measured.
enum Trees {
    Accepted,
    /// Those that have an outer template.
    Templates,
    /// `A<b,b,..>`
    Arguments(usize),
    /// `A<b**..>`
    Below(usize),
}

fn all() -> impl Iterator<Item = Trees> {
    let real = [Trees::Accepted, Trees::Templates].into_iter();
    let made = [Trees::Arguments, Trees::Below];
    real.chain(made.into_iter().flat_map(|made| SIZES.map(made)))
}

impl Trees {
    fn name(&self) -> String {
        match self {
            Self::Accepted => "corpus, accepted".to_owned(),
            Self::Templates => "corpus, with an outer template".to_owned(),
            Self::Arguments(1) => "one list, 1 argument".to_owned(),
            Self::Arguments(count) => format!("one list, {count} arguments"),
            Self::Below(1) => "one argument, 1 node below it".to_owned(),
            Self::Below(nodes) => format!("one argument, {nodes} nodes below it"),
        }
    }

    fn trees(&self, corpus: &str) -> Vec<Vec<u32>> {
        match *self {
            Self::Accepted => classes::accepted(corpus).iter().map(tree).collect(),
            Self::Templates => {
                let mut trees = Self::Accepted.trees(corpus);
                // By the model: callgrind counts what is in the measured functions.
                trees.retain(|tree| model::type_name_outer(tree) > 0);
                trees
            }
            Self::Arguments(count) => {
                let words = vec![[Token::word("b")]; count];
                vec![tree(&template(words.join(&Token::plain(Kind::Comma))))]
            }
            Self::Below(nodes) => {
                let mut argument = vec![Token::plain(Kind::Star); nodes];
                argument[0] = Token::word("b");
                vec![tree(&template(argument))]
            }
        }
    }

    /// How often each is counted in one pass.
    fn repeated(&self) -> usize {
        match self {
            Self::Accepted | Self::Templates => 1,
            Self::Arguments(_) | Self::Below(_) => REPEATED,
        }
    }
}

/// `A`, and a list that holds these tokens.
fn template(inside: Vec<Token>) -> Row {
    let begin = vec![Token::word("A"), Token::plain(Kind::Less)];
    let end = vec![Token::plain(Kind::Greater)];
    classes::cpp([begin, inside, end].concat())
}

/// The tree of an accepted row, without what stands behind it in the buffer.
fn tree(row: &Row) -> Vec<u32> {
    let mut tree = vec![0; NUMBERS_PER_TOKEN * row.tokens.len()];
    let mut answer = [0; ANSWER_LENGTH];
    let returned = type_name_read(&row.write(), &mut tree, &mut answer);
    assert_eq!(returned, 0, "an accepted row");
    tree.truncate(NODE_WIDTH * answer[1] as usize);
    tree
}

fn pass(trees: &[Vec<u32>], count: Count, times: usize) {
    let mut sum = 0u32;
    for _ in 0..times {
        for tree in trees {
            sum = sum.wrapping_add(count(black_box(tree)));
        }
    }
    black_box(sum);
}

/// One pass, for callgrind.
pub fn once(corpus: &str, count: &str, name: &str) -> Result<(), String> {
    let found = all().find(|trees| trees.name() == name);
    let trees = found.ok_or("no such trees")?.trees(corpus);
    let found = COUNTS.into_iter().find(|(known, _)| *known == count);
    let (_, count) = found.ok_or("no such count")?;
    pass(&trees, count, 1);
    Ok(())
}

pub fn table(corpus: &str) -> Result<(), String> {
    templates(corpus);
    println!();
    println!(
        "| Trees | Number | Nodes a tree | Arguments a tree | ns a call: extents | every node | Instructions a call: extents | every node |"
    );
    println!("|---|---|---|---|---|---|---|---|");
    for measured in all() {
        let (name, trees) = (measured.name(), measured.trees(corpus));
        for tree in &trees {
            assert_eq!(type_name_outer(tree), by_every_node(tree), "{tree:?}");
        }
        let number = trees.len() as f64;
        let a_tree = |sum: usize| sum as f64 / number;
        let nodes = a_tree(trees.iter().map(|tree| tree.len() / NODE_WIDTH).sum());
        let arguments = a_tree(
            trees
                .iter()
                .map(|tree| type_name_outer(tree) as usize)
                .sum(),
        );
        let times = measured.repeated();
        let [time, time_every] = COUNTS
            .map(|(_, count)| nanoseconds(|| pass(&trees, count, times)) / (number * times as f64));
        let mut instructions = [0.0; COUNTS.len()];
        for (figure, (count, _)) in instructions.iter_mut().zip(COUNTS) {
            *figure = counted(&[corpus, "--outer-once", count, &name])? as f64 / number;
        }
        let [inside, inside_every] = instructions;
        println!(
            "| {name} | {number} | {nodes:.1} | {arguments:.2} | {time:.1} | {time_every:.1} | {inside:.1} | {inside_every:.1} |"
        );
    }
    Ok(())
}

/// How many accepted names of the corpus have an outer template, by language.
fn templates(corpus: &str) {
    println!(
        "| Accepted names of the corpus | Number | With an outer template | Of 1 argument | Of 2 | Of more |"
    );
    println!("|---|---|---|---|---|---|");
    let rows = classes::accepted(corpus);
    for (label, language) in LANGUAGES {
        let is_of = |row: &&Row| row.head.language == language_number(language);
        let counts = rows
            .iter()
            .filter(is_of)
            .map(|row| type_name_outer(&tree(row)));
        // By how many arguments there are: none, 1, 2, more.
        let mut seen = [0; 4];
        for count in counts {
            seen[count.min(3) as usize] += 1;
        }
        let [without, one, two, more] = seen;
        let with = one + two + more;
        println!(
            "| {label} | {} | {with} | {one} | {two} | {more} |",
            without + with
        );
    }
}
