//! Rows that begin with a template, and numbers that are nearly a tree: the
//! same source of random numbers gives the same rows and numbers.

use crate::format::{NODE_WIDTH, Token};
use crate::generate::random::Random;
use crate::generate::writer::Writer;
use crate::generate::{Draft, angles, c, cpp, deep, fortran, mutated, words, written};
use crate::kind::Kind;
use crate::lists;
use crate::profile::HostLanguage;
use crate::tree::NodeKind;

const T: u32 = NodeKind::Token as u32;
const L: u32 = NodeKind::List as u32;
const A: u32 = NodeKind::Argument as u32;

/// The most arguments of most lists, and of one in so many.
const FEW_ARGUMENTS: usize = 5;
const MORE_ARGUMENTS: usize = 200;
const MORE: usize = 20;

/// One row in so many is deep or long.
const DEEP: usize = 100;

type Style = fn(&mut Random) -> Draft;

#[rustfmt::skip]
const STYLES: [Style; 14] = [
    templated, templated, templated, templated, templated, templated, templated, templated,
    cpp, angles::angles, c, fortran, words::words, mutated::mutated,
];

/// A row of one type, of C++ and beginning with a template in most cases.
pub fn row(random: &mut Random) -> Draft {
    if random.one_in(DEEP) {
        return deep::deep(random);
    }
    let style = *random.pick(&STYLES);
    style(random)
}

/// A row of several types, with commas between them.
pub fn rows(random: &mut Random) -> Draft {
    if random.one_in(3) {
        return lists::generate::list(random);
    }
    let Draft { language, tokens } = row(random);
    let mut parts = vec![tokens];
    for _ in 0..random.below(3) {
        let write = |writer: &mut Writer| match language {
            HostLanguage::Fortran => writer.fortran_type(1),
            _ => writer.c_family_type(1),
        };
        parts.push(written(random, language, write).tokens);
    }
    let tokens = parts.join(&Token::plain(Kind::Comma));
    Draft { language, tokens }
}

/// `A<b,c>`, with something behind it at times.
fn templated(random: &mut Random) -> Draft {
    written(random, HostLanguage::Cpp, |writer| {
        writer.name();
        writer.arguments();
        match writer.random.below(8) {
            0 => writer.put(Kind::Star),
            1 => writer.put_one_of(&[Kind::Ampersand, Kind::LogicalAnd]),
            2 => writer.brackets(|writer| writer.put(Kind::Integer)),
            3 => {
                writer.put(Kind::Scope);
                writer.name();
                writer.arguments();
            }
            4 => writer.parentheses(|writer| writer.c_family_type(1)),
            _ => {}
        }
    })
}

impl Writer<'_> {
    fn arguments(&mut self) {
        if self.random.one_in(4) {
            return self.template_list(2);
        }
        let most = match self.random.one_in(MORE) {
            true => MORE_ARGUMENTS,
            false => FEW_ARGUMENTS,
        };
        self.list(|writer| writer.comma_separated(most, Writer::argument));
    }

    /// Of one node, or of more.
    fn argument(&mut self) {
        match self.random.below(6) {
            0 => self.put(Kind::Integer),
            1 | 2 => self.name(),
            3 => {
                self.name();
                self.template_list(0);
            }
            4 => self.c_family_type(1),
            _ => self.c_family_type(0),
        }
    }
}

/// Any number; half of them might be a kind or an extent.
pub fn junk(random: &mut Random) -> u32 {
    let draw = random.draw();
    match draw >> 63 {
        0 => draw as u32,
        _ => draw as u32 % 7,
    }
}

/// Other numbers everywhere but for the kinds and extents of these nodes, which
/// are named in order. A second node that is not among them becomes no list.
pub fn scatter(random: &mut Random, tree: &mut [u32], kept: &[usize]) {
    let is_kept = |place: usize| kept.binary_search(&place).is_ok();
    for (place, node) in tree.chunks_mut(NODE_WIDTH).enumerate() {
        let is_kept = is_kept(place);
        for (field, number) in node.iter_mut().enumerate() {
            if field == 1 || !is_kept {
                *number = junk(random);
            }
        }
    }
    if !is_kept(1) && tree.get(NODE_WIDTH) == Some(&L) {
        tree[NODE_WIDTH] = A;
    }
}

/// Extents about the ends of 31 and 32 bits, and those of which three times as
/// much is just beyond 32 or 33 bits.
#[rustfmt::skip]
const HUGE: [u32; 12] = [
    u32::MAX, u32::MAX - 1, u32::MAX - 2, u32::MAX - 3, 0x8000_0000, 0x7fff_ffff, 0x8000_0001,
    0x5555_5555, 0x5555_5556, 0x5555_5557, 0xaaaa_aaaa, 0xaaaa_aaab,
];

/// A number of which one bit is another.
fn with_other_bit(random: &mut Random, number: u32) -> u32 {
    number ^ 1 << random.below(32)
}

/// Another kind, mostly one that there is.
fn other_kind(random: &mut Random, kind: u32) -> u32 {
    match random.below(8) {
        0 => random.draw() as u32,
        1 | 2 => with_other_bit(random, kind),
        _ => random.below(6) as u32,
    }
}

/// Another extent, mostly one that is nearly right.
fn other_extent(random: &mut Random, extent: u32, nodes: u32) -> u32 {
    match random.below(16) {
        0..3 => 0,
        3 | 4 => 1,
        5 | 6 => extent.wrapping_add(1),
        7 | 8 => extent.wrapping_sub(1),
        // About what the buffer has room for.
        9 | 10 => (nodes + 1).wrapping_sub(random.below(4) as u32),
        11 => random.below(7) as u32,
        12 => random.draw() as u32,
        13 => with_other_bit(random, extent),
        _ => *random.pick(&HUGE),
    }
}

/// One to three changes, mostly of the nodes that the answer depends on.
pub fn damage(random: &mut Random, tree: &mut Vec<u32>, looked_at: &[usize]) {
    for _ in 0..*random.pick(&[1, 1, 1, 2, 3]) {
        damage_once(random, tree, looked_at);
    }
}

fn damage_once(random: &mut Random, tree: &mut Vec<u32>, looked_at: &[usize]) {
    let end = tree.len();
    let place = match random.below(4) {
        0 => 1,
        _ => *random.pick(looked_at),
    };
    // The node at that place, and any number.
    let at = NODE_WIDTH * place;
    let any = random.below(end + 1);
    match random.below(16) {
        0..3 if at < end => tree[at] = other_kind(random, tree[at]),
        3..9 if at + 2 < end => {
            let nodes = (end / NODE_WIDTH) as u32;
            tree[at + 2] = other_extent(random, tree[at + 2], nodes);
        }
        9 if any < end => tree[any] = junk(random),
        10 => tree.truncate(any),
        11 => tree.truncate((at + NODE_WIDTH).saturating_sub(random.below(4))),
        12 => tree.insert(any, junk(random)),
        13 if any < end => drop(tree.remove(any)),
        14 if at <= end => {
            drop(tree.splice(at..at, [A, 0, 1]));
            lengthen(random, tree, 1);
        }
        15 if at + NODE_WIDTH <= end => {
            drop(tree.drain(at..at + NODE_WIDTH));
            lengthen(random, tree, u32::MAX);
        }
        _ => {}
    }
}

/// Adds to the list's extent, modulo 2^32, as is right where a node was put in
/// or taken out below it; not always.
fn lengthen(random: &mut Random, tree: &mut [u32], by: u32) {
    if let Some(extent) = tree.get_mut(NODE_WIDTH + 2)
        && random.below(4) > 0
    {
        *extent = extent.wrapping_add(by);
    }
}

/// A word and a list of a few arguments, with junk below these, behind the list
/// and as token numbers; in most cases one of them is not quite right.
pub fn nearly(random: &mut Random) -> Vec<u32> {
    let arguments = 1 + random.below(4);
    let extents: Vec<u32> = (0..arguments).map(|_| 1 + random.below(3) as u32).collect();
    let mut tree = vec![T, junk(random), 1, L, junk(random), 1];
    let mut looked_at = vec![0, 1];
    for extent in extents {
        looked_at.push(tree.len() / NODE_WIDTH);
        tree.extend([A, junk(random), extent]);
        for _ in 0..NODE_WIDTH * (extent as usize - 1) {
            tree.push(junk(random));
        }
        tree[NODE_WIDTH + 2] += extent;
    }
    for _ in 0..random.below(2) * random.below(7) {
        tree.push(junk(random));
    }
    if !random.one_in(4) {
        damage(random, &mut tree, &looked_at);
    }
    tree
}

/// Up to 30 small numbers, with the right kind in its place at times.
pub fn small(random: &mut Random) -> Vec<u32> {
    let length = random.below(31);
    let node = |random: &mut Random, place: usize| {
        let right = completing(NODE_WIDTH * place);
        let kind = match random.below(10) {
            0 => other_kind(random, right),
            _ => right,
        };
        let extent = match random.below(20) {
            0 => *random.pick(&HUGE),
            1..11 if place != 1 => 1,
            _ => random.below(7) as u32,
        };
        [kind, junk(random), extent]
    };
    let nodes = (0..length.div_ceil(NODE_WIDTH)).flat_map(|place| node(random, place));
    let mut numbers: Vec<u32> = nodes.collect();
    numbers.truncate(length);
    numbers
}

/// The number at a place of a buffer that is good to the end: a word, a list
/// and arguments of one node each. What stands behind lent numbers is of this
/// sort, so that who reads on finds what is missing.
pub fn completing(at: usize) -> u32 {
    const GOOD: [[u32; NODE_WIDTH]; 3] = [[T, 0, 1], [L, 0, 2], [A, 0, 1]];
    GOOD[(at / NODE_WIDTH).min(2)][at % NODE_WIDTH]
}

/// The kinds other than T, L and A that short sequences have.
const OTHERS: [u32; 5] = [1, 2, 5, 6, u32::MAX];

/// What their nodes are made of: a kind, `None` for one of the others, and an
/// extent.
const SHORT_KINDS: [Option<u32>; 4] = [Some(T), Some(L), Some(A), None];
const SHORT_EXTENTS: [u32; 7] = [0, 1, 2, 3, 4, 5, u32::MAX];

/// All sequences of so many nodes, each with 0 to 2 numbers of one more behind
/// it. Token numbers, and which of the other kinds a node has, are drawn, but
/// the same in every run.
pub fn each_short(nodes: usize, mut each: impl FnMut(&[u32])) {
    let options = SHORT_KINDS.len() * SHORT_EXTENTS.len();
    let mut random = Random::new(nodes as u64);
    let mut numbers: Vec<u32> = (0..NODE_WIDTH * (nodes + 1)).map(completing).collect();
    let sequences = options.pow(nodes as u32);
    for sequence in 0..sequences {
        let mut rest = sequence;
        for node in numbers.chunks_exact_mut(NODE_WIDTH).take(nodes) {
            let option = rest % options;
            rest /= options;
            let kind = SHORT_KINDS[option / SHORT_EXTENTS.len()];
            node[0] = kind.unwrap_or_else(|| *random.pick(&OTHERS));
            node[1] = junk(&mut random);
            node[2] = SHORT_EXTENTS[option % SHORT_EXTENTS.len()];
        }
        for left_over in 0..NODE_WIDTH {
            each(&numbers[..NODE_WIDTH * nodes + left_over]);
        }
    }
}
