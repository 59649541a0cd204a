//! Single calls of the model and the proved library. Compared are the number that is returned and all that was lent, with
//! what stands around it: the file, `answer` and the tree buffer, the latter two full of junk before.

use std::hint::black_box;

use harness::answer::Refusal;
use harness::format::{NODE_WIDTH, NUMBERS_PER_TOKEN, Row};
use harness::generate::Case;
use harness::generate::random::Random;
use harness::lists::cut;
use harness::lists::model::{self, Numbers};
use harness::rules::model::hand_out;
use type_name::{ANSWER_LENGTH, type_name_read, type_name_read_list};

use crate::notes::Notes;
use crate::{DIRT, hex};

/// Numbers before and behind those that are lent.
const MARGIN: usize = 4;

/// What a call is lent and then leaves.
#[derive(Clone, PartialEq)]
struct Lent {
    returned: u32,
    file: Vec<u8>,
    tree: Vec<u32>,
    answer: Vec<u32>,
}

impl Lent {
    fn new(random: &mut Random, case: &Case, answer_len: usize) -> Self {
        let mut junk = |length: usize| {
            let number = |_| random.draw() as u32;
            (0..length + 2 * MARGIN).map(number).collect()
        };
        Self {
            returned: DIRT,
            file: case.file.clone(),
            tree: junk(case.tree_len),
            answer: junk(answer_len),
        }
    }

    fn after(mut self, call: impl FnOnce(&[u8], &mut [u32], &mut [u32]) -> u32) -> Self {
        let [tree, answer] = [&mut self.tree, &mut self.answer].map(|numbers| {
            let end = numbers.len() - MARGIN;
            &mut numbers[MARGIN..end]
        });
        self.returned = call(&self.file, tree, answer);
        // A callee that writes into the file is not to be reckoned away.
        black_box(self)
    }

    fn tree(&self) -> &[u32] {
        &self.tree[MARGIN..self.tree.len() - MARGIN]
    }

    fn answer(&self) -> &[u32] {
        &self.answer[MARGIN..self.answer.len() - MARGIN]
    }
}

#[derive(Default)]
pub struct Tally {
    pub notes: Notes,
}

impl Tally {
    /// Asks both, and the library for each part alone or for one type where that says something.
    pub fn read(&mut self, random: &mut Random, case: &Case, answer_len: usize) {
        let lent = Lent::new(random, case, answer_len);
        let mut numbers = Numbers::default();
        let expected = lent.clone().after(|file, tree, answer| {
            numbers = model::numbers(file, tree);
            hand_out(numbers, answer)
        });
        let found = lent.clone().after(type_name_read_list);
        self.notes.calls += 1;
        self.note(numbers);
        self.hold(expected == found, case, || {
            let mut pairs = expected.tree.iter().zip(&found.tree);
            let place = pairs.position(|(wanted, got)| wanted != got);
            let place = place.map(|place| place as isize - MARGIN as isize);
            let got = (found.returned, found.answer());
            format!("model {numbers:?}, library {got:?}, trees differ from {place:?}")
        });
        let row = Row::read(&case.file).ok();
        if let (Some(row), 0, Some(&numbers)) = (&row, found.returned, found.answer().first_chunk())
        {
            self.notes.note("each part read alone, too");
            self.hold(is_each_alone(row, numbers, found.tree()), case, || {
                format!("the parts alone give no {numbers:?} or other trees")
            });
        }
        let parts = row.map_or(0, |row| cut::parts(&row).len());
        if parts < 2 || (1..=Refusal::SHORT_BUFFER).contains(&found.returned) {
            self.notes.note("read as one type, too");
            let one = lent.after(type_name_read);
            self.hold(is_as_one(&one, &found), case, || {
                let got = (one.returned, one.answer());
                format!("as one type {got:?} or another tree")
            });
        }
    }

    fn note(&mut self, [number, .., part]: Numbers) {
        if number == 0 {
            self.notes.note_times("parts of accepted rows", part.into());
        }
        self.notes.note(match (number, part) {
            (0, 1) => "ok, 1 part".to_owned(),
            (0, 2..7) => "ok, 2 to 6 parts".to_owned(),
            (0, 7..100) => "ok, 7 to 99 parts".to_owned(),
            (0, _) => "ok, more parts".to_owned(),
            (1..=Refusal::SHORT_BUFFER, _) => format!("no {number:02}"),
            (_, 0) => format!("no {number:02}, part 0"),
            (_, _) => format!("no {number:02}, a later part"),
        });
    }

    fn hold(&mut self, same: bool, case: &Case, how: impl FnOnce() -> String) {
        let Case { file, tree_len } = case;
        self.notes.hold(same, file.len(), || {
            format!("file {}, room {tree_len}: {}", hex(file), how())
        });
    }
}

/// Whether the library's answer and trees of an accepted row are those that it gives for each part alone, and a tree begins
/// exactly where a token node has token 0.
fn is_each_alone(row: &Row, [_, nodes, steps, _, parts]: Numbers, mut trees: &[u32]) -> bool {
    let mut alone = [0; 3];
    for part in cut::parts(row) {
        let mut tree = vec![DIRT; NUMBERS_PER_TOKEN * part.len()];
        let mut answer = [DIRT; ANSWER_LENGTH];
        let file = model::alone(row, part, row.head.allowance);
        if type_name_read(&file, &mut tree, &mut answer) != 0 {
            return false;
        }
        let [_, nodes, steps, _] = answer;
        let tree = &tree[..NODE_WIDTH * nodes as usize];
        let Some(behind) = trees.strip_prefix(tree).filter(|_| begins_once(tree)) else {
            return false;
        };
        trees = behind;
        alone = [alone[0] + nodes, alone[1] + steps, alone[2] + 1];
    }
    alone == [nodes, steps, parts]
}

/// Whether the first node is a token node of token 0, and no other.
fn begins_once(tree: &[u32]) -> bool {
    let (records, _) = tree.as_chunks::<NODE_WIDTH>();
    let mut nodes = records.iter().enumerate();
    nodes.all(|(place, [kind, token, _])| (place == 0) == (*kind == 0 && *token == 0))
}

/// Whether the call for one type leaves what the call for several does, but for the fifth number.
fn is_as_one(one: &Lent, several: &Lent) -> bool {
    let [one_answer, several_answer] = [one, several].map(|lent| {
        let numbers = lent.answer();
        &numbers[..numbers.len().min(ANSWER_LENGTH)]
    });
    one.returned == several.returned && one.tree == several.tree && one_answer == several_answer
}
