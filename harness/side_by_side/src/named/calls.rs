//! Single calls of the model and the proved library. Compared are the number that is returned and all that was lent, with
//! what stands around it: the file, the name list, `answer` and the tree buffer, the latter two full of junk before.

use std::collections::BTreeMap;
use std::hint::black_box;

use harness::answer::{Answer, Refusal};
use harness::format::{ANSWER_LENGTH, Format, NODE_WIDTH, Row, Token};
use harness::generate::Case;
use harness::generate::random::Random;
use harness::lists::text;
use harness::named::agreement::is_same;
use harness::named::model;
use harness::named::names::Names;
use harness::named::plain;
use harness::profile::HostLanguage;
use harness::rules::model::hand_out;
use type_name::{type_name_read, type_name_read_named};

use crate::notes::Notes;
use crate::{DIRT, hex};

/// Numbers before and behind those that are lent.
const MARGIN: usize = 4;

/// How many of those that differ are shown.
const SHOWN: u64 = 10;

/// What a call is lent and then leaves.
#[derive(Clone, PartialEq)]
struct Lent {
    returned: u32,
    file: Vec<u8>,
    names: Vec<u8>,
    tree: Vec<u32>,
    answer: Vec<u32>,
}

/// What is between the margins.
fn inner(numbers: &[u32]) -> &[u32] {
    &numbers[MARGIN..numbers.len() - MARGIN]
}

fn inner_mut(numbers: &mut [u32]) -> &mut [u32] {
    let end = numbers.len() - MARGIN;
    &mut numbers[MARGIN..end]
}

impl Lent {
    fn new(random: &mut Random, case: &Case, names: &[u8], answer_len: usize) -> Self {
        let mut junk = |length: usize| {
            let number = |_| random.draw() as u32;
            (0..length + 2 * MARGIN).map(number).collect()
        };
        Self {
            returned: DIRT,
            file: case.file.clone(),
            names: names.to_vec(),
            tree: junk(case.tree_len),
            answer: junk(answer_len),
        }
    }

    fn after(mut self, call: impl FnOnce(&[u8], &[u8], &mut [u32], &mut [u32]) -> u32) -> Self {
        let tree = inner_mut(&mut self.tree);
        let answer = inner_mut(&mut self.answer);
        self.returned = call(&self.file, &self.names, tree, answer);
        // A callee that writes into the files is not to be reckoned away.
        black_box(self)
    }

    /// What the call with this answer and tree leaves.
    fn settled(self, answer: impl FnOnce(&mut [u32]) -> Answer) -> Self {
        self.after(|_, _, tree, numbers| {
            tree.fill(0);
            hand_out(answer(tree).numbers(), numbers)
        })
    }
}

#[derive(Default)]
pub struct Tally {
    pub notes: Notes,
    differ: u64,
    /// How often each number was answered, 0 if accepted.
    answers: BTreeMap<u32, u64>,
}

impl Tally {
    /// Asks both, and the original or the old entry where they must say the same. Gives the model's answer.
    pub fn read(
        &mut self,
        random: &mut Random,
        case: &Case,
        names: &[u8],
        answer_len: usize,
    ) -> Answer {
        let lent = Lent::new(random, case, names, answer_len);
        let mut answer = None;
        let expected = lent.clone().after(|file, names, tree, numbers| {
            let given = model::answer(file, names, tree);
            answer = Some(given);
            hand_out(given.numbers(), numbers)
        });
        let answer: Answer = answer.expect("the model was called");
        let found = lent.clone().after(type_name_read_named);
        self.notes.calls += 1;
        *self
            .answers
            .entry(answer.refusal().unwrap_or(0))
            .or_default() += 1;
        self.hold("model", &expected, &found);
        if answer
            .refusal()
            .is_none_or(|number| number > Refusal::INVALID_NAME_LIST)
        {
            self.elsewhere(lent, &found);
        }
        answer
    }

    /// For a row of C++ and a name list that are both good.
    fn elsewhere(&mut self, lent: Lent, found: &Lent) {
        let row = Row::read(&lent.file).expect("a good file");
        let names = Names::read(&lent.names).expect("a good list");
        assert_eq!(row.profile().language(), HostLanguage::Cpp);
        if plain::is_plain(&row, &names) {
            self.notes
                .note("no list opened: the original without lists, too");
            let plain = lent.clone().settled(|tree| plain::answer(&row, tree));
            self.hold("original without lists", &plain, found);
        }
        let mut numbers = [0; ANSWER_LENGTH];
        let mut old = lent.clone();
        old.returned = type_name_read(&lent.file, inner_mut(&mut old.tree), &mut numbers);
        let records = NODE_WIDTH * numbers[1] as usize;
        if old.returned == 0 && is_same(&row, &names, &inner(&old.tree)[..records]) {
            let has_list = old.tree[MARGIN..MARGIN + records]
                .chunks(NODE_WIDTH)
                .any(|node| node[0] == 3);
            self.notes.note(match has_list {
                true => "the old entry accepts with the same lists: that entry, too",
                false => "the old entry accepts without lists: that entry, too",
            });
            hand_out(numbers, inner_mut(&mut old.answer));
            self.hold("old entry", &old, found);
        }
    }

    fn hold(&mut self, whose: &str, expected: &Lent, found: &Lent) {
        let same = expected == found;
        self.differ += u64::from(!same);
        let shown = || {
            let Lent {
                file, names, tree, ..
            } = expected;
            let row = Row::read(file).map_or("no row".to_owned(), |row| {
                let head = row.head;
                format!("`{}` {head:?}", text::written(&row.tokens))
            });
            let mut pairs = tree.iter().zip(&found.tree);
            let place = pairs.position(|(wanted, got)| wanted != got);
            let place = place.map(|place| place as isize - MARGIN as isize);
            format!(
                "{row}, names {}, room {}: {whose} {} {:?}, library {} {:?}, trees differ from {place:?}; file {} names {}",
                shown_names(names),
                tree.len() - 2 * MARGIN,
                expected.returned,
                inner(&expected.answer),
                found.returned,
                inner(&found.answer),
                hex(file),
                hex(names),
            )
        };
        if !same && self.differ <= SHOWN {
            println!("differs: {}", shown());
        }
        self.notes
            .hold(same, found.file.len() + found.names.len(), shown);
    }

    /// With the numbers of answers among what was seen.
    pub fn noted(mut self) -> Notes {
        for (number, times) in self.answers {
            let name = match number {
                0 => "ok".to_owned(),
                _ => format!("no {number:02}"),
            };
            self.notes.note_times(name, times);
        }
        self.notes
    }
}

/// The first words of a list, as far as they are written there.
fn shown_names(names: &[u8]) -> String {
    let format = Format::current();
    let mut words = Vec::new();
    let mut rest = names;
    while let Some(token) = Token::read(format, rest).filter(|_| words.len() < 8) {
        rest = &rest[token.length(format)..];
        words.push(token.word);
    }
    match rest.len() {
        0 => format!("{words:?}"),
        more => format!("{words:?} and {more} bytes"),
    }
}
