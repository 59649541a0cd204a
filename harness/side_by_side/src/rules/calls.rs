//! Single calls of the model and the proved library. Compared are the number that is returned, every number of `answer` and
//! of the tree buffer and every byte of `sequence`, all filled with something else before.

use harness::answer::Refusal;
use harness::format::LANGUAGE_AT;
use harness::generate::Case;
use harness::oracle;
use harness::rules::format;
use harness::rules::model::{self, Pair, Table};

use crate::notes::Notes;
use crate::{DIRT, hex};
use type_name::{type_name_match, type_name_overlap};

const DIRTY_BYTE: u8 = 0xa5;

/// A table file and, if it is one, its rules.
pub struct Rules {
    file: Vec<u8>,
    table: Option<Table>,
}

impl Rules {
    pub fn new(file: Vec<u8>) -> Self {
        let table = Table::read(&file);
        Self { file, table }
    }

    pub fn places(&self) -> usize {
        self.table.as_ref().map_or(0, |table| table.rules().len())
    }

    fn pair_behind(&self, numbers: Pair) -> Option<(&Table, Pair)> {
        let table = self.table.as_ref()?;
        Some((table, table.pair_behind(numbers)?))
    }

    /// The bytes shown for the pair behind two numbers, none if there is no such pair.
    pub fn shown(&self, numbers: Pair) -> Vec<u8> {
        let pair = self.pair_behind(numbers);
        pair.map_or(Vec::new(), |(table, pair)| {
            format::written(&table.shown(pair))
        })
    }
}

#[derive(Default)]
pub struct Tally {
    pub notes: Notes,
}

/// What a call leaves: the number returned, `answer`, and the tree buffer or the sequence.
type Left<T> = (u32, Vec<u32>, Vec<T>);

/// Makes a call with buffers of these lengths.
fn left<T: Clone>(
    lengths: (usize, usize),
    dirt: T,
    call: impl FnOnce(&mut [T], &mut [u32]) -> u32,
) -> Left<T> {
    let mut written = vec![dirt; lengths.0];
    let mut answer = vec![DIRT; lengths.1];
    let returned = call(&mut written, &mut answer);
    (returned, answer, written)
}

impl Tally {
    /// Asks both which rule wins.
    pub fn find(&mut self, case: &Case, rules: &Rules, answer_len: usize) {
        let lengths = (case.tree_len, answer_len);
        let expected = left(lengths, DIRT, |tree, answer| {
            model::type_name_match(&case.file, &rules.file, tree, answer)
        });
        let found = left(lengths, DIRT, |tree, answer| {
            type_name_match(&case.file, &rules.file, tree, answer)
        });
        self.notes.note(match (expected.0, expected.1.get(3)) {
            (0, Some(0)) => "match: rule 0".to_owned(),
            (0, Some(_)) => "match: a later rule".to_owned(),
            (0, None) => "match: some rule, `answer` too short for its place".to_owned(),
            (number, _) => format!("match: no {number:02}"),
        });
        if expected.0 == 0 {
            self.notes
                .note(format!("a winner, language {}", case.file[LANGUAGE_AT]));
        }
        if rules.table.is_none() {
            self.note_order(case);
        }
        let input = || {
            format!(
                "match, file {}, rules {}",
                hex(&case.file),
                hex(&rules.file)
            )
        };
        let size = case.file.len() + rules.file.len();
        self.compare(&expected, &found, size, input);
    }

    /// What a bad table stood beside.
    fn note_order(&mut self, case: &Case) {
        let row = oracle::answer(&case.file, &mut vec![DIRT; case.tree_len]);
        self.notes.note(match row.refusal() {
            None => "a bad table and an accepted row",
            Some(1..=Refusal::SHORT_BUFFER) => "a bad table and a row refused by 1 to 6",
            Some(_) => "a bad table and a row refused by 10 to 40",
        });
    }

    /// Asks both for the pair behind two numbers and gives the one that the library has, if `answer` has room for it.
    pub fn overlap(
        &mut self,
        rules: &Rules,
        numbers: Pair,
        room: usize,
        answer_len: usize,
    ) -> Option<Pair> {
        let lengths = (room, answer_len);
        let expected = left(lengths, DIRTY_BYTE, |sequence, answer| {
            model::overlap(rules.table.as_ref(), numbers, sequence, answer)
        });
        let found = left(lengths, DIRTY_BYTE, |sequence, answer| {
            type_name_overlap(&rules.file, numbers.0, numbers.1, sequence, answer)
        });
        let pair = rules.pair_behind(numbers);
        self.notes.note(match (expected.0, pair) {
            (0, Some(_)) => "overlap: a pair".to_owned(),
            (0, None) => "overlap: no further pair".to_owned(),
            (number, _) => format!("overlap: no {number:02}"),
        });
        let input = || format!("overlap, rules {}, behind {numbers:?}", hex(&rules.file));
        if let Some((table, pair)) = pair {
            self.notes
                .hold(table.matches_shown(pair), rules.file.len(), input);
        }
        self.compare(&expected, &found, rules.file.len(), input);
        match (found.0, &found.1[..]) {
            (0, &[0, earlier, later, ..]) if later > 0 => Some((earlier, later)),
            _ => None,
        }
    }

    /// Holds the pairs that a walk found to the model's.
    pub fn walked(&mut self, rules: &Rules, found: &[Pair]) {
        self.notes.note("whole walks");
        let pairs = rules.table.as_ref().map_or(&[][..], Table::pairs);
        self.notes.hold(found == pairs, rules.file.len(), || {
            format!("walk, rules {}: {found:?}", hex(&rules.file))
        });
    }

    /// Counts a call, and a difference if there is one.
    fn compare<T: PartialEq>(
        &mut self,
        expected: &Left<T>,
        found: &Left<T>,
        size: usize,
        input: impl Fn() -> String,
    ) {
        self.notes.calls += 1;
        self.notes.hold(expected == found, size, || {
            let (wanted, got) = ((expected.0, &expected.1), (found.0, &found.1));
            let room = found.2.len();
            let from = (0..room).find(|&at| expected.2[at] != found.2[at]);
            let input = input();
            format!("{input}, room {room}: model {wanted:?}, library {got:?}, buffers differ from {from:?}")
        });
    }
}
