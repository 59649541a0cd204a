//! Single calls of the model and the proved library on lent numbers. Compared are the number that is returned and, with what
//! stands around them, the numbers: nothing is written. Behind them stands what would make a list of them if it counted.

use std::hint::black_box;

use harness::outer::generate::completing;
use harness::outer::model::{Fault, arguments};
use type_name::type_name_outer;

use crate::DIRT;
use crate::notes::Notes;

/// Numbers before and behind those that are lent.
const MARGIN: usize = 12;

/// The most numbers that are printed of an input.
const SHOWN: usize = 60;

/// Where numbers come from.
#[derive(Clone, Copy)]
pub enum Source {
    /// All sequences of few nodes.
    Short,
    /// Accepted trees, also with other numbers where these do not count.
    Tree,
    Damaged,
    Nearly,
    Small,
}

impl Source {
    const ALL: [(Self, &str); 5] = [
        (Self::Short, "short sequences"),
        (Self::Tree, "accepted trees"),
        (Self::Damaged, "damaged trees"),
        (Self::Nearly, "nearly trees"),
        (Self::Small, "small numbers"),
    ];
}

/// The sorts of lists that are told apart.
const LISTS: [&str; 4] = [
    "list, 1 argument",
    "list, 2 to 6 arguments",
    "list, 7 to 99 arguments",
    "list, more arguments",
];

#[derive(Default)]
pub struct Tally {
    pub notes: Notes,
    /// By source: calls, those with a list and those that differ.
    sources: [[u64; 3]; Source::ALL.len()],
    /// What the calls came to that were not of short sequences.
    lists: [u64; LISTS.len()],
    faults: [u64; Fault::ALL.len()],
    /// What is lent, with what stands around it.
    memory: Vec<u32>,
}

impl Tally {
    /// The calls that were not of short sequences.
    pub fn generated(&self) -> u64 {
        self.notes.calls - self.sources[Source::Short as usize][0]
    }

    /// Asks both of numbers of which nothing else is known.
    pub fn ask(&mut self, source: Source, numbers: &[u32]) {
        self.hold(source, numbers, None);
    }

    /// Asks both of numbers that have so many arguments, by the original's tree.
    pub fn ask_known(&mut self, numbers: &[u32], arguments: u32) {
        self.hold(Source::Tree, numbers, Some(arguments));
    }

    fn hold(&mut self, source: Source, numbers: &[u32], known: Option<u32>) {
        let model = arguments(numbers);
        let counted = model.unwrap_or(0);
        let expected = known.unwrap_or(counted);
        let (found, is_left) = self.library(numbers);
        let same = found == expected && counted == expected && is_left;
        self.notes.calls += 1;
        let [calls, lists, differ] = &mut self.sources[source as usize];
        *calls += 1;
        *lists += u64::from(expected > 0);
        *differ += u64::from(!same);
        if !matches!(source, Source::Short) {
            match model {
                Ok(count) => self.lists[list(count)] += 1,
                Err(fault) => self.faults[fault as usize] += 1,
            }
        }
        self.notes.hold(same, numbers.len(), || {
            let length = numbers.len();
            let numbers = &numbers[..length.min(SHOWN)];
            let left = if is_left { "left" } else { "changed" };
            format!(
                "{length} numbers {numbers:?}, which are {left}: original {known:?}, model {model:?}, library {found}"
            )
        });
    }

    /// What the library answers, and whether it leaves the numbers and what stands around them as they were.
    fn library(&mut self, numbers: &[u32]) -> (u32, bool) {
        let end = numbers.len();
        let behind = || (end..end + MARGIN).map(completing);
        self.memory.clear();
        self.memory.extend([DIRT; MARGIN]);
        self.memory.extend_from_slice(numbers);
        self.memory.extend(behind());
        let found = type_name_outer(&self.memory[MARGIN..][..end]);
        // A callee that writes is not to be reckoned away.
        let memory = black_box(&mut self.memory);
        let is_left = memory[..MARGIN] == [DIRT; MARGIN]
            && memory[MARGIN..][..end] == *numbers
            && memory[MARGIN + end..].iter().copied().eq(behind());
        (found, is_left)
    }

    /// The library accepted a row that the original refuses.
    pub fn refused(&mut self, row: String) {
        self.notes.hold(false, row.len(), || {
            format!("{row}: accepted by the library, not by the original")
        });
    }

    /// Hands over what was counted, to be reported.
    pub fn noted(mut self) -> Notes {
        for (sort, times) in LISTS.into_iter().zip(self.lists) {
            self.notes.note_times(sort, times);
        }
        for (fault, times) in Fault::ALL.into_iter().zip(self.faults) {
            let name = format!("no list, {}", fault.name());
            self.notes.note_times(name, times);
        }
        for (source, name) in Source::ALL {
            let [calls, lists, differ] = self.sources[source as usize];
            self.notes.note_times(format!("of {name}: calls"), calls);
            self.notes
                .note_times(format!("of {name}: with a list"), lists);
            if differ > 0 {
                self.notes.note_times(format!("of {name}: differ"), differ);
            }
        }
        let lists = self.sources.iter().map(|[_, lists, _]| lists).sum();
        self.notes.note_times("with a list, in all", lists);
        self.notes
    }
}

fn list(count: u32) -> usize {
    match count {
        0 | 1 => 0,
        2..7 => 1,
        7..100 => 2,
        _ => 3,
    }
}
