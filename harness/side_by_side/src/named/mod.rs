//! Named templates: the harness's model and the proved library on the same rows and name lists, `calls` of each, and all
//! `short` rows.

use std::process::ExitCode;

use harness::answer::{Answer, Refusal};
use harness::format::{Format, NUMBERS_PER_TOKEN, Row};
use harness::generate::random::Random;
use harness::generate::{Case, dressed, malformed};
use harness::named::generate::row;
use harness::named::name_lists::{NameList, file_of, name_list};

mod calls;
mod short;

use calls::Tally;
pub use short::exhaustive;

/// How long an `answer` is lent.
const ANSWER_LENGTHS: [usize; 12] = [0, 1, 2, 3, 4, 4, 4, 4, 4, 4, 5, 6];

/// Steps enough for most rows: the structure check takes exponentially many for some.
const AMPLE: u32 = 2_000;

/// One file in so many is damaged.
const DAMAGED: usize = 12;

/// The most calls on one row with other names, allowances and buffers.
const MOST_CALLS: usize = 7;

/// Calls on generated rows until there are `count`.
pub fn compare(seed: u64, count: u64) -> ExitCode {
    let mut run = Run {
        tally: Tally::default(),
        random: Random::new(seed),
    };
    while run.tally.notes.calls < count {
        run.round();
    }
    run.tally.noted().report()
}

struct Run {
    tally: Tally,
    random: Random,
}

impl Run {
    /// A row with its own allowance and buffer, then with others.
    fn round(&mut self) {
        let draft = row(&mut self.random);
        let Case { file, tree_len } = dressed(draft, &mut self.random);
        let Ok(mut row) = Row::read(&file) else {
            // Too many records, of which the first might be named.
            self.read(&Case { file, tree_len }, &file_of(&["A"]));
            return;
        };
        row.head.allowance = row.head.allowance.min(AMPLE);
        let mut file = row.write();
        if !row.tokens.is_empty()
            && row.tokens.len() <= malformed::LONGEST
            && self.random.one_in(DAMAGED)
        {
            malformed::damage(&mut self.random, Format::current(), &mut file);
            self.tally.notes.note("files damaged");
        }
        let names = self.names(&row);
        self.read_listed(&Case { file, tree_len }, &names);
        let mut names = self.names(&row);
        let mut steps = None;
        for _ in 0..self.random.below(MOST_CALLS) {
            if self.random.one_in(3) {
                names = self.names(&row);
                steps = None;
            }
            if self.random.one_in(3) {
                row.head.flag = 1 - row.head.flag;
                steps = None;
            }
            row.head.allowance = match steps {
                Some(steps) => self.allowance(steps),
                None => AMPLE,
            };
            let (file, tree_len) = (row.write(), self.tree_len(&row));
            let answer = self.read_listed(&Case { file, tree_len }, &names);
            steps = steps.or(Some(answer.steps()));
        }
    }

    fn names(&mut self, row: &Row) -> NameList {
        name_list(&mut self.random, row)
    }

    fn read_listed(&mut self, case: &Case, names: &NameList) -> Answer {
        let answer = self.read(case, &names.file);
        let outcome = match answer.refusal() {
            Some(Refusal::INVALID_NAME_LIST) => "8",
            Some(1..=Refusal::SHORT_BUFFER) => "1 to 6",
            _ => "passed",
        };
        let sort = names.sort;
        self.tally.notes.note(format!("names {sort}: {outcome}"));
        answer
    }

    fn read(&mut self, case: &Case, names: &[u8]) -> Answer {
        let answer_len = *self.random.pick(&ANSWER_LENGTHS);
        self.tally.read(&mut self.random, case, names, answer_len)
    }

    /// Mostly about the steps.
    fn allowance(&mut self, steps: u32) -> u32 {
        match self.random.below(10) {
            0 => 0,
            1 => self.random.below(1 + steps as usize) as u32,
            2..5 => steps.saturating_sub(1),
            5..8 => steps,
            8 => steps + 1,
            _ => AMPLE,
        }
    }

    /// Mostly just what the row needs.
    fn tree_len(&mut self, row: &Row) -> usize {
        let needed = NUMBERS_PER_TOKEN * row.tokens.len();
        match self.random.below(20) {
            0 => needed.saturating_sub(1),
            1 => needed.saturating_sub(NUMBERS_PER_TOKEN),
            2..5 => needed + 1 + self.random.below(2 * NUMBERS_PER_TOKEN),
            _ => needed,
        }
    }
}
