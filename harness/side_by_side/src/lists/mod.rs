//! Several types in one row: the harness's model and the proved library on the same rows, `calls` of each.

use std::process::ExitCode;

use harness::format::{Format, NUMBERS_PER_TOKEN, Row};
use harness::generate::random::Random;
use harness::generate::{Case, dressed, exhaustive, malformed};
use harness::lists::generate::list;
use harness::lists::model::{self, Reading};
use harness::lists::text;

mod calls;

use calls::Tally;

/// How long an `answer` is lent.
const ANSWER_LENGTHS: [usize; 14] = [0, 1, 2, 3, 4, 5, 5, 5, 5, 5, 5, 6, 7, 8];

/// What cutting looks at, and a word; and its angles alone. Each with how long the rows over it are.
const ALPHABETS: [(&str, usize); 2] = [("A , < > >> ( ) $", 4), ("A , < >", 6)];

/// Steps enough for most rows; some take exponentially many.
const AMPLE: u32 = 2_000;

/// Rows of more parts take long, and are read once or twice.
const MANY_PARTS: usize = 50;

/// Calls on rows that are the same in every run, then on generated ones until there are `count`.
pub fn compare(seed: u64, count: u64) -> ExitCode {
    let mut run = Run {
        tally: Tally::default(),
        random: Random::new(seed),
    };
    run.short_rows();
    while run.tally.notes.calls < count {
        run.round();
    }
    run.tally.notes.report()
}

struct Run {
    tally: Tally,
    random: Random,
}

impl Run {
    /// All rows over the alphabets, in every language with both flags.
    fn short_rows(&mut self) {
        for (alphabet, longest) in ALPHABETS {
            for tokens in exhaustive::rows(text::tokens(alphabet), 0..=longest) {
                for case in exhaustive::each_way(tokens) {
                    self.read(&case);
                }
            }
        }
    }

    /// A row with its own allowance and buffer, with others, and damaged.
    fn round(&mut self) {
        let draft = list(&mut self.random);
        let case = dressed(draft, &mut self.random);
        let Ok(mut row) = Row::read(&case.file) else {
            return self.read(&case);
        };
        row.head.allowance = row.head.allowance.min(AMPLE);
        let tree_len = case.tree_len;
        let file = row.write();
        self.read(&Case { file, tree_len });
        row.head.allowance = AMPLE;
        let reading = model::read(&row);
        let many = reading.steps.len() > MANY_PARTS;
        let most = if many { 2 } else { 7 };
        for _ in 0..self.random.below(most) {
            row.head.allowance = self.allowance(&reading);
            let (file, tree_len) = (row.write(), self.tree_len(&row));
            self.read(&Case { file, tree_len });
        }
        if (1..=malformed::LONGEST).contains(&row.tokens.len()) && self.random.one_in(4) {
            let mut file = row.write();
            malformed::damage(&mut self.random, Format::current(), &mut file);
            self.read(&Case { file, tree_len });
        }
    }

    fn read(&mut self, case: &Case) {
        let answer_len = *self.random.pick(&ANSWER_LENGTHS);
        self.tally.read(&mut self.random, case, answer_len);
    }

    /// Mostly about the steps by the end of some part; the greatest only where it is known that few are taken.
    fn allowance(&mut self, reading: &Reading) -> u32 {
        let end = *self.random.pick(&reading.steps);
        match self.random.below(12) {
            0 => 0,
            1 => 1,
            2 | 3 if reading.refusal.is_none() => u32::MAX,
            4..7 => end.saturating_sub(1),
            7..10 => end,
            _ => end + 1,
        }
    }

    /// Mostly just what the row needs.
    fn tree_len(&mut self, row: &Row) -> usize {
        let needed = NUMBERS_PER_TOKEN * row.tokens.len();
        match self.random.below(20) {
            0 => needed.saturating_sub(1),
            1 => needed.saturating_sub(NUMBERS_PER_TOKEN),
            2..5 => needed + 1 + self.random.below(2 * NUMBERS_PER_TOKEN),
            _ => needed,
        }
    }
}
