//! The outer template by extents: the harness's model and the proved library on the same numbers, `calls` of each.

use std::process::ExitCode;

use harness::format::{NODE_WIDTH, NUMBERS_PER_TOKEN, Row};
use harness::generate::dressed;
use harness::generate::random::Random;
use harness::lists::cut;
use harness::lists::model::LIST_ANSWER_LENGTH;
use harness::outer::generate::{damage, each_short, nearly, row, rows, scatter, small};
use harness::outer::whole::{looked_at, original};
use type_name::{type_name_read, type_name_read_list};

mod calls;

use calls::{Source, Tally};

use crate::DIRT;

/// All sequences of up to so many nodes.
const SHORT: usize = 5;

/// Steps enough for most rows; some take exponentially many.
const AMPLE: u32 = 2_000;

/// One row in so many is one of several types.
const SEVERAL: usize = 3;

/// How many more numbers than a row needs its buffer may have.
const SPARE: [usize; 6] = [0, 0, 1, 2, 3, 20];

/// How often numbers are put elsewhere in a tree, how often it is damaged, and how many other numbers a round has.
const SCATTERED: usize = 3;
const DAMAGED: usize = 8;
const OTHERS: usize = 3;

/// Calls on short sequences, which are the same in every run, then `count` on generated numbers or some more.
pub fn compare(seed: u64, count: u64) -> ExitCode {
    let mut run = Run {
        tally: Tally::default(),
        random: Random::new(seed),
    };
    for nodes in 0..=SHORT {
        each_short(nodes, |numbers| run.tally.ask(Source::Short, numbers));
    }
    while run.tally.generated() < count {
        run.round();
    }
    run.tally.noted().report()
}

struct Run {
    tally: Tally,
    random: Random,
}

/// The tree buffer of an accepted row.
struct Read {
    row: Row,
    buffer: Vec<u32>,
    /// Of all types.
    nodes: usize,
}

impl Run {
    fn round(&mut self) {
        for _ in 0..OTHERS {
            let numbers = nearly(&mut self.random);
            self.tally.ask(Source::Nearly, &numbers);
            let numbers = small(&mut self.random);
            self.tally.ask(Source::Small, &numbers);
        }
        let Some(Read { row, buffer, nodes }) = self.read() else {
            return self.tally.notes.note("rows refused");
        };
        // The first type's tree decides.
        let Some(whole) = original(&row) else {
            return self.tally.refused(format!("{row:?}"));
        };
        let language = row.profile().language();
        self.tally.notes.note(match nodes == whole.nodes {
            true => format!("rows accepted, {language:?}"),
            false => format!("rows accepted, {language:?}, several types"),
        });
        let looked_at = looked_at(&buffer[..NODE_WIDTH * whole.nodes]);
        // Cut to that tree, to all trees, and as it is.
        let lengths = [NODE_WIDTH * whole.nodes, NODE_WIDTH * nodes, buffer.len()];
        for length in lengths {
            self.tally.ask_known(&buffer[..length], whole.arguments);
        }
        for _ in 0..SCATTERED {
            let mut numbers = buffer[..*self.random.pick(&lengths)].to_vec();
            scatter(&mut self.random, &mut numbers, &looked_at);
            self.tally.ask_known(&numbers, whole.arguments);
        }
        for _ in 0..DAMAGED {
            let mut numbers = buffer[..*self.random.pick(&lengths)].to_vec();
            if self.random.one_in(4) {
                scatter(&mut self.random, &mut numbers, &looked_at);
            }
            damage(&mut self.random, &mut numbers, &looked_at);
            self.tally.ask(Source::Damaged, &numbers);
        }
    }

    /// A row by the library, with the row of its first type; `None` if it is refused.
    fn read(&mut self) -> Option<Read> {
        let random = &mut self.random;
        let is_several = random.one_in(SEVERAL);
        let draw = if is_several { rows } else { row };
        let case = dressed(draw(random), random);
        let mut row = Row::read(&case.file).ok()?;
        row.head.allowance = AMPLE;
        let needed = NUMBERS_PER_TOKEN * row.tokens.len();
        let mut buffer = vec![DIRT; needed + random.pick(&SPARE)];
        let mut answer = [DIRT; LIST_ANSWER_LENGTH];
        let read = if is_several {
            type_name_read_list
        } else {
            type_name_read
        };
        if read(&row.write(), &mut buffer, &mut answer) != 0 {
            return None;
        }
        if is_several {
            row.tokens.truncate(cut::parts(&row)[0].end);
        }
        let nodes = answer[1] as usize;
        Some(Read { row, buffer, nodes })
    }
}
