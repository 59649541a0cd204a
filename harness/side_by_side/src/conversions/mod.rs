//! Conversions: the harness's model and the proved library on the same files, `calls` of each.

use std::process::ExitCode;

use harness::conversions::generate::{chosen, damaged, file, long};
use harness::conversions::model::Conversion;
use harness::format::{Format, Row, Token};
use harness::generate;
use harness::generate::random::Random;
use harness::profile::{NEWER_STANDARD, OLD_ARCHIVE_STANDARD};

mod calls;

use calls::Tally;

/// How long an `answer` is lent.
const ANSWER_LENGTHS: [usize; 10] = [0, 1, 2, 3, 4, 4, 4, 4, 5, 6];

/// One round in so many has a file at a limit.
const LONG: usize = 120;

/// One widened file in so many is read, too, and one current file under 255 when it comes back.
const READ: usize = 12;

/// One row in so many is read under 255, as that was meant and as it is.
const NEWER: usize = 6;

/// Steps enough for most rows; some take exponentially many.
const AMPLE: u32 = 2_000;

/// Calls on files that are the same in every run, then on generated ones until there are `count`.
pub fn compare(seed: u64, count: u64) -> ExitCode {
    let mut run = Run {
        tally: Tally::default(),
        random: Random::new(seed),
    };
    for conversion in Conversion::BOTH {
        for file in chosen(conversion) {
            run.with_each_room(conversion, &file);
        }
    }
    let mut cases = generate::cases(seed, None).expect("all styles");
    while run.tally.notes.calls < count {
        let case = cases.next().expect("cases without end");
        run.round(&case.file);
    }
    run.tally.notes.report()
}

struct Run {
    tally: Tally,
    random: Random,
}

impl Run {
    /// A file as it is and, if it is a good one, its row in both formats, with other spans and damaged.
    fn round(&mut self, drawn: &[u8]) {
        for conversion in Conversion::BOTH {
            if self.random.one_in(LONG) {
                let file = long(&mut self.random, conversion);
                self.convert(conversion, &file);
            }
        }
        self.convert(Conversion::Narrow, drawn);
        let Ok(row) = Row::read(drawn) else {
            return;
        };
        if self.random.one_in(READ) {
            self.read(row.clone());
        }
        if self.random.one_in(READ) {
            self.read_back(row.clone());
        }
        if self.random.one_in(NEWER) {
            self.newer(row.clone());
        }
        for conversion in Conversion::BOTH {
            let format = conversion.source();
            let good = file(&mut self.random, format, row.clone());
            self.convert(conversion, &good);
            let bad = damaged(&mut self.random, format, row.clone());
            self.convert(conversion, &bad);
        }
    }

    /// Into no bytes, one less than are needed, as many, one more or more.
    fn convert(&mut self, conversion: Conversion, file: &[u8]) {
        let needed = needed(conversion, file);
        let more = needed + self.random.below(64);
        let rooms = [
            0,
            needed.saturating_sub(1),
            needed,
            needed,
            needed + 1,
            more,
        ];
        let room = *self.random.pick(&rooms);
        self.into(conversion, file, room);
    }

    fn with_each_room(&mut self, conversion: Conversion, file: &[u8]) {
        let needed = needed(conversion, file);
        for room in [0, needed.saturating_sub(1), needed, needed + 1] {
            self.into(conversion, file, room);
        }
    }

    fn into(&mut self, conversion: Conversion, file: &[u8], room: usize) {
        let answer_len = *self.random.pick(&ANSWER_LENGTHS);
        let Self { tally, random } = self;
        tally.convert(random, conversion, file, room, answer_len);
    }

    /// An old file of the row, unless that is too long, widened and read.
    fn read(&mut self, row: Row) {
        let allowance = row.head.allowance.min(AMPLE);
        let old = file(&mut self.random, Format::old(), row);
        if let Ok(mut row) = Format::old().read(&old) {
            row.head.allowance = allowance;
            let old = Format::old().write(&row);
            self.tally.read(&mut self.random, &old, row.tokens.len());
        }
    }

    /// A current file of the row under 255, narrowed, widened and read.
    fn read_back(&mut self, row: Row) {
        let row = under(NEWER_STANDARD, row);
        let tokens = row.tokens.len();
        self.tally.read_back(&mut self.random, &row.write(), tokens);
    }

    /// Old files of the row under 255, with either flag, unless they are too long.
    fn newer(&mut self, row: Row) {
        let mut row = under(OLD_ARCHIVE_STANDARD, row);
        for flag in [0, 1] {
            row.head.flag = flag;
            let old = Format::old().write(&row);
            if old.len() <= Format::old().most_bytes {
                self.tally.newer(&mut self.random, &old, row.tokens.len());
            }
        }
    }
}

/// The row under another standard, such that the old format holds its spans and that it does not take long.
fn under(standard: u8, mut row: Row) -> Row {
    row.head.standard = standard;
    row.head.allowance = row.head.allowance.min(AMPLE);
    let beyond = |token: &&mut Token| u32::try_from(token.end).is_err();
    for token in row.tokens.iter_mut().filter(beyond) {
        (token.start, token.end) = (0, 0);
    }
    row
}

/// How long the file is in the other format, if it has a row at all.
fn needed(conversion: Conversion, file: &[u8]) -> usize {
    let row = conversion.source().read(file);
    row.map_or(file.len(), |row| conversion.target().write(&row).len())
}
