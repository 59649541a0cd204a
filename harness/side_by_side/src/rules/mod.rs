//! Rule tables: the harness's model and the proved library on the same rows and tables, `calls` of each.

use std::process::ExitCode;

use harness::answer::Answer;
use harness::format::{ANSWER_LENGTH, Head, NUMBERS_PER_TOKEN, Row, Token};
use harness::generate::random::Random;
use harness::generate::{self, Case};
use harness::kind::Kind;
use harness::oracle;
use harness::profile::{HostLanguage, NEWER_STANDARD, language_number};
use harness::rules::format::{self, Item, LONGEST_SEQUENCE, MOST_ITEMS, MOST_RULES, Rule, of_text};
use harness::rules::generate::{large, table, with_edge_words};
use harness::rules::model::{Pair, top_level};

mod calls;

use calls::{Rules, Tally};

/// How long an `answer` is lent.
const ANSWER_LENGTHS: [usize; 10] = [0, 1, 2, 3, 4, 4, 4, 4, 5, 6];

/// One round in so many has a table of some 256 rules.
const LARGE: usize = 1_500;

/// Calls on tables that are the same in every run, then on generated ones until there are `count`.
pub fn compare(seed: u64, count: u64) -> ExitCode {
    let mut run = Run {
        tally: Tally::default(),
        random: Random::new(seed),
    };
    run.chosen();
    let mut cases = generate::cases(seed, None).expect("all styles");
    while run.tally.notes.calls < count {
        let case = cases.next().expect("cases without end");
        run.round(&case);
        if let Ok(row) = Row::read(&case.file)
            && run.random.one_in(8)
        {
            let file = with_edge_words(&mut run.random, &row).write();
            run.round(&Case { file, ..case });
        }
    }
    run.tally.notes.report()
}

struct Run {
    tally: Tally,
    random: Random,
}

impl Run {
    /// A row, with tables that are made of its nodes.
    fn round(&mut self, case: &Case) {
        let (answer, tree) = oracle::answer_with_tree(&case.file);
        let row = Row::read(&case.file).ok();
        let nodes = match (&row, answer) {
            (Some(row), Answer::Accepted { nodes, .. }) => top_level(row, nodes, &tree),
            _ => Vec::new(),
        };
        if self.random.one_in(LARGE) {
            let rules = Rules::new(large(&mut self.random, &nodes));
            self.tally.find(case, &rules, ANSWER_LENGTH);
            return self.overlaps(&rules);
        }
        // Rows that are not accepted say little about tables.
        let tables = if nodes.is_empty() { 1 } else { 4 };
        for _ in 0..tables {
            let rules = Rules::new(table(&mut self.random, &nodes));
            self.find(case, row.as_ref(), &rules);
            self.overlaps(&rules);
        }
    }

    /// With the tree buffer that the case has, at times with another.
    fn find(&mut self, case: &Case, row: Option<&Row>, rules: &Rules) {
        let answer_len = *self.random.pick(&ANSWER_LENGTHS);
        self.tally.find(case, rules, answer_len);
        if self.random.one_in(4) {
            let needed = row.map_or(0, |row| NUMBERS_PER_TOKEN * row.tokens.len());
            let lengths = [0, needed.saturating_sub(1), needed, needed + 7];
            let tree_len = *self.random.pick(&lengths);
            let file = case.file.clone();
            self.tally.find(&Case { file, tree_len }, rules, answer_len);
        }
    }

    /// Some calls from numbers about the table's places, and at times the whole walk.
    fn overlaps(&mut self, rules: &Rules) {
        for _ in 0..self.random.below(5) {
            let numbers = (self.number(rules), self.number(rules));
            let room = self.room(rules, numbers);
            let answer_len = *self.random.pick(&ANSWER_LENGTHS);
            self.tally.overlap(rules, numbers, room, answer_len);
        }
        if self.random.one_in(4) {
            self.walk(rules);
        }
    }

    /// Mostly about the table's places; at times such that its lower half or byte is.
    fn number(&mut self, rules: &Rules) -> u32 {
        let place = self.random.below(rules.places() + 2) as u32;
        match self.random.below(16) {
            0 => u32::MAX,
            1 => place + (1 << 16),
            2 => place + (1 << 8),
            _ => place,
        }
    }

    /// The length of a buffer for what is shown: none, one byte short, just right, longer, enough for everything.
    fn room(&mut self, rules: &Rules, numbers: Pair) -> usize {
        let shown = rules.shown(numbers).len();
        let lengths = [
            0,
            shown.saturating_sub(1),
            shown,
            shown + 1,
            LONGEST_SEQUENCE,
            2 * LONGEST_SEQUENCE,
        ];
        *self.random.pick(&lengths)
    }

    /// All pairs of a table, one a call from (0, 0) on.
    fn walk(&mut self, rules: &Rules) {
        let mut found = Vec::new();
        let mut numbers = (0, 0);
        let pair = |run: &mut Self, numbers| {
            let rooms = [LONGEST_SEQUENCE, rules.shown(numbers).len()];
            let room = *run.random.pick(&rooms);
            run.tally.overlap(rules, numbers, room, ANSWER_LENGTH)
        };
        // A pair that is not behind the numbers would be found for ever.
        while let Some(next) = pair(self, numbers).filter(|&next| next > numbers) {
            found.push(next);
            numbers = next;
        }
        self.tally.walked(rules, &found);
    }

    /// Tables that are the same in every run: each byte of a small one changed to every other, each way to cut it off, and
    /// the greatest ones.
    fn chosen(&mut self) {
        let text = "std #15 A list | int rest | any group #21 | rest | b A";
        let good = format::file(&of_text(text));
        let case = chosen_row();
        for place in 0..good.len() {
            self.both(&case, good[..place].to_vec());
            for byte in 0..=u8::MAX {
                let mut changed = good.clone();
                changed[place] = byte;
                self.both(&case, changed);
            }
        }
        for rules in greatest() {
            self.both(&case, format::file(&rules));
        }
    }

    fn both(&mut self, case: &Case, rules: Vec<u8>) {
        let rules = Rules::new(rules);
        self.tally.find(case, &rules, ANSWER_LENGTH);
        self.walk(&rules);
    }
}

/// `std::A<b>`
fn chosen_row() -> Case {
    let [scope, less, greater] = [Kind::Scope, Kind::Less, Kind::Greater].map(Token::plain);
    let [std, a, b] = ["std", "A", "b"].map(Token::word);
    let tokens = vec![std, scope, a, less, b, greater];
    let tree_len = NUMBERS_PER_TOKEN * tokens.len();
    let head = Head {
        language: language_number(HostLanguage::Cpp),
        standard: NEWER_STANDARD,
        flag: 1,
        allowance: generate::DEFAULT_ALLOWANCE,
    };
    let file = Row { head, tokens }.write();
    Case { file, tree_len }
}

/// Tables of 256 rules and of one more; of more bytes than a row file may have; of 16 items that agree up to the last.
fn greatest() -> Vec<Vec<Rule>> {
    let word = |last: u8| Item::Word([vec![b'w'; 254], vec![last]].concat());
    let alike = |last: u8| [vec![word(b'w'); MOST_ITEMS - 1], vec![word(last)]].concat();
    let few = of_text("A rest | any b | b | A A | #21 | list");
    let few = few.iter().cycle().cloned();
    let last = [vec![Item::Rest]];
    vec![
        few.clone().take(MOST_RULES - 1).chain(last).collect(),
        few.clone().take(MOST_RULES).collect(),
        few.take(MOST_RULES + 1).collect(),
        vec![vec![Item::Rest]; MOST_RULES + 1],
        (33..=126).map(alike).collect(),
        vec![alike(b'w'); 20],
        vec![vec![Item::Any; MOST_ITEMS], alike(b'a')],
    ]
}
