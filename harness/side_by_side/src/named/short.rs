//! All rows up to a length over words, angles, brackets and commas.

use std::process::ExitCode;

use harness::answer::Refusal;
use harness::format::{ANSWER_LENGTH, Head, NUMBERS_PER_TOKEN, Row, Token};
use harness::generate::Case;
use harness::generate::random::Random;
use harness::kind::Kind;
use harness::lists::text;
use harness::named::name_lists::file_of;
use harness::profile::{HostLanguage, NEWER_STANDARD, language_number};

use super::AMPLE;
use super::calls::Tally;

/// `A` is named, `b` is not.
const ALPHABET: &str = "A b < > >> , ( ) [ ]";

/// Up to this length every row is asked about; behind it those alone that might pass the prescan.
const EVERY: usize = 5;

/// All rows of up to so many tokens, flag 0 and 1. A row with a fault of the prescan at some token is not made longer: the
/// first fault wins, so that all that begin with it get its answer.
pub fn exhaustive(longest: usize) -> ExitCode {
    let mut short = Short {
        tally: Tally::default(),
        random: Random::new(1),
        alphabet: text::tokens(ALPHABET),
        names: file_of(&["A"]),
        longest,
        rows: 0,
    };
    let head = Head {
        language: language_number(HostLanguage::Cpp),
        standard: NEWER_STANDARD,
        flag: 0,
        allowance: AMPLE,
    };
    let tokens = Vec::new();
    short.from(&mut Row { head, tokens });
    println!("{} rows", short.rows);
    short.tally.noted().report()
}

struct Short {
    tally: Tally,
    random: Random,
    alphabet: Vec<Token>,
    names: Vec<u8>,
    longest: usize,
    rows: u64,
}

impl Short {
    /// A row and those that begin with it.
    fn from(&mut self, row: &mut Row) {
        if row.tokens.len() > EVERY && self.is_refused_however_it_goes_on(row) {
            return;
        }
        self.rows += 1;
        let answers = [0, 1].map(|flag| {
            row.head.flag = flag;
            let file = row.write();
            let tree_len = NUMBERS_PER_TOKEN * row.tokens.len();
            let case = Case { file, tree_len };
            self.tally
                .read(&mut self.random, &case, &self.names, ANSWER_LENGTH)
        });
        let is_fault = |number| {
            (Refusal::UNEXPECTED_CLOSING_DELIMITER..=Refusal::UNEXPECTED_END_TOKEN)
                .contains(&number)
        };
        if row.tokens.len() == self.longest || answers[0].refusal().is_some_and(is_fault) {
            return;
        }
        for token in self.alphabet.clone() {
            row.tokens.push(token);
            self.from(row);
            row.tokens.pop();
        }
    }

    /// Whether it begins with no word or has more open brackets than can be closed.
    fn is_refused_however_it_goes_on(&self, row: &Row) -> bool {
        let count = |kinds: [Kind; 2]| {
            let tokens = row.tokens.iter();
            tokens.filter(|token| kinds.contains(&token.kind)).count()
        };
        let openers = count([Kind::LeftParen, Kind::LeftBracket]);
        let closers = count([Kind::RightParen, Kind::RightBracket]);
        row.tokens[0].kind != Kind::Identifier
            || openers + row.tokens.len() > closers + self.longest
    }
}
