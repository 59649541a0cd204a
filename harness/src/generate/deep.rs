//! Rows at the limits: nesting around 64, length around 1,024.

use super::random::Random;
use super::writer::Writer;
use super::{Draft, written};
use crate::format::{MOST_NESTING, MOST_TOKENS, Token};
use crate::kind::Kind;
use crate::profile::{HostLanguage, LANGUAGES};

pub fn deep(random: &mut Random) -> Draft {
    let language = match random.below(2) {
        0 => *random.pick(&LANGUAGES),
        _ => HostLanguage::Cpp,
    };
    written(random, language, |writer| match writer.random.below(3) {
        0 => writer.long_row(),
        _ => writer.nested(),
    })
}

/// What can be opened, with what a row may have before it.
#[derive(Clone, Copy)]
enum Opener {
    Parentheses(Before),
    Brackets(Before),
    List,
}

#[derive(Clone, Copy)]
enum Before {
    Nothing,
    Word,
    Star,
}

const OPENERS: [Opener; 6] = [
    Opener::Parentheses(Before::Nothing),
    Opener::Parentheses(Before::Word),
    Opener::Parentheses(Before::Star),
    Opener::Brackets(Before::Nothing),
    Opener::Brackets(Before::Word),
    Opener::List,
];

impl Writer<'_> {
    /// One opener throughout, or two in any order, 61 to 67 deep.
    fn nested(&mut self) {
        let depth = MOST_NESTING - 3 + self.random.below(7);
        let usual = *self.random.pick(&OPENERS);
        let other = *self.random.pick(&OPENERS);
        let others = self.random.below(4);
        if !matches!(usual, Opener::List) {
            self.word("int");
        }
        let mut opened = Vec::new();
        for _ in 0..depth {
            let opener = if self.random.below(16) < others {
                other
            } else {
                usual
            };
            self.open(opener);
            opened.push(opener);
        }
        if self.random.below(8) > 0 {
            self.word_of(&["int", "b"]);
        }
        for opener in opened.into_iter().rev() {
            self.close(opener);
        }
    }

    fn open(&mut self, opener: Opener) {
        let (before, kind) = match opener {
            Opener::Parentheses(before) => (before, Kind::LeftParen),
            Opener::Brackets(before) => (before, Kind::LeftBracket),
            Opener::List => (Before::Word, Kind::Less),
        };
        match before {
            Before::Nothing => {}
            Before::Word => self.word("A"),
            Before::Star => self.put(Kind::Star),
        }
        self.put(kind);
    }

    fn close(&mut self, opener: Opener) {
        match opener {
            Opener::Parentheses(_) => self.put(Kind::RightParen),
            Opener::Brackets(_) => self.put(Kind::RightBracket),
            Opener::List => self.close_angle(),
        }
    }

    /// A row of 1,019 to 1,026 tokens, one or two of them over and over.
    fn long_row(&mut self) {
        let length = MOST_TOKENS - 5 + self.random.below(8);
        let star = || Token::plain(Kind::Star);
        match self.random.below(5) {
            0 => self.filled(&[star()], &[], length),
            1 => self.filled(&[Token::plain(Kind::Scope), Token::word("a")], &[], length),
            2 => self.filled_between(Kind::Less, Kind::Greater, Kind::Comma, length),
            3 => self.filled_between(Kind::LeftParen, Kind::RightParen, Kind::Comma, length),
            _ => self.filled_between(Kind::LeftBracket, Kind::RightBracket, Kind::Plus, length),
        }
    }

    fn filled_between(&mut self, opener: Kind, closer: Kind, between: Kind, length: usize) {
        self.word("A");
        self.put(opener);
        let more = [Token::plain(between), Token::word("b")];
        self.filled(&more, &[Token::plain(closer)], length);
    }

    /// A word and then `more` until, with `last`, the row is that long.
    fn filled(&mut self, more: &[Token], last: &[Token], length: usize) {
        self.word("int");
        while self.tokens.len() + last.len() < length {
            let place = self.tokens.len() % more.len();
            self.tokens.push(more[place].clone());
        }
        self.tokens.extend_from_slice(last);
    }
}
