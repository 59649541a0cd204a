//! Rows full of angles that the prescan mostly lets through, so that the
//! reader's tries are put to work.

use super::random::Random;
use super::writer::Writer;
use super::{Draft, written};
use crate::kind::Kind;
use crate::profile::{HostLanguage, LANGUAGES};

const LONGEST: usize = 24;

pub fn angles(random: &mut Random) -> Draft {
    let language = match random.below(8) {
        0 => *random.pick(&LANGUAGES),
        _ => HostLanguage::Cpp,
    };
    written(random, language, |writer| {
        let mut open = Open::default();
        writer.word("A");
        for _ in 0..writer.random.below(LONGEST) {
            open.put_one(writer);
        }
        open.close(writer);
    })
}

/// What the prescan keeps of the row so far.
#[derive(Default)]
struct Open {
    /// The closers of the open brackets.
    brackets: Vec<Kind>,
    angles: usize,
}

impl Open {
    fn put_one(&mut self, writer: &mut Writer) {
        match writer.random.below(16) {
            0..3 => word(writer),
            3..7 => self.less(writer),
            7..9 => self.greater(writer, Kind::Greater, 1),
            9 | 10 => self.greater(writer, Kind::ShiftRight, 2),
            11 => self.comma(writer),
            12 | 13 => self.opener(writer),
            14 => self.closer(writer),
            _ => writer.put_one_of(&[Kind::Integer, Kind::Star, Kind::Scope]),
        }
    }

    fn less(&mut self, writer: &mut Writer) {
        if writer.random.below(8) > 0 && !after(writer, &[Kind::Identifier]) {
            word(writer);
        }
        if self.brackets.is_empty() {
            self.angles += 1;
        }
        writer.put(Kind::Less);
    }

    fn greater(&mut self, writer: &mut Writer, kind: Kind, takes: usize) {
        if self.brackets.is_empty() {
            if self.angles < takes {
                return;
            }
            self.angles -= takes;
        }
        end_argument(writer);
        writer.put(kind);
    }

    fn comma(&mut self, writer: &mut Writer) {
        if !self.brackets.is_empty() || self.angles > 0 {
            end_argument(writer);
            writer.put(Kind::Comma);
        }
    }

    fn opener(&mut self, writer: &mut Writer) {
        let (opener, closer) = *writer.random.pick(&[
            (Kind::LeftParen, Kind::RightParen),
            (Kind::LeftBracket, Kind::RightBracket),
        ]);
        self.brackets.push(closer);
        writer.put(opener);
    }

    fn closer(&mut self, writer: &mut Writer) {
        if let Some(closer) = self.brackets.pop() {
            writer.put(closer);
        }
    }

    fn close(&mut self, writer: &mut Writer) {
        while let Some(closer) = self.brackets.pop() {
            writer.put(closer);
        }
        for _ in 0..self.angles {
            end_argument(writer);
            writer.close_angle();
        }
    }
}

fn after(writer: &Writer, kinds: &[Kind]) -> bool {
    let last = writer.tokens.last();
    last.is_some_and(|token| kinds.contains(&token.kind))
}

/// A word, mostly kept apart from one before it so that a type can result.
fn word(writer: &mut Writer) {
    let apart = [Kind::Identifier, Kind::Greater, Kind::ShiftRight];
    if after(writer, &apart) && writer.random.below(4) > 0 {
        writer.put(Kind::Scope);
    }
    writer.word_of(&["A", "b", "int"]);
}

/// Mostly leaves no argument empty.
fn end_argument(writer: &mut Writer) {
    if after(writer, &[Kind::Less, Kind::Comma]) && writer.random.below(8) > 0 {
        writer.word_of(&["A", "b", "int"]);
    }
}
