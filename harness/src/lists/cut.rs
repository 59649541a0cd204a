//! Where a row is cut: at the commas outside brackets and angles that stand
//! before the first fault of the prescan. Brackets and angles are followed
//! here anew: the original knows one row only, and refuses the first such
//! comma.

use std::ops::Range;

use crate::format::{Row, Token};
use crate::kind::Kind;
use crate::profile::{HostLanguage, language_number};

/// The tokens of each part, at least one part; a comma that parts two belongs
/// to neither.
pub fn parts(row: &Row) -> Vec<Range<usize>> {
    let mut open = Open {
        is_cpp: row.head.language == language_number(HostLanguage::Cpp),
        closers: Vec::new(),
        angles: 0,
    };
    let mut parts = Vec::new();
    let mut begin = 0;
    let mut before = None;
    for (number, &Token { kind, .. }) in row.tokens.iter().enumerate() {
        match open.meet(before, kind) {
            Met::Cut => {
                parts.push(begin..number);
                begin = number + 1;
            }
            Met::Fault => break,
            Met::Other => {}
        }
        before = Some(kind);
    }
    parts.push(begin..row.tokens.len());
    parts
}

/// What is open at a place of the row. Nothing is where it is cut, so that
/// each part begins as a row does.
struct Open {
    is_cpp: bool,
    /// What the open brackets want, the innermost last.
    closers: Vec<Kind>,
    angles: usize,
}

enum Met {
    Cut,
    Fault,
    Other,
}

impl Open {
    /// Takes a token, told which one stands before it.
    fn meet(&mut self, before: Option<Kind>, kind: Kind) -> Met {
        let passes = match kind {
            Kind::End => false,
            Kind::LeftParen => self.open(Kind::RightParen),
            Kind::LeftBracket => self.open(Kind::RightBracket),
            Kind::RightParen | Kind::RightBracket => self.closers.pop() == Some(kind),
            // Angles and commas count outside brackets only.
            _ if !self.closers.is_empty() => true,
            Kind::Comma if self.angles == 0 => return Met::Cut,
            Kind::Less => {
                self.angles += 1;
                self.is_cpp && before.is_some_and(may_open_angle)
            }
            Kind::Greater => self.close_angles(1),
            // Outside angles it is an operator.
            Kind::ShiftRight if self.angles > 0 => self.close_angles(2),
            _ => true,
        };
        if passes { Met::Other } else { Met::Fault }
    }

    fn open(&mut self, closer: Kind) -> bool {
        self.closers.push(closer);
        true
    }

    fn close_angles(&mut self, count: usize) -> bool {
        let left = self.angles.checked_sub(count);
        self.angles = left.unwrap_or(0);
        left.is_some()
    }
}

/// Whether `<` may stand behind it.
fn may_open_angle(kind: Kind) -> bool {
    matches!(
        kind,
        Kind::Identifier | Kind::Greater | Kind::ShiftRight | Kind::RightParen | Kind::RightBracket
    )
}
