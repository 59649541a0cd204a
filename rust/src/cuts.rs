//! Where a list of type names is cut into parts. The answer numbers tokens within their part; this finds a part in its row.

use core::iter::FusedIterator;

use crate::token::Tokens;
use crate::token_kind::TokenKind;

/// Where a part stands in its row.
#[derive(Debug, Clone, Copy, PartialEq, Eq)]
pub struct PartPlace {
    /// The part's number, from 0.
    pub number: u32,
    /// The number that its first token has in the row; of an empty part, that of the comma behind it, or how many tokens the
    /// row has.
    pub first_token: u32,
    /// How many tokens it has.
    pub token_count: u32,
}

impl PartPlace {
    /// The place of a part of which those before are accepted; `to_row_end` if the prescan refuses one of its tokens.
    pub(crate) fn find(file: &[u8], number: u32, to_row_end: bool) -> Self {
        let found = Cuts::new(file).nth(number as usize);
        let (place, tokens) = found.expect("a part of the row");
        match to_row_end {
            true => Self {
                token_count: tokens.count() as u32,
                ..place
            },
            false => place,
        }
    }
}

/// The parts of a row, each with its tokens from its first on, numbered from 0.
///
/// They are right up to the first token that the prescan refuses: nothing is tested here.
#[derive(Debug, Clone)]
pub(crate) struct Cuts<'a> {
    /// Those of the next part and of all behind it; none behind the last.
    rest: Option<Tokens<'a>>,
    number: u32,
}

impl<'a> Cuts<'a> {
    pub(crate) fn new(file: &'a [u8]) -> Self {
        Self {
            rest: Some(Tokens::new(file)),
            number: 0,
        }
    }
}

impl<'a> Iterator for Cuts<'a> {
    type Item = (PartPlace, Tokens<'a>);

    fn next(&mut self) -> Option<(PartPlace, Tokens<'a>)> {
        let tokens = self.rest.take()?;
        let mut place = PartPlace {
            number: self.number,
            first_token: tokens.next_number(),
            token_count: 0,
        };
        self.number += 1;
        let mut depths = Depths::default();
        let mut rest = tokens.clone();
        while let Some(token) = rest.next() {
            if depths.cut_at(token.kind) {
                self.rest = Some(rest);
                break;
            }
            place.token_count += 1;
        }
        Some((place, tokens.renumbered()))
    }
}

impl FusedIterator for Cuts<'_> {}

/// How many brackets, and how many angles outside brackets, the prescan counts as open.
#[derive(Default)]
struct Depths {
    brackets: u32,
    angles: u32,
}

impl Depths {
    /// Counts a token. Whether it is a comma that cuts: then both depths are 0, as they are where a part begins.
    fn cut_at(&mut self, kind: TokenKind) -> bool {
        match kind {
            TokenKind::LeftParen | TokenKind::LeftBracket => self.brackets += 1,
            TokenKind::RightParen | TokenKind::RightBracket => {
                self.brackets = self.brackets.saturating_sub(1);
            }
            _ if self.brackets > 0 => {}
            TokenKind::Less => self.angles += 1,
            TokenKind::Greater => self.angles = self.angles.saturating_sub(1),
            // Where no angle is open it closes none; with one open it is refused.
            TokenKind::ShiftRight => self.angles = self.angles.saturating_sub(2),
            TokenKind::Comma => return self.angles == 0,
            _ => {}
        }
        false
    }
}
