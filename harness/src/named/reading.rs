//! The tree of a row that passed the prescan. There is no stack: what is open at
//! a token is found by looking back from it, and the tree is made once every
//! token has its part in it.

use std::ops::Range;

use super::names::Names;
use crate::answer::Refusal;
use crate::format::{MOST_NESTING, Token};
use crate::host::counted::TypeSyntax;
use crate::kind::Kind;
use crate::steps;

/// What a token is in the tree.
#[derive(Clone, Copy, PartialEq)]
enum Part {
    /// A T.
    Plain,
    /// Begins a G or B, which is closed at that place once it is.
    Bracket(Option<usize>),
    /// Begins an L, likewise.
    List(Option<usize>),
    /// Closes a G or B, or one or two L.
    Closer,
    /// Stands between two arguments of the L that begins at that place.
    Comma(usize),
}

struct Reading<'r> {
    tokens: &'r [Token],
    names: &'r Names,
    /// Those of the tokens so far.
    parts: Vec<Part>,
}

/// The tree, or the number of the refusal: 20, 26 or 27. Counts its steps.
pub fn read(tokens: &[Token], names: &Names) -> Result<Vec<TypeSyntax>, u32> {
    let mut reading = Reading {
        tokens,
        names,
        parts: Vec::with_capacity(tokens.len()),
    };
    for place in 0..tokens.len() {
        let part = reading.part(place)?;
        reading.parts.push(part);
    }
    // The prescan's angles leave no such list, but the request names it.
    if !reading.lists().is_empty() {
        return Err(Refusal::EMPTY_OR_UNCLOSED_LIST);
    }
    Ok(reading.nodes(0..tokens.len()))
}

impl Reading<'_> {
    fn part(&mut self, place: usize) -> Result<Part, u32> {
        match self.tokens[place].kind {
            Kind::LeftParen | Kind::LeftBracket => self.begin(Part::Bracket(None)),
            Kind::Less if self.names.open_list(self.tokens, place) => self.begin(Part::List(None)),
            Kind::RightParen | Kind::RightBracket if !self.lists().is_empty() => {
                Err(Refusal::EMPTY_OR_UNCLOSED_LIST)
            }
            Kind::RightParen | Kind::RightBracket => {
                let opener = self.bracket().expect("the prescan pairs brackets");
                Ok(self.close(&[opener], place))
            }
            kind @ (Kind::Comma | Kind::Greater | Kind::ShiftRight) => match self.lists()[..] {
                [] => self.begin(Part::Plain),
                [list, ..] if self.is_empty_argument(list, place) => {
                    Err(Refusal::EMPTY_OR_UNCLOSED_LIST)
                }
                [list, ..] if kind == Kind::Comma => Ok(Part::Comma(list)),
                [list, ..] if kind == Kind::Greater => Ok(self.close(&[list], place)),
                [inner, outer, ..] => Ok(self.close(&[inner, outer], place)),
                [_] => Err(Refusal::SHIFT_WITHOUT_LIST),
            },
            _ => self.begin(Part::Plain),
        }
    }

    /// A T, G, B or L: one step, counted before its 20.
    fn begin(&self, part: Part) -> Result<Part, u32> {
        steps::enter();
        if part.is_open() && self.nesting() == MOST_NESTING {
            return Err(Refusal::NESTING_LIMIT_EXCEEDED);
        }
        Ok(part)
    }

    /// How many G, B and L are open.
    fn nesting(&self) -> usize {
        self.parts.iter().filter(|part| part.is_open()).count()
    }

    fn close(&mut self, openers: &[usize], place: usize) -> Part {
        for &opener in openers {
            self.parts[opener] = match self.parts[opener] {
                Part::Bracket(_) => Part::Bracket(Some(place)),
                _ => Part::List(Some(place)),
            };
        }
        Part::Closer
    }

    /// Where the innermost open bracket stands.
    fn bracket(&self) -> Option<usize> {
        let is_open = |part: &Part| *part == Part::Bracket(None);
        self.parts.iter().rposition(is_open)
    }

    /// The lists that were opened since then and are open, the innermost first.
    fn lists(&self) -> Vec<usize> {
        let begin = self.bracket().map_or(0, |bracket| bracket + 1);
        let since = (begin..self.parts.len()).rev();
        since
            .filter(|&place| self.parts[place] == Part::List(None))
            .collect()
    }

    /// Whether nothing stands between a place and the `<` or comma that begins
    /// the list's argument there.
    fn is_empty_argument(&self, list: usize, place: usize) -> bool {
        let before = place - 1;
        before == list || self.parts[before] == Part::Comma(list)
    }

    fn nodes(&self, range: Range<usize>) -> Vec<TypeSyntax> {
        let mut nodes = Vec::new();
        let mut place = range.start;
        while place < range.end {
            let Token { kind, word, .. } = &self.tokens[place];
            let closer = match self.parts[place] {
                Part::Bracket(closer) | Part::List(closer) => closer.expect("all are closed"),
                _ => place,
            };
            let inside = place + 1..closer;
            nodes.push(match (self.parts[place], kind) {
                (Part::Plain, _) => TypeSyntax::Token(kind.token(word)),
                (Part::Bracket(_), Kind::LeftParen) => {
                    TypeSyntax::Parenthesized(self.nodes(inside))
                }
                (Part::Bracket(_), _) => TypeSyntax::Bracketed(self.nodes(inside)),
                (Part::List(_), _) => TypeSyntax::TemplateArguments(self.arguments(place, inside)),
                (Part::Closer | Part::Comma(_), _) => unreachable!("these begin no node"),
            });
            // A list that a `>>` closes ends with the argument that it stands in.
            place = closer + 1;
        }
        nodes
    }

    fn arguments(&self, list: usize, inside: Range<usize>) -> Vec<Vec<TypeSyntax>> {
        let is_comma = |&place: &usize| self.parts[place] == Part::Comma(list);
        let ends = inside.clone().filter(is_comma).chain([inside.end]);
        let mut begin = inside.start;
        let argument = |end| {
            let argument = self.nodes(begin..end);
            begin = end + 1;
            argument
        };
        ends.map(argument).collect()
    }
}

impl Part {
    fn is_open(&self) -> bool {
        matches!(self, Self::Bracket(None) | Self::List(None))
    }
}
