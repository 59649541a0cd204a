//! Rows of other styles, slightly damaged.

use super::random::Random;
use super::{Draft, angles, grammatical, words};
use crate::format::Token;
use crate::kind::Kind;

pub fn mutated(random: &mut Random) -> Draft {
    let style = *random.pick(&[grammatical, grammatical, angles::angles, words::words]);
    let mut draft = style(random);
    for _ in 0..=random.below(3) {
        mutate(random, &mut draft.tokens);
    }
    draft
}

/// Drops, doubles, swaps or replaces one token.
pub fn mutate(random: &mut Random, tokens: &mut Vec<Token>) {
    if tokens.is_empty() {
        return;
    }
    let place = random.below(tokens.len());
    let other = random.below(tokens.len());
    match random.below(5) {
        0 => drop(tokens.remove(place)),
        1 => tokens.insert(place, tokens[place].clone()),
        2 => tokens.swap(place, other),
        3 => tokens[place] = tokens[other].clone(),
        _ => tokens[place] = any_token(random),
    }
}

fn any_token(random: &mut Random) -> Token {
    match *random.pick(Kind::ALL) {
        Kind::Identifier => Token::word(words::known(random)),
        kind => Token::plain(kind),
    }
}
