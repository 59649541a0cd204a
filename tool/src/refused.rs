//! A refusal in words.

use std::ops::Range;

use type_name::{HostLanguageProfile, ListRefusal, PartPlace, Refusal, Tokens, TypeNameError};

use crate::excerpt::excerpt;
use crate::hints::Hint;
use crate::source::{Source, Text};

/// The sentence, the text with the token marked, if one is named, and what to do, if something is known.
pub fn sentence(source: &Source, refusal: Refusal, hint: Option<&Hint>) -> String {
    let place = match &source.text {
        Some(text) => {
            let token = refusal.token.map(|token| &text.tokens[token as usize]);
            in_text(text, refusal, token.map(|token| token.span.clone()))
        }
        None => in_file(source, refusal, refusal.token),
    };
    with_hint(format!("{refusal}{place}"), hint)
}

/// The same of a list, with the part marked if no token is named.
pub fn list_sentence(source: &Source, refused: &ListRefusal, hint: Option<&Hint>) -> String {
    let token = refused.token_in_row();
    let place = match &source.text {
        Some(text) => {
            let place = match token {
                Some(token) => Some(text.tokens[token as usize].span.clone()),
                None => refused.part.and_then(|part| of_part(text, part)),
            };
            in_text(text, refused.refusal, place)
        }
        None => in_file(source, refused.refusal, token),
    };
    with_hint(format!("{refused}{place}"), hint)
}

/// Where a part stands; of an empty one the comma behind it, else where the comma before it ends.
fn of_part(text: &Text, part: PartPlace) -> Option<Range<usize>> {
    let token = |number: usize| text.tokens.get(number).map(|token| token.span.clone());
    let first = part.first_token as usize;
    let behind = || {
        first
            .checked_sub(1)
            .and_then(token)
            .map(|before| before.end..before.end)
    };
    text.place_of(part).or_else(|| token(first)).or_else(behind)
}

fn with_hint(said: String, hint: Option<&Hint>) -> String {
    match hint {
        Some(hint) => format!("{said}{hint}\n"),
        None => said,
    }
}

/// The text, with a place in it; the profile, where it decides.
fn in_text(text: &Text, refusal: Refusal, place: Option<Range<usize>>) -> String {
    let profile = deciding(refusal, Some(text.head.profile));
    format!("{profile}\n{}", excerpt(&text.text, place))
}

/// The token that is named, as a row file has it; which one of the row it is. The profile as in a text.
fn in_file(source: &Source, refusal: Refusal, of_row: Option<u32>) -> String {
    let profile = deciding(refusal, source.profile());
    let token = of_row.and_then(|number| Tokens::new(&source.file).nth(number as usize));
    match (refusal.token, token) {
        (Some(number), Some(token)) => {
            let spelling = source.spelling(token);
            let (start, end) = (token.start, token.end);
            format!("{profile}\n    token {number}: `{spelling}`, from {start} to {end}\n")
        }
        _ => format!("{profile}\n"),
    }
}

/// The profile in parentheses, if the refusal comes of it.
fn deciding(refusal: Refusal, profile: Option<HostLanguageProfile>) -> String {
    match (refusal.error, profile) {
        (TypeNameError::NotAvailableInProfile, Some(profile)) => format!(" ({profile})"),
        _ => String::new(),
    }
}
