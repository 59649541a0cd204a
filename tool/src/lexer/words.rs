//! Identifiers, and the words that are none: literals, and the operators that C++ spells as words.

use type_name::{HostLanguage, HostLanguageProfile, TokenKind};

use super::cursor::Cursor;
use super::standards::{has_booleans, has_nullptr};

pub fn is_word_start(next: char) -> bool {
    next == '_' || next.is_alphabetic()
}

pub fn is_word_part(next: char) -> bool {
    next == '_' || next.is_alphanumeric()
}

/// Whether a text is a whole word.
pub fn is_word(text: &str) -> bool {
    text.starts_with(is_word_start) && text.chars().all(is_word_part)
}

/// The word at the cursor: its kind and, of an identifier, its spelling, in Fortran in lower case. Keywords are
/// identifiers, since the reader tells them apart.
pub fn take(cursor: &mut Cursor) -> Option<(TokenKind, String)> {
    if !cursor.peek_is(is_word_start) {
        return None;
    }
    let text = cursor.take_while(is_word_part);
    Some(match (literal(text, cursor.profile), cursor.is_fortran()) {
        (Some(kind), _) => (kind, String::new()),
        (None, true) => (TokenKind::Identifier, text.to_lowercase()),
        (None, false) => (TokenKind::Identifier, text.to_owned()),
    })
}

/// The kind of a word that is no identifier.
fn literal(text: &str, profile: HostLanguageProfile) -> Option<TokenKind> {
    match text {
        "true" | "false" if has_booleans(profile) => Some(TokenKind::Boolean),
        "nullptr" if has_nullptr(profile) => Some(TokenKind::NullPointer),
        _ if profile.language() == HostLanguage::Cpp => operator(text),
        _ => None,
    }
}

/// C++'s operators that are words.
fn operator(text: &str) -> Option<TokenKind> {
    Some(match text {
        "and" => TokenKind::LogicalAnd,
        "and_eq" => TokenKind::AmpersandEqual,
        "bitand" => TokenKind::Ampersand,
        "bitor" => TokenKind::Pipe,
        "compl" => TokenKind::BitwiseNot,
        "not" => TokenKind::LogicalNot,
        "not_eq" => TokenKind::NotEqual,
        "or" => TokenKind::LogicalOr,
        "or_eq" => TokenKind::PipeEqual,
        "xor" => TokenKind::Caret,
        "xor_eq" => TokenKind::CaretEqual,
        _ => return None,
    })
}
