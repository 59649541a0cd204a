//! Fortran's operators and literals between dots.

use type_name::TokenKind;

use super::LexError;
use super::cursor::Cursor;
use super::words::is_word;

const OPERATORS: [(&str, TokenKind); 11] = [
    (".not.", TokenKind::LogicalNot),
    (".and.", TokenKind::LogicalAnd),
    (".or.", TokenKind::LogicalOr),
    (".eqv.", TokenKind::LogicalEqv),
    (".neqv.", TokenKind::LogicalNeqv),
    (".eq.", TokenKind::EqualEqual),
    (".ne.", TokenKind::NotEqual),
    (".lt.", TokenKind::Less),
    (".le.", TokenKind::LessEqual),
    (".gt.", TokenKind::Greater),
    (".ge.", TokenKind::GreaterEqual),
];

/// The word between dots at the cursor. A dot that no other follows, and the first of two, is a symbol.
pub fn take(cursor: &mut Cursor) -> Result<Option<TokenKind>, LexError> {
    if !cursor.is_fortran() || !cursor.starts_with(".") || cursor.starts_with("..") {
        return Ok(None);
    }
    let Some(length) = cursor.rest()[1..].find('.') else {
        return Ok(None);
    };
    let start = cursor.at();
    let dotted = cursor.rest()[..length + 2].to_ascii_lowercase();
    cursor.skip(length + 2);
    match known(&dotted) {
        Some(kind) => Ok(Some(kind)),
        None if is_word(dotted.trim_matches('.')) => Ok(Some(TokenKind::FortranDefinedOperator)),
        None => Err(cursor.error(start, "no operator's name stands between the dots")),
    }
}

fn known(dotted: &str) -> Option<TokenKind> {
    match dotted {
        ".true." | ".false." => Some(TokenKind::Boolean),
        _ => operator(dotted),
    }
}

/// The operator that is spelled so.
pub fn operator(dotted: &str) -> Option<TokenKind> {
    let mut known = OPERATORS.iter();
    known.find_map(|(spelling, kind)| (*spelling == dotted).then_some(*kind))
}

/// How an operator is spelled, if it is between dots.
pub fn spelling(kind: TokenKind) -> Option<&'static str> {
    let mut known = OPERATORS.iter();
    known.find_map(|(spelling, known)| (*known == kind).then_some(*spelling))
}
