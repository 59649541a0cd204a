//! Tokens between two operands, where the structure check asks which tokens
//! are binary operators of the language.

use super::{Case, DEFAULT_ALLOWANCE};
use crate::format::{Head, NUMBERS_PER_TOKEN, Row, Token};
use crate::kind::Kind;
use crate::profile::{HostLanguage, NEWER_STANDARD, language_number};

/// `int[a .. a]` in C and C++, `real((a .. a))` in Fortran, whose outer
/// parentheses hold selectors.
pub fn between_operands(language: HostLanguage, tokens: &[Token]) -> Row {
    let (word, opener, closer, pairs) = match language {
        HostLanguage::C | HostLanguage::Cpp => ("int", Kind::LeftBracket, Kind::RightBracket, 1),
        HostLanguage::Fortran => ("real", Kind::LeftParen, Kind::RightParen, 2),
    };
    let mut row = vec![Token::word(word)];
    row.resize(row.len() + pairs, Token::plain(opener));
    row.push(Token::word("a"));
    row.extend_from_slice(tokens);
    row.push(Token::word("a"));
    row.resize(row.len() + pairs, Token::plain(closer));
    let head = Head {
        language: language_number(language),
        standard: NEWER_STANDARD,
        flag: 1,
        allowance: DEFAULT_ALLOWANCE,
    };
    Row { head, tokens: row }
}

/// With a buffer that is just long enough.
pub fn case(language: HostLanguage, tokens: &[Token]) -> Case {
    let row = between_operands(language, tokens);
    let tree_len = NUMBERS_PER_TOKEN * row.tokens.len();
    let file = row.write();
    Case { file, tree_len }
}
