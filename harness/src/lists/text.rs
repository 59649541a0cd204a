//! Rows of texts such as `A < b , c > , d`, without a lexer: none gives kind
//! 57, which is written `$` here.

use crate::format::Token;
use crate::kind::Kind;

/// How the kinds that have no word are written.
#[rustfmt::skip]
const SIGNS: [(&str, Kind); 20] = [
    ("(", Kind::LeftParen), (")", Kind::RightParen), ("[", Kind::LeftBracket), ("]", Kind::RightBracket),
    ("<", Kind::Less), (">", Kind::Greater), ("<<", Kind::ShiftLeft), (">>", Kind::ShiftRight),
    (">=", Kind::GreaterEqual), (">>=", Kind::ShiftRightEqual), (",", Kind::Comma), ("::", Kind::Scope),
    ("*", Kind::Star), ("&", Kind::Ampersand), ("&&", Kind::LogicalAnd), ("=", Kind::Equal), (":", Kind::Colon),
    ("+", Kind::Plus), ("8", Kind::Integer), ("$", Kind::End),
];

/// The tokens of a text, which are parted by spaces.
pub fn tokens(text: &str) -> Vec<Token> {
    text.split_whitespace().map(token).collect()
}

/// The text of tokens, `#` and its number for a kind that has no sign here.
pub fn written(tokens: &[Token]) -> String {
    let texts: Vec<String> = tokens.iter().map(sign).collect();
    texts.join(" ")
}

fn sign(token: &Token) -> String {
    match SIGNS.iter().find(|(_, kind)| *kind == token.kind) {
        Some((sign, _)) => (*sign).to_owned(),
        None if token.kind == Kind::Identifier => token.word.clone(),
        None => format!("#{}", token.kind.number()),
    }
}

fn token(text: &str) -> Token {
    if let Some(&(_, kind)) = SIGNS.iter().find(|(sign, _)| *sign == text) {
        return Token::plain(kind);
    }
    let is_word = text
        .bytes()
        .all(|byte| byte == b'_' || byte.is_ascii_alphabetic());
    assert!(is_word, "`{text}` is no sign that is known here");
    Token::word(text)
}
