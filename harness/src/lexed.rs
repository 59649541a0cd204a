//! Rows from text, through the original's own lexer.

use crate::format::{Token, WORD_BYTES, WORD_LENGTHS};
use crate::host::lexer::{self, Lexer, TokenKind};
use crate::kind::Kind;
use crate::profile::HostLanguageProfile;

/// The tokens of a type name's text, without the closing `End`.
pub fn tokens(text: &str, profile: HostLanguageProfile) -> Result<Vec<Token>, String> {
    let mut lexed = Lexer::for_type_name_with_profile(text, profile)
        .tokenize()
        .map_err(|error| error.to_string())?;
    lexed.pop();
    lexed.iter().map(token).collect()
}

fn token(lexed: &lexer::Token) -> Result<Token, String> {
    let word = match &lexed.kind {
        TokenKind::Identifier(identifier) => identifier.as_str(),
        _ => "",
    };
    let fits = WORD_LENGTHS.contains(&word.len()) && word.bytes().all(|b| WORD_BYTES.contains(&b));
    if matches!(lexed.kind, TokenKind::Identifier(_)) && !fits {
        return Err(format!("no token record can hold the word `{word}`"));
    }
    Ok(Token {
        kind: Kind::of(&lexed.kind),
        word: word.to_owned(),
        start: lexed.span.start_byte() as u64,
        end: lexed.span.end_byte() as u64,
    })
}
