//! Character and string literals.

use type_name::TokenKind;

use super::LexError;
use super::blanks::is_line_end;
use super::cursor::Cursor;
use super::standards::{has_unicode_literals, has_utf8_characters};

/// What may stand before the quote in C and C++, the longer ones first.
const PREFIXES: [&str; 5] = ["u8", "u", "U", "L", ""];

/// The literal at the cursor.
pub fn take(cursor: &mut Cursor) -> Result<Option<TokenKind>, LexError> {
    let Some((prefix, quote)) = opening(cursor) else {
        return Ok(None);
    };
    let start = cursor.at();
    cursor.skip(prefix.len() + 1);
    let available = match (prefix, quote) {
        ("u8", '\'') => has_utf8_characters(cursor.profile),
        ("u8" | "u" | "U", _) => has_unicode_literals(cursor.profile),
        _ => true,
    };
    if !available {
        return Err(cursor.lacking(start, "literals with this prefix"));
    }
    let characters = contents(cursor, start, quote)?;
    if quote == '"' || cursor.is_fortran() {
        Ok(Some(TokenKind::String))
    } else if characters == 1 {
        Ok(Some(TokenKind::Character))
    } else {
        Err(cursor.error(start, "a character literal holds exactly one character"))
    }
}

/// The prefix and the quote that begin a literal here.
fn opening(cursor: &Cursor) -> Option<(&'static str, char)> {
    let prefixes = if cursor.is_fortran() {
        &PREFIXES[PREFIXES.len() - 1..]
    } else {
        &PREFIXES[..]
    };
    prefixes.iter().find_map(|prefix| {
        let quote = cursor.rest().strip_prefix(prefix)?.chars().next()?;
        matches!(quote, '\'' | '"').then_some((*prefix, quote))
    })
}

/// Takes all up to and with the closing quote, and gives how many characters it was.
fn contents(cursor: &mut Cursor, start: usize, quote: char) -> Result<usize, LexError> {
    let mut characters = 0;
    loop {
        match cursor.take() {
            None => return Err(cursor.error(start, "the literal is never closed")),
            Some(next) if is_line_end(next) => {
                return Err(cursor.error(start, "the literal is not closed on its line"));
            }
            Some(next) if next == quote => {
                // In Fortran a quote that stands twice is one of the literal's.
                let doubled = cursor.is_fortran() && cursor.peek() == Some(quote);
                if !doubled {
                    return Ok(characters);
                }
                cursor.take();
            }
            Some('\\') if !cursor.is_fortran() => escape(cursor)?,
            Some(_) => {}
        }
        characters += 1;
    }
}

/// Takes what follows a `\`.
fn escape(cursor: &mut Cursor) -> Result<(), LexError> {
    let start = cursor.at() - 1;
    let wrong = |cursor: &Cursor| Err(cursor.error(start, "no such escape sequence"));
    match cursor.take() {
        None => Err(cursor.error(start, "the literal is never closed")),
        Some('\\' | '\'' | '"' | 'n' | 'r' | 't' | 'a' | 'b' | 'f' | 'v') => Ok(()),
        Some('0'..='7') => {
            for _ in 0..2 {
                if cursor.peek_is(|next| next.is_digit(8)) {
                    cursor.take();
                }
            }
            Ok(())
        }
        Some('x') => match u32::from_str_radix(hexadecimal(cursor, usize::MAX), 16) {
            Ok(_) => Ok(()),
            Err(_) => wrong(cursor),
        },
        Some(long @ ('u' | 'U')) => {
            let wanted = if long == 'u' { 4 } else { 8 };
            let digits = hexadecimal(cursor, wanted);
            let value = u32::from_str_radix(digits, 16).ok();
            if digits.len() == wanted && value.and_then(char::from_u32).is_some() {
                Ok(())
            } else {
                wrong(cursor)
            }
        }
        Some(_) => wrong(cursor),
    }
}

/// Takes so many hexadecimal digits at most.
fn hexadecimal<'a>(cursor: &mut Cursor<'a>, most: usize) -> &'a str {
    let rest = cursor.rest();
    let digits = rest.bytes().take_while(u8::is_ascii_hexdigit).count();
    let digits = digits.min(most);
    cursor.skip(digits);
    &rest[..digits]
}
