//! Integer and real literals.

use type_name::TokenKind;

use super::LexError;
use super::cursor::Cursor;
use super::standards::{
    has_binary_and_separators, has_fortran_90, has_long_long_suffix, has_size_suffix,
};
use super::words::{is_word, is_word_part};

/// The number at the cursor.
pub fn take(cursor: &mut Cursor) -> Result<Option<TokenKind>, LexError> {
    let mut coming = cursor.rest().chars();
    let first = coming.next().unwrap_or_default();
    let begins = match first {
        '.' => coming.next().is_some_and(|next| next.is_ascii_digit()),
        _ => first.is_ascii_digit(),
    };
    if !begins {
        return Ok(None);
    }
    let start = cursor.at();
    let kind = match based(cursor, start)? {
        Some(kind) => kind,
        None => decimal(cursor, start)?,
    };
    if cursor.peek_is(is_word_part) {
        return Err(invalid(cursor, start));
    }
    Ok(Some(kind))
}

fn invalid(cursor: &Cursor, start: usize) -> LexError {
    cursor.error(start, "no such number")
}

/// `0x1F` and `0b11`.
fn based(cursor: &mut Cursor, start: usize) -> Result<Option<TokenKind>, LexError> {
    let (radix, name) = match cursor.rest().as_bytes() {
        [b'0', b'x' | b'X', ..] => (16, "hexadecimal"),
        [b'0', b'b' | b'B', ..] => (2, "binary"),
        _ => return Ok(None),
    };
    cursor.skip(2);
    let available = match radix {
        2 => has_binary_and_separators(cursor.profile),
        _ => !cursor.is_fortran(),
    };
    if !available {
        return Err(cursor.lacking(start, &format!("{name} integers of this form")));
    }
    let digits = digits(cursor, start, radix)?;
    // A `.`, `p` or `P` would begin the rest of a hexadecimal floating literal.
    if cursor.peek_is(|next| matches!(next, '.' | 'p' | 'P')) {
        return Err(invalid(cursor, start));
    }
    integer(cursor, start, &digits, radix)?;
    Ok(Some(TokenKind::Integer))
}

fn decimal(cursor: &mut Cursor, start: usize) -> Result<TokenKind, LexError> {
    let whole = digits(cursor, start, 10)?;
    let mut fraction = None;
    if cursor.starts_with(".") && !cursor.starts_with("..") {
        cursor.skip(1);
        fraction = Some(digits(cursor, start, 10)?);
    }
    let has_exponent = exponent(cursor, start)?;
    if fraction.is_none() && !has_exponent {
        let octal = !cursor.is_fortran() && whole.len() > 1 && whole.starts_with('0');
        integer(cursor, start, &whole, if octal { 8 } else { 10 })?;
        return Ok(TokenKind::Integer);
    }
    let all = whole + &fraction.unwrap_or_default();
    // The original keeps the digits as one number.
    if all.parse::<u128>().is_err() {
        return Err(cursor.error(start, "the number has too many digits"));
    }
    real_suffix(cursor, start)?;
    Ok(TokenKind::Real)
}

/// Takes digits and the separators between them, and gives the digits.
fn digits(cursor: &mut Cursor, start: usize, radix: u32) -> Result<String, LexError> {
    let mut digits = String::new();
    loop {
        digits += cursor.take_while(|next| next.is_digit(radix));
        if cursor.is_fortran() || !cursor.starts_with("'") {
            return Ok(digits);
        }
        let is_digit = |next: char| next.is_digit(radix);
        let is_between =
            cursor.since(start).ends_with(is_digit) && cursor.rest()[1..].starts_with(is_digit);
        cursor.skip(1);
        if !has_binary_and_separators(cursor.profile) {
            return Err(cursor.lacking(start, "separators between digits"));
        }
        if !is_between {
            return Err(invalid(cursor, start));
        }
    }
}

/// Takes an exponent, if one comes next.
fn exponent(cursor: &mut Cursor, start: usize) -> Result<bool, LexError> {
    let comes = cursor.peek_is(|next| match next {
        'e' | 'E' => true,
        'd' | 'D' => cursor.is_fortran(),
        _ => false,
    });
    if comes {
        cursor.skip(1);
        if cursor.peek_is(|next| matches!(next, '+' | '-')) {
            cursor.skip(1);
        }
        let digits = digits(cursor, start, 10)?;
        if digits.parse::<u32>().is_err() {
            return Err(invalid(cursor, start));
        }
    }
    Ok(comes)
}

/// Takes an integer's suffix, and tests its digits.
fn integer(cursor: &mut Cursor, start: usize, digits: &str, radix: u32) -> Result<(), LexError> {
    if cursor.is_fortran() {
        kind_suffix(cursor, start)?;
    } else {
        c_suffix(cursor, start)?;
    }
    match u128::from_str_radix(digits, radix) {
        Ok(_) => Ok(()),
        Err(_) => Err(invalid(cursor, start)),
    }
}

fn c_suffix(cursor: &mut Cursor, start: usize) -> Result<(), LexError> {
    let suffix = cursor.take_while(|next| next.is_ascii_alphabetic());
    let available = match suffix.to_ascii_lowercase().as_str() {
        "" | "u" | "l" | "ul" | "lu" => true,
        "ll" | "ull" | "llu" => has_long_long_suffix(cursor.profile),
        "z" | "uz" | "zu" => has_size_suffix(cursor.profile),
        _ => return Err(invalid(cursor, start)),
    };
    match available {
        true => Ok(()),
        false => Err(cursor.lacking(start, &format!("integers with the suffix `{suffix}`"))),
    }
}

fn real_suffix(cursor: &mut Cursor, start: usize) -> Result<(), LexError> {
    if cursor.is_fortran() {
        return kind_suffix(cursor, start);
    }
    if cursor.peek_is(|next| matches!(next, 'f' | 'F' | 'l' | 'L')) {
        cursor.skip(1);
    }
    Ok(())
}

/// Fortran's `_8` or `_wide`.
fn kind_suffix(cursor: &mut Cursor, start: usize) -> Result<(), LexError> {
    if !cursor.take_text("_") {
        return Ok(());
    }
    if !has_fortran_90(cursor.profile) {
        return Err(cursor.lacking(start, "kind suffixes"));
    }
    let kind = cursor.take_while(is_word_part);
    if kind.parse::<u32>().is_ok() || is_word(kind) {
        Ok(())
    } else {
        Err(invalid(cursor, start))
    }
}
