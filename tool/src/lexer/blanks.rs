//! Blanks and comments.

use super::LexError;
use super::cursor::Cursor;
use super::standards::has_line_comments;

/// Skips all that stands before the next token.
pub fn skip(cursor: &mut Cursor) -> Result<(), LexError> {
    loop {
        cursor.take_while(char::is_whitespace);
        if !skip_comment(cursor)? {
            return Ok(());
        }
    }
}

/// Skips a comment, if one comes next.
fn skip_comment(cursor: &mut Cursor) -> Result<bool, LexError> {
    let start = cursor.at();
    if cursor.is_fortran() {
        let comes = cursor.take_text("!");
        if comes {
            skip_line(cursor);
        }
        return Ok(comes);
    }
    if cursor.take_text("/*") {
        let Some(length) = cursor.rest().find("*/") else {
            return Err(cursor.error(start, "the comment is never closed"));
        };
        cursor.skip(length + "*/".len());
        return Ok(true);
    }
    let comes = cursor.take_text("//");
    if comes {
        if !has_line_comments(cursor.profile) {
            return Err(cursor.lacking(start, "`//` comments"));
        }
        skip_line(cursor);
    }
    Ok(comes)
}

fn skip_line(cursor: &mut Cursor) {
    cursor.take_while(|next| !is_line_end(next));
}

pub fn is_line_end(next: char) -> bool {
    matches!(next, '\n' | '\r')
}
