//! Operators and brackets.

use type_name::TokenKind::{self, *};

use super::LexError;
use super::cursor::Cursor;
use super::standards::has_fortran_90;

/// Of all languages. `<<=`, `>>=`, `->`, `++` and `--` are no Fortran, but the original's lexer makes them tokens there, too.
const SHARED: [(&str, TokenKind); 23] = [
    ("<<=", ShiftLeftEqual),
    (">>=", ShiftRightEqual),
    ("->", Arrow),
    ("++", PlusPlus),
    ("--", MinusMinus),
    ("<=", LessEqual),
    (">=", GreaterEqual),
    ("==", EqualEqual),
    ("(", LeftParen),
    (")", RightParen),
    ("[", LeftBracket),
    ("]", RightBracket),
    (",", Comma),
    (":", Colon),
    (".", Dot),
    ("+", Plus),
    ("-", Minus),
    ("*", Star),
    ("/", Slash),
    ("=", Equal),
    ("<", Less),
    (">", Greater),
    ("%", Percent),
];

const FORTRAN: [(&str, TokenKind); 3] = [("**", Power), ("//", Concat), ("/=", NotEqual)];

const C_FAMILY: [(&str, TokenKind); 21] = [
    ("!=", NotEqual),
    ("&&", LogicalAnd),
    ("||", LogicalOr),
    ("+=", PlusEqual),
    ("-=", MinusEqual),
    ("*=", StarEqual),
    ("/=", SlashEqual),
    ("%=", RemainderEqual),
    ("&=", AmpersandEqual),
    ("|=", PipeEqual),
    ("^=", CaretEqual),
    ("<<", ShiftLeft),
    (">>", ShiftRight),
    ("::", Scope),
    ("?", Question),
    ("%", Remainder),
    ("!", LogicalNot),
    ("~", BitwiseNot),
    ("&", Ampersand),
    ("|", Pipe),
    ("^", Caret),
];

/// The longest symbol at the cursor; of two of one length, the language's own.
pub fn take(cursor: &mut Cursor) -> Result<TokenKind, LexError> {
    let own: &[_] = if cursor.is_fortran() {
        &FORTRAN
    } else {
        &C_FAMILY
    };
    let symbols = own.iter().chain(&SHARED).rev();
    let coming = symbols.filter(|(symbol, _)| cursor.starts_with(symbol));
    let longest = coming.max_by_key(|(symbol, _)| symbol.len());
    let start = cursor.at();
    let Some((symbol, kind)) = longest else {
        let unknown = cursor.take().unwrap_or_default();
        let language = cursor.profile.language();
        let message = format!("no token of {language} begins with `{unknown}`");
        return Err(cursor.error(start, message));
    };
    cursor.skip(symbol.len());
    if *kind == Percent && !has_fortran_90(cursor.profile) {
        return Err(cursor.lacking(start, "components (`%`)"));
    }
    Ok(*kind)
}

/// All symbols of all languages, with their kinds.
pub fn all() -> impl Iterator<Item = (&'static str, TokenKind)> {
    let symbols = SHARED.iter().chain(&C_FAMILY).chain(&FORTRAN);
    symbols.copied()
}
