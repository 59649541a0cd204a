//! Rows from text and tables from items, so that tests can be read. Each test uses a part of this.

#![allow(dead_code)]

use type_name::{
    CStandard, CppStandard, FortranStandard, Head, HostLanguageProfile, Item, Refusal, Row,
    StructureCheck, Table, TokenKind, parse_type_name, tree_for,
};

/// An allowance that no row here comes near.
pub const AMPLE: u32 = 1_000_000;

pub const fn c(standard: CStandard) -> HostLanguageProfile {
    HostLanguageProfile::C(standard)
}

pub const fn cpp(standard: CppStandard) -> HostLanguageProfile {
    HostLanguageProfile::Cpp(standard)
}

pub const fn fortran(standard: FortranStandard) -> HostLanguageProfile {
    HostLanguageProfile::Fortran(standard)
}

/// With the structure check.
pub fn checked(profile: HostLanguageProfile) -> Head {
    Head {
        profile,
        structure: StructureCheck::On,
        allowance: AMPLE,
    }
}

/// Without it.
pub fn unchecked(profile: HostLanguageProfile) -> Head {
    Head {
        structure: StructureCheck::Off,
        ..checked(profile)
    }
}

/// The longer symbols first.
const SYMBOLS: [(&str, TokenKind); 16] = [
    ("::", TokenKind::Scope),
    (">>", TokenKind::ShiftRight),
    ("&&", TokenKind::LogicalAnd),
    ("(", TokenKind::LeftParen),
    (")", TokenKind::RightParen),
    ("[", TokenKind::LeftBracket),
    ("]", TokenKind::RightBracket),
    ("<", TokenKind::Less),
    (">", TokenKind::Greater),
    ("&", TokenKind::Ampersand),
    ("*", TokenKind::Star),
    (",", TokenKind::Comma),
    (".", TokenKind::Dot),
    ("=", TokenKind::Equal),
    (":", TokenKind::Colon),
    ("$", TokenKind::End),
];

/// The row of a text; `$` gives a token of kind `End`.
pub fn row(head: Head, text: &str) -> Row {
    let mut row = Row::new(head);
    let mut at = 0;
    while at < text.len() {
        let rest = &text[at..];
        if rest.starts_with(' ') {
            at += 1;
            continue;
        }
        let (kind, length) = token(rest);
        let span = at as u64..(at + length) as u64;
        row.push(kind, &rest[..length], span).unwrap();
        at += length;
    }
    row
}

/// The kind and the length of the token that begins a text.
fn token(text: &str) -> (TokenKind, usize) {
    let is_symbol = |letter: char| !letter.is_ascii_alphanumeric() && letter != '_';
    if text.starts_with(is_symbol) {
        let symbol = SYMBOLS.iter().find(|(symbol, _)| text.starts_with(symbol));
        let &(symbol, kind) = symbol.expect("a symbol of the list");
        return (kind, symbol.len());
    }
    let kind = if text.starts_with(|letter: char| letter.is_ascii_digit()) {
        TokenKind::Integer
    } else {
        TokenKind::Identifier
    };
    (kind, text.find(is_symbol).unwrap_or(text.len()))
}

/// The nodes and the steps of an accepted type name.
#[derive(Debug, Clone, Copy, PartialEq, Eq)]
pub struct Accepted {
    pub nodes: usize,
    pub steps: u32,
}

pub fn answer(head: Head, text: &str) -> Result<Accepted, Refusal> {
    let row = row(head, text);
    let mut buffer = tree_for(row.bytes());
    let tree = parse_type_name(row.bytes(), &mut buffer)?;
    Ok(Accepted {
        nodes: tree.node_count(),
        steps: tree.steps(),
    })
}

pub fn table(rules: &[&[Item]]) -> Table {
    let mut table = Table::new();
    for rule in rules {
        table.push(rule).expect("a rule");
    }
    table
}

/// `A list | any rest | rest | int`, for which winners and pairs were worked out by hand.
pub fn worked_table() -> Table {
    table(&[
        &[Item::Word("A"), Item::List],
        &[Item::Any, Item::Rest],
        &[Item::Rest],
        &[Item::Word("int")],
    ])
}
