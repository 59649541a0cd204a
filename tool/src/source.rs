//! What is to be read: a type name's text, or a row file.

use std::ffi::OsStr;
use std::fs::File;
use std::io::{self, Read};
use std::ops::Range;
use std::path::Path;

use type_name::{
    Head, HostLanguageProfile, MOST_BYTES, PartPlace, Row, Token, TokenKind, limit_allowance,
};

use crate::cli::Wrong;
use crate::excerpt::excerpt;
use crate::lexer::{self, Lexed};

/// Stands for standard input.
pub const STANDARD_INPUT: &str = "-";

/// The most bytes of a text. A row of the longest words has fewer.
const MOST_TEXT: u64 = 1 << 20;

/// A row file, with the text it was made of, if it was.
pub struct Source {
    pub file: Vec<u8>,
    pub text: Option<Text>,
}

/// A text, its tokens and how it is to be read.
pub struct Text {
    pub text: String,
    pub tokens: Vec<Lexed>,
    pub head: Head,
}

impl Text {
    pub fn new(text: &str, head: Head) -> Result<Self, lexer::LexError> {
        Ok(Self {
            text: text.to_owned(),
            tokens: lexer::tokens(text, head.profile)?,
            head,
        })
    }

    pub fn row(&self) -> Result<Row, lexer::LexError> {
        let mut row = Row::new(self.head);
        lexer::push_all(&mut row, &self.tokens)?;
        Ok(row)
    }

    /// Where a part of a list stands, `None` if it has no token.
    pub fn place_of(&self, part: PartPlace) -> Option<Range<usize>> {
        let first = part.first_token as usize;
        let tokens = self.tokens.get(first..first + part.token_count as usize)?;
        Some(tokens.first()?.span.start..tokens.last()?.span.end)
    }
}

impl Source {
    pub fn of_text(text: &str, head: Head) -> Result<Self, Wrong> {
        let lexed = Text::new(text, head).and_then(|text| Ok((text.row()?, text)));
        let (row, text) = lexed.map_err(|error| {
            let place = excerpt(text, Some(error.span.clone()));
            Wrong(format!("the text has no tokens: {error}\n{place}"))
        })?;
        Ok(Self {
            file: row.bytes().to_vec(),
            text: Some(text),
        })
    }

    /// A row file, of whose allowance at most so much is used.
    pub fn of_file(path: &OsStr, allowance: Option<u32>) -> Result<Self, Wrong> {
        let mut file = row_file(path)?;
        if let Some(most) = allowance {
            limit_allowance(&mut file, most);
        }
        Ok(Self { file, text: None })
    }

    /// The standard that the head means, be it by its own number or by 254 or 255.
    pub fn profile(&self) -> Option<HostLanguageProfile> {
        let &[_, _, _, _, language, standard, ..] = self.file.as_slice() else {
            return None;
        };
        HostLanguageProfile::try_from((language.into(), standard.into())).ok()
    }

    /// How a token is spelled: as the text has it, else its word, else as its kind is spelled.
    pub fn spelling(&self, token: Token) -> String {
        let lexed = self
            .text
            .as_ref()
            .map(|text| &text.text[token.start as usize..token.end as usize]);
        match (lexed, token.kind) {
            (Some(text), _) => text.to_owned(),
            (None, TokenKind::Identifier) => token.word.to_owned(),
            (None, kind) => spelling(kind).to_owned(),
        }
    }
}

/// How a kind is spelled, or its name.
fn spelling(kind: TokenKind) -> &'static str {
    match kind {
        TokenKind::ReservedKeyword => "keyword",
        TokenKind::Integer => "integer",
        TokenKind::Real => "real",
        TokenKind::Character => "character",
        TokenKind::String => "string",
        TokenKind::Boolean => "boolean",
        TokenKind::NullPointer => "nullptr",
        TokenKind::FortranDefinedOperator => ".operator.",
        TokenKind::End => "end",
        _ => lexer::spelling(kind).unwrap_or("word"),
    }
}

/// The text that a word of the command line gives. A word that names a file or looks as if it did is no text: it would
/// be read as a type name by mistake.
pub fn text(word: &str) -> Result<String, Wrong> {
    if word == STANDARD_INPUT {
        let text = read_whole(OsStr::new(word), MOST_TEXT, "text")?;
        return String::from_utf8(text).map_err(|_| Wrong("standard input is not UTF-8".into()));
    }
    let path = Path::new(word);
    if path.is_dir() {
        return Err(Wrong(format!("`{word}` is a folder{AS_TEXT}")));
    }
    if path.exists() {
        return Err(Wrong(format!(
            "`{word}` is a file: --file reads a row file{AS_TEXT}"
        )));
    }
    if looks_like_a_path(word) {
        return Err(Wrong(format!("no file `{word}`{AS_TEXT}")));
    }
    Ok(word.to_owned())
}

const AS_TEXT: &str = "; --text reads it as a type name all the same";

/// Whether a word ends in `.row`, or has a `/` and nothing that paths rarely have.
fn looks_like_a_path(word: &str) -> bool {
    let is_rare = |next: char| next.is_whitespace() || "<>()[]*&,:".contains(next);
    word.ends_with(".row") || (word.contains('/') && !word.contains(is_rare))
}

/// The bytes of a file that must have no more than so many.
pub fn read_whole(path: &OsStr, most: u64, what: &str) -> Result<Vec<u8>, Wrong> {
    let bytes = read(path, most + 1)?;
    if bytes.len() as u64 > most {
        return Err(Wrong(format!("a {what} has at most {most} bytes")));
    }
    Ok(bytes)
}

/// The bytes of a row file of any format: of one that is too long one byte more than it may have, so that it is refused and not
/// cut.
pub fn row_file(path: &OsStr) -> Result<Vec<u8>, Wrong> {
    read(path, MOST_BYTES as u64 + 1)
}

/// The bytes of a file, at most so many.
fn read(path: &OsStr, most: u64) -> Result<Vec<u8>, Wrong> {
    let failed = |error: io::Error| Wrong(format!("{}: {error}", path.display()));
    let mut bytes = Vec::new();
    if path == STANDARD_INPUT {
        io::stdin().take(most).read_to_end(&mut bytes)
    } else {
        File::open(path)
            .map_err(failed)?
            .take(most)
            .read_to_end(&mut bytes)
    }
    .map_err(failed)?;
    Ok(bytes)
}
