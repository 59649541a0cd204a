//! Lists of real type names: one a line, language, source and text parted by tabs.

use crate::format::{Head, Row};
use crate::lexed;
use crate::profile::{self, HostLanguage};

/// Steps enough for every name.
const ALLOWANCE: u32 = 1_000_000;

pub struct Name<'a> {
    pub language: HostLanguage,
    pub label: &'a str,
    pub source: &'a str,
    pub text: &'a str,
}

pub fn names(content: &str) -> Result<Vec<Name<'_>>, String> {
    content.lines().map(name).collect()
}

fn name(line: &str) -> Result<Name<'_>, String> {
    let mut fields = line.splitn(3, '\t');
    let (Some(label), Some(source), Some(text)) = (fields.next(), fields.next(), fields.next())
    else {
        return Err(format!("no language, source and text: {line}"));
    };
    let language = match label {
        "c" => HostLanguage::C,
        "cpp" => HostLanguage::Cpp,
        "fortran" => HostLanguage::Fortran,
        _ => return Err(format!("no language: {line}")),
    };
    Ok(Name {
        language,
        label,
        source,
        text,
    })
}

impl Name<'_> {
    /// The name's row, or the lexer's message.
    pub fn row(&self, standard: u8, flag: u8) -> Result<Row, String> {
        let profile =
            profile::profile(self.language, standard).expect("a standard of the language");
        let tokens = lexed::tokens(self.text, profile)?;
        let head = Head {
            language: profile::language_number(self.language),
            standard,
            flag,
            allowance: ALLOWANCE,
        };
        Ok(Row { head, tokens })
    }
}
