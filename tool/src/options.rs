//! The words behind a command.

use std::ffi::{OsStr, OsString};

use crate::cli::Wrong;

/// The options that a command knows.
pub struct Known {
    /// Those without a value.
    pub flags: &'static [&'static str],
    /// Those with a value, in groups.
    pub valued: &'static [&'static [&'static str]],
}

/// The words of one call, each option at most once.
pub struct Options<'a> {
    flags: Vec<&'a str>,
    values: Vec<(&'a str, &'a OsStr)>,
    words: Vec<&'a OsStr>,
}

impl<'a> Options<'a> {
    pub fn read(arguments: &'a [OsString], known: &Known) -> Result<Self, Wrong> {
        let mut options = Self {
            flags: Vec::new(),
            values: Vec::new(),
            words: Vec::new(),
        };
        let mut rest = arguments.iter();
        while let Some(argument) = rest.next() {
            let name = argument.to_str().unwrap_or_default();
            if options.has(name) || options.value(name).is_some() {
                return Err(Wrong(format!("{name} is given twice")));
            } else if known.flags.contains(&name) {
                options.flags.push(name);
            } else if known.valued.iter().any(|some| some.contains(&name)) {
                let value = rest.next();
                let value = value.ok_or(Wrong(format!("{name} needs a value")))?;
                options.values.push((name, value));
            } else if name.starts_with("--") {
                return Err(Wrong(format!("no option {name}; --help lists them")));
            } else {
                options.words.push(argument);
            }
        }
        Ok(options)
    }

    pub fn has(&self, flag: &str) -> bool {
        self.flags.contains(&flag)
    }

    pub fn value(&self, name: &str) -> Option<&'a OsStr> {
        let mut given = self.values.iter();
        given.find_map(|(given, value)| (*given == name).then_some(*value))
    }

    /// The value of an option, which must be text.
    pub fn text(&self, name: &str) -> Result<Option<&'a str>, Wrong> {
        self.value(name)
            .map(|value| as_text(name, value))
            .transpose()
    }

    pub fn number(&self, name: &str) -> Result<Option<u32>, Wrong> {
        let Some(text) = self.text(name)? else {
            return Ok(None);
        };
        match text.parse() {
            Ok(number) => Ok(Some(number)),
            Err(_) => Err(Wrong(format!(
                "{name} needs a whole number from 0 to {}, not `{text}`",
                u32::MAX
            ))),
        }
    }

    /// What is no option.
    pub fn words(&self) -> &[&'a OsStr] {
        &self.words
    }
}

/// Text out of a word of the command line.
pub fn as_text<'a>(name: &str, word: &'a OsStr) -> Result<&'a str, Wrong> {
    let text = word.to_str();
    text.ok_or_else(|| Wrong(format!("{name}: `{}` is not UTF-8", word.display())))
}
