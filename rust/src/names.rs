//! Name lists: the template names of a type name of C++.

use alloc::collections::BTreeMap;
use alloc::vec::Vec;
use core::error::Error;
use core::fmt;

use crate::answer::{Refusal, TypeNameError};
use crate::limits::{ANSWER_LENGTH, LONGEST_WORD, MOST_NAMES};
use crate::raw::type_name_read_named;
use crate::row::{Head, Row};
use crate::token::{Tokens, WordFault, checked_word, write_record};
use crate::token_kind::TokenKind;

/// The names of templates, for [`parse_named_type_name`](crate::parse_named_type_name): 1 to [`MOST_NAMES`] words, none of them
/// twice.
///
/// A name is one word, as it stands right before a `<`: of `std::map<Key, Lane<8>>` the names are `map` and `Lane`. Case counts.
///
/// ```
/// use type_name::{Names, NamesError};
///
/// let names = Names::new(["map", "Lane"])?;
/// assert!(names.iter().eq(["map", "Lane"]));
/// let twice = Names::new(["Lane", "Key", "Lane"]);
/// assert_eq!(twice, Err(NamesError::Twice { name: 2, first: 0 }));
/// # Ok::<(), NamesError>(())
/// ```
///
/// Its bytes are always of the form that `docs/FORMAT.md` describes: [`Names::new`] writes nothing else, and
/// [`Names::from_bytes`] takes nothing else.
#[derive(Debug, Clone, PartialEq, Eq)]
pub struct Names {
    bytes: Vec<u8>,
}

impl Names {
    /// The list of these names.
    ///
    /// # Errors
    ///
    /// If there is no list of them, by the first name at fault.
    pub fn new(names: impl IntoIterator<Item = impl AsRef<str>>) -> Result<Self, NamesError> {
        let mut bytes = Vec::new();
        let mut places = BTreeMap::new();
        for (name, word) in names.into_iter().enumerate() {
            if name == MOST_NAMES {
                return Err(NamesError::TooMany);
            }
            let checked = checked_word(word.as_ref());
            let checked = checked.map_err(|fault| NamesError::of_word(name, fault))?;
            if let Some(first) = places.insert(checked.to_vec(), name) {
                return Err(NamesError::Twice { name, first });
            }
            // Where a name stands in a source decides nothing, and need not be known.
            write_record(TokenKind::Identifier, checked, 0..0, &mut bytes);
        }
        match bytes.is_empty() {
            true => Err(NamesError::Empty),
            false => Ok(Self { bytes }),
        }
    }

    /// The names of a file.
    ///
    /// # Errors
    ///
    /// [`InvalidNameList`](TypeNameError::InvalidNameList), if the file is no name list: what is proved of
    /// [`type_name_read_named`] decides.
    ///
    /// # Panics
    ///
    /// Only if the library that is linked is not the proved one: its refusals have other numbers.
    pub fn from_bytes(bytes: impl Into<Vec<u8>>) -> Result<Self, Refusal> {
        let bytes = bytes.into();
        let mut answer = [0; ANSWER_LENGTH];
        // A row without tokens is refused right behind the name list: nothing is looked at but that.
        let empty = Row::new(Head::default());
        type_name_read_named(empty.bytes(), &bytes, &mut [], &mut answer);
        match Refusal::of_answer(answer) {
            Err(refusal) if refusal.error != TypeNameError::Empty => Err(refusal),
            _ => Ok(Self { bytes }),
        }
    }

    /// The file.
    #[must_use]
    pub fn as_bytes(&self) -> &[u8] {
        &self.bytes
    }

    /// The names, in order.
    pub fn iter(&self) -> impl Iterator<Item = &str> {
        Tokens::without_head(&self.bytes).map(|token| token.word)
    }
}

/// Why there is no list of some names. They are named by their place, from 0.
#[derive(Debug, Clone, Copy, PartialEq, Eq)]
pub enum NamesError {
    /// There is no name.
    Empty,
    /// There are more than [`MOST_NAMES`] names.
    TooMany,
    /// The name has so many bytes, and not 1 to 255.
    WordLength {
        /// The name's place.
        name: usize,
        /// How many bytes it has.
        bytes: usize,
    },
    /// A byte of the name is none of 33 to 126, the visible characters of ASCII.
    WordByte {
        /// The name's place.
        name: usize,
        /// The byte's place in it.
        at: usize,
    },
    /// The name is given twice.
    Twice {
        /// Its second place.
        name: usize,
        /// Its first place.
        first: usize,
    },
}

impl NamesError {
    fn of_word(name: usize, fault: WordFault) -> Self {
        match fault {
            WordFault::Length(bytes) => Self::WordLength { name, bytes },
            WordFault::Byte(at) => Self::WordByte { name, at },
        }
    }
}

impl fmt::Display for NamesError {
    fn fmt(&self, to: &mut fmt::Formatter<'_>) -> fmt::Result {
        match self {
            Self::Empty => to.write_str("there is no name"),
            Self::TooMany => write!(to, "there are more than {MOST_NAMES} names"),
            Self::WordLength { name, bytes } => {
                write!(
                    to,
                    "name {name} has {bytes} bytes, and not 1 to {LONGEST_WORD}"
                )
            }
            Self::WordByte { name, at } => {
                write!(to, "byte {at} of name {name} is no visible ASCII character")
            }
            Self::Twice { name, first } => {
                write!(to, "name {name} is given before, as name {first}")
            }
        }
    }
}

impl Error for NamesError {}
