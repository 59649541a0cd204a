//! The numbers of the row file, the tree, the answer and the rule table: the one place of this crate that says them. `docs/FORMAT.md`
//! describes them; `tests/numbers` holds them to the proved definitions.

/// The most bytes of a row file, else [`FileTooLong`](crate::TypeNameError::FileTooLong).
pub const MOST_BYTES: usize = 131_072;

/// The bytes of the head record.
pub const HEAD_LENGTH: usize = 11;

/// Where the head record has its allowance, of four bytes.
pub const ALLOWANCE_AT: usize = 7;

/// The number that the head record has in place of a token kind.
pub const HEAD_KIND: u16 = 261;

/// The bytes of a token record, without its word.
pub const TOKEN_LENGTH: usize = 20;

/// The most bytes of a file in the old format, else [`FileTooLong`](crate::TypeNameError::FileTooLong) of
/// [`widen`](crate::widen) and [`narrow`](crate::narrow).
pub const OLD_MOST_BYTES: usize = 65_536;

/// The number that the head record of the old format has in place of a token kind.
pub const OLD_HEAD_KIND: u16 = 256;

/// The bytes of a token record of the old format, without its word.
pub const OLD_TOKEN_LENGTH: usize = 12;

/// The bytes of an output buffer that is long enough for every file that [`widen`](crate::widen) accepts: 8 more for each of
/// [`MOST_TOKENS`] tokens than [`OLD_MOST_BYTES`].
pub const MOST_WIDENED: usize = 73_728;

/// The most tokens of a row, else [`TooManyRecords`](crate::TypeNameError::TooManyRecords).
pub const MOST_TOKENS: usize = 1_024;

/// The most bytes of a word.
pub const LONGEST_WORD: usize = 255;

/// The least byte that a word may have.
pub const LEAST_WORD_BYTE: u8 = 33;

/// The greatest byte that a word may have.
pub const GREATEST_WORD_BYTE: u8 = 126;

/// The numbers of a node record: kind, token, extent.
pub const NODE_WIDTH: usize = 3;

/// The numbers that the tree buffer must hold for each token, else [`ShortBuffer`](crate::TypeNameError::ShortBuffer).
pub const NUMBERS_PER_TOKEN: usize = 6;

/// The numbers of a tree buffer that is long enough for every file.
pub const TREE_LENGTH: usize = NUMBERS_PER_TOKEN * MOST_TOKENS;

/// The numbers of an answer.
pub const ANSWER_LENGTH: usize = 4;

/// The numbers of the answer to a list of type names.
pub const LIST_ANSWER_LENGTH: usize = 5;

/// Stands in an answer where a refusal names no token.
pub const NO_TOKEN: u32 = 65_535;

/// Stands in the answer to a list where the file is refused before it is cut into parts.
pub const NO_PART: u32 = 65_535;

/// How deep groups and lists may nest, else [`NestingLimitExceeded`](crate::TypeNameError::NestingLimitExceeded).
pub const MOST_NESTING: usize = 64;

/// The most names of a name list, else [`InvalidNameList`](crate::TypeNameError::InvalidNameList).
pub const MOST_NAMES: usize = 512;

/// The bytes of a rule record, without its items.
pub const RULE_HEAD_LENGTH: usize = 4;

/// The number that a rule record has in place of a token kind.
pub const RULE_KIND: u16 = 272;

/// The most rules of a table, else [`InvalidRuleTable`](crate::TypeNameError::InvalidRuleTable).
pub const MOST_RULES: usize = 256;

/// The most items of a rule.
pub const MOST_ITEMS: usize = 16;

/// The bytes of a sequence buffer that is long enough for every table: those of [`MOST_ITEMS`] words of [`LONGEST_WORD`].
pub const LONGEST_SEQUENCE: usize = 4_112;

/// A byte offset in the source, as token records hold it.
pub type Offset = u64;
