//! Answers, and the refusals of documents 01 and 02 by name.

use std::fmt;

use crate::format::ANSWER_LENGTH;

/// The token of a refusal that names none.
pub const NO_TOKEN: u32 = 65_535;

#[derive(Debug, Clone, Copy, PartialEq, Eq)]
pub enum Answer {
    Accepted {
        nodes: u32,
        steps: u32,
    },
    Refused {
        number: u32,
        token: u32,
        detail: u32,
        steps: u32,
    },
}

/// A refusal without its steps.
#[derive(Debug, Clone, Copy, PartialEq, Eq)]
pub struct Refusal {
    pub number: u32,
    pub token: u32,
    pub detail: u32,
}

impl Refusal {
    pub const FILE_TOO_LONG: u32 = 1;
    pub const INVALID_HEAD: u32 = 2;
    pub const UNKNOWN_PROFILE: u32 = 3;
    pub const INVALID_RECORD: u32 = 4;
    pub const TOO_MANY_RECORDS: u32 = 5;
    pub const SHORT_BUFFER: u32 = 6;
    pub const OFFSET_OVER_32_BITS: u32 = 7;
    pub const INVALID_NAME_LIST: u32 = 8;
    pub const EMPTY: u32 = 10;
    pub const UNEXPECTED_CLOSING_DELIMITER: u32 = 11;
    pub const UNEXPECTED_ANGLE: u32 = 12;
    pub const TOP_LEVEL_COMMA: u32 = 13;
    pub const UNEXPECTED_END_TOKEN: u32 = 14;
    pub const UNCLOSED_DELIMITER: u32 = 15;
    pub const UNCLOSED_ANGLE: u32 = 16;
    pub const MISSING_TYPE_WORD: u32 = 17;
    pub const INVALID_BOUNDARY_TOKEN: u32 = 18;
    pub const NESTING_LIMIT_EXCEEDED: u32 = 20;
    pub const UNTERMINATED_GROUP: u32 = 21;
    pub const MISMATCHED_CLOSING_DELIMITER: u32 = 22;
    pub const UNEXPECTED_TOKEN_AFTER_TYPE_NAME: u32 = 23;
    pub const ALLOWANCE_PASSED: u32 = 25;
    pub const SHIFT_WITHOUT_LIST: u32 = 26;
    pub const EMPTY_OR_UNCLOSED_LIST: u32 = 27;
    pub const NO_TYPE_NAME: u32 = 30;
    pub const NOT_AVAILABLE_IN_PROFILE: u32 = 40;
    pub const INVALID_RULE_TABLE: u32 = 50;
    pub const NO_RULE_MATCHES: u32 = 51;

    pub fn plain(number: u32) -> Self {
        Self::at(number, NO_TOKEN)
    }

    pub fn at(number: u32, token: u32) -> Self {
        Self {
            number,
            token,
            detail: 0,
        }
    }

    pub fn detailed(self, detail: u32) -> Self {
        Self { detail, ..self }
    }

    pub fn after(self, steps: u32) -> Answer {
        Answer::Refused {
            number: self.number,
            token: self.token,
            detail: self.detail,
            steps,
        }
    }
}

impl Answer {
    pub fn steps(self) -> u32 {
        let (Self::Accepted { steps, .. } | Self::Refused { steps, .. }) = self;
        steps
    }

    /// The refusal's number, `None` if accepted.
    pub fn refusal(self) -> Option<u32> {
        match self {
            Self::Accepted { .. } => None,
            Self::Refused { number, .. } => Some(number),
        }
    }

    /// The answer as callers of the proved reader get it.
    pub fn numbers(self) -> [u32; ANSWER_LENGTH] {
        match self {
            Self::Accepted { nodes, steps } => [0, nodes, steps, 0],
            Self::Refused {
                number,
                token,
                detail,
                steps,
            } => [number, token, detail, steps],
        }
    }
}

/// The first line of a listing.
impl fmt::Display for Answer {
    fn fmt(&self, to: &mut fmt::Formatter<'_>) -> fmt::Result {
        match self {
            Self::Accepted { nodes, steps } => write!(to, "ok {nodes} {steps}"),
            Self::Refused {
                number,
                token,
                detail,
                steps,
            } => write!(to, "no {number} {token} {detail} {steps}"),
        }
    }
}
