//! The unchanged original from a token list to its tree, with nothing beside it: for measuring.

use crate::format::Row;
use crate::host::lexer::Token;
pub use crate::host::type_name::{TypeName, TypeNameError};
use crate::profile::HostLanguageProfile;
use crate::stub::{TEXT, hand_over, listed};

/// What the original's lexer would have given for a row.
#[derive(Clone)]
pub struct TokenList {
    tokens: Vec<Token>,
    profile: HostLanguageProfile,
    flag: u8,
}

impl TokenList {
    pub fn of(row: &Row) -> Self {
        let kinds = row.tokens.iter().map(|token| token.kind.token(&token.word));
        Self {
            tokens: listed(kinds),
            profile: row.profile(),
            flag: row.head.flag,
        }
    }

    /// The original keeps a copy of its source text; here that is one byte a token.
    pub fn read(self) -> Result<TypeName, TypeNameError> {
        let text = &TEXT[..self.tokens.len()];
        hand_over(self.tokens);
        match self.flag {
            0 => TypeName::parse_extension_with_profile(text, self.profile),
            _ => TypeName::parse_with_profile(text, self.profile),
        }
    }
}
