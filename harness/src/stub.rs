//! What stands in for the parts of the original that are left behind: a
//! lexer that hands out given tokens, and a printing method that is never
//! called.

use std::cell::RefCell;
use std::sync::LazyLock;

use crate::format::MOST_TOKENS;
use crate::host::ast::{Expr, HostLanguage};
use crate::host::lexer::{LexError, Token, TokenKind};
use crate::source::Span;
use crate::version::HostLanguageProfile;

thread_local! {
    static HANDED_IN: RefCell<Vec<Token>> = const { RefCell::new(Vec::new()) };
}

/// The text that the original is called with: one `x` for each token and one
/// for the closing `End`, so that a token's number can be its place.
pub static TEXT: LazyLock<String> = LazyLock::new(|| "x".repeat(MOST_TOKENS + 1));

/// The span of each place of `TEXT`, made once because making one is slow.
static SPANS: LazyLock<Vec<Span>> = LazyLock::new(|| {
    let place = |number| Span::point(&TEXT, number).expect("a place of the text");
    (0..=MOST_TOKENS).map(place).collect()
});

/// The list that a lexer would give: the closing `End` is added, and each
/// token's span is its number.
pub fn listed(row: impl ExactSizeIterator<Item = TokenKind>) -> Vec<Token> {
    assert!(row.len() <= MOST_TOKENS, "there is a span for every token");
    let tokens = row.chain([TokenKind::End]).zip(SPANS.iter());
    tokens.map(|(kind, &span)| Token { kind, span }).collect()
}

/// Sets the list that the next run of the original reads.
pub fn hand_over(tokens: Vec<Token>) {
    HANDED_IN.set(tokens);
}

/// Takes the place of the original's lexer in type_name.rs.
pub struct Lexer;

impl Lexer {
    pub fn for_type_name_with_profile(_text: &str, _profile: HostLanguageProfile) -> Self {
        Self
    }

    pub fn tokenize(self) -> Result<Vec<Token>, LexError> {
        Ok(HANDED_IN.take())
    }
}

impl Expr {
    /// Only the printing methods call this; its own file is left behind.
    pub fn canonical(&self, _language: HostLanguage) -> String {
        unreachable!("nothing here prints expressions")
    }
}
