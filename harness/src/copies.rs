//! The two copies of the original and what they say of a row. The unchanged
//! copy cannot be stopped, so it runs only where the counted copy finished.

use crate::answer::Refusal;
use crate::format::Row;
use crate::host::lexer::TokenKind;
use crate::kind::Kind;
use crate::profile::HostLanguageProfile;
use crate::source::Span;
use crate::steps;
use crate::stub::{TEXT, hand_over, listed};
use crate::tree::{Node, Shape, Syntax, nodes};

/// The tree's nodes, or why the row is refused.
pub type Outcome = Result<Vec<Node>, Refusal>;

/// The outcome by the counted copy, `None` where the step count would pass
/// the row's allowance, and the steps taken.
pub fn read(row: &Row, profile: HostLanguageProfile) -> (Option<Outcome>, u32) {
    let tokens = originals(row);
    steps::within(row.head.allowance, || counted::read(row, profile, &tokens))
}

/// Whether both copies say the same of a row, `None` where the unchanged one
/// cannot be run.
pub fn agree(row: &Row) -> Option<bool> {
    let profile = row.profile();
    let (outcome, _) = read(row, profile);
    outcome.map(|outcome| outcome == unchanged::read(row, profile, &originals(row)))
}

pub(crate) fn originals(row: &Row) -> Vec<TokenKind> {
    let token = |token: &crate::format::Token| token.kind.token(&token.word);
    row.tokens.iter().map(token).collect()
}

/// Reads with one copy. Both declare types of their own, hence a macro.
macro_rules! reading_with {
    ($name:ident, $copy:ident) => {
        mod $name {
            use super::*;
            use crate::host::$copy::{Delimiter, TypeName, TypeNameError as Error, TypeSyntax};

            impl Syntax for TypeSyntax {
                fn shape(&self) -> Shape<'_, Self> {
                    match self {
                        Self::Token(token) => Shape::Token(token),
                        Self::Parenthesized(inner) => Shape::Parentheses(inner),
                        Self::Bracketed(inner) => Shape::Brackets(inner),
                        Self::TemplateArguments(arguments) => Shape::List(arguments),
                    }
                }
            }

            pub fn read(row: &Row, profile: HostLanguageProfile, tokens: &[TokenKind]) -> Outcome {
                hand_over(listed(tokens.iter().cloned()));
                let read = match row.head.flag {
                    0 => TypeName::parse_extension_with_profile(&TEXT, profile),
                    _ => TypeName::parse_with_profile(&TEXT, profile),
                };
                match read {
                    Ok(name) => Ok(nodes(name.syntax(), tokens)),
                    Err(error) => Err(refusal(error, tokens)),
                }
            }

            pub fn refusal(error: Error, tokens: &[TokenKind]) -> Refusal {
                match error {
                    Error::Empty => Refusal::plain(Refusal::EMPTY),
                    Error::UnexpectedClosingDelimiter { expected, span, .. } => {
                        at(Refusal::UNEXPECTED_CLOSING_DELIMITER, span).detailed(match expected {
                            None => 0,
                            Some(Delimiter::Parenthesis) => 1,
                            Some(Delimiter::Bracket) => 2,
                        })
                    }
                    Error::UnexpectedAngle { span } => at(Refusal::UNEXPECTED_ANGLE, span),
                    Error::TopLevelComma { span } => at(Refusal::TOP_LEVEL_COMMA, span),
                    Error::UnexpectedEndToken => {
                        Refusal::at(Refusal::UNEXPECTED_END_TOKEN, first_end(tokens))
                    }
                    Error::UnclosedDelimiter { span, .. } => at(Refusal::UNCLOSED_DELIMITER, span),
                    Error::UnclosedAngle { span } => at(Refusal::UNCLOSED_ANGLE, span),
                    Error::MissingTypeWord => Refusal::plain(Refusal::MISSING_TYPE_WORD),
                    Error::InvalidBoundaryToken => Refusal::plain(Refusal::INVALID_BOUNDARY_TOKEN),
                    Error::InvalidSyntax(message) => Refusal::plain(syntax_refusal(message)),
                    Error::NotAvailableInProfile(feature) => {
                        Refusal::plain(Refusal::NOT_AVAILABLE_IN_PROFILE)
                            .detailed(feature_detail(feature))
                    }
                    Error::Lexical(_) | Error::MissingEndToken => {
                        unreachable!("the stub lexer ends every row")
                    }
                }
            }
        }
    };
}

reading_with!(unchanged, type_name);
reading_with!(counted, counted);

pub(crate) use counted::refusal;

/// A refusal at the token whose number is the span's place.
fn at(number: u32, span: Span) -> Refusal {
    Refusal::at(number, span.start_byte() as u32)
}

/// The original does not name the token of refusal 14.
fn first_end(tokens: &[TokenKind]) -> u32 {
    let is_end = |token: &TokenKind| Kind::of(token) == Kind::End;
    tokens.iter().position(is_end).expect("an `End` in the row") as u32
}

/// The messages that leave the original; those of failing tries stay inside.
fn syntax_refusal(message: &str) -> u32 {
    match message {
        "type-name nesting limit exceeded" => Refusal::NESTING_LIMIT_EXCEEDED,
        "unterminated parenthesized or bracketed type component" => Refusal::UNTERMINATED_GROUP,
        "mismatched closing delimiter in type name" => Refusal::MISMATCHED_CLOSING_DELIMITER,
        "unexpected token after the complete type name" => {
            Refusal::UNEXPECTED_TOKEN_AFTER_TYPE_NAME
        }
        "tokens do not form a host-language type name" => Refusal::NO_TYPE_NAME,
        _ => panic!("the original refused with an unexpected message: {message}"),
    }
}

/// The features that refusal 40 names, with its details and the original's
/// words.
#[rustfmt::skip]
const FEATURES: [(&str, u32, &str); 11] = [
    ("LongLong", 1, "long long type"),
    ("Atomic", 2, "_Atomic type specifier"),
    ("BitInt", 3, "_BitInt type specifier"),
    ("Typeof", 4, "typeof type specifier"),
    ("TypeofUnqual", 5, "typeof_unqual type specifier"),
    ("Decltype", 6, "decltype type specifier"),
    ("RvalueReference", 7, "rvalue reference type"),
    ("Selector", 8, "Fortran kind or length selector"),
    ("DerivedType", 9, "Fortran derived type"),
    ("Class", 10, "Fortran polymorphic class type"),
    ("AssumedTypeOrRank", 11, "Fortran assumed type or assumed rank"),
];

fn feature_detail(feature: &str) -> u32 {
    let known = FEATURES.iter().find(|(_, _, words)| *words == feature);
    let Some((_, detail, _)) = known else {
        panic!("the original lacks an unexpected feature: {feature}");
    };
    *detail
}
