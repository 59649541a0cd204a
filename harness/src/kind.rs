//! Token kinds by name, numbered by their place in the original's
//! `TokenKind`, and the original's tokens of each kind.

use crate::host::ast::{
    CharacterEncoding, CharacterLiteral, Identifier, IntegerBase, IntegerLiteral, IntegerSuffix,
    LiteralCodeUnit, RealLiteral, RealSuffix, StringDelimiter, StringLiteral,
};
use crate::host::lexer::TokenKind;

/// Declares the kinds in order; where a token holds something, the function
/// in brackets makes it from the record's word.
macro_rules! kinds {
    ($($name:ident $(($payload:ident))?),* $(,)?) => {
        #[derive(Debug, Clone, Copy, PartialEq, Eq)]
        pub enum Kind { $($name),* }

        impl Kind {
            pub const ALL: &[Self] = &[$(Self::$name),*];

            pub fn of(token: &TokenKind) -> Self {
                match token { $(TokenKind::$name { .. } => Self::$name),* }
            }

            /// The original's token of this kind. Kind 0 holds the word;
            /// the values of literals are left behind, any one will do.
            pub fn token(self, word: &str) -> TokenKind {
                match self { $(Self::$name => TokenKind::$name $(($payload(word)))?),* }
            }
        }
    };
}

kinds! {
    Identifier(identifier), ReservedKeyword(identifier), Integer(integer), Real(real),
    Character(character), String(string), Boolean(boolean), NullPointer,
    LeftParen, RightParen, LeftBracket, RightBracket,
    Comma, Question, Colon, Scope, Dot, Percent, Arrow,
    Plus, Minus, Star, Slash, Power, Concat, Remainder,
    LogicalNot, BitwiseNot, Ampersand, Pipe, Caret,
    LogicalAnd, LogicalOr, LogicalEqv, LogicalNeqv, FortranDefinedOperator(identifier),
    Equal, EqualEqual, NotEqual, Less, LessEqual, Greater, GreaterEqual,
    ShiftLeft, ShiftRight, PlusPlus, MinusMinus,
    PlusEqual, MinusEqual, StarEqual, SlashEqual, RemainderEqual,
    AmpersandEqual, PipeEqual, CaretEqual, ShiftLeftEqual, ShiftRightEqual,
    End,
}

impl Kind {
    pub fn number(self) -> u16 {
        self as u16
    }

    pub fn numbered(number: u16) -> Option<Self> {
        Self::ALL.get(usize::from(number)).copied()
    }
}

fn identifier(word: &str) -> Identifier {
    Identifier::from_lexed(word)
}

fn integer(_word: &str) -> IntegerLiteral {
    IntegerLiteral {
        base: IntegerBase::Decimal,
        value: 8,
        suffix: IntegerSuffix::None,
    }
}

fn real(_word: &str) -> RealLiteral {
    RealLiteral {
        coefficient: 8,
        fractional_digits: 0,
        exponent: None,
        suffix: RealSuffix::Fortran(None),
    }
}

fn character(_word: &str) -> CharacterLiteral {
    CharacterLiteral {
        encoding: CharacterEncoding::Ordinary,
        code_unit: LiteralCodeUnit::Scalar('x'),
        value: 'x',
    }
}

fn string(_word: &str) -> StringLiteral {
    StringLiteral {
        encoding: CharacterEncoding::Ordinary,
        delimiter: StringDelimiter::DoubleQuote,
        code_units: Vec::new(),
        value: String::new(),
    }
}

fn boolean(_word: &str) -> bool {
    true
}
