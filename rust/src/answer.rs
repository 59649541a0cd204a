//! Why a type name is refused.

use core::error::Error;
use core::fmt;

use crate::limits::{
    ANSWER_LENGTH, MOST_BYTES, MOST_NAMES, MOST_NESTING, MOST_RULES, MOST_TOKENS, NO_TOKEN,
    NUMBERS_PER_TOKEN,
};
use crate::numbered::numbered;

/// The type name is refused.
#[derive(Debug, Clone, Copy, PartialEq, Eq)]
#[must_use]
pub struct Refusal {
    /// Why.
    pub error: TypeNameError,
    /// The number of the token at fault, where the error names one: 11 to 16. In a list it is numbered within its part.
    pub token: Option<u32>,
    /// What more the error says: for `InvalidRecord` the byte offset of the record, else see [`Refusal::expected`] and
    /// [`Refusal::feature`]; 0 for all others.
    pub detail: u32,
    /// The steps before the refusal.
    pub steps: u32,
}

impl Refusal {
    /// What stands behind the 0 of an answer that is no refusal, else the refusal.
    pub(crate) fn of_answer(answer: [u32; ANSWER_LENGTH]) -> Result<[u32; 3], Self> {
        let [number, token, detail, steps] = match answer {
            [0, accepted @ ..] => return Ok(accepted),
            refused => refused,
        };
        let error = TypeNameError::try_from(number);
        Err(Self {
            error: error.expect("the proved reader refuses with numbers of the table alone"),
            token: (token != NO_TOKEN).then_some(token),
            detail,
            steps,
        })
    }

    /// For `UnexpectedClosingDelimiter` the innermost bracket that was open, if one was.
    #[must_use]
    pub fn expected(self) -> Option<Delimiter> {
        match self.error {
            TypeNameError::UnexpectedClosingDelimiter => Delimiter::try_from(self.detail).ok(),
            _ => None,
        }
    }

    /// For `NotAvailableInProfile` what the standard lacks.
    #[must_use]
    pub fn feature(self) -> Option<Feature> {
        match self.error {
            TypeNameError::NotAvailableInProfile => Feature::try_from(self.detail).ok(),
            _ => None,
        }
    }

    /// The sentence, with the refusal's number and detail.
    pub(crate) fn write_sentence(self, to: &mut fmt::Formatter<'_>) -> fmt::Result {
        write!(to, "refusal {}: {}", self.error.number(), self.error)?;
        self.write_detail(to)
    }

    /// What the detail says, as the end of a sentence.
    fn write_detail(self, to: &mut fmt::Formatter<'_>) -> fmt::Result {
        match self.error {
            TypeNameError::InvalidRecord => write!(to, ", at byte {}", self.detail),
            TypeNameError::AllowancePassed => write!(to, " of {} steps", self.steps),
            TypeNameError::UnexpectedClosingDelimiter => match self.expected() {
                Some(open) => write!(to, "; {open} was open"),
                None => to.write_str("; none was open"),
            },
            TypeNameError::NotAvailableInProfile => match self.feature() {
                Some(feature) => write!(to, ": {feature}"),
                None => Ok(()),
            },
            _ => Ok(()),
        }
    }
}

/// A sentence with the refusal's number, and with its token and detail where it has them.
impl fmt::Display for Refusal {
    fn fmt(&self, to: &mut fmt::Formatter<'_>) -> fmt::Result {
        self.write_sentence(to)?;
        match self.token {
            Some(token) => write!(to, " (token {token})"),
            None => Ok(()),
        }
    }
}

impl Error for Refusal {}

numbered! {
    /// Why a type name is refused, in the original's names; 1 to 8, 25 to 27, 50 and 51 are added, and each reason
    /// of its `InvalidSyntax` is a case of its own. `docs/FORMAT.md` has the table.
    #[non_exhaustive]
    TypeNameError {
        /// The file has more than [`MOST_BYTES`] bytes; of conversions: more than
        /// [`OLD_MOST_BYTES`](crate::OLD_MOST_BYTES) in the old format.
        FileTooLong = 1,
        /// The head record is cut off, or its length, kind or structure flag is wrong. A file of the old format is refused
        /// so: [`widen`](crate::widen) brings it over.
        InvalidHead = 2,
        /// The head record names no language or standard.
        UnknownProfile = 3,
        /// A token record is cut off, or its length, kind, span or word is out of range.
        InvalidRecord = 4,
        /// There are more than [`MOST_TOKENS`] tokens.
        TooManyRecords = 5,
        /// The tree buffer has fewer than [`NUMBERS_PER_TOKEN`] numbers a token; of
        /// [`type_name_overlap`](crate::type_name_overlap): the sequence buffer has fewer bytes than are shown; of
        /// conversions: the output buffer has fewer bytes than the converted file.
        ShortBuffer = 6,
        /// A span ends at 2<sup>32</sup> or later, which the old format cannot say. Of [`narrow`](crate::narrow) alone.
        OffsetOver32Bits = 7,
        /// The language is not C++, or the name list is not of its form: 1 to [`MOST_NAMES`] names, none of them twice. Of
        /// [`parse_named_type_name`](crate::parse_named_type_name) alone, as are 26 and 27.
        InvalidNameList = 8,
        /// There is no token.
        Empty = 10,
        /// A `)` or `]` that closes nothing, or not what was opened last.
        UnexpectedClosingDelimiter = 11,
        /// A `<`, `>` or `>>` outside brackets where none can be.
        UnexpectedAngle = 12,
        /// A comma outside brackets and angles. Never of a list, which such commas cut into parts.
        TopLevelComma = 13,
        /// A token of kind `End`.
        UnexpectedEndToken = 14,
        /// A `(` or `[` that is never closed; the innermost is named.
        UnclosedDelimiter = 15,
        /// An angle that is never closed; the row's first `<` outside brackets is named.
        UnclosedAngle = 16,
        /// There is no identifier.
        MissingTypeWord = 17,
        /// The row begins or ends with a token that no type name begins or ends with.
        InvalidBoundaryToken = 18,
        /// Groups and lists nest deeper than [`MOST_NESTING`].
        NestingLimitExceeded = 20,
        /// A list took the closer of a group, which is not closed therefore. Where names are given, neither this comes nor the
        /// next two.
        UnterminatedGroup = 21,
        /// A list took the closer of a group, and the next one is of the other sort.
        MismatchedClosingDelimiter = 22,
        /// Tokens are left over. Proved never to come.
        UnexpectedTokenAfterTypeName = 23,
        /// One more step would pass the allowance.
        AllowancePassed = 25,
        /// The first half of a `>>` closes a list, and for the second none is open at that bracket depth.
        ShiftWithoutList = 26,
        /// The list of a name is empty, has an empty argument or is not closed.
        EmptyOrUnclosedList = 27,
        /// The structure check finds no type name.
        NoTypeName = 30,
        /// The standard lacks a feature that the type name uses.
        NotAvailableInProfile = 40,
        /// The rule table is not of its form, or has more than [`MOST_RULES`] rules.
        InvalidRuleTable = 50,
        /// No rule of the table matches.
        NoRuleMatches = 51,
    }
}

/// One sentence, without number, token and detail.
impl fmt::Display for TypeNameError {
    fn fmt(&self, to: &mut fmt::Formatter<'_>) -> fmt::Result {
        match self {
            Self::FileTooLong => write!(to, "the file has more than {MOST_BYTES} bytes"),
            Self::TooManyRecords => write!(to, "the row has more than {MOST_TOKENS} tokens"),
            Self::ShortBuffer => {
                write!(
                    to,
                    "the tree buffer has fewer than {NUMBERS_PER_TOKEN} numbers a token"
                )
            }
            Self::NestingLimitExceeded => {
                write!(to, "groups and lists nest deeper than {MOST_NESTING}")
            }
            Self::InvalidNameList => write!(
                to,
                "the language is not C++, or the name list is not one of 1 to {MOST_NAMES} different names"
            ),
            Self::InvalidRuleTable => write!(
                to,
                "the rule table is not of its form, or has more than {MOST_RULES} rules"
            ),
            _ => to.write_str(self.sentence()),
        }
    }
}

impl TypeNameError {
    /// Of those whose sentence holds no number.
    fn sentence(self) -> &'static str {
        match self {
            Self::InvalidHead => {
                "the head record is cut off, or its length, kind or structure flag is wrong"
            }
            Self::UnknownProfile => "the head record names no language or standard",
            Self::InvalidRecord => {
                "a token record is cut off, or its length, kind, span or word is out of range"
            }
            Self::OffsetOver32Bits => {
                "a span ends at 2^32 or later, which the old format cannot hold"
            }
            Self::Empty => "there is no token",
            Self::UnexpectedClosingDelimiter => {
                "a closing bracket does not close the bracket that was opened last"
            }
            Self::UnexpectedAngle => "an angle stands outside brackets where none can stand",
            Self::TopLevelComma => "a comma stands outside brackets and angles",
            Self::UnexpectedEndToken => "a token of kind End stands in the row",
            Self::UnclosedDelimiter => "a bracket is never closed",
            Self::UnclosedAngle => "an angle is never closed",
            Self::MissingTypeWord => "there is no identifier",
            Self::InvalidBoundaryToken => "no type name begins or ends so",
            Self::UnterminatedGroup => {
                "a group is not closed, as a list that begins in it takes its closing bracket"
            }
            Self::MismatchedClosingDelimiter => {
                "a group meets the wrong closing bracket, as a list that begins in it takes its own"
            }
            Self::UnexpectedTokenAfterTypeName => "tokens are left over",
            Self::AllowancePassed => "reading and checking would pass the allowance",
            Self::ShiftWithoutList => {
                "a `>>` closes a list, and its second half finds none to close at that bracket depth"
            }
            Self::EmptyOrUnclosedList => {
                "the list of a name is empty, has an empty argument or is not closed"
            }
            Self::NoTypeName => "the tokens name no type",
            Self::NotAvailableInProfile => "the standard lacks what the type name uses",
            Self::NoRuleMatches => "no rule of the table matches",
            Self::FileTooLong
            | Self::TooManyRecords
            | Self::ShortBuffer
            | Self::NestingLimitExceeded
            | Self::InvalidNameList
            | Self::InvalidRuleTable => unreachable!("these hold numbers"),
        }
    }
}

impl Error for TypeNameError {}

numbered! {
    /// What a type name may use and a standard may lack; the number is the refusal's detail.
    #[non_exhaustive]
    Feature {
        /// `long long`
        LongLong = 1,
        /// `_Atomic( )`
        Atomic = 2,
        /// `_BitInt( )`
        BitInt = 3,
        /// `typeof( )`
        Typeof = 4,
        /// `typeof_unqual( )`
        TypeofUnqual = 5,
        /// `decltype( )`
        Decltype = 6,
        /// `&&`
        RvalueReference = 7,
        /// A selector with `=`, as in `real(kind=8)`.
        Selector = 8,
        /// `type( )`
        DerivedType = 9,
        /// `class( )`
        Class = 10,
        /// An assumed type or rank: `type(*)`, `(..)`.
        AssumedTypeOrRank = 11,
    }
}

impl fmt::Display for Feature {
    fn fmt(&self, to: &mut fmt::Formatter<'_>) -> fmt::Result {
        to.write_str(match self {
            Self::LongLong => "`long long`",
            Self::Atomic => "`_Atomic`",
            Self::BitInt => "`_BitInt`",
            Self::Typeof => "`typeof`",
            Self::TypeofUnqual => "`typeof_unqual`",
            Self::Decltype => "`decltype`",
            Self::RvalueReference => "`&&`",
            Self::Selector => "selector with `=`",
            Self::DerivedType => "`type`",
            Self::Class => "`class`",
            Self::AssumedTypeOrRank => "assumed type or rank",
        })
    }
}

numbered! {
    /// A sort of bracket; the number is the detail of `UnexpectedClosingDelimiter` where such a bracket was open.
    Delimiter {
        /// `(`
        Parenthesis = 1,
        /// `[`
        Bracket = 2,
    }
}

impl fmt::Display for Delimiter {
    fn fmt(&self, to: &mut fmt::Formatter<'_>) -> fmt::Result {
        to.write_str(match self {
            Self::Parenthesis => "`(`",
            Self::Bracket => "`[`",
        })
    }
}
