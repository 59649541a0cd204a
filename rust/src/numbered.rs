//! Enums whose cases stand for numbers of the file, the tree or the answer.

use core::error::Error;
use core::fmt;

/// No case of the enum has this number.
#[derive(Debug, Clone, Copy, PartialEq, Eq)]
pub struct UnknownNumberError {
    /// The enum's name.
    pub of: &'static str,
    /// The number.
    pub number: u32,
}

impl fmt::Display for UnknownNumberError {
    fn fmt(&self, to: &mut fmt::Formatter<'_>) -> fmt::Result {
        write!(to, "{} is the number of no {}", self.number, self.of)
    }
}

impl Error for UnknownNumberError {}

/// Declares such an enum, and the list of its cases.
macro_rules! numbered {
    (
        $(#[$about:meta])*
        $name:ident { $($(#[$of_case:meta])* $case:ident = $number:literal,)* }
    ) => {
        $(#[$about])*
        #[derive(Debug, Clone, Copy, PartialEq, Eq, PartialOrd, Ord, Hash)]
        pub enum $name { $($(#[$of_case])* $case = $number,)* }

        impl $name {
            /// All of them, in the order of their numbers.
            pub const ALL: [Self; [$($number),*].len()] = [$(Self::$case),*];

            /// The number that stands for it.
            #[must_use]
            pub const fn number(self) -> u32 {
                self as u32
            }
        }

        impl TryFrom<u32> for $name {
            type Error = $crate::UnknownNumberError;

            fn try_from(number: u32) -> Result<Self, Self::Error> {
                let of_number = Self::ALL.into_iter().find(|case| case.number() == number);
                of_number.ok_or($crate::UnknownNumberError { of: stringify!($name), number })
            }
        }

        impl From<$name> for u32 {
            fn from(case: $name) -> Self {
                case.number()
            }
        }
    };
}

pub(crate) use numbered;
