//! What goes wrong before a block is written, and what the proved code refuses.

use crate::refusal::Refusal;
use alloc::string::String;
use core::fmt;

/// Why a block can't be written, a value can't be taken, or a set does not build.
#[derive(Clone, Debug, PartialEq, Eq)]
#[non_exhaustive]
pub enum Error {
    /// A name is longer than its two-byte length can say.
    NameTooLong {
        /// How the name begins.
        start: String,
        /// How many bytes it has.
        length: usize,
    },
    /// A list is longer than its two-byte count can say.
    TooMany {
        /// What is listed, as `fields`.
        what: &'static str,
        /// How many there are.
        count: usize,
    },
    /// A block is longer than its four-byte length can say.
    BlockTooLong,
    /// A value is given twice.
    ValueTwice {
        /// The value's name.
        name: String,
    },
    /// The proved code refuses what was written.
    Refused {
        /// Its refusal.
        refusal: Refusal,
        /// The name of the type at the refusal's place, where it is known.
        type_name: Option<String>,
    },
}

impl Error {
    /// The refusal of the proved code, if it is one.
    pub fn refusal(&self) -> Option<&Refusal> {
        match self {
            Error::Refused { refusal, .. } => Some(refusal),
            _ => None,
        }
    }
}

impl fmt::Display for Error {
    fn fmt(&self, f: &mut fmt::Formatter<'_>) -> fmt::Result {
        match self {
            Error::NameTooLong { start, length } => write!(
                f,
                "a name has {length} bytes, and a block can't hold more than 65,535: \"{start}...\""
            ),
            Error::TooMany { what, count } => write!(
                f,
                "there are {count} {what}, and a list can't hold more than 65,535"
            ),
            Error::BlockTooLong => f.write_str("a block would be longer than 4,294,967,295 bytes"),
            Error::ValueTwice { name } => write!(f, "the value \"{name}\" is given twice"),
            Error::Refused { refusal, type_name } => refusal.write(f, type_name.as_deref(), None),
        }
    }
}

#[cfg(feature = "std")]
impl std::error::Error for Error {}

impl From<Refusal> for Error {
    fn from(refusal: Refusal) -> Self {
        Error::Refused {
            refusal,
            type_name: None,
        }
    }
}
