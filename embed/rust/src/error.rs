//! Why a call did nothing.

use std::fmt;

/// Why a call did nothing.
#[derive(Clone, Copy, Debug, PartialEq, Eq, Hash)]
#[non_exhaustive]
pub enum Error {
    /// The memory was refused.
    NoMemory,
    /// There would be more entries than indexes, which are 4,294,967,295.
    Full,
    /// Each generation was given, after some four thousand million removals, so that no handle is
    /// left that was never given.
    Spent,
    /// The rooms of a store are together more than there are indexes, which are 4,294,967,295.
    TooLarge,
}

impl fmt::Display for Error {
    fn fmt(&self, f: &mut fmt::Formatter<'_>) -> fmt::Result {
        f.write_str(match self {
            Error::NoMemory => "the memory was refused",
            Error::Full => "there is an entry at each index",
            Error::Spent => "each handle was given",
            Error::TooLarge => "the rooms are together more than there are indexes",
        })
    }
}

impl std::error::Error for Error {}
