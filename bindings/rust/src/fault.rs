use std::fmt;
use std::io::{self, ErrorKind};

/// Why a call was not made. Then nothing happened, unless a file failed.
#[derive(Clone, Copy, Debug, PartialEq, Eq)]
pub enum Fault {
    /// The bytes are no setup, no stores, no step or no action's name.
    Bad,
    Memory,
    /// The store of a guardian failed.
    Store,
    /// The stores are not those of this setup.
    NotOurs,
    /// The world is closed, since a file failed.
    Closed,
    /// A file can not be read or written. The world is closed: reopen it.
    Files(ErrorKind),
    /// A code that this call does not answer.
    Other(u32),
}

impl fmt::Display for Fault {
    fn fmt(&self, f: &mut fmt::Formatter<'_>) -> fmt::Result {
        match self {
            Fault::Bad => f.write_str("not a setup, stores, a step or a name"),
            Fault::Memory => f.write_str("out of memory"),
            Fault::Store => f.write_str("a store failed"),
            Fault::NotOurs => f.write_str("not the stores of this setup"),
            Fault::Closed => f.write_str("the world is closed"),
            Fault::Files(kind) => write!(f, "a file failed: {kind}"),
            Fault::Other(code) => write!(f, "code {code}"),
        }
    }
}

impl std::error::Error for Fault {}

impl From<io::Error> for Fault {
    fn from(error: io::Error) -> Fault {
        Fault::Files(error.kind())
    }
}

/// The fault that the code tells, if any.
pub(crate) fn checked(code: u32) -> Result<(), Fault> {
    match code {
        0 => Ok(()),
        1 => Err(Fault::Bad),
        3 => Err(Fault::Memory),
        5 => Err(Fault::Closed),
        7 => Err(Fault::Store),
        8 => Err(Fault::NotOurs),
        code => Err(Fault::Other(code)),
    }
}
