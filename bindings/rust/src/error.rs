//! The reasons why a request was not carried out.

use crate::sys;
use std::path::{Path, PathBuf};
use std::{error, fmt, io};

/// The reason why a request is refused. Nothing has changed.
#[derive(Clone, Copy, Debug, PartialEq, Eq, Hash)]
#[non_exhaustive]
pub enum Refusal {
    /// The library is out of memory.
    Memory,
    /// No transaction has this number since the last checkpoint.
    NoTxn,
    /// The transaction has committed or is aborted; an abort around it ends it too.
    Ended,
    /// The transaction has a live step.
    ChildLive,
    /// The transaction has no call that could be undone.
    NothingToUndo,
    /// A step of the transaction has committed since its last call.
    SubSince,
    /// The limit on transactions or on calls is reached; a checkpoint helps.
    Full,
    /// The transaction is at the greatest depth.
    Deep,
    /// A transaction is live.
    Live,
    /// The transaction waits for no call.
    NoAsk,
    /// A limit is above the greatest. Only [`Builder::build`] returns this.
    ///
    /// [`Builder::build`]: crate::Builder::build
    BadLimits,
    /// A refusal of a later library, by its code.
    Other(u32),
}

impl Refusal {
    fn of(code: u32) -> Refusal {
        match code {
            sys::MEMORY => Refusal::Memory,
            1002 => Refusal::NoTxn,
            1003 => Refusal::Ended,
            1004 => Refusal::ChildLive,
            1005 => Refusal::NothingToUndo,
            1006 => Refusal::SubSince,
            1007 => Refusal::Full,
            1008 => Refusal::Deep,
            1009 => Refusal::Live,
            1010 => Refusal::NoAsk,
            1012 => Refusal::BadLimits,
            _ => Refusal::Other(code),
        }
    }
}

impl fmt::Display for Refusal {
    fn fmt(&self, f: &mut fmt::Formatter<'_>) -> fmt::Result {
        f.write_str(match self {
            Refusal::Other(code) => return write!(f, "the request is refused as {code}"),
            Refusal::Memory => "there is not enough memory",
            Refusal::NoTxn => "there is no such transaction",
            Refusal::Ended => "the transaction has ended",
            Refusal::ChildLive => "the transaction has a live step",
            Refusal::NothingToUndo => "there is no call to undo",
            Refusal::SubSince => "a step has committed since the last call",
            Refusal::Full => "the limit on transactions or calls is reached",
            Refusal::Deep => "the transaction is at the greatest depth",
            Refusal::Live => "a transaction is live",
            Refusal::NoAsk => "the transaction waits for no call",
            Refusal::BadLimits => "a limit is above the greatest",
        })
    }
}

/// The reason why a request was not carried out.
#[derive(Clone, Debug, PartialEq, Eq)]
#[non_exhaustive]
pub enum Error {
    /// The call failed, and changed nothing.
    #[non_exhaustive]
    Errno {
        /// The error number of the system, as of [`io::Error::raw_os_error`].
        number: i32,
        /// The path or the two paths of the call, or the path by which its file was opened.
        paths: Vec<PathBuf>,
    },
    /// The call waits for the transactions with these numbers, in rising order. To ask again, make
    /// the call again.
    Waits(Vec<u64>),
    /// The call would wait forever: each of these transactions waits for the next one, and the last
    /// waits for the first, which made the call. The call is cancelled. Drop that transaction, or
    /// let it do something else; the others then continue.
    Deadlock(Vec<u64>),
    /// The request is refused, and nothing has changed.
    Refused(Refusal),
    /// A path has a null byte, a line is not a valid request, a file is opened in a way that
    /// `std::fs` refuses, or an offset or a length is 2^63 or more. Nothing has changed.
    Invalid,
    /// The bytes of a file are not UTF-8.
    NotUtf8,
}

/// The results of this crate.
pub type Result<T> = std::result::Result<T, Error>;

impl Error {
    /// The error of a code that is neither 0 nor that of a call that waits.
    pub(crate) fn of(code: u32) -> Error {
        match code {
            sys::BAD => Error::Invalid,
            sys::MEMORY.. => Error::Refused(Refusal::of(code)),
            _ => Error::Errno {
                number: code as i32,
                paths: Vec::new(),
            },
        }
    }

    /// The same error, about these paths.
    pub(crate) fn about(mut self, about: &[&Path]) -> Error {
        if let Error::Errno { paths, .. } = &mut self {
            *paths = about.iter().map(|path| path.to_path_buf()).collect();
        }
        self
    }

    /// Returns the kind: that of the system's error, or `WouldBlock` if a call waits.
    pub fn kind(&self) -> io::ErrorKind {
        match self {
            Error::Errno { number, .. } => io::Error::from_raw_os_error(*number).kind(),
            Error::Waits(_) | Error::Deadlock(_) => io::ErrorKind::WouldBlock,
            Error::Refused(Refusal::Memory) => io::ErrorKind::OutOfMemory,
            Error::Refused(Refusal::BadLimits) => io::ErrorKind::InvalidInput,
            Error::Refused(_) => io::ErrorKind::Other,
            Error::Invalid => io::ErrorKind::InvalidInput,
            Error::NotUtf8 => io::ErrorKind::InvalidData,
        }
    }

    /// Returns the error number of the system, if a call failed.
    pub fn raw_os_error(&self) -> Option<i32> {
        match self {
            Error::Errno { number, .. } => Some(*number),
            _ => None,
        }
    }

    /// Returns the paths of a call that failed.
    pub fn paths(&self) -> &[PathBuf] {
        match self {
            Error::Errno { paths, .. } => paths,
            _ => &[],
        }
    }

    /// Returns the error of this crate inside an `io::Error` that has no error number, for example
    /// if a write to a [`File`](crate::File) waits.
    pub fn inside(error: &io::Error) -> Option<&Error> {
        error.get_ref()?.downcast_ref()
    }
}

impl fmt::Display for Error {
    fn fmt(&self, f: &mut fmt::Formatter<'_>) -> fmt::Result {
        match self {
            Error::Errno { number, paths } => {
                io::Error::from_raw_os_error(*number).fmt(f)?;
                let mut before = ": ";
                for path in paths {
                    write!(f, "{before}{}", path.display())?;
                    before = " -> ";
                }
                Ok(())
            }
            Error::Waits(blockers) => write!(f, "the call waits for transactions {blockers:?}"),
            Error::Deadlock(cycle) => write!(f, "transactions {cycle:?} wait for each other"),
            Error::Refused(refusal) => refusal.fmt(f),
            Error::Invalid => f.write_str("an argument is not valid"),
            Error::NotUtf8 => f.write_str("the file is not valid UTF-8"),
        }
    }
}

impl error::Error for Error {}

/// An error number stays one, so its kind is that of the system's; it then has no path. The other
/// errors are inside the `io::Error`.
impl From<Error> for io::Error {
    fn from(error: Error) -> io::Error {
        match error.raw_os_error() {
            Some(number) => io::Error::from_raw_os_error(number),
            None => io::Error::new(error.kind(), error),
        }
    }
}
