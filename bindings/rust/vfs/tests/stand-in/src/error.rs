//! Errors.

use std::{error, fmt, io};

/// The kind of an error.
#[derive(Debug)]
pub enum VfsErrorKind {
    IoError(io::Error),
    FileNotFound,
    InvalidPath,
    Other(String),
    DirectoryExists,
    FileExists,
    NotSupported,
}

/// An error about a path.
#[derive(Debug)]
pub struct VfsError {
    path: String,
    kind: VfsErrorKind,
}

pub type VfsResult<T> = Result<T, VfsError>;

impl VfsError {
    pub fn kind(&self) -> &VfsErrorKind {
        &self.kind
    }

    pub(crate) fn with_path(mut self, path: &str) -> VfsError {
        self.path = path.to_owned();
        self
    }
}

/// An I/O error that says that something is missing becomes `FileNotFound`.
impl From<VfsErrorKind> for VfsError {
    fn from(kind: VfsErrorKind) -> VfsError {
        let kind = match kind {
            VfsErrorKind::IoError(error) if error.kind() == io::ErrorKind::NotFound => {
                VfsErrorKind::FileNotFound
            }
            kind => kind,
        };
        let path = String::new();
        VfsError { path, kind }
    }
}

impl From<io::Error> for VfsError {
    fn from(error: io::Error) -> VfsError {
        VfsErrorKind::IoError(error).into()
    }
}

impl fmt::Display for VfsError {
    fn fmt(&self, f: &mut fmt::Formatter<'_>) -> fmt::Result {
        write!(f, "{}: {:?}", self.path, self.kind)
    }
}

impl error::Error for VfsError {}
