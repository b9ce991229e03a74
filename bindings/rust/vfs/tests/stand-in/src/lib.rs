//! A stand-in for the crate vfs, version 0.12, only for the tests of nuzolged-vfs.
//!
//! It has the parts of vfs that those tests use, written from memory of vfs's documentation, and
//! none of its code. The published crate may differ.

pub mod error;
mod filesystem;
mod path;

pub use error::{VfsError, VfsResult};
pub use filesystem::FileSystem;
pub use path::{SeekAndRead, SeekAndWrite, VfsFileType, VfsMetadata, VfsPath};
