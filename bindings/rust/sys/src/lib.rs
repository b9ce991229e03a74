//! The functions, types and numbers of libnuzolged, as its headers declare them: a POSIX file tree
//! in memory, under nested transactions. The crate `nuzolged` is the safe one over them.
//!
//! The comment of each function describes its arguments and answer. The head of nuzolged.h says
//! what the caller must ensure, which nothing checks.
#![allow(non_camel_case_types)]
#![warn(missing_docs)]

#[rustfmt::skip]
mod header;

pub use header::*;
