//! A POSIX file tree in memory, under nested transactions.
//!
//! ```
//! use nuzolged::{Error, Tree};
//!
//! # fn main() -> Result<(), Error> {
//! let tree = Tree::new()?;
//! let job = tree.begin()?;
//!
//! let step = job.begin()?; // a step of the job
//! step.create_dir("/out")?;
//! step.write("/out/log", b"all of it")?;
//! step.commit()?;
//!
//! let step = job.begin()?;
//! step.rename("/out/log", "/out/old")?;
//! drop(step); // aborted: what it did is gone
//!
//! assert_eq!(job.read("/out/log")?, b"all of it");
//! job.commit()
//! # }
//! ```
//!
//! [`Tree`] is for one thread at a time. [`Shared`] is for many threads, and a blocked call waits
//! there. A dropped [`Transaction`] is aborted, unless it has committed. To undo a part of what a
//! transaction does, do that part in a step, and drop the step. The traits of `std::io` read and
//! write a [`File`]. [`Error`] says why a request was not carried out, and becomes an `io::Error`
//! by `From`.
//!
//! [`Transaction::copy_in`] and [`Transaction::copy_out`] copy directories of the disk.
//!
//! Absolute and relative paths are the same here: the working directory is always the root. A
//! symbolic link with a relative target leads on from its own directory.
//!
//! # What the borrow checker rules out
//!
//! A commit while a step is live:
//!
//! ```compile_fail,E0505
//! # let tree = nuzolged::Tree::new().unwrap();
//! let job = tree.begin().unwrap();
//! let step = job.begin().unwrap();
//! job.commit().unwrap();
//! step.commit().unwrap();
//! ```
//!
//! A commit while a file is open:
//!
//! ```compile_fail,E0505
//! # use nuzolged::OpenOptions;
//! # let tree = nuzolged::Tree::new().unwrap();
//! let job = tree.begin().unwrap();
//! let log = job.open("/log", OpenOptions::new().read(true)).unwrap();
//! job.commit().unwrap();
//! log.close().unwrap();
//! ```
//!
//! Anything after a commit:
//!
//! ```compile_fail,E0382
//! # let tree = nuzolged::Tree::new().unwrap();
//! let job = tree.begin().unwrap();
//! job.commit().unwrap();
//! job.create_dir("/late").unwrap();
//! ```
//!
//! A checkpoint while a transaction is live:
//!
//! ```compile_fail,E0502
//! # let mut tree = nuzolged::Tree::new().unwrap();
//! let job = tree.begin().unwrap();
//! tree.checkpoint().unwrap();
//! job.commit().unwrap();
//! ```
//!
//! A tree in two threads, unless it is [`Shared`]:
//!
//! ```compile_fail,E0277
//! # let tree = nuzolged::Tree::new().unwrap();
//! std::thread::scope(|threads| {
//!     threads.spawn(|| tree.begin().unwrap().commit());
//! });
//! ```
#![warn(missing_docs)]

mod attributes;
mod builder;
mod disk;
mod error;
mod file;
mod sys;
mod touched;
mod transaction;
mod tree;
mod waits;
mod whole;
mod within;

#[cfg(not(unix))]
compile_error!("nuzolged takes paths as Unix has them");

#[cfg(doctest)]
#[doc = include_str!("../README.md")]
struct Readme;

pub use attributes::{FileTimes, Permissions};
pub use builder::Builder;
pub use disk::CopyOptions;
pub use error::{Error, Refusal, Result};
pub use file::{File, Holder, OpenFile, OpenOptions, OwnedFile};
pub use touched::Touched;
pub use transaction::{Entry, Kind, Metadata, Transaction};
pub use tree::{Reach, Rule, Shared, Tree};
pub use whole::{Place, Walk};
pub use within::Within;
