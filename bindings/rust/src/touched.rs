//! The paths that a transaction has touched.

use crate::disk::c_path;
use crate::error::{Error, Result};
use crate::sys::{self, Answer, Handle};
use crate::transaction::{Kind, Transaction};
use crate::tree::{answered, Reach};
use std::collections::BTreeMap;
use std::ffi::OsStr;
use std::os::unix::ffi::OsStrExt;
use std::path::{Path, PathBuf};

/// How a transaction has touched a path.
#[derive(Clone, Copy, Debug, Default, PartialEq, Eq)]
#[non_exhaustive]
pub struct Touched {
    /// Whether it has looked up what the path leads to, even in vain, or has read the bytes, the
    /// target or the mode and owners there.
    pub read: bool,
    /// Whether it has listed the directory there.
    pub listed: bool,
    /// Whether it has made, changed, renamed or removed what is there.
    pub written: bool,
    /// Whether it has looked up the path in vain, and has not removed anything there.
    pub absent: bool,
    /// The kind of what is there now, if anything is.
    pub kind: Option<Kind>,
}

impl Touched {
    fn of(how: u32, kind: u32) -> Touched {
        Touched {
            read: how & sys::TOUCHED_READ != 0,
            listed: how & sys::TOUCHED_LISTED != 0,
            written: how & sys::TOUCHED_WRITTEN != 0,
            absent: how & sys::TOUCHED_ABSENT != 0,
            kind: (kind != 0).then(|| Kind::numbered(kind)),
        }
    }
}

impl<R: Reach> Transaction<R> {
    /// Returns each path that the transaction has looked up (even in vain), read, listed or written
    /// so far. The paths come from its locks, and include those of committed steps. A name that has
    /// been renamed or removed since is listed at its old place, if its directory still exists.
    /// This takes time and memory for the whole tree.
    ///
    /// ```
    /// # use nuzolged::{Result, Tree};
    /// # use std::path::Path;
    /// # fn main() -> Result<()> {
    /// let tree = Tree::new()?;
    /// let job = tree.begin()?;
    /// assert!(job.metadata("/none").is_err());
    /// job.create_dir("/made")?;
    /// let touched = job.touched()?;
    /// assert!(touched[Path::new("/none")].read && !touched[Path::new("/none")].written);
    /// assert!(touched[Path::new("/made")].written);
    /// # Ok(())
    /// # }
    /// ```
    ///
    /// # Errors
    ///
    /// Refused as `Memory`.
    pub fn touched(&self) -> Result<BTreeMap<PathBuf, Touched>> {
        let mut told = BTreeMap::new();
        let note = |path: &[u8], how, kind| {
            told.insert(OsStr::from_bytes(path).into(), Touched::of(how, kind));
        };
        self.reports(|handle, txn| answered(handle, |handle| handle.touched(txn, note)))?;
        Ok(told)
    }

    /// Returns the same as a text, with a line `PATH HOW KIND` for each path, in the order of their
    /// bytes. PATH is percent-coded. HOW has the words `read` or `absent`, `listed` and `written`
    /// that apply, with a comma between two. KIND is `dir`, `file`, `link` or `none`.
    ///
    /// ```
    /// # use nuzolged::{Result, Tree};
    /// # fn main() -> Result<()> {
    /// # let tree = Tree::new()?;
    /// let job = tree.begin()?;
    /// job.write("/a", "")?;
    /// let step = job.begin()?;
    /// step.rename("/a", "/b")?;
    /// assert!(step.metadata("/c d").is_err());
    /// let manifest = step.manifest()?;
    /// assert_eq!(manifest, "/a written none\n/b written file\n/c%20d absent none\n");
    /// # Ok(())
    /// # }
    /// ```
    ///
    /// # Errors
    ///
    /// Refused as `Memory`.
    pub fn manifest(&self) -> Result<String> {
        let text = self.text(|handle, txn, text| handle.manifest(txn, text))?;
        String::from_utf8(text).map_err(|_| Error::NotUtf8)
    }

    /// Returns the same in the form that make and Ninja read: a target with what it depends on. It
    /// depends on each file that the transaction has read and each directory that it has listed, if
    /// these still exist and the transaction has not written them. Symbolic links and names looked
    /// up in vain are left out: a manifest has them.
    ///
    /// Without a target, each file and symbolic link that the transaction has written is a target.
    /// `top` comes before each path of the tree, such as the directory of the disk that was copied
    /// in.
    ///
    /// ```
    /// # use nuzolged::{Result, Tree};
    /// # fn main() -> Result<()> {
    /// # let tree = Tree::new()?;
    /// let job = tree.begin()?;
    /// job.write("/a b.c", "int a;")?;
    /// let step = job.begin()?;
    /// step.read("/a b.c")?;
    /// assert_eq!(step.depfile(Some("a.o".as_ref()), "/src")?, b"a.o: \\\n  /src/a\\ b.c\n");
    /// # Ok(())
    /// # }
    /// ```
    ///
    /// # Errors
    ///
    /// `Invalid` if a name has no form that both make and Ninja read, such as one with a line feed.
    /// Refused as `Memory`.
    pub fn depfile(&self, target: Option<&Path>, top: impl AsRef<Path>) -> Result<Vec<u8>> {
        let (target, top) = (target.map(c_path).transpose()?, c_path(top.as_ref())?);
        self.text(|handle, txn, text| handle.depfile(txn, target.as_deref(), &top, text))
    }

    /// Returns a text, by a request that reports its size and copies as many bytes as have room.
    fn text(&self, ask: impl Fn(&mut Handle, u64, &mut [u8]) -> Answer) -> Result<Vec<u8>> {
        let mut text = vec![0; 1 << 16];
        let ask_with = |text: &mut Vec<u8>| -> Result<usize> {
            let told =
                self.reports(|handle, txn| answered(handle, |handle| ask(handle, txn, text)));
            Ok(told?.size as usize)
        };
        let mut size = ask_with(&mut text)?;
        while size > text.len() {
            text.resize(size, 0);
            size = ask_with(&mut text)?;
        }
        text.truncate(size);
        Ok(text)
    }
}
