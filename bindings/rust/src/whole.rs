//! Functions that make several calls. If one of these fails, the calls before it are not undone: to
//! have all or nothing, use a step.

use crate::error::{Error, Result};
use crate::file::{File, OpenOptions};
use crate::transaction::{Kind, Transaction};
use crate::tree::Reach;
use std::ffi::OsString;
use std::io;
use std::path::{Component, Path, PathBuf};

/// How many bytes of a whole file are read or written at once: the library makes a copy of them.
const PIECE: usize = 1 << 26;

/// The most symbolic links through which one path leads.
const MOST_FOLLOWED: usize = 40;

/// A file, a directory or a symbolic link that a [`Walk`] has reached.
#[derive(Clone, Debug, PartialEq, Eq)]
#[non_exhaustive]
pub struct Place {
    /// The path, which begins with that of the walk.
    pub path: PathBuf,
    /// The kind.
    pub kind: Kind,
}

/// Goes through everything below a directory ([`Transaction::walk`]).
#[derive(Debug)]
pub struct Walk<'t, R: Reach> {
    transaction: &'t Transaction<R>,
    /// The places that are still to come, the next one last.
    left: Vec<Place>,
}

impl<R: Reach> Walk<'_, R> {
    fn enter(&mut self, folder: &Path) -> Result<()> {
        let names = self.transaction.read_dir(folder)?;
        self.left.extend(names.into_iter().rev().map(|entry| Place {
            path: folder.join(entry.name),
            kind: entry.kind,
        }));
        Ok(())
    }
}

impl<R: Reach> Iterator for Walk<'_, R> {
    type Item = Result<Place>;

    fn next(&mut self) -> Option<Result<Place>> {
        let place = self.left.pop()?;
        let entered = match place.kind {
            Kind::Dir => self.enter(&place.path),
            Kind::File | Kind::Symlink => Ok(()),
        };
        Some(entered.map(|()| place))
    }
}

impl<R: Reach> Transaction<R> {
    /// Returns whether a path leads to anything. A last symbolic link is followed.
    ///
    /// # Errors
    ///
    /// Those of [`metadata`](Transaction::metadata), except ENOENT and ENOTDIR.
    pub fn exists(&self, path: impl AsRef<Path>) -> Result<bool> {
        const ENOTDIR: i32 = 20;
        match self.metadata(path) {
            Ok(_) => Ok(true),
            Err(error) if error.kind() == io::ErrorKind::NotFound => Ok(false),
            Err(error) if error.raw_os_error() == Some(ENOTDIR) => Ok(false),
            Err(error) => Err(error),
        }
    }

    /// Returns the path from the root to what a path leads to, without symbolic links, `.` and
    /// `..`.
    ///
    /// # Errors
    ///
    /// Those of [`metadata`](Transaction::metadata).
    #[doc(alias = "realpath")]
    pub fn canonicalize(&self, path: impl AsRef<Path>) -> Result<PathBuf> {
        const ELOOP: u32 = 40;
        let path = path.as_ref();
        self.metadata(path)?;
        let (mut whole, mut left) = (PathBuf::from("/"), parts_of(path));
        let mut followed = 0;
        while let Some(part) = left.pop() {
            whole.push(&part);
            if part == ".." {
                whole.pop();
                whole.pop();
            } else if self.symlink_metadata(&whole)?.is_symlink() {
                let target = self.read_link(&whole)?;
                left.extend(parts_of(&target));
                whole.pop();
                if target.has_root() {
                    whole = PathBuf::from("/");
                }
                followed += 1;
            }
            if followed > MOST_FOLLOWED {
                return Err(Error::of(ELOOP).about(&[path]));
            }
        }
        Ok(whole)
    }

    /// Returns all bytes of a file.
    ///
    /// # Errors
    ///
    /// EISDIR if it is a directory, or one of the path.
    pub fn read(&self, path: impl AsRef<Path>) -> Result<Vec<u8>> {
        let file = self.open(path, OpenOptions::new().read(true))?;
        let mut bytes = vec![0; file.seek_end()? as usize];
        let mut count = 0;
        for piece in bytes.chunks_mut(PIECE) {
            count += file.read_at(piece, count as u64)?;
        }
        bytes.truncate(count);
        file.close()?;
        Ok(bytes)
    }

    /// Returns all of a file, as text.
    ///
    /// # Errors
    ///
    /// Those of [`read`](Transaction::read), and `NotUtf8`.
    pub fn read_to_string(&self, path: impl AsRef<Path>) -> Result<String> {
        String::from_utf8(self.read(path)?).map_err(|_| Error::NotUtf8)
    }

    /// Makes a file with these bytes, or replaces the bytes of an existing one.
    ///
    /// # Errors
    ///
    /// EISDIR, EFBIG, or one of the path.
    pub fn write(&self, path: impl AsRef<Path>, bytes: impl AsRef<[u8]>) -> Result<()> {
        let file = self.created(path.as_ref())?;
        write_all_at(&file, bytes.as_ref(), 0)?;
        file.close()
    }

    /// Opens a file of no bytes for writing.
    fn created(&self, path: &Path) -> Result<File<'_, R>> {
        let options = *OpenOptions::new().write(true).create(true).truncate(true);
        self.open(path, &options)
    }

    /// Gives a file, which is made if it is missing, the bytes and the permissions of another, and
    /// returns how many bytes there are. If both are the same file, it stays as it is.
    ///
    /// # Errors
    ///
    /// EISDIR, EFBIG, or one of the paths.
    pub fn copy(&self, from: impl AsRef<Path>, to: impl AsRef<Path>) -> Result<u64> {
        let source = self.open(from, OpenOptions::new().read(true))?;
        let (told, to) = (source.metadata()?, to.as_ref());
        if self.exists(to)? && self.metadata(to)?.number == told.number {
            return source.close().map(|()| told.len);
        }
        let target = self.created(to)?;
        target.set_permissions(told.permissions())?;
        let mut piece = vec![0; PIECE.min(told.len as usize)];
        let mut copied = 0;
        while copied < told.len {
            let count = source.read_at(&mut piece, copied)?;
            write_all_at(&target, &piece[..count], copied)?;
            copied += count as u64;
        }
        target.close()?;
        source.close().map(|()| copied)
    }

    /// Makes a directory and those above it, if they are missing.
    ///
    /// # Errors
    ///
    /// EEXIST if the path leads to a file, ENOTDIR if something above it does, or one of the path.
    #[doc(alias = "mkdir -p")]
    pub fn create_dir_all(&self, path: impl AsRef<Path>) -> Result<()> {
        let path = path.as_ref();
        let above: Vec<_> = path.ancestors().collect();
        for directory in above.into_iter().rev() {
            if !directory.as_os_str().is_empty() && !self.exists(directory)? {
                self.create_dir(directory)?;
            }
        }
        if self.metadata(path)?.is_dir() {
            return Ok(());
        }
        self.create_dir(path)
    }

    /// Removes a directory with everything below it, or, as `std::fs` does, a symbolic link. Links
    /// are removed, but not what they lead to.
    ///
    /// # Errors
    ///
    /// ENOTDIR if it is a file, EBUSY if it is the root, which is empty then, or one of the path.
    #[doc(alias = "rm -r")]
    pub fn remove_dir_all(&self, path: impl AsRef<Path>) -> Result<()> {
        let path = path.as_ref();
        if self.symlink_metadata(path)?.is_symlink() {
            return self.remove_file(path);
        }
        let below = self.walk(path)?.collect::<Result<Vec<_>>>()?;
        for place in below.iter().rev() {
            match place.kind {
                Kind::Dir => self.remove_dir(&place.path)?,
                Kind::File | Kind::Symlink => self.remove_file(&place.path)?,
            }
        }
        self.remove_dir(path)
    }

    /// Goes through everything below a directory: each directory before its contents, and names in
    /// the order of their bytes. The walk lists a directory when it reaches it. It reports
    /// symbolic links, and does not follow them.
    ///
    /// # Errors
    ///
    /// Those of [`read_dir`](Transaction::read_dir), here and for each directory that it reaches.
    pub fn walk(&self, path: impl AsRef<Path>) -> Result<Walk<'_, R>> {
        let (transaction, left) = (self, Vec::new());
        let mut walk = Walk { transaction, left };
        walk.enter(path.as_ref())?;
        Ok(walk)
    }
}

/// The parts of a path, the last one first.
fn parts_of(path: &Path) -> Vec<OsString> {
    let is_part = |part: &Component| matches!(part, Component::Normal(_) | Component::ParentDir);
    let parts = path.components().filter(is_part).rev();
    parts.map(|part| part.as_os_str().to_owned()).collect()
}

/// Writes all of these bytes at an offset, or returns the error of the rest.
fn write_all_at<R: Reach>(file: &File<'_, R>, bytes: &[u8], offset: u64) -> Result<()> {
    let mut written = 0;
    while written < bytes.len() {
        let end = bytes.len().min(written + PIECE);
        written += file.write_at(&bytes[written..end], offset + written as u64)?;
    }
    Ok(())
}
