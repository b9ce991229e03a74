//! Open files.

use crate::attributes::Permissions;
use crate::error::{Error, Result};
use crate::sys::{self, Answer, Handle};
use crate::transaction::{signed, Metadata, Transaction};
use crate::tree::Reach;
use std::io::{self, SeekFrom};
use std::os::unix::fs::FileExt;
use std::path::{Path, PathBuf};
use std::sync::Arc;

/// How a file is opened, as by `std::fs::OpenOptions`. Options that that type refuses are invalid
/// here too. However, a directory can't be opened, not even for reading.
#[derive(Clone, Copy, Debug, Default, PartialEq, Eq)]
pub struct OpenOptions {
    read: bool,
    write: bool,
    append: bool,
    truncate: bool,
    create: bool,
    create_new: bool,
    mode: Option<u32>,
}

impl OpenOptions {
    /// Returns options of which none is set.
    pub fn new() -> OpenOptions {
        OpenOptions::default()
    }

    /// Sets whether the file can be read.
    pub fn read(&mut self, read: bool) -> &mut OpenOptions {
        self.read = read;
        self
    }

    /// Sets whether the file can be written.
    pub fn write(&mut self, write: bool) -> &mut OpenOptions {
        self.write = write;
        self
    }

    /// Sets whether writes go to the end of the file, whatever the offset is.
    pub fn append(&mut self, append: bool) -> &mut OpenOptions {
        self.append = append;
        self
    }

    /// Sets whether an existing file is cut to nothing.
    pub fn truncate(&mut self, truncate: bool) -> &mut OpenOptions {
        self.truncate = truncate;
        self
    }

    /// Sets whether a missing file is made.
    pub fn create(&mut self, create: bool) -> &mut OpenOptions {
        self.create = create;
        self
    }

    /// Sets whether a file is made, and an existing file is an error.
    pub fn create_new(&mut self, create_new: bool) -> &mut OpenOptions {
        self.create_new = create_new;
        self
    }

    /// Sets the mode of a file that is made, as [`Permissions::from_mode`] takes it. An existing
    /// file keeps its own. Without this, a file is made with 0o644; there is no umask. A mode above
    /// 0o7777 is the error EINVAL, whether a file is made or not.
    pub fn mode(&mut self, mode: u32) -> &mut OpenOptions {
        self.mode = Some(Permissions::from_mode(mode).mode());
        self
    }

    /// The mode, if it is given.
    pub(crate) fn given_mode(&self) -> Option<u32> {
        self.mode
    }

    /// The access as the library takes it. Neither reading nor writing is invalid.
    fn access(&self) -> Result<u32> {
        match (self.read, self.write || self.append) {
            (true, false) => Ok(sys::READ_ONLY),
            (false, true) => Ok(sys::WRITE_ONLY),
            (true, true) => Ok(sys::READ_WRITE),
            (false, false) => Err(Error::Invalid),
        }
    }

    /// The flags as the library takes them, the access too. To make or cut what is not written is
    /// invalid, and so is to cut what is written at its end.
    pub(crate) fn flags(&self) -> Result<u32> {
        let access = self.access()?;
        let is_valid = match (self.write, self.append) {
            (true, false) => true,
            (false, false) => !(self.truncate || self.create || self.create_new),
            (_, true) => !self.truncate || self.create_new,
        };
        let flags = [
            (self.create || self.create_new, sys::CREATE),
            (self.create_new, sys::EXCL),
            (self.truncate && !self.create_new, sys::TRUNC),
            (self.append, sys::APPEND),
        ];
        let flags = flags.iter().filter(|(is_set, _)| *is_set);
        let flags = flags.fold(access, |flags, (_, flag)| flags | flag);
        is_valid.then_some(flags).ok_or(Error::Invalid)
    }
}

/// How an open file holds its transaction.
pub trait Holder {
    /// How the transaction reaches its tree.
    type Reach: Reach;

    /// Returns the transaction.
    fn transaction(&self) -> &Transaction<Self::Reach>;
}

impl<R: Reach> Holder for &Transaction<R> {
    type Reach = R;

    fn transaction(&self) -> &Transaction<R> {
        self
    }
}

impl<R: Reach> Holder for Arc<Transaction<R>> {
    type Reach = R;

    fn transaction(&self) -> &Transaction<R> {
        self
    }
}

/// An open file that borrows its transaction.
pub type File<'t, R> = OpenFile<&'t Transaction<R>>;

/// An open file that shares its transaction with others.
pub type OwnedFile<R> = OpenFile<Arc<Transaction<R>>>;

/// An open file of a transaction: a [`File`] or an [`OwnedFile`].
///
/// A dropped file is closed without waiting. If that is not possible, the commit of its transaction
/// closes it. A file has no buffer: a `BufWriter` around it spares calls. Flush the `BufWriter`
/// before you close the file, since a dropped one ignores errors of its last bytes.
#[derive(Debug)]
pub struct OpenFile<H: Holder> {
    holder: H,
    fd: u64,
    path: PathBuf,
    is_open: bool,
}

impl<H: Holder> OpenFile<H> {
    pub(crate) fn of(holder: H, fd: u64, path: PathBuf) -> OpenFile<H> {
        OpenFile {
            holder,
            fd,
            path,
            is_open: true,
        }
    }

    /// Makes a request about the file.
    pub(crate) fn ask(
        &self,
        mut ask: impl FnMut(&mut Handle, u64, u64) -> Answer,
    ) -> Result<Answer> {
        let transaction = self.holder.transaction();
        transaction
            .ask(|handle, txn| ask(handle, txn, self.fd))
            .map_err(|error| error.about(&[&self.path]))
    }

    /// Returns the path by which the file was opened.
    pub fn path(&self) -> &Path {
        &self.path
    }

    /// Sets the offset to the end, and returns it: how many bytes the file has. (`metadata` would
    /// also wait for whoever changes the mode or the owner.)
    pub(crate) fn seek_end(&self) -> Result<u64> {
        let told = self.ask(|handle, txn, fd| handle.lseek(txn, fd, 0, sys::END))?;
        Ok(told.number)
    }

    /// Returns what `stat` reports about the file.
    ///
    /// # Errors
    ///
    /// `Waits`, `Deadlock`, or refused.
    pub fn metadata(&self) -> Result<Metadata> {
        Ok(Metadata::of(self.ask(Handle::fstat)?))
    }

    /// Cuts the file to a length, or adds zeros up to it.
    ///
    /// # Errors
    ///
    /// EINVAL if it is not open for writing, EFBIG; `Invalid` if the length is 2^63 or more.
    pub fn set_len(&self, len: u64) -> Result<()> {
        let len = signed(len)?;
        self.ask(|handle, txn, fd| handle.ftruncate(txn, fd, len))?;
        Ok(())
    }

    /// Reads at an offset, and returns how many bytes it has read. The offset of the file stays.
    ///
    /// # Errors
    ///
    /// EBADF if it is not open for reading; `Invalid` if the offset is 2^63 or more.
    pub fn read_at(&self, buffer: &mut [u8], offset: u64) -> Result<usize> {
        let off = signed(offset)?;
        let got = self.ask(|handle, txn, fd| handle.pread(txn, fd, buffer, off))?;
        Ok(got.number as usize)
    }

    /// Writes at an offset, and returns how many bytes it has written. The offset of the file
    /// stays.
    ///
    /// # Errors
    ///
    /// EBADF if it is not open for writing, EFBIG; `Invalid` if the offset is 2^63 or more.
    pub fn write_at(&self, bytes: &[u8], offset: u64) -> Result<usize> {
        let off = signed(offset)?;
        let got = self.ask(|handle, txn, fd| handle.pwrite(txn, fd, bytes, off))?;
        Ok(got.number as usize)
    }

    /// Closes the file. If that is blocked too long, or lacks memory, the commit of its transaction
    /// closes it.
    ///
    /// # Errors
    ///
    /// `Waits`, `Deadlock`, or refused.
    pub fn close(mut self) -> Result<()> {
        self.ask(Handle::close_file)?;
        self.is_open = false;
        Ok(())
    }
}

/// The same with `io::Error`s, and with `read_exact_at` and `write_all_at`.
impl<H: Holder> FileExt for OpenFile<H> {
    fn read_at(&self, buffer: &mut [u8], offset: u64) -> io::Result<usize> {
        Ok(OpenFile::read_at(self, buffer, offset)?)
    }

    fn write_at(&self, bytes: &[u8], offset: u64) -> io::Result<usize> {
        Ok(OpenFile::write_at(self, bytes, offset)?)
    }
}

impl<H: Holder> io::Read for &OpenFile<H> {
    fn read(&mut self, buffer: &mut [u8]) -> io::Result<usize> {
        let got = self.ask(|handle, txn, fd| handle.read(txn, fd, buffer))?;
        Ok(got.number as usize)
    }
}

impl<H: Holder> io::Write for &OpenFile<H> {
    fn write(&mut self, bytes: &[u8]) -> io::Result<usize> {
        let got = self.ask(|handle, txn, fd| handle.write(txn, fd, bytes))?;
        Ok(got.number as usize)
    }

    fn flush(&mut self) -> io::Result<()> {
        Ok(())
    }
}

impl<H: Holder> io::Seek for &OpenFile<H> {
    fn seek(&mut self, to: SeekFrom) -> io::Result<u64> {
        let (off, whence) = match to {
            SeekFrom::Start(offset) => (signed(offset)?, 0),
            SeekFrom::Current(distance) => (distance, 1),
            SeekFrom::End(distance) => (distance, sys::END),
        };
        let moved = self.ask(|handle, txn, fd| handle.lseek(txn, fd, off, whence))?;
        Ok(moved.number)
    }
}

impl<H: Holder> io::Read for OpenFile<H> {
    fn read(&mut self, buffer: &mut [u8]) -> io::Result<usize> {
        (&*self).read(buffer)
    }
}

impl<H: Holder> io::Write for OpenFile<H> {
    fn write(&mut self, bytes: &[u8]) -> io::Result<usize> {
        (&*self).write(bytes)
    }

    fn flush(&mut self) -> io::Result<()> {
        Ok(())
    }
}

impl<H: Holder> io::Seek for OpenFile<H> {
    fn seek(&mut self, to: SeekFrom) -> io::Result<u64> {
        (&*self).seek(to)
    }
}

impl<H: Holder> Drop for OpenFile<H> {
    fn drop(&mut self) {
        if self.is_open {
            self.holder.transaction().leave(self.fd);
        }
    }
}
