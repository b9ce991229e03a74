//! Transactions, and their calls on paths.

use crate::attributes::time_of;
use crate::error::{Error, Refusal, Result};
use crate::file::{File, OpenFile, OpenOptions, OwnedFile};
use crate::sys::{self, Answer, Handle};
use crate::tree::{answered, Reach, Shared, Tree};
use std::ffi::{OsStr, OsString};
use std::os::unix::ffi::{OsStrExt, OsStringExt};
use std::path::{Path, PathBuf};
use std::sync::{Arc, Mutex, MutexGuard, PoisonError};
use std::time::{Duration, SystemTime};

/// A live transaction: of a tree, or, as a step, of the transaction around it.
///
/// A dropped transaction is aborted: everything that it and its steps have done is undone, even
/// what steps have committed. [`commit`](Transaction::commit) keeps all of it. To undo a part of
/// what a transaction does, do that part in a step, and drop the step.
///
/// A transaction of a `&Tree` stays in its thread, and borrows what is around it: it can be
/// committed only after its files are closed and its steps have ended. A transaction of a
/// [`Shared`] may go to another thread, and so may its steps. Its files borrow it too, except an
/// [`OwnedFile`]. Threads may share it, by `&` or as an [`Arc`]. If several of their calls wait,
/// reports list only the last.
#[derive(Debug)]
#[must_use = "a transaction that is dropped is aborted"]
pub struct Transaction<R: Reach> {
    tree: R,
    number: u64,
    is_live: bool,
    /// Descriptors that nobody has any more, and that could not be closed yet.
    left: Mutex<Vec<u64>>,
}

/// The longest target of a symbolic link.
const LONGEST_TARGET: usize = 4095;

/// The kind of what a name leads to.
#[derive(Clone, Copy, Debug, PartialEq, Eq, Hash)]
#[doc(alias = "FileType")]
pub enum Kind {
    /// A directory.
    Dir,
    /// A file.
    File,
    /// A symbolic link.
    Symlink,
}

/// The report of `stat` about a file, a directory or a symbolic link.
#[derive(Clone, Copy, Debug, PartialEq, Eq)]
#[non_exhaustive]
pub struct Metadata {
    /// Whether it is a file, a directory or a symbolic link.
    pub kind: Kind,
    /// Its number in the tree, which nothing else has or has had.
    pub number: u64,
    /// The number of names of a file or symbolic link. A directory has one link.
    pub links: u64,
    /// The number of bytes of a file, or of the target of a symbolic link.
    pub len: u64,
    /// Its mode without the kind: at most 0o7777, and 0o777 for a symbolic link.
    pub mode: u32,
    /// Its owner.
    pub uid: u32,
    /// Its group.
    pub gid: u32,
    /// The time of a file's bytes, if one was set for them. Directories and symbolic links have
    /// none.
    pub modified: Option<SystemTime>,
}

/// A name of a directory.
#[derive(Clone, Debug, PartialEq, Eq)]
#[non_exhaustive]
pub struct Entry {
    /// The name.
    pub name: OsString,
    /// The kind of what it leads to. A symbolic link is not followed.
    pub kind: Kind,
}

impl Kind {
    pub(crate) fn numbered(number: u32) -> Kind {
        match number {
            sys::DIR => Kind::Dir,
            sys::LINK => Kind::Symlink,
            _ => Kind::File,
        }
    }

    /// Returns whether it is a directory.
    pub fn is_dir(self) -> bool {
        self == Kind::Dir
    }

    /// Returns whether it is a file.
    pub fn is_file(self) -> bool {
        self == Kind::File
    }

    /// Returns whether it is a symbolic link.
    pub fn is_symlink(self) -> bool {
        self == Kind::Symlink
    }
}

impl Metadata {
    pub(crate) fn of(answer: Answer) -> Metadata {
        let modified = || time_of(answer.seconds, answer.nanoseconds);
        Metadata {
            kind: Kind::numbered(answer.kind),
            number: answer.number,
            links: answer.links,
            len: answer.size,
            mode: answer.mode,
            uid: answer.owner,
            gid: answer.group,
            modified: answer.has_time.then(modified).flatten(),
        }
    }

    /// Returns the kind.
    pub fn file_type(&self) -> Kind {
        self.kind
    }

    /// Returns the number of bytes of a file, or of the target of a symbolic link.
    #[allow(clippy::len_without_is_empty)] // as of `std::fs`
    pub fn len(&self) -> u64 {
        self.len
    }

    /// Returns whether it is of a directory.
    pub fn is_dir(&self) -> bool {
        self.kind.is_dir()
    }

    /// Returns whether it is of a file.
    pub fn is_file(&self) -> bool {
        self.kind.is_file()
    }

    /// Returns whether it is of a symbolic link, as only
    /// [`symlink_metadata`](Transaction::symlink_metadata) reports.
    pub fn is_symlink(&self) -> bool {
        self.kind.is_symlink()
    }
}

impl Entry {
    /// Returns the name.
    pub fn file_name(&self) -> &OsStr {
        &self.name
    }

    /// Returns the kind of what the name leads to. A symbolic link is not followed.
    pub fn file_type(&self) -> Kind {
        self.kind
    }

    /// Returns whether it is of a directory.
    pub fn is_dir(&self) -> bool {
        self.kind.is_dir()
    }

    /// Returns whether it is of a file.
    pub fn is_file(&self) -> bool {
        self.kind.is_file()
    }

    /// Returns whether it is of a symbolic link.
    pub fn is_symlink(&self) -> bool {
        self.kind.is_symlink()
    }
}

impl Transaction<&Tree> {
    /// Begins a step: a transaction inside this one.
    ///
    /// # Errors
    ///
    /// Refused as `Deep` or `Full`.
    pub fn begin(&self) -> Result<Transaction<&Tree>> {
        Ok(Transaction::of(self.tree, self.begin_step()?))
    }
}

impl Transaction<Shared> {
    /// Begins a step: a transaction inside this one, whose calls wait as long as those of this one.
    /// A commit is refused while a step is live.
    ///
    /// # Errors
    ///
    /// Refused as `Deep` or `Full`, or as `Ended` if a transaction around it has been aborted.
    pub fn begin(&self) -> Result<Transaction<Shared>> {
        Ok(Transaction::of(self.tree.clone(), self.begin_step()?))
    }

    /// Returns the same transaction with another time limit. It ends when this one ends.
    pub(crate) fn alike(&self, limit: Duration) -> Transaction<Shared> {
        let mut alike = Transaction::of(self.tree.with_limit(limit), self.number);
        alike.is_live = false;
        alike
    }

    /// Sets how long calls wait from here on, also those of steps that begin from here on.
    pub fn set_limit(&mut self, limit: Duration) {
        self.tree.set_limit(limit);
    }
}

impl<R: Reach> Transaction<R> {
    pub(crate) fn of(tree: R, number: u64) -> Transaction<R> {
        Transaction {
            tree,
            number,
            is_live: true,
            left: Mutex::default(),
        }
    }

    fn begin_step(&self) -> Result<u64> {
        Ok(self.ask(Handle::sub)?.number)
    }

    /// Makes a request for this transaction.
    pub(crate) fn ask(&self, mut ask: impl FnMut(&mut Handle, u64) -> Answer) -> Result<Answer> {
        let request = |handle: &mut Handle| answered(handle, |handle| ask(handle, self.number));
        self.tree.reach(self.number, request)
    }

    /// Makes a request that returns its own error.
    pub(crate) fn request(&self, request: impl FnMut(&mut Handle) -> Result<()>) -> Result<()> {
        self.tree.reach(self.number, request)
    }

    /// Asks for reports, of one moment.
    pub(crate) fn reports<T>(&self, ask: impl FnOnce(&mut Handle, u64) -> Result<T>) -> Result<T> {
        self.tree.once(|handle| ask(handle, self.number))
    }

    /// Makes a request about a path.
    pub(crate) fn on(
        &self,
        path: &Path,
        mut ask: impl FnMut(&mut Handle, u64, &[u8]) -> Answer,
    ) -> Result<Answer> {
        let bytes = path.as_os_str().as_bytes();
        self.ask(|handle, txn| ask(handle, txn, bytes))
            .map_err(|error| error.about(&[path]))
    }

    /// Makes a request about two paths.
    fn on_both(
        &self,
        paths: [&Path; 2],
        mut ask: impl FnMut(&mut Handle, u64, [&[u8]; 2]) -> Answer,
    ) -> Result<Answer> {
        let bytes = paths.map(|path| path.as_os_str().as_bytes());
        self.ask(|handle, txn| ask(handle, txn, bytes))
            .map_err(|error| error.about(&paths))
    }

    /// Makes a request that ends this transaction or its wait.
    fn end(&self, ask: impl FnOnce(&mut Handle, u64) -> Answer) -> Result<Answer> {
        self.tree
            .end(|handle| answered(handle, |handle| ask(handle, self.number)))
    }

    /// Closes a descriptor that nobody has any more, without waiting. If it is blocked, a commit
    /// closes it.
    pub(crate) fn leave(&self, fd: u64) {
        // (waiters ask again, since a thread that shares this transaction may have lost its ask)
        let closed = self.tree.end(|handle| {
            let closed = answered(handle, |handle| handle.close_file(self.number, fd));
            if let Err(Error::Waits(_)) = closed {
                handle.cancel(self.number);
            }
            closed
        });
        if matches!(
            closed,
            Err(Error::Waits(_) | Error::Refused(Refusal::Memory | Refusal::Full))
        ) {
            self.left().push(fd);
        }
    }

    pub(crate) fn left(&self) -> MutexGuard<'_, Vec<u64>> {
        self.left.lock().unwrap_or_else(PoisonError::into_inner)
    }

    /// Closes what was left.
    fn close_left(&self) -> Result<()> {
        let left = self.left().clone();
        for fd in left {
            self.ask(|handle, txn| handle.close_file(txn, fd))?;
            self.left().retain(|other| *other != fd);
        }
        Ok(())
    }

    /// Returns the number, by which others learn that they wait for this transaction.
    pub fn number(&self) -> u64 {
        self.number
    }

    /// Commits: hands what the transaction did to the one around it, or to the tree. If the commit
    /// is refused, the transaction is aborted; [`try_commit`](Transaction::try_commit) gives it
    /// back.
    ///
    /// # Errors
    ///
    /// Refused as `ChildLive` if a step is live, or as `Ended` if a transaction around this one has
    /// been aborted; `Waits` or `Deadlock` if a file was dropped whose close is blocked.
    pub fn commit(self) -> Result<()> {
        self.try_commit().map_err(|(_, error)| error)
    }

    /// Does the same, but a refused commit gives the transaction back as it was.
    ///
    /// # Errors
    ///
    /// Those of [`commit`](Transaction::commit).
    pub fn try_commit(mut self) -> std::result::Result<(), (Transaction<R>, Error)> {
        let committed = self.close_left().and_then(|()| self.end(Handle::commit));
        match committed {
            Ok(_) => {
                self.is_live = false;
                Ok(())
            }
            Err(error) => Err((self, error)),
        }
    }

    /// Aborts the transaction, and returns how many calls were undone.
    ///
    /// # Errors
    ///
    /// Refused as `Ended` if a transaction around it has been aborted, and this one with it.
    pub fn abort(mut self) -> Result<u64> {
        self.is_live = false;
        Ok(self.end(Handle::abort)?.number)
    }

    /// Forgets the call that the transaction waits for. (A [`Shared`] forgets a call that it gives
    /// up.)
    ///
    /// # Errors
    ///
    /// Refused as `NoAsk` if it waits for no call.
    #[doc(alias = "nuz_cancel")]
    pub fn cancel_wait(&self) -> Result<()> {
        self.end(Handle::cancel)?;
        Ok(())
    }

    /// Makes a directory, with mode 0o755.
    ///
    /// # Errors
    ///
    /// EEXIST, or one of the path: ENOENT, ENOTDIR, ENAMETOOLONG, ELOOP. As for each call: `Waits`,
    /// `Deadlock`, or refused as `Ended` or `Full`.
    #[doc(alias = "mkdir")]
    pub fn create_dir(&self, path: impl AsRef<Path>) -> Result<()> {
        self.on(path.as_ref(), |handle, txn, path| {
            handle.mkdir(txn, path, None)
        })?;
        Ok(())
    }

    /// Removes an empty directory.
    ///
    /// # Errors
    ///
    /// EINVAL, ENOTEMPTY, EBUSY, or one of the path.
    #[doc(alias = "rmdir")]
    pub fn remove_dir(&self, path: impl AsRef<Path>) -> Result<()> {
        self.on(path.as_ref(), Handle::rmdir)?;
        Ok(())
    }

    /// Returns the names of a directory, in the order of their bytes.
    ///
    /// # Errors
    ///
    /// Those of the path.
    #[doc(alias = "readdir")]
    pub fn read_dir(&self, path: impl AsRef<Path>) -> Result<Vec<Entry>> {
        let path = path.as_ref();
        let bytes = path.as_os_str().as_bytes();
        let listed = self
            .tree
            .reach(self.number, |handle| entries(handle, self.number, bytes));
        listed.map_err(|error| error.about(&[path]))
    }

    /// Returns what `stat` reports about a path. A last symbolic link is followed.
    ///
    /// # Errors
    ///
    /// Those of the path.
    #[doc(alias = "stat")]
    pub fn metadata(&self, path: impl AsRef<Path>) -> Result<Metadata> {
        Ok(Metadata::of(self.on(path.as_ref(), Handle::stat)?))
    }

    /// Returns the same, but does not follow a last symbolic link.
    ///
    /// # Errors
    ///
    /// Those of the path.
    #[doc(alias = "lstat")]
    pub fn symlink_metadata(&self, path: impl AsRef<Path>) -> Result<Metadata> {
        Ok(Metadata::of(self.on(path.as_ref(), Handle::lstat)?))
    }

    /// Makes a symbolic link. Its target stays as it is given, and need not lead to anything; a
    /// relative one begins in the directory of the link.
    ///
    /// ```
    /// # use nuzolged::{Result, Tree};
    /// # fn main() -> Result<()> {
    /// # let tree = Tree::new()?;
    /// # let job = tree.begin()?;
    /// job.create_dir_all("/lib")?;
    /// job.write("/lib/one.so.1", "bytes")?;
    /// job.symlink("one.so.1", "/lib/one.so")?;
    /// assert_eq!(job.read("/lib/one.so")?, b"bytes");
    /// # Ok(())
    /// # }
    /// ```
    ///
    /// # Errors
    ///
    /// EEXIST; ENOENT for an empty target, ENAMETOOLONG for one of more than 4,095 bytes; or one of
    /// the path.
    pub fn symlink(&self, target: impl AsRef<Path>, path: impl AsRef<Path>) -> Result<()> {
        let both = [target.as_ref(), path.as_ref()];
        self.on_both(both, |handle, txn, [target, path]| {
            handle.symlink(txn, target, path)
        })?;
        Ok(())
    }

    /// Returns the target of a symbolic link.
    ///
    /// # Errors
    ///
    /// EINVAL if it is no symbolic link, or one of the path.
    #[doc(alias = "readlink")]
    pub fn read_link(&self, path: impl AsRef<Path>) -> Result<PathBuf> {
        let mut target = vec![0; LONGEST_TARGET];
        let told = self.on(path.as_ref(), |handle, txn, path| {
            handle.readlink(txn, path, &mut target)
        })?;
        target.truncate(told.number as usize);
        Ok(OsString::from_vec(target).into())
    }

    /// Removes a name of a file or symbolic link. A file lives while it has another, or is open.
    ///
    /// # Errors
    ///
    /// EPERM if it is a directory, or one of the path.
    #[doc(alias = "unlink")]
    pub fn remove_file(&self, path: impl AsRef<Path>) -> Result<()> {
        self.on(path.as_ref(), Handle::unlink)?;
        Ok(())
    }

    /// Cuts a file to a length, or adds zeros up to it. A last symbolic link is followed.
    ///
    /// # Errors
    ///
    /// EFBIG, EISDIR, or one of the path; `Invalid` if the length is 2^63 or more.
    pub fn truncate(&self, path: impl AsRef<Path>, len: u64) -> Result<()> {
        let len = signed(len)?;
        self.on(path.as_ref(), |handle, txn, path| {
            handle.truncate(txn, path, len)
        })?;
        Ok(())
    }

    /// Gives a file or symbolic link a further name.
    ///
    /// # Errors
    ///
    /// EPERM if it is a directory, EEXIST, EMLINK, or one of the paths.
    #[doc(alias = "link")]
    pub fn hard_link(&self, from: impl AsRef<Path>, to: impl AsRef<Path>) -> Result<()> {
        self.on_both([from.as_ref(), to.as_ref()], |handle, txn, [from, to]| {
            handle.link(txn, from, to)
        })?;
        Ok(())
    }

    /// Gives a file, a symbolic link or a directory another name, and replaces what had that name.
    ///
    /// # Errors
    ///
    /// EINVAL if the new name is below it, EBUSY, EISDIR, ENOTEMPTY, or one of the paths.
    pub fn rename(&self, from: impl AsRef<Path>, to: impl AsRef<Path>) -> Result<()> {
        self.on_both([from.as_ref(), to.as_ref()], |handle, txn, [from, to]| {
            handle.rename(txn, from, to)
        })?;
        Ok(())
    }

    /// Opens a file, which borrows this transaction. A last symbolic link is followed, except with
    /// [`create_new`](OpenOptions::create_new).
    ///
    /// # Errors
    ///
    /// `Invalid` if `std::fs` refuses these options; EEXIST, EISDIR, or one of the path.
    pub fn open(&self, path: impl AsRef<Path>, options: &OpenOptions) -> Result<File<'_, R>> {
        let (path, fd) = self.opened(path.as_ref(), options)?;
        Ok(OpenFile::of(self, fd, path))
    }

    /// Opens a file that shares this transaction with others. You may keep the file anywhere, and
    /// move it to another thread. The transaction can be committed when nobody else has it.
    ///
    /// ```
    /// # use nuzolged::{OpenOptions, Result, Tree};
    /// # use std::sync::Arc;
    /// # fn main() -> Result<()> {
    /// let tree = Tree::new()?;
    /// let job = Arc::new(tree.begin()?);
    /// let log = job.open_owned("/log", OpenOptions::new().write(true).create(true))?;
    /// log.write_at(b"all of it", 0)?;
    /// log.close()?;
    /// Arc::try_unwrap(job).expect("nobody else has it").commit()
    /// # }
    /// ```
    ///
    /// # Errors
    ///
    /// Those of [`open`](Transaction::open).
    pub fn open_owned(
        self: &Arc<Self>,
        path: impl AsRef<Path>,
        options: &OpenOptions,
    ) -> Result<OwnedFile<R>> {
        let (path, fd) = self.opened(path.as_ref(), options)?;
        Ok(OpenFile::of(Arc::clone(self), fd, path))
    }

    fn opened(&self, path: &Path, options: &OpenOptions) -> Result<(PathBuf, u64)> {
        let (flags, mode) = (options.flags()?, options.given_mode());
        let opened = self.on(path, |handle, txn, path| {
            handle.open_file(txn, path, flags, mode)
        })?;
        Ok((path.to_path_buf(), opened.number))
    }
}

impl<R: Reach> Drop for Transaction<R> {
    fn drop(&mut self) {
        if self.is_live {
            // An abort takes no memory. It is refused only if one around it has ended it.
            let _ = self.end(Handle::abort);
        }
    }
}

/// A length or an offset as the library takes it. A number beyond that is beyond each file, too.
pub(crate) fn signed(number: u64) -> Result<i64> {
    i64::try_from(number).map_err(|_| Error::Invalid)
}

/// How many bytes of names a list is asked for with.
const ROOM: usize = 4096;

/// The entries of a directory.
fn entries(handle: &mut Handle, txn: u64, path: &[u8]) -> Result<Vec<Entry>> {
    let mut room = vec![0; ROOM];
    let listed = answered(handle, |handle| handle.list(txn, path, &mut room))?;
    let size = listed.size as usize;
    if size > room.len() {
        room.resize(size, 0);
        handle.bytes(&mut room);
    }
    // A null byte follows each name, even the last one.
    let names = room[..size].split(|byte| *byte == 0);
    Ok(names.take(listed.number as usize).map(entry).collect())
}

/// An entry; its kind comes before its name.
fn entry(told: &[u8]) -> Entry {
    let (kind, name) = told.split_at(1);
    Entry {
        name: OsString::from_vec(name.to_vec()),
        kind: Kind::numbered(kind[0].into()),
    }
}
