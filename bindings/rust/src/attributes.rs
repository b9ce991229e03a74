//! Modes, owners and times.

use crate::error::{Error, Result};
use crate::file::{Holder, OpenFile};
use crate::sys::{self, Handle};
use crate::transaction::{Metadata, Transaction};
use crate::tree::Reach;
use std::path::Path;
use std::time::{Duration, SystemTime, UNIX_EPOCH};

/// The bits of the mode of a `std::fs::Metadata` besides the permissions: the kind.
const KIND: u32 = 0o170_000;

/// The bits that let a file be written.
const WRITE: u32 = 0o222;

const NANOSECONDS: i128 = 1_000_000_000;

/// The permissions of a file or a directory, as `std::fs` has them: 12 bits, those of sys/stat.h.
/// In the tree they forbid nothing.
#[derive(Clone, Copy, Debug, PartialEq, Eq, Hash)]
pub struct Permissions {
    mode: u32,
}

impl Permissions {
    /// Returns the permissions of a mode. The kind in the mode of a `std::fs::Metadata` is ignored.
    pub fn from_mode(mode: u32) -> Permissions {
        Permissions { mode: mode & !KIND }
    }

    /// Returns their mode.
    pub fn mode(&self) -> u32 {
        self.mode
    }

    /// Sets them to those of a mode, as [`from_mode`](Permissions::from_mode) makes them.
    pub fn set_mode(&mut self, mode: u32) {
        *self = Permissions::from_mode(mode);
    }

    /// Returns whether they let nobody write.
    pub fn readonly(&self) -> bool {
        self.mode & WRITE == 0
    }

    /// Lets nobody write, or everybody, as `std::fs` does.
    pub fn set_readonly(&mut self, readonly: bool) {
        self.mode = self.mode & !WRITE | if readonly { 0 } else { WRITE };
    }
}

/// The times that [`set_times`](Transaction::set_times) sets, as `std::fs` has them. A tree keeps
/// only the time of a file's bytes.
#[derive(Clone, Copy, Debug, Default, PartialEq, Eq)]
pub struct FileTimes {
    modified: Option<SystemTime>,
}

impl FileTimes {
    /// Returns times of which none is set.
    pub fn new() -> FileTimes {
        FileTimes::default()
    }

    /// Sets the time of the bytes.
    #[must_use = "times are set by `set_times`"]
    pub fn set_modified(mut self, time: SystemTime) -> FileTimes {
        self.modified = Some(time);
        self
    }
}

impl Metadata {
    /// Returns the permissions.
    pub fn permissions(&self) -> Permissions {
        Permissions::from_mode(self.mode)
    }
}

impl<R: Reach> Transaction<R> {
    /// Makes a directory with a mode, as [`Permissions::from_mode`] takes it. There is no umask,
    /// and all 12 bits are set as given.
    ///
    /// # Errors
    ///
    /// EINVAL if the mode is above 0o7777, and those of [`create_dir`](Transaction::create_dir).
    #[doc(alias = "mkdir")]
    #[doc(alias = "DirBuilder")]
    pub fn create_dir_mode(&self, path: impl AsRef<Path>, mode: u32) -> Result<()> {
        let permissions = Permissions::from_mode(mode);
        self.on(path.as_ref(), |handle, txn, path| {
            handle.mkdir(txn, path, Some(permissions.mode))
        })?;
        Ok(())
    }

    /// Sets the permissions of a file or a directory. A last symbolic link is followed.
    ///
    /// ```
    /// # use nuzolged::{Permissions, Result, Tree};
    /// # fn main() -> Result<()> {
    /// # let tree = Tree::new()?;
    /// # let job = tree.begin()?;
    /// job.write("/run", "echo")?;
    /// job.set_permissions("/run", Permissions::from_mode(0o755))?;
    /// assert_eq!(job.metadata("/run")?.mode, 0o755);
    /// # Ok(())
    /// # }
    /// ```
    ///
    /// # Errors
    ///
    /// EINVAL if the mode is above 0o7777, or one of the path.
    #[doc(alias = "chmod")]
    pub fn set_permissions(&self, path: impl AsRef<Path>, permissions: Permissions) -> Result<()> {
        self.on(path.as_ref(), |handle, txn, path| {
            handle.chmod(txn, path, permissions.mode)
        })?;
        Ok(())
    }

    /// Sets the owner and the group of a file or a directory; one that is `None` stays. The mode
    /// stays too, even the bits by which a file runs as its owner or group. A last symbolic link is
    /// followed.
    ///
    /// # Errors
    ///
    /// One of the path; `Invalid` if the owner or the group is `u32::MAX`, which none can be.
    pub fn chown(&self, path: impl AsRef<Path>, uid: Option<u32>, gid: Option<u32>) -> Result<()> {
        let (uid, gid) = (owner(uid)?, owner(gid)?);
        self.on(path.as_ref(), |handle, txn, path| {
            handle.chown(txn, path, uid, gid)
        })?;
        Ok(())
    }

    /// Does the same, but does not follow a last symbolic link, whose owner and group are 0: no
    /// others can be set.
    ///
    /// # Errors
    ///
    /// EINVAL if a symbolic link would get another owner or group, and those of
    /// [`chown`](Transaction::chown).
    pub fn lchown(
        &self,
        path: impl AsRef<Path>,
        uid: Option<u32>,
        gid: Option<u32>,
    ) -> Result<()> {
        let (uid, gid) = (owner(uid)?, owner(gid)?);
        self.on(path.as_ref(), |handle, txn, path| {
            handle.lchown(txn, path, uid, gid)
        })?;
        Ok(())
    }

    /// Sets the time of a file's bytes. A later call that writes to the file, or sets its length,
    /// removes the time, even if the bytes stay the same. A tree reads no clock: if nobody gave a
    /// file a time, it has none. If `times` has no time, no request is made. A last symbolic link
    /// is followed.
    ///
    /// ```
    /// # use nuzolged::{FileTimes, Result, Tree};
    /// # use std::time::SystemTime;
    /// # fn main() -> Result<()> {
    /// # let tree = Tree::new()?;
    /// # let job = tree.begin()?;
    /// let now = SystemTime::now();
    /// job.write("/built", "bytes")?;
    /// assert_eq!(job.metadata("/built")?.modified, None);
    /// job.set_times("/built", FileTimes::new().set_modified(now))?;
    /// assert_eq!(job.metadata("/built")?.modified, Some(now));
    /// # Ok(())
    /// # }
    /// ```
    ///
    /// # Errors
    ///
    /// EINVAL if it is a directory, which has no time, or one of the path.
    #[doc(alias = "utime")]
    pub fn set_times(&self, path: impl AsRef<Path>, times: FileTimes) -> Result<()> {
        if let Some(time) = times.modified {
            let (seconds, nanoseconds) = parts_of(time)?;
            self.on(path.as_ref(), |handle, txn, path| {
                handle.utime(txn, path, seconds, nanoseconds)
            })?;
        }
        Ok(())
    }

    /// Does the same, but does not follow a last symbolic link, which has no time.
    ///
    /// # Errors
    ///
    /// EINVAL if it is a symbolic link, and those of [`set_times`](Transaction::set_times).
    #[doc(alias = "lutime")]
    pub fn set_times_nofollow(&self, path: impl AsRef<Path>, times: FileTimes) -> Result<()> {
        if let Some(time) = times.modified {
            let (seconds, nanoseconds) = parts_of(time)?;
            self.on(path.as_ref(), |handle, txn, path| {
                handle.lutime(txn, path, seconds, nanoseconds)
            })?;
        }
        Ok(())
    }
}

impl<H: Holder> OpenFile<H> {
    /// Sets the permissions, even of a file that is open only for reading.
    ///
    /// # Errors
    ///
    /// EINVAL if the mode is above 0o7777, `Waits`, `Deadlock`, or refused.
    #[doc(alias = "fchmod")]
    pub fn set_permissions(&self, permissions: Permissions) -> Result<()> {
        self.ask(|handle, txn, fd| handle.fchmod(txn, fd, permissions.mode))?;
        Ok(())
    }

    /// Sets the owner and the group, as [`Transaction::chown`] does.
    ///
    /// # Errors
    ///
    /// `Invalid` if the owner or the group is `u32::MAX`, `Waits`, `Deadlock`, or refused.
    #[doc(alias = "fchown")]
    pub fn chown(&self, uid: Option<u32>, gid: Option<u32>) -> Result<()> {
        let (uid, gid) = (owner(uid)?, owner(gid)?);
        self.ask(|handle, txn, fd| handle.fchown(txn, fd, uid, gid))?;
        Ok(())
    }

    /// Sets the time of the bytes, as [`Transaction::set_times`] does. A later write removes the
    /// time: so flush a `BufWriter` first.
    ///
    /// # Errors
    ///
    /// `Waits`, `Deadlock`, or refused.
    pub fn set_times(&self, times: FileTimes) -> Result<()> {
        times
            .modified
            .map_or(Ok(()), |time| self.set_modified(time))
    }

    /// Does the same, given only the time of the bytes.
    ///
    /// # Errors
    ///
    /// `Waits`, `Deadlock`, or refused.
    #[doc(alias = "futime")]
    pub fn set_modified(&self, time: SystemTime) -> Result<()> {
        let (seconds, nanoseconds) = parts_of(time)?;
        self.ask(|handle: &mut Handle, txn, fd| handle.futime(txn, fd, seconds, nanoseconds))?;
        Ok(())
    }
}

/// An owner or a group as the library takes it.
fn owner(number: Option<u32>) -> Result<u32> {
    match number {
        Some(sys::STAYS) => Err(Error::Invalid),
        Some(number) => Ok(number),
        None => Ok(sys::STAYS),
    }
}

/// A time in seconds and nanoseconds since the Epoch.
fn parts_of(time: SystemTime) -> Result<(i64, u32)> {
    let since = match time.duration_since(UNIX_EPOCH) {
        Ok(after) => after.as_nanos() as i128,
        Err(before) => -(before.duration().as_nanos() as i128),
    };
    let seconds = i64::try_from(since.div_euclid(NANOSECONDS)).map_err(|_| Error::Invalid)?;
    Ok((seconds, since.rem_euclid(NANOSECONDS) as u32))
}

/// The time of so many seconds and nanoseconds since the Epoch. (Each that a tree holds is one of
/// a system that counts seconds in 64 bits.)
pub(crate) fn time_of(seconds: i64, nanoseconds: u32) -> Option<SystemTime> {
    let whole = Duration::from_secs(seconds.unsigned_abs());
    let second = match seconds {
        0.. => UNIX_EPOCH.checked_add(whole)?,
        _ => UNIX_EPOCH.checked_sub(whole)?,
    };
    second.checked_add(Duration::new(0, nanoseconds))
}
