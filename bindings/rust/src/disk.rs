//! Copies from and to directories of the disk.

use crate::error::{Error, Result};
use crate::sys::{self, Handle};
use crate::transaction::Transaction;
use crate::tree::Reach;
use nuzolged_sys as raw;
use std::ffi::{CStr, CString, OsStr};
use std::mem::MaybeUninit;
use std::os::raw::c_void;
use std::os::unix::ffi::OsStrExt;
use std::path::Path;

/// How a directory is copied from or to the disk.
#[derive(Clone, Copy, Debug, Default, PartialEq, Eq)]
pub struct CopyOptions {
    flags: u32,
}

impl CopyOptions {
    /// Returns options of which none is set.
    pub const fn new() -> CopyOptions {
        CopyOptions { flags: 0 }
    }

    /// Sets whether a copy keeps the bits of a mode by which a file runs as its owner or group.
    pub fn set_id(&mut self, set_id: bool) -> &mut CopyOptions {
        self.set(raw::NUZ_COPY_SET_ID, set_id)
    }

    /// Sets whether a copy out replaces an existing directory, all at once, and removes it.
    pub fn replace(&mut self, replace: bool) -> &mut CopyOptions {
        self.set(raw::NUZ_COPY_REPLACE, replace)
    }

    /// Sets whether all of a copy out is on the disk before it gets its name, so that it is whole
    /// or not there at all even if the power fails.
    pub fn sync(&mut self, sync: bool) -> &mut CopyOptions {
        self.set(raw::NUZ_COPY_SYNC, sync)
    }

    fn set(&mut self, flag: u32, is_set: bool) -> &mut CopyOptions {
        self.flags = self.flags & !flag | if is_set { flag } else { 0 };
        self
    }
}

impl<R: Reach> Transaction<R> {
    /// Copies everything below a directory of the disk to a directory of the tree, with modes,
    /// owners, times and links. The directory of the tree is made if it is missing. Two names of a
    /// file stay names of one file, if both are copied. Symbolic links are copied with their
    /// targets as they are, and not followed below `disk`. Whatever changes on the disk meanwhile
    /// is copied as it is when it is opened.
    ///
    /// Existing directories of the tree keep their modes and owners. However, the root of an empty
    /// tree gets those of `disk`, unless it has been given others. A copy that fails leaves what it
    /// has copied so far: make it in a step, which undoes that.
    ///
    /// ```
    /// # use nuzolged::{CopyOptions, Result, Tree};
    /// # fn main() -> Result<()> {
    /// # let disk = std::env::temp_dir().join(format!("copies-{}", std::process::id()));
    /// # std::fs::create_dir_all(disk.join("from")).unwrap();
    /// # std::fs::write(disk.join("from/file"), "bytes").unwrap();
    /// let tree = Tree::new()?;
    /// let job = tree.begin()?;
    /// job.copy_in(disk.join("from"), "/", &CopyOptions::new())?;
    /// job.write("/new", "of the tree")?;
    /// job.copy_out("/", disk.join("to"), CopyOptions::new().replace(true))?;
    /// assert_eq!(std::fs::read(disk.join("to/file")).unwrap(), b"bytes");
    /// # std::fs::remove_dir_all(disk).unwrap();
    /// job.commit()
    /// # }
    /// ```
    ///
    /// # Errors
    ///
    /// Errors of the disk, with its path: ENOTSUP if something is neither a file, a directory nor a
    /// symbolic link, EFBIG if a file is larger than the tree allows. Errors of the tree, with its
    /// path: EEXIST if a file or link has the name. `Waits`, `Deadlock`, or refused.
    pub fn copy_in(
        &self,
        disk: impl AsRef<Path>,
        path: impl AsRef<Path>,
        options: &CopyOptions,
    ) -> Result<()> {
        let (disk, path) = (c_path(disk.as_ref())?, path.as_ref().as_os_str().as_bytes());
        self.copied(options, |txn, how, failure| {
            // SAFETY: each pointer is of something that lives longer than the call; there is no
            // tree, since what is around a request has it.
            unsafe {
                let (bytes, len) = (path.as_ptr(), path.len());
                raw::nuz_copy_in(NO_TREE, txn, disk.as_ptr(), bytes.cast(), len, how, failure)
            }
        })
    }

    /// Copies everything below a directory of the tree to a directory of the disk, with modes,
    /// owners, times and links. It copies all of it or nothing, since the directory gets its name
    /// at the end. Nothing is written through a symbolic link. Nobody else can read the copy before
    /// it is whole.
    ///
    /// If root makes the copy, owners are those of the tree; otherwise everything belongs to this
    /// process. Files without a time in the tree get the time of the copy, all the same one.
    ///
    /// # Errors
    ///
    /// Errors of the disk, with its path: ENOTEMPTY if the directory exists, is not empty and is
    /// not to be replaced, EINVAL if its last name is `.` or `..`. Errors of the tree, with its
    /// path: ENOTDIR if it is a file. `Waits`, `Deadlock`, or refused.
    pub fn copy_out(
        &self,
        path: impl AsRef<Path>,
        disk: impl AsRef<Path>,
        options: &CopyOptions,
    ) -> Result<()> {
        let (disk, path) = (c_path(disk.as_ref())?, path.as_ref().as_os_str().as_bytes());
        self.copied(options, |txn, how, failure| {
            // SAFETY: as above.
            unsafe {
                let (bytes, len) = (path.as_ptr(), path.len());
                raw::nuz_copy_out(NO_TREE, txn, bytes.cast(), len, disk.as_ptr(), how, failure)
            }
        })
    }

    /// Makes a copy, each request of which goes through this transaction.
    fn copied(
        &self,
        options: &CopyOptions,
        copy: impl FnOnce(u64, &raw::nuz_copy_options, *mut raw::nuz_copy_failure) -> u32,
    ) -> Result<()> {
        let mut asked = Asked {
            transaction: self,
            last: None,
        };
        let how = raw::nuz_copy_options {
            flags: options.flags,
            around: Some(around::<R>),
            context: (&mut asked as *mut Asked<R>).cast(),
        };
        let mut failure = MaybeUninit::uninit();
        match copy(self.number(), &how, failure.as_mut_ptr()) {
            0 => Ok(()),
            sys::WAITS => Err(asked.last.unwrap_or(Error::Waits(Vec::new()))),
            // SAFETY: a copy that returns another code than 0 has filled it in.
            code => Err(error_of(code, unsafe { failure.assume_init_ref() })),
        }
    }
}

/// The needs of each request of a copy, and the error of the last one that waited.
struct Asked<'t, R: Reach> {
    transaction: &'t Transaction<R>,
    last: Option<Error>,
}

/// No tree: the library does not use one if something is around each request.
const NO_TREE: *mut raw::nuz_tree = std::ptr::null_mut();

/// Makes a request of a copy, as the transaction makes its own.
///
/// # Safety
///
/// `context` is an `Asked`, and the others are those of the library.
unsafe extern "C" fn around<R: Reach>(
    context: *mut c_void,
    make: raw::nuz_copy_request,
    request: *mut c_void,
) -> u32 {
    let asked = &mut *context.cast::<Asked<R>>();
    let mut code = 0;
    let made = asked.transaction.request(|handle| {
        code = make(handle.tree(), request);
        match code {
            sys::WAITS => Err(Error::Waits(blockers(handle))),
            _ => Ok(()),
        }
    });
    asked.last = made.err();
    code
}

/// The transactions for which the last call waits.
fn blockers(handle: &mut Handle) -> Vec<u64> {
    (0..)
        .map(|index| handle.blocker(index))
        .take_while(|told| told.code == 0)
        .map(|told| told.number)
        .collect()
}

/// Returns the error of a copy, with the path of the side on which it occurred.
fn error_of(code: u32, failure: &raw::nuz_copy_failure) -> Error {
    const EFBIG: u32 = 27;
    let is_of_disk = failure.on_disk || code == EFBIG;
    let path = if is_of_disk {
        &failure.disk
    } else {
        &failure.path
    };
    // SAFETY: each of them ends with a null byte.
    let path = unsafe { CStr::from_ptr(path.as_ptr()) };
    Error::of(code).about(&[Path::new(OsStr::from_bytes(path.to_bytes()))])
}

/// A path of the disk.
pub(crate) fn c_path(path: &Path) -> Result<CString> {
    CString::new(path.as_os_str().as_bytes()).map_err(|_| Error::Invalid)
}
