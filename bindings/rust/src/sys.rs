//! The functions of nuzolged.h and of the C files on top of it. Their headers describe arguments
//! and answers.
//!
//! Types ensure what the header requires of its caller: a handle has a tree of its own, only the
//! caller has it (`&mut`), a slice is a pointer with its length, and nobody else borrows a buffer.

use nuzolged_sys as raw;
use std::collections::hash_map::RandomState;
use std::ffi::CStr;
use std::hash::{BuildHasher, Hasher};
use std::os::raw::c_void;
use std::ptr::{self, NonNull};
use std::slice;

pub use raw::{
    nuz_answer as Answer, nuz_limits as Limits, NUZ_BAD as BAD, NUZ_DIR as DIR, NUZ_END as END,
    NUZ_LIMITS_GREATEST as GREATEST, NUZ_LINK as LINK, NUZ_MEMORY as MEMORY,
    NUZ_O_APPEND as APPEND, NUZ_O_CREAT as CREATE, NUZ_O_EXCL as EXCL, NUZ_O_RDONLY as READ_ONLY,
    NUZ_O_RDWR as READ_WRITE, NUZ_O_TRUNC as TRUNC, NUZ_O_WRONLY as WRITE_ONLY,
    NUZ_STAYS as STAYS, NUZ_TOUCHED_ABSENT as TOUCHED_ABSENT,
    NUZ_TOUCHED_LISTED as TOUCHED_LISTED, NUZ_TOUCHED_READ as TOUCHED_READ,
    NUZ_TOUCHED_WRITTEN as TOUCHED_WRITTEN, NUZ_WAITS as WAITS,
};

/// A handle: the tree that it owns. It is closed when it is dropped.
#[derive(Debug)]
pub struct Handle {
    at: NonNull<raw::nuz_tree>,
}

// SAFETY: the library ties nothing of a tree to a thread, and its handle may go to another one.
unsafe impl Send for Handle {}

/// A mode that none has: those above it are none either.
const NO_MODE: u32 = 0o10000;

impl Handle {
    /// Opens a tree, with random keys of its own, or returns the code of the reason why not.
    pub fn open(options: u32, limits: &Limits) -> Result<Handle, u32> {
        let mut at = ptr::null_mut();
        // SAFETY: see the head of this module.
        let code = unsafe { raw::nuz_tree_open_with(&mut at, options, limits) };
        let handle = Handle {
            at: NonNull::new(at).ok_or(code)?,
        };
        // SAFETY: as above. (A random state has its keys from the system.)
        unsafe { raw::nuz_tree_seed(at, RandomState::new().build_hasher().finish()) };
        Ok(handle)
    }
}

impl Handle {
    /// The tree, as the functions take it.
    pub fn tree(&mut self) -> *mut raw::nuz_tree {
        self.at.as_ptr()
    }

    /// Sets whether calls wait in turn.
    pub fn set_fair(&mut self, is_fair: bool) {
        // SAFETY: see the head of this module.
        unsafe { raw::nuz_tree_fair(self.at.as_ptr(), is_fair) }
    }
}

impl Handle {
    /// Reports each path that a transaction has touched: how, and the kind of what is there.
    pub fn touched<F: FnMut(&[u8], u32, u32)>(&mut self, txn: u64, mut each: F) -> Answer {
        let mut answer = Answer::default();
        let context = (&mut each as *mut F).cast();
        // SAFETY: see the head of this module. (Only the function that is called back has the
        // closure.)
        unsafe { raw::nuz_touched(self.at.as_ptr(), txn, tell::<F>, context, &mut answer) };
        answer
    }
}

/// Reports one path.
///
/// # Safety
///
/// `context` is a closure of this type, and `touch` is of the library.
unsafe extern "C" fn tell<F: FnMut(&[u8], u32, u32)>(
    context: *mut c_void,
    touch: *const raw::nuz_touch,
) -> u32 {
    let (each, touch) = (&mut *context.cast::<F>(), &*touch);
    let path = slice::from_raw_parts(touch.path.cast(), touch.len);
    each(path, touch.how, touch.kind);
    0
}

impl Drop for Handle {
    fn drop(&mut self) {
        // SAFETY: see the head of this module. Nobody has the tree after this.
        unsafe { raw::nuz_tree_close(self.at.as_ptr()) }
    }
}

/// Functions of the library that fill in an `Answer`: each as it is called here, and as it is
/// called in C, between the tree and the answer.
macro_rules! functions {
    ($($name:ident($($arg:ident: $of:ty),*) = $call:ident($($value:expr),*);)*) => {
        impl Handle {
            $(pub fn $name(&mut self, $($arg: $of),*) -> Answer {
                let mut answer = Answer::default();
                // SAFETY: see the head of this module.
                unsafe { raw::$call(self.at.as_ptr(), $($value,)* &mut answer) };
                answer
            })*
        }
    };
}

functions! {
    begin() = nuz_begin();
    sub(txn: u64) = nuz_begin_sub(txn);
    commit(txn: u64) = nuz_commit(txn);
    abort(txn: u64) = nuz_abort(txn);
    cancel(txn: u64) = nuz_cancel(txn);
    checkpoint() = nuz_checkpoint();

    mkdir(txn: u64, path: &[u8], mode: Option<u32>) =
        nuz_mkdir(txn, path.as_ptr().cast(), path.len(), given(mode));
    rmdir(txn: u64, path: &[u8]) =
        nuz_rmdir(txn, path.as_ptr().cast(), path.len());
    list(txn: u64, path: &[u8], buffer: &mut [u8]) =
        nuz_list_all(txn, path.as_ptr().cast(), path.len(),
                     buffer.as_mut_ptr().cast(), buffer.len());
    stat(txn: u64, path: &[u8]) =
        nuz_stat(txn, path.as_ptr().cast(), path.len());
    lstat(txn: u64, path: &[u8]) =
        nuz_lstat(txn, path.as_ptr().cast(), path.len());
    unlink(txn: u64, path: &[u8]) =
        nuz_unlink(txn, path.as_ptr().cast(), path.len());
    truncate(txn: u64, path: &[u8], size: i64) =
        nuz_truncate(txn, path.as_ptr().cast(), path.len(), size);
    link(txn: u64, from: &[u8], to: &[u8]) =
        nuz_link(txn, from.as_ptr().cast(), from.len(),
                 to.as_ptr().cast(), to.len());
    rename(txn: u64, from: &[u8], to: &[u8]) =
        nuz_rename(txn, from.as_ptr().cast(), from.len(),
                   to.as_ptr().cast(), to.len());
    symlink(txn: u64, target: &[u8], path: &[u8]) =
        nuz_symlink(txn, target.as_ptr().cast(), target.len(),
                    path.as_ptr().cast(), path.len());
    readlink(txn: u64, path: &[u8], buffer: &mut [u8]) =
        nuz_readlink(txn, path.as_ptr().cast(), path.len(),
                     buffer.as_mut_ptr().cast(), buffer.len());

    open_file(txn: u64, path: &[u8], flags: u32, mode: Option<u32>) =
        nuz_open(txn, path.as_ptr().cast(), path.len(), flags,
                 given(mode));
    close_file(txn: u64, fd: u64) = nuz_close(txn, fd);
    fstat(txn: u64, fd: u64) = nuz_fstat(txn, fd);
    ftruncate(txn: u64, fd: u64, size: i64) = nuz_ftruncate(txn, fd, size);
    lseek(txn: u64, fd: u64, off: i64, whence: u32) =
        nuz_lseek(txn, fd, off, whence);
    read(txn: u64, fd: u64, buffer: &mut [u8]) =
        nuz_read(txn, fd, buffer.as_mut_ptr().cast(), buffer.len());
    pread(txn: u64, fd: u64, buffer: &mut [u8], off: i64) =
        nuz_pread(txn, fd, buffer.as_mut_ptr().cast(), buffer.len(),
                  off);
    write(txn: u64, fd: u64, bytes: &[u8]) =
        nuz_write(txn, fd, bytes.as_ptr().cast(), bytes.len());
    pwrite(txn: u64, fd: u64, bytes: &[u8], off: i64) =
        nuz_pwrite(txn, fd, bytes.as_ptr().cast(), bytes.len(),
                   off);

    chmod(txn: u64, path: &[u8], mode: u32) =
        nuz_chmod(txn, path.as_ptr().cast(), path.len(), mode);
    fchmod(txn: u64, fd: u64, mode: u32) = nuz_fchmod(txn, fd, mode);
    chown(txn: u64, path: &[u8], owner: u32, group: u32) =
        nuz_chown(txn, path.as_ptr().cast(), path.len(), owner,
                  group);
    lchown(txn: u64, path: &[u8], owner: u32, group: u32) =
        nuz_lchown(txn, path.as_ptr().cast(), path.len(), owner,
                   group);
    fchown(txn: u64, fd: u64, owner: u32, group: u32) =
        nuz_fchown(txn, fd, owner, group);
    utime(txn: u64, path: &[u8], seconds: i64, nanoseconds: u32) =
        nuz_utime(txn, path.as_ptr().cast(), path.len(), seconds,
                  nanoseconds);
    lutime(txn: u64, path: &[u8], seconds: i64, nanoseconds: u32) =
        nuz_lutime(txn, path.as_ptr().cast(), path.len(), seconds,
                   nanoseconds);
    futime(txn: u64, fd: u64, seconds: i64, nanoseconds: u32) =
        nuz_futime(txn, fd, seconds, nanoseconds);

    blocker(index: usize) = nuz_blocker(index);
    bytes(buffer: &mut [u8]) = nuz_bytes(buffer.as_mut_ptr().cast(), buffer.len());
    manifest(txn: u64, buffer: &mut [u8]) =
        nuz_manifest(txn, buffer.as_mut_ptr().cast(), buffer.len());
    depfile(txn: u64, target: Option<&CStr>, top: &CStr, buffer: &mut [u8]) =
        nuz_depfile(txn, target.map_or(ptr::null(), CStr::as_ptr), top.as_ptr(),
                    buffer.as_mut_ptr().cast(), buffer.len());
    cycle_of(txn: u64, txns: &mut [u64]) =
        nuz_cycle_of(txn, txns.as_mut_ptr(), txns.len());
    request(line: &[u8], buffer: &mut [u8]) =
        nuz_request(line.as_ptr().cast(), line.len(), buffer.as_mut_ptr().cast(),
                    buffer.len());
    reply(buffer: &mut [u8]) =
        nuz_reply(buffer.as_mut_ptr().cast(), buffer.len());
}

/// A mode as the library takes it, if one is given.
fn given(mode: Option<u32>) -> u32 {
    mode.map_or(raw::NUZ_DEFAULT_MODE, |mode| mode.min(NO_MODE))
}
