// Written by header.py from nuzolged.h and nuzolged_copy.h and nuzolged_cycle.h and nuzolged_shared.h and nuzolged_touched.h.
#![allow(clippy::doc_lazy_continuation)]
use std::os::raw::{c_char, c_void};
/// The version of this header, and of the library that comes with it, as text and as a number. The
/// number has a million for each major version, and a thousand for each minor one.
pub const NUZ_VERSION: &str = "0.1.0";
/// `NUZ_VERSION_NUMBER`
pub const NUZ_VERSION_NUMBER: u32 = 1000;
/// A tree with its transactions. A program has only pointers to it.
#[repr(C)]
pub struct nuz_tree {
    _private: [u8; 0],
}
/// How many blockers an answer has room for.
pub const NUZ_BLOCKERS: u32 = 8;
/// The result of a request. A function sets all members, whatever they held before. It sets the
/// members that its description does not mention to 0.
#[repr(C)]
#[derive(Clone, Copy, Debug, Default, PartialEq, Eq)]
pub struct nuz_answer {
    /// 0, an errno, or one of the codes below; the function also returns it
    pub code: u32,
    /// `NUZ_DIR`, `NUZ_FILE` or `NUZ_LINK`
    pub kind: u32,
    /// of a granted call: its place among all granted calls
    pub stamp: u64,
    /// a transaction, a descriptor, an offset, a count, or the number of a file
    pub number: u64,
    /// how many names a file or symbolic link has
    pub links: u64,
    /// how many bytes there are
    pub size: u64,
    /// of a directory, file or link: the 12 bits of sys/stat.h, without the kind
    pub mode: u32,
    /// its owner, a user ID
    pub owner: u32,
    /// its group, a group ID
    pub group: u32,
    /// whether the bytes of a file have a time
    pub has_time: bool,
    /// that time since the Epoch, in whole seconds; less than 0 before it
    pub seconds: i64,
    /// and the nanoseconds to add, which always count forward
    pub nanoseconds: u32,
    /// of `nuz_request`: how many bytes its reply has
    pub reply: u64,
    /// of a waiting call: the first transactions that block it
    pub blockers: [u64; NUZ_BLOCKERS as usize],
    /// 0, for future members
    pub reserved: [u64; 6 as usize],
}
/// out of memory
pub const NUZ_MEMORY: u32 = 1001;
/// no transaction since the last checkpoint has this number
pub const NUZ_NO_TXN: u32 = 1002;
/// the transaction has committed or was aborted
pub const NUZ_ENDED: u32 = 1003;
/// the transaction has a live subtransaction
pub const NUZ_CHILD_LIVE: u32 = 1004;
/// the transaction has no call that could be undone
pub const NUZ_NOTHING_TO_UNDO: u32 = 1005;
/// since its last call, a subtransaction has committed
pub const NUZ_SUB_SINCE: u32 = 1006;
/// no more transactions or calls are possible before a checkpoint
pub const NUZ_FULL: u32 = 1007;
/// the transaction is as deep as one may be
pub const NUZ_DEEP: u32 = 1008;
/// a transaction is live
pub const NUZ_LIVE: u32 = 1009;
/// the transaction waits for no call
pub const NUZ_NO_ASK: u32 = 1010;
/// a limit is above the greatest
pub const NUZ_BAD_LIMITS: u32 = 1012;
/// The codes of an answer.
pub const NUZ_WAITS: u32 = 1100;
/// The codes of an answer.
pub const NUZ_BAD: u32 = 1201;
/// Kinds: a directory, a file, a symbolic link.
pub const NUZ_DIR: u32 = 1;
/// Kinds: a directory, a file, a symbolic link.
pub const NUZ_FILE: u32 = 2;
/// Kinds: a directory, a file, a symbolic link.
pub const NUZ_LINK: u32 = 3;
/// The limits of a tree, from its opening to its end. Each limit may be any number up to the
/// greatest. A tree that is given no limits has the greatest ones, so that only lack of memory ends
/// a job.
#[repr(C)]
#[derive(Clone, Copy, Debug, Default, PartialEq, Eq)]
pub struct nuz_limits {
    /// how many bytes a file may have; more is EFBIG
    pub file_size: u64,
    /// how many names a file may have; one more is EMLINK
    pub links: u64,
    /// how deep a transaction may be, 1 for `nuz_begin`; deeper is `NUZ_DEEP`
    pub depth: u64,
    /// how many may begin before a checkpoint; one more is `NUZ_FULL`
    pub transactions: u64,
    /// how many may be granted before a checkpoint; one more is `NUZ_FULL`
    pub calls: u64,
    /// 0, for future limits; else `NUZ_BAD_LIMITS`
    pub reserved: [u64; 3 as usize],
}
/// The greatest limits: files of 2^47 bytes, 2^32 names of one file, 4,096 transactions inside each
/// other, 2^62 transactions and 2^62 calls.
pub const NUZ_LIMITS_GREATEST: nuz_limits = nuz_limits {
    file_size: 1 << 47,
    links: 1 << 32,
    depth: 4096,
    transactions: 1 << 62,
    calls: 1 << 62,
    reserved: [0; 3],
};
/// The limits of a script if the program that plays it is given none (docs/SCRIPT.md). A file may
/// have a mebibyte.
pub const NUZ_LIMITS_SCRIPT: nuz_limits = nuz_limits {
    file_size: 1048576,
    links: 1000,
    depth: 64,
    transactions: 100000,
    calls: 1000000,
    reserved: [0; 3],
};
/// The options of a tree, combined in one number.
pub const NUZ_RELAXED: u32 = 0;
/// The options of a tree, combined in one number.
pub const NUZ_MOSS: u32 = 1;
/// The options of a tree, combined in one number.
pub const NUZ_FAIR: u32 = 2;
/// reads
pub const NUZ_O_RDONLY: u32 = 0;
/// writes
pub const NUZ_O_WRONLY: u32 = 1;
/// does both
pub const NUZ_O_RDWR: u32 = 2;
/// makes the file if it is missing, even if a link leads to it
pub const NUZ_O_CREAT: u32 = 0o100;
/// with `NUZ_O_CREAT`: neither the file nor a link may be there
pub const NUZ_O_EXCL: u32 = 0o200;
/// cuts it to no bytes, and removes its time
pub const NUZ_O_TRUNC: u32 = 0o1000;
/// each write is at its end
pub const NUZ_O_APPEND: u32 = 0o2000;
/// As a mode of `nuz_mkdir` or `nuz_open`, this is the default: 0755 for a directory and 0644 for a
/// file.
pub const NUZ_DEFAULT_MODE: u32 = u32::MAX;
/// The whence of `nuz_lseek`, like SEEK_SET, SEEK_CUR and SEEK_END.
pub const NUZ_SET: u32 = 0;
/// The whence of `nuz_lseek`, like SEEK_SET, SEEK_CUR and SEEK_END.
pub const NUZ_CUR: u32 = 1;
/// The whence of `nuz_lseek`, like SEEK_SET, SEEK_CUR and SEEK_END.
pub const NUZ_END: u32 = 2;
/// As an owner or a group of `nuz_chown`, `nuz_lchown` and `nuz_fchown`, this keeps the present one. It is
/// the (uid_t)-1 of chown.
pub const NUZ_STAYS: u32 = u32::MAX;
/// also copies S_ISUID and S_ISGID, by which a file runs as another
pub const NUZ_COPY_SET_ID: u32 = 1;
/// `nuz_copy_out`: replaces an existing directory, and removes it
pub const NUZ_COPY_REPLACE: u32 = 2;
/// `nuz_copy_out`: all is on the disk before it gets its name
pub const NUZ_COPY_SYNC: u32 = 4;
/// Makes one request of a copy, of this tree, and returns its code.
pub type nuz_copy_request = unsafe extern "C" fn(tree: *mut nuz_tree, request: *mut c_void) -> u32;
/// A function that a program puts around each request of a copy. It takes a lock, if threads share
/// the tree, and waits, if make returns `NUZ_WAITS`. It calls make with the tree and the request, once
/// or more, and returns the last code. If it returns another one, the copy ends with that code.
pub type nuz_copy_around =
    unsafe extern "C" fn(context: *mut c_void, make: nuz_copy_request, request: *mut c_void) -> u32;
/// How a copy is made, if a program does not use the defaults.
#[repr(C)]
#[derive(Clone, Copy, Debug)]
pub struct nuz_copy_options {
    /// the flags above, added up
    pub flags: u32,
    /// or NULL: each request is made once, and `NUZ_WAITS` ends the copy
    pub around: Option<nuz_copy_around>,
    /// the context with which around is called
    pub context: *mut c_void,
}
/// How many bytes of a path a failure has room for, with the null byte at the end.
pub const NUZ_COPY_ROOM: u32 = 4096;
/// The reason why a copy failed.
#[repr(C)]
#[derive(Clone, Copy, Debug)]
pub struct nuz_copy_failure {
    /// the code that the copy returns
    pub code: u32,
    /// whether the system failed, at disk, and not the tree, at path
    pub on_disk: bool,
    /// at `NUZ_WAITS`, with no around: the first blocking transaction
    pub waits_for: u64,
    /// the place of the copy on the disk,
    pub disk: [c_char; NUZ_COPY_ROOM as usize],
    /// and in the tree; as much of each as has room
    pub path: [c_char; NUZ_COPY_ROOM as usize],
}
/// A tree with a lock. A program has only pointers to it.
#[repr(C)]
pub struct nuz_shared {
    _private: [u8; 0],
}
/// As a time, no limit.
pub const NUZ_FOREVER: u32 = u32::MAX;
/// The context of `nuz_shared_around`.
#[repr(C)]
#[derive(Clone, Copy, Debug)]
pub struct nuz_shared_copy {
    /// `shared`
    pub shared: *mut nuz_shared,
    /// the transaction of the copy
    pub txn: u64,
    /// how long each request waits, or `NUZ_FOREVER`
    pub milliseconds: u32,
}
/// looked up, even in vain, or its bytes, target or mode were read
pub const NUZ_TOUCHED_READ: u32 = 1;
/// the names in the directory were listed
pub const NUZ_TOUCHED_LISTED: u32 = 2;
/// made, changed, renamed or removed
pub const NUZ_TOUCHED_WRITTEN: u32 = 4;
/// with `NUZ_TOUCHED_READ`: nothing is there, and nothing was removed
pub const NUZ_TOUCHED_ABSENT: u32 = 8;
/// A path that a transaction has touched.
#[repr(C)]
#[derive(Clone, Copy, Debug)]
pub struct nuz_touch {
    /// the path, with a null byte at the end
    pub path: *const c_char,
    /// how many bytes the path has
    pub len: usize,
    /// the ways above, added up
    pub how: u32,
    /// what is there now: `NUZ_DIR`, `NUZ_FILE` or `NUZ_LINK`, or 0 if nothing is
    pub kind: u32,
}
/// Receives one path, which stays until this function returns. It returns 0 to go on. Any other
/// number ends the list, and `nuz_touched` returns that number. The function may use the tree.
pub type nuz_touched_each =
    unsafe extern "C" fn(context: *mut c_void, touch: *const nuz_touch) -> u32;
extern "C" {
    /// Returns the version of the library. `NUZ_VERSION_NUMBER` is that of this header.
    pub fn nuz_version() -> u32;
    /// Opens a tree that has only its root, and no transaction. Its limits are `NUZ_LIMITS_GREATEST`.
    /// Returns 0, or `NUZ_BAD` if an option is not valid, or `NUZ_MEMORY`.
    /// - `tree`: receives the tree, which the caller closes, or null if there is none. Its previous
    /// value does not matter
    /// - `options`: any of `NUZ_MOSS` and `NUZ_FAIR`, or 0
    pub fn nuz_tree_open(tree: *mut *mut nuz_tree, options: u32) -> u32;
    /// The same with these limits, which last, even through checkpoints. Also returns `NUZ_BAD_LIMITS` if
    /// the options are valid and a limit is above the greatest.
    /// - `limits`: what the tree allows, each at most the greatest
    pub fn nuz_tree_open_with(
        tree: *mut *mut nuz_tree,
        options: u32,
        limits: *const nuz_limits,
    ) -> u32;
    /// Mixes a number into the hashes by which the tree finds names. Anyone who can't guess the number
    /// can't choose names that take long to find. If names come from strangers, call this once, right
    /// after the tree was opened. Pass a number from getrandom(2) or the like. Without this call the
    /// number is 0. The function changes no answer, and takes no memory.
    pub fn nuz_tree_seed(tree: *mut nuz_tree, seed: u64);
    /// Sets whether calls wait in turn from here on. If they do, a call that no lock blocks also waits
    /// for each transaction whose waiting call is older and conflicts with it. So a call that writes is
    /// not passed by one reader after another. A call never waits in turn for the caller, for a
    /// transaction above or below it, or for one that waits for the caller, directly or through others.
    /// If an older one begins to wait for the caller, the next `nuz_retry` of the caller no longer waits
    /// for that one. So to wait in turn closes no deadlock.
    ///
    /// A call is as old as its first request that had to wait. It stays so if its transaction retries it
    /// or makes the same call again. Another call of the transaction is new, and so is one that waited
    /// before calls waited in turn: it gets the last turn when it is made again. A waiting call that nobody
    /// retries holds others back, so forget it by `nuz_cancel`. While calls wait, another one takes time
    /// and memory for all waits of the tree. The function itself takes no memory.
    /// - `is_fair`: whether calls wait in turn
    pub fn nuz_tree_fair(tree: *mut nuz_tree, is_fair: bool);
    /// Frees a tree with all its transactions, even live ones. If tree is null, it does nothing.
    pub fn nuz_tree_close(tree: *mut nuz_tree);
    /// Begins a transaction: number is that of the transaction. The caller ends it by a commit or an
    /// abort. Refused: `NUZ_FULL`, `NUZ_MEMORY`.
    pub fn nuz_begin(tree: *mut nuz_tree, answer: *mut nuz_answer) -> u32;
    /// Begins a subtransaction of txn: number is that of the subtransaction. Refused: `NUZ_NO_TXN`,
    /// `NUZ_ENDED`, `NUZ_DEEP`, `NUZ_FULL`, `NUZ_MEMORY`.
    pub fn nuz_begin_sub(tree: *mut nuz_tree, txn: u64, answer: *mut nuz_answer) -> u32;
    /// Commits txn. This hands what txn did to the transaction around it, or to the tree. Takes no
    /// memory. Refused: `NUZ_NO_TXN`, `NUZ_ENDED`, `NUZ_CHILD_LIVE`.
    pub fn nuz_commit(tree: *mut nuz_tree, txn: u64, answer: *mut nuz_answer) -> u32;
    /// Aborts txn and all live transactions below it. Their calls are rolled back, and so are those of
    /// committed subtransactions: number is how many calls. Takes no memory. Refused: `NUZ_NO_TXN`,
    /// `NUZ_ENDED`.
    pub fn nuz_abort(tree: *mut nuz_tree, txn: u64, answer: *mut nuz_answer) -> u32;
    /// Undoes the last of txn's own standing calls: stamp is that of the call. A standing call is a
    /// granted one that no undo and no abort has rolled back. The undone call may be one that only read,
    /// like `nuz_stat`, or one that failed. Takes no memory. Refused: `NUZ_NO_TXN`, `NUZ_ENDED`,
    /// `NUZ_CHILD_LIVE`, then `NUZ_SUB_SINCE` or `NUZ_NOTHING_TO_UNDO`.
    pub fn nuz_undo(tree: *mut nuz_tree, txn: u64, answer: *mut nuz_answer) -> u32;
    /// Forgets the call that txn waits for. Takes no memory. Refused: `NUZ_NO_TXN`, `NUZ_ENDED`,
    /// `NUZ_NO_ASK`.
    pub fn nuz_cancel(tree: *mut nuz_tree, txn: u64, answer: *mut nuz_answer) -> u32;
    /// Makes the call that txn waits for, and returns what that call returns. If the call still has to
    /// wait, it returns `NUZ_WAITS`. The data that `nuz_read`, `nuz_pread`, `nuz_readlink` or `nuz_list_all` would
    /// have copied goes to buffer in the same form. So do the names that `nuz_list` counts. A read
    /// requests as many bytes as it had room for when it was called. Refused: `NUZ_NO_TXN`, `NUZ_ENDED`,
    /// `NUZ_NO_ASK`, `NUZ_FULL`, `NUZ_MEMORY`.
    /// - `buffer`: where the bytes go
    /// - `room`: how many bytes it has room for
    pub fn nuz_retry(
        tree: *mut nuz_tree,
        txn: u64,
        buffer: *mut c_void,
        room: usize,
        answer: *mut nuz_answer,
    ) -> u32;
    /// Makes the present tree the new beginning, and forgets the transactions and the history.
    /// Transactions and calls are counted from here, and their numbers continue. Until then each
    /// transaction that has ended takes 8 bytes. Takes no memory. Refused: `NUZ_LIVE`.
    pub fn nuz_checkpoint(tree: *mut nuz_tree, answer: *mut nuz_answer) -> u32;
    /// Makes a directory, with owner 0 and group 0. Errors: EEXIST, and EINVAL for a mode above 07777.
    /// - `mode`: the mode of the directory, or `NUZ_DEFAULT_MODE`. All 12 bits are set as given: there
    /// is no umask
    pub fn nuz_mkdir(
        tree: *mut nuz_tree,
        txn: u64,
        path: *const c_void,
        len: usize,
        mode: u32,
        answer: *mut nuz_answer,
    ) -> u32;
    /// Removes an empty directory. Errors: EINVAL, ENOTEMPTY, EBUSY.
    pub fn nuz_rmdir(
        tree: *mut nuz_tree,
        txn: u64,
        path: *const c_void,
        len: usize,
        answer: *mut nuz_answer,
    ) -> u32;
    /// Counts the names in a directory, without . and .., into number. `nuz_name` returns each name. size
    /// is the same as for `nuz_list_all`.
    pub fn nuz_list(
        tree: *mut nuz_tree,
        txn: u64,
        path: *const c_void,
        len: usize,
        answer: *mut nuz_answer,
    ) -> u32;
    /// Lists all names in a directory, without . and .., in the order of their bytes: number is how
    /// many. For each name, buffer gets the kind of what it names as one byte, the bytes of the name,
    /// and a null byte. So a name is a C string from the second byte on. size is how many bytes there
    /// are in all. As many as have room are copied. If size is more than room, the rest is missing, and
    /// `nuz_bytes` copies all the names. The rest of buffer is untouched. If the code is not 0, all of
    /// buffer is untouched. If the call waits, `nuz_retry` copies the names.
    /// - `buffer`: where the names go
    /// - `room`: how many bytes it has room for
    pub fn nuz_list_all(
        tree: *mut nuz_tree,
        txn: u64,
        path: *const c_void,
        len: usize,
        buffer: *mut c_void,
        room: usize,
        answer: *mut nuz_answer,
    ) -> u32;
    /// Returns the status of what a path leads to. This is kind, number, links and size, and mode,
    /// owner and group, even if these are the default ones. If has_time is true, seconds and nanoseconds
    /// are the time of a file's bytes. A directory has one link, size 0, and no time. A last symbolic
    /// link is followed, so kind is never `NUZ_LINK`.
    pub fn nuz_stat(
        tree: *mut nuz_tree,
        txn: u64,
        path: *const c_void,
        len: usize,
        answer: *mut nuz_answer,
    ) -> u32;
    /// The same, but a last symbolic link is not followed. The size of a link is the length of its
    /// target, its mode is 0777, and its owner and its group are 0. It has no time.
    pub fn nuz_lstat(
        tree: *mut nuz_tree,
        txn: u64,
        path: *const c_void,
        len: usize,
        answer: *mut nuz_answer,
    ) -> u32;
    /// Removes a name of a file or symbolic link. A file lives as long as a descriptor has it open.
    /// Errors: EPERM.
    pub fn nuz_unlink(
        tree: *mut nuz_tree,
        txn: u64,
        path: *const c_void,
        len: usize,
        answer: *mut nuz_answer,
    ) -> u32;
    /// Cuts a file to size bytes, or extends it to them with zeros. The file's time is removed. Errors:
    /// EINVAL, EFBIG, EISDIR.
    /// - `size`: how many bytes the file then has
    pub fn nuz_truncate(
        tree: *mut nuz_tree,
        txn: u64,
        path: *const c_void,
        len: usize,
        size: i64,
        answer: *mut nuz_answer,
    ) -> u32;
    /// Gives a file or symbolic link a further name. Errors: EPERM, EEXIST, EMLINK.
    /// - `from`: the existing name
    /// - `from_len`: how many bytes from has
    /// - `to`: the further name
    /// - `to_len`: how many bytes to has
    pub fn nuz_link(
        tree: *mut nuz_tree,
        txn: u64,
        from: *const c_void,
        from_len: usize,
        to: *const c_void,
        to_len: usize,
        answer: *mut nuz_answer,
    ) -> u32;
    /// Gives a file, a symbolic link or a directory another name, and replaces what had that name.
    /// Errors: EINVAL, EBUSY, EISDIR, ENOTEMPTY.
    /// - `from`: the old name
    /// - `from_len`: how many bytes from has
    /// - `to`: the new name
    /// - `to_len`: how many bytes to has
    pub fn nuz_rename(
        tree: *mut nuz_tree,
        txn: u64,
        from: *const c_void,
        from_len: usize,
        to: *const c_void,
        to_len: usize,
        answer: *mut nuz_answer,
    ) -> u32;
    /// Makes a symbolic link. Its target is kept as it is given: only following the link shows if it
    /// leads to anything. Errors: EEXIST; also ENOENT for a target of no bytes, and ENAMETOOLONG for one
    /// of more than 4,095. Returns `NUZ_BAD` for a target with a null byte.
    /// - `target`: where the link leads
    /// - `target_len`: how many bytes target has
    /// - `path`: the name of the link
    /// - `len`: how many bytes path has
    pub fn nuz_symlink(
        tree: *mut nuz_tree,
        txn: u64,
        target: *const c_void,
        target_len: usize,
        path: *const c_void,
        len: usize,
        answer: *mut nuz_answer,
    ) -> u32;
    /// Reads the target of a symbolic link: number is how many bytes all of it has, 1 to 4,095. As many
    /// as have room are copied to the front of buffer. If number is more than room, the rest is missing,
    /// and `nuz_bytes` copies the whole target. The rest of buffer is untouched, and no null byte follows
    /// the target. If the code is not 0, all of buffer is untouched. If the call waits, `nuz_retry` copies
    /// the target. Errors: EINVAL for anything that is not a symbolic link.
    /// - `buffer`: where the target goes
    /// - `room`: how many bytes it has room for
    pub fn nuz_readlink(
        tree: *mut nuz_tree,
        txn: u64,
        path: *const c_void,
        len: usize,
        buffer: *mut c_void,
        room: usize,
        answer: *mut nuz_answer,
    ) -> u32;
    /// Opens a file at offset 0: number is the descriptor. Also returns `NUZ_BAD` for flags that are not
    /// valid. A descriptor belongs to the tree. Any transaction may use it once the transaction that
    /// opened it has committed. The caller closes it. An undo or an abort of its opening removes it.
    /// Errors: EINVAL, EEXIST, EISDIR.
    /// - `flags`: one of `NUZ_O_RDONLY`, `NUZ_O_WRONLY` and `NUZ_O_RDWR`, and any of `NUZ_O_CREAT`,
    /// `NUZ_O_EXCL`, `NUZ_O_TRUNC` and `NUZ_O_APPEND`
    /// - `mode`: the mode of a file that is made, without a umask, or `NUZ_DEFAULT_MODE`. An existing
    /// file keeps its own. A mode above 07777 is EINVAL, whether or not a file would be made
    pub fn nuz_open(
        tree: *mut nuz_tree,
        txn: u64,
        path: *const c_void,
        len: usize,
        flags: u32,
        mode: u32,
        answer: *mut nuz_answer,
    ) -> u32;
    /// Closes a descriptor. Errors: EBADF.
    pub fn nuz_close(tree: *mut nuz_tree, txn: u64, fd: u64, answer: *mut nuz_answer) -> u32;
    /// Returns the status of what a descriptor has open, in the form of `nuz_stat`. Errors: EBADF.
    pub fn nuz_fstat(tree: *mut nuz_tree, txn: u64, fd: u64, answer: *mut nuz_answer) -> u32;
    /// Cuts the file of a descriptor to size bytes, or extends it to them with zeros. The file's time
    /// is removed. Errors: EBADF, EINVAL, EFBIG.
    /// - `size`: how many bytes the file then has
    pub fn nuz_ftruncate(
        tree: *mut nuz_tree,
        txn: u64,
        fd: u64,
        size: i64,
        answer: *mut nuz_answer,
    ) -> u32;
    /// Sets the offset of a descriptor: number is the new one. Returns `NUZ_BAD` if whence is not
    /// `NUZ_SET`, `NUZ_CUR` or `NUZ_END`. Errors: EBADF, EINVAL, EOVERFLOW.
    /// - `off`: how far
    /// - `whence`: from where: `NUZ_SET`, `NUZ_CUR` or `NUZ_END`
    pub fn nuz_lseek(
        tree: *mut nuz_tree,
        txn: u64,
        fd: u64,
        off: i64,
        whence: u32,
        answer: *mut nuz_answer,
    ) -> u32;
    /// Reads at the offset as many bytes as buffer has room for, and moves the offset: number is how
    /// many there were. They are at the front of buffer, and its rest is untouched. If the code is not
    /// 0, all of buffer is untouched. If the call waits, `nuz_retry` copies the bytes. Errors: EBADF.
    /// - `buffer`: where the bytes go
    /// - `room`: how many bytes it has room for
    pub fn nuz_read(
        tree: *mut nuz_tree,
        txn: u64,
        fd: u64,
        buffer: *mut c_void,
        room: usize,
        answer: *mut nuz_answer,
    ) -> u32;
    /// The same at off, and the offset does not move. Errors: EBADF, EINVAL.
    /// - `off`: where it begins to read
    pub fn nuz_pread(
        tree: *mut nuz_tree,
        txn: u64,
        fd: u64,
        buffer: *mut c_void,
        room: usize,
        off: i64,
        answer: *mut nuz_answer,
    ) -> u32;
    /// Writes at the offset, or at the end of a file that is open for appending, and moves the offset.
    /// As many bytes are written as the file has room for: number is how many. If there are any, the
    /// file's time is removed. Errors: EBADF, EFBIG.
    /// - `bytes`: the bytes to write
    /// - `len`: how many there are
    pub fn nuz_write(
        tree: *mut nuz_tree,
        txn: u64,
        fd: u64,
        bytes: *const c_void,
        len: usize,
        answer: *mut nuz_answer,
    ) -> u32;
    /// The same at off, and the offset does not move. Errors: EBADF, EINVAL, EFBIG.
    /// - `off`: where it begins to write
    pub fn nuz_pwrite(
        tree: *mut nuz_tree,
        txn: u64,
        fd: u64,
        bytes: *const c_void,
        len: usize,
        off: i64,
        answer: *mut nuz_answer,
    ) -> u32;
    /// Sets the mode of a directory or file. Errors: EINVAL.
    /// - `mode`: the new mode
    pub fn nuz_chmod(
        tree: *mut nuz_tree,
        txn: u64,
        path: *const c_void,
        len: usize,
        mode: u32,
        answer: *mut nuz_answer,
    ) -> u32;
    /// Sets the mode of the file of a descriptor. Errors: EBADF, EINVAL.
    /// - `mode`: the new mode
    pub fn nuz_fchmod(
        tree: *mut nuz_tree,
        txn: u64,
        fd: u64,
        mode: u32,
        answer: *mut nuz_answer,
    ) -> u32;
    /// Sets the owner and the group of a directory or file. `NUZ_STAYS` keeps the present one.
    /// - `owner`: the new owner, or `NUZ_STAYS`
    /// - `group`: the new group, or `NUZ_STAYS`
    pub fn nuz_chown(
        tree: *mut nuz_tree,
        txn: u64,
        path: *const c_void,
        len: usize,
        owner: u32,
        group: u32,
        answer: *mut nuz_answer,
    ) -> u32;
    /// The same, but a last symbolic link is not followed. The owner and the group of a link are 0, and
    /// setting others is EINVAL.
    pub fn nuz_lchown(
        tree: *mut nuz_tree,
        txn: u64,
        path: *const c_void,
        len: usize,
        owner: u32,
        group: u32,
        answer: *mut nuz_answer,
    ) -> u32;
    /// Sets the owner and the group of the file of a descriptor. `NUZ_STAYS` keeps the present one.
    /// Errors: EBADF.
    /// - `owner`: the new owner, or `NUZ_STAYS`
    /// - `group`: the new group, or `NUZ_STAYS`
    pub fn nuz_fchown(
        tree: *mut nuz_tree,
        txn: u64,
        fd: u64,
        owner: u32,
        group: u32,
        answer: *mut nuz_answer,
    ) -> u32;
    /// Sets the time of a file's bytes. Errors: EINVAL.
    /// - `seconds`: whole seconds since the Epoch, less than 0 before it
    /// - `nanoseconds`: the nanoseconds to add, at most 999,999,999
    pub fn nuz_utime(
        tree: *mut nuz_tree,
        txn: u64,
        path: *const c_void,
        len: usize,
        seconds: i64,
        nanoseconds: u32,
        answer: *mut nuz_answer,
    ) -> u32;
    /// The same, but a last symbolic link is not followed, and is EINVAL.
    pub fn nuz_lutime(
        tree: *mut nuz_tree,
        txn: u64,
        path: *const c_void,
        len: usize,
        seconds: i64,
        nanoseconds: u32,
        answer: *mut nuz_answer,
    ) -> u32;
    /// Sets the time of the bytes of a descriptor's file. Errors: EBADF, EINVAL.
    /// - `seconds`: whole seconds since the Epoch, less than 0 before it
    /// - `nanoseconds`: the nanoseconds to add, at most 999,999,999
    pub fn nuz_futime(
        tree: *mut nuz_tree,
        txn: u64,
        fd: u64,
        seconds: i64,
        nanoseconds: u32,
        answer: *mut nuz_answer,
    ) -> u32;
    /// Lists the transactions for which txn waits now, in ascending order: number is how many. They
    /// have a lock that blocks the call. If none has, and calls wait in turn, they have an older call.
    /// If there are none any more, `nuz_retry` makes the call. As many numbers as have room are copied.
    /// The function changes nothing, and the last answer stays. Refused as `nuz_retry` is: `NUZ_NO_TXN`,
    /// `NUZ_ENDED`, `NUZ_NO_ASK`, `NUZ_FULL`, `NUZ_MEMORY`.
    /// - `txns`: where their numbers go
    /// - `room`: how many numbers it has room for
    pub fn nuz_blockers(
        tree: *mut nuz_tree,
        txn: u64,
        txns: *mut u64,
        room: usize,
        answer: *mut nuz_answer,
    ) -> u32;
    /// Finds a deadlock, if there is one. In a deadlock each transaction waits for the next, and the
    /// last for the first. Each one waits for a lock, or because the next is a live subtransaction of
    /// it. (To wait in turn is part of no deadlock, as `nuz_tree_fair` says.) number is how many
    /// transactions there are, and 0 exactly if there is no deadlock. The least comes first. If there
    /// are several deadlocks, it is left open which one is returned. As many numbers as have room are
    /// copied. The function changes nothing, and the last answer stays. It takes time and memory for all
    /// waits of the tree. Refused: `NUZ_MEMORY`.
    /// - `txns`: where their numbers go
    /// - `room`: how many numbers it has room for
    pub fn nuz_cycle(
        tree: *mut nuz_tree,
        txns: *mut u64,
        room: usize,
        answer: *mut nuz_answer,
    ) -> u32;
    /// Writes the locks of txn as text. They show what it has read and written, and what came up to it
    /// from committed subtransactions. The text has the form of two reports of a script, `locks` and
    /// then `attributes` (docs/SCRIPT.md), with only the locks of txn. size is how many bytes it has. As
    /// many as have room are copied to buffer, whose rest is untouched. A line `lock entry D NAME read
    /// ..` is for a name that txn has looked up in directory D, even in vain. A line with `write` is for
    /// a name that txn has made, changed or removed. If txn has ended, or is no transaction, it has no
    /// locks. The function changes nothing, and the last answer stays. Refused: `NUZ_MEMORY`.
    /// - `buffer`: where the text goes
    /// - `room`: how many bytes it has room for
    pub fn nuz_locks(
        tree: *mut nuz_tree,
        txn: u64,
        buffer: *mut c_void,
        room: usize,
        answer: *mut nuz_answer,
    ) -> u32;
    /// Returns a name of a list: kind is the kind of what it names, and size is the length of the name.
    /// Names are counted from 0, in the order of their bytes. As much of the name as has room is copied
    /// to buffer, whose rest is untouched. No null byte follows it. A name has 1 to 255 bytes.
    /// - `index`: which one, from 0
    /// - `buffer`: where its bytes go
    /// - `room`: how many bytes it has room for
    pub fn nuz_name(
        tree: *mut nuz_tree,
        index: usize,
        buffer: *mut c_void,
        room: usize,
        answer: *mut nuz_answer,
    ) -> u32;
    /// Returns a transaction for which the call waits: number is that of the transaction. Transactions
    /// are counted from 0, in ascending order.
    /// - `index`: which one, from 0
    pub fn nuz_blocker(tree: *mut nuz_tree, index: usize, answer: *mut nuz_answer) -> u32;
    /// Copies the bytes of a read, of the target that `nuz_readlink` has read, or of a list in the form
    /// of `nuz_list_all`. size is how many there are. As many as have room are copied to buffer, whose
    /// rest is untouched.
    /// - `buffer`: where the bytes go
    /// - `room`: how many bytes it has room for
    pub fn nuz_bytes(
        tree: *mut nuz_tree,
        buffer: *mut c_void,
        room: usize,
        answer: *mut nuz_answer,
    ) -> u32;
    /// Carries out one line, without its line feed. For a request, the function returns what the
    /// request's own function returns. For a report, `tree`, `locks`, `attributes` or `waits`, it
    /// returns 0, and changes nothing of the tree. It also returns 0 for an empty line or a comment,
    /// which requests nothing. It returns `NUZ_BAD` if the line is none of these. It also returns
    /// `NUZ_MEMORY` if there is not enough memory for the words of the line or for the text of a report.
    /// The last answer then stays. If there is not enough memory for the data of a report, the reply is
    /// `refused Memory`.
    ///
    /// The reply goes to buffer in the form of `nuz_reply`: reply is how many bytes it has. As many as
    /// have room are copied, and the rest of buffer is untouched. With `NUZ_BAD` and `NUZ_MEMORY` there is
    /// no reply, and reply is 0. If there is no memory for the text of the reply, reply is UINT64_MAX.
    /// Then `nuz_reply` copies the text once there is memory.
    /// - `line`: the line
    /// - `len`: how many bytes line has
    /// - `buffer`: where the reply goes
    /// - `room`: how many bytes it has room for
    pub fn nuz_request(
        tree: *mut nuz_tree,
        line: *const c_void,
        len: usize,
        buffer: *mut c_void,
        room: usize,
        answer: *mut nuz_answer,
    ) -> u32;
    /// Copies the text of the reply to the last request, whether or not it was a line. Each line of the
    /// reply has its line feed, and size is how many bytes there are. As many as have room are copied to
    /// buffer, whose rest is untouched. Returns `NUZ_MEMORY` if there is no memory for the text: then call
    /// it again.
    /// - `buffer`: where the text goes
    /// - `room`: how many bytes it has room for
    pub fn nuz_reply(
        tree: *mut nuz_tree,
        buffer: *mut c_void,
        room: usize,
        answer: *mut nuz_answer,
    ) -> u32;
    /// Copies what is below a directory of the disk to a directory of the tree, by calls in txn. A
    /// missing directory of the tree is made. Existing directories keep their modes and owners. However,
    /// the root of an empty tree gets those of disk, unless it has been given others. An existing file
    /// or link is EEXIST. If the copy fails, what it has made stays. If memory runs out, a descriptor
    /// may stay too. Give the copy a txn of its own, whose abort removes all of it.
    ///
    /// Returns 0; an errno of the system, or of the tree; a refusal; `NUZ_WAITS`, with the call forgotten;
    /// or `NUZ_BAD` if path has a null byte. ENOTSUP: something is neither a file, a directory nor a
    /// symbolic link. ENOTDIR: disk is not a directory. EFBIG: a file has more bytes than one of the
    /// tree may have.
    /// - `tree`: the tree; NULL if around has it
    /// - `txn`: the transaction that makes the calls
    /// - `disk`: the directory of the disk, which may be a symbolic link to one
    /// - `path`: the directory of the tree
    /// - `len`: how many bytes path has
    /// - `options`: how the copy is made; NULL for no flags and no around
    /// - `failure`: the reason, if the function does not return 0; or NULL
    pub fn nuz_copy_in(
        tree: *mut nuz_tree,
        txn: u64,
        disk: *const c_char,
        path: *const c_void,
        len: usize,
        options: *const nuz_copy_options,
        failure: *mut nuz_copy_failure,
    ) -> u32;
    /// Copies what is below a directory of the tree to a directory of the disk, as txn sees it. It
    /// copies all of it or nothing, even if the process dies, because the copy gets its name at the end.
    /// Until then it is a directory next to that name, and its own name begins with a dot. It is removed
    /// if the copy fails. A process that dies leaves it.
    ///
    /// Files are opened with mode 0600 and directories with 0700, and get their own when all is written.
    /// If root makes the copy, owners are those of the tree, as far as the system lets root set them.
    /// Otherwise everything belongs to the process. A file or directory never has S_ISUID or S_ISGID if
    /// it gets another owner or group than it has in the tree. Files that have no time in the tree get
    /// that of the copy, which is the same for all of them.
    ///
    /// An existing directory must be empty, or is ENOTEMPTY. With `NUZ_COPY_REPLACE` any directory may
    /// exist, but no symbolic link. It is exchanged with the copy at once, and removed. If the file
    /// system can't exchange two names, the existing directory is renamed first. Then for a moment
    /// nothing has its name. With `NUZ_COPY_SYNC` the copy is whole or nothing even if the power fails.
    ///
    /// Returns the same as `nuz_copy_in`, or EBUSY if another directory than at first has the name of the
    /// one to be replaced; that directory is kept. If what was replaced can't be removed, it returns the
    /// reason for that, and the copy has its name.
    /// - `tree`: the tree; NULL if around has it
    /// - `txn`: the transaction that makes the calls
    /// - `path`: the directory of the tree
    /// - `len`: how many bytes path has
    /// - `disk`: the directory of the disk: its last name is neither . nor .., or is EINVAL
    /// - `options`: how the copy is made; NULL for no flags and no around
    /// - `failure`: the reason, if the function does not return 0; or NULL
    pub fn nuz_copy_out(
        tree: *mut nuz_tree,
        txn: u64,
        path: *const c_void,
        len: usize,
        disk: *const c_char,
        options: *const nuz_copy_options,
        failure: *mut nuz_copy_failure,
    ) -> u32;
    /// Finds a deadlock that txn is part of, if there is one, whatever other deadlocks there are. Each
    /// transaction in it waits for the next, and the last for the first, as in `nuz_cycle`, but txn comes
    /// first. number is how many there are, and 0 exactly if txn is part of no deadlock. It is also 0 if
    /// txn only waits for transactions in a deadlock. If txn is part of several, this finds one of the
    /// shortest. As many numbers as have room are copied. Returns 0 or `NUZ_MEMORY`.
    ///
    /// It changes nothing of the tree. If there is any deadlock, it makes the report `waits`
    /// (docs/SCRIPT.md), which is then the last answer. It takes time and memory for all waits of the
    /// tree.
    /// - `txns`: where their numbers go
    /// - `room`: how many numbers it has room for
    pub fn nuz_cycle_of(
        tree: *mut nuz_tree,
        txn: u64,
        txns: *mut u64,
        room: usize,
        answer: *mut nuz_answer,
    ) -> u32;
    /// Shares a tree. From here on only the shared tree uses it, and closes it. Calls wait in turn, as
    /// `nuz_shared_fair` says. Returns 0, or `NUZ_MEMORY`: then nothing has changed.
    /// - `shared`: receives the shared tree, which the caller closes, or null
    /// - `tree`: an open tree
    pub fn nuz_shared_open(shared: *mut *mut nuz_shared, tree: *mut nuz_tree) -> u32;
    /// Frees a shared tree with its tree. No thread uses it any more. If shared is null, it does
    /// nothing.
    pub fn nuz_shared_close(shared: *mut nuz_shared);
    /// Sets whether calls wait in turn from here on, as `nuz_tree_fair` says. They do so only as long as
    /// at most 32 calls wait, since a turn takes time for all of them: with more, a call may pass older
    /// ones. (Don't call `nuz_tree_fair` for a shared tree.) The thread does not have the lock.
    /// - `is_fair`: whether calls wait in turn
    pub fn nuz_shared_fair(shared: *mut nuz_shared, is_fair: bool);
    /// Takes the lock, and returns the tree. The thread does not have the lock yet.
    pub fn nuz_shared_lock(shared: *mut nuz_shared) -> *mut nuz_tree;
    /// Releases the lock, which the thread has.
    pub fn nuz_shared_unlock(shared: *mut nuz_shared);
    /// Waits for the call that txn has just made, if its code is `NUZ_WAITS`, and returns what the call
    /// returns in the end. The thread has the lock, which is free while the thread sleeps. The call is
    /// made again when a transaction has ended or another waiting call is forgotten, and every 50
    /// milliseconds (5 for each waiting call if more than ten wait). The data that it reads or lists goes
    /// to buffer, as with `nuz_retry`. If another thread forgets the call by `nuz_cancel`, `NUZ_NO_ASK` is
    /// returned.
    ///
    /// If the call would wait forever, EDEADLK is returned at once: the transactions in blockers wait
    /// for each other, and txn comes first. number is how many there are. No call returns EDEADLK
    /// itself. If the time is over, `NUZ_WAITS` is returned. In both cases the call is forgotten, and so it
    /// is if it is refused while it waits.
    /// - `milliseconds`: how long it waits at most, or `NUZ_FOREVER`
    /// - `answer`: the answer of the call, which is replaced by that of the last one
    pub fn nuz_shared_wait(
        shared: *mut nuz_shared,
        txn: u64,
        milliseconds: u32,
        buffer: *mut c_void,
        room: usize,
        answer: *mut nuz_answer,
    ) -> u32;
    /// Commits txn as `nuz_commit` does, and wakes those that wait. The thread does not have the lock.
    /// (They notice other ends, and what `nuz_cancel` forgets, when their calls are made again.)
    pub fn nuz_shared_commit(shared: *mut nuz_shared, txn: u64, answer: *mut nuz_answer) -> u32;
    /// The same, but aborts txn as `nuz_abort` does.
    pub fn nuz_shared_abort(shared: *mut nuz_shared, txn: u64, answer: *mut nuz_answer) -> u32;
    /// Is the function around of a copy (nuzolged_copy.h): takes the lock for each request, and waits
    /// as `nuz_shared_wait` does.
    /// - `context`: a `nuz_shared_copy`
    /// - `make`: what makes the request
    /// - `request`: the request
    pub fn nuz_shared_around(
        context: *mut c_void,
        make: nuz_copy_request,
        request: *mut c_void,
    ) -> u32;
    /// Passes every path that txn has touched to a function, once, in the order of the paths' bytes:
    /// number is how many there are. Returns 0, what the function returned, or `NUZ_MEMORY`.
    /// - `each`: the function that gets the paths
    /// - `context`: the context with which each is called
    pub fn nuz_touched(
        tree: *mut nuz_tree,
        txn: u64,
        each: nuz_touched_each,
        context: *mut c_void,
        answer: *mut nuz_answer,
    ) -> u32;
    /// Writes what txn has touched as text, with one line `PATH HOW KIND` for each path. number is how
    /// many lines there are, and size is how many bytes. As many as have room are copied to buffer,
    /// whose rest is untouched. Returns 0 or `NUZ_MEMORY`.
    ///
    /// PATH is coded as in the reports of a script: the bytes 0 to 32, %, and 127 to 255 are % and two
    /// hexadecimal digits. HOW has those of the words read or absent, listed and written that apply,
    /// with a comma between two. KIND is dir, file, link or none.
    /// - `buffer`: where the text goes
    /// - `room`: how many bytes it has room for
    pub fn nuz_manifest(
        tree: *mut nuz_tree,
        txn: u64,
        buffer: *mut c_void,
        room: usize,
        answer: *mut nuz_answer,
    ) -> u32;
    /// Writes what txn has touched in the form that make and Ninja read, with their escapes. This is a
    /// target with its dependencies: each file that txn has read, and each directory that it has listed.
    /// They are included if they still exist and txn has not written them. number is how many
    /// dependencies there are, and size is how many bytes the text has. As many as have room are copied
    /// to buffer, whose rest is untouched.
    ///
    /// Returns 0, `NUZ_MEMORY`, or `NUZ_BAD` if one of the two programs would take a name for another one:
    ///
    /// - a name with a control character or one of " & ' * ; < = > ? [ ^ ` |
    /// - a target with %
    /// - a name that begins with ~
    /// - a name that ends with a space, a colon, a backslash, or a bracket that was opened in it
    /// - a name with a backslash before #, : or $
    ///
    /// Symbolic links are left out, because make and Ninja look through them. Names looked up in vain
    /// are left out, because neither program has a form for them. A manifest lists both.
    /// - `target`: the target. If it is null, each file and symbolic link that txn has written and
    /// that still exists is a target. If there is none of them, there is no text
    /// - `top`: the prefix of each path of the tree, or null for none. It may be the directory of the
    /// disk from which the tree was copied. A slash at its end is left out
    /// - `buffer`: where the text goes
    /// - `room`: how many bytes it has room for
    pub fn nuz_depfile(
        tree: *mut nuz_tree,
        txn: u64,
        target: *const c_char,
        top: *const c_char,
        buffer: *mut c_void,
        room: usize,
        answer: *mut nuz_answer,
    ) -> u32;
}
