/* nuzolged.h: a POSIX file tree in memory, under nested transactions.
 *
 * Link libnuzolged, static or shared. Either one has all that the library needs, except memcpy,
 * memmove, memset, malloc, realloc and free of the C library. (nuz_strerror, in this header, also
 * needs strerror. The functions of nuzolged_touched.h and nuzolged_cycle.h need more of stdlib.h
 * and string.h, and those of nuzolged_copy.h and nuzolged_shared.h need a POSIX system.)
 *
 * A function carries out one request as a whole, or changes nothing. It returns the code of its
 * answer, which is 0 if all went well. It fills in the caller's nuz_answer with that code and the
 * rest of the answer. The library starts no thread, takes no lock, makes no callback, and never
 * ends the process.
 *
 * The caller has these duties, which nothing checks:
 *
 * - A nuz_tree comes from nuz_tree_open or nuz_tree_open_with, and is not used after
 *   nuz_tree_close. It may be passed to another thread.
 * - One function of a tree runs at a time. Threads that share a tree take a lock around each call.
 *   They keep the lock for each nuz_name, nuz_blocker, nuz_bytes or nuz_reply that belongs to the
 *   call.
 * - A pointer comes with a length, and points to at least that many bytes or numbers. It may be
 *   null if the length is 0. No other pointer may be null, except that of nuz_tree_close. The
 *   memory to which a function writes overlaps nothing else that the function is given.
 * - No function is called from a signal handler. If the process has threads, no function is called
 *   in a child of fork before exec.
 *
 * The caller keeps all that it passes: paths, bytes and lines are copied, and no pointer is kept.
 * At most as much of a path is copied as shows that it is too long. nuz_write copies at most as
 * many bytes as a file may have. nuz_pwrite copies at most as many as could fit after its offset.
 * So a long write is best made in pieces. The tree keeps all that it holds: the library gives out
 * no pointer into it.
 *
 * The names of directories, files and symbolic links are bytes, in no encoding, and so are the
 * targets of links. A path may be absolute or not. Both are the same here, since the only working
 * directory is the root. A target that is not absolute begins in the directory of its link.
 *
 * A program keeps working, without being compiled again, if the library is newer than its header.
 * Functions keep their arguments. An answer and limits keep their size and the places of their
 * members. A future member takes the place of a reserved one. A reserved member of an answer is 0
 * if the library does not know it. A reserved member of limits has to be 0. Any other change gets
 * another soname than libnuzolged.so.1.
 */
#ifndef NUZOLGED_H
#define NUZOLGED_H

#include <stdbool.h>
#include <stddef.h>
#include <stdint.h>
#include <string.h>

#ifdef __cplusplus
extern "C" {
#endif

/* The version of this header, and of the library that comes with it, as text and as a number. The
 * number has a million for each major version, and a thousand for each minor one. */
#define NUZ_VERSION "0.1.0"
#define NUZ_VERSION_NUMBER 1000

/* Marks a function that returns its code, and fills in no answer. gcc and clang warn if a program
 * drops the code. */
#if defined(__GNUC__)
#define NUZ_MUST_USE __attribute__((warn_unused_result))
#else
#define NUZ_MUST_USE
#endif

/* A tree with its transactions. A program has only pointers to it. */
typedef struct nuz_tree nuz_tree;

/* How many blockers an answer has room for. */
#define NUZ_BLOCKERS 8

/* The result of a request. A function sets all members, whatever they held before. It sets the
 * members that its description does not mention to 0. */
typedef struct nuz_answer {
    uint32_t code;   /* 0, an errno, or one of the codes below; the function also returns it */
    uint32_t kind;   /* NUZ_DIR, NUZ_FILE or NUZ_LINK */
    uint64_t stamp;  /* of a granted call: its place among all granted calls */
    uint64_t number; /* a transaction, a descriptor, an offset, a count, or the number of a file */
    uint64_t links;  /* how many names a file or symbolic link has */
    uint64_t size;   /* how many bytes there are */
    uint32_t mode;   /* of a directory, file or link: the 12 bits of sys/stat.h, without the kind */
    uint32_t owner;  /* its owner, a user ID */
    uint32_t group;  /* its group, a group ID */
    bool has_time;   /* whether the bytes of a file have a time */
    int64_t seconds; /* that time since the Epoch, in whole seconds; less than 0 before it */
    uint32_t nanoseconds;            /* and the nanoseconds to add, which always count forward */
    uint64_t reply;                  /* of nuz_request: how many bytes its reply has */
    uint64_t blockers[NUZ_BLOCKERS]; /* of a waiting call: the first transactions that block it */
    uint64_t reserved[6];            /* 0, for future members */
} nuz_answer;

/* The codes of an answer.
 *
 * 0          The request was carried out. If it was a call, it was granted and has its stamp.
 * 1 to 75    An errno, as Linux numbers them (errno.h). The call was granted, has its stamp,
 *            failed, and changed nothing of the tree. Like any granted call it has locks, counts
 *            towards NUZ_FULL, and may be undone. Only calls return an errno.
 * 1001-1012  The request is refused. Nothing of the tree has changed.
 * 1100       NUZ_WAITS. The call waits for transactions. number is how many there are. blockers
 *            has the first of them, in ascending order, and nuz_blockers lists all. The call is
 *            kept: nuz_retry makes it, nuz_cancel forgets it, and another call replaces it.
 * 1201       NUZ_BAD. A path has a null byte, or another argument is not valid, as the function
 *            explains. Nothing has changed.
 */
enum {
    NUZ_MEMORY = 1001,          /* out of memory */
    NUZ_NO_TXN = 1002,          /* no transaction since the last checkpoint has this number */
    NUZ_ENDED = 1003,           /* the transaction has committed or was aborted */
    NUZ_CHILD_LIVE = 1004,      /* the transaction has a live subtransaction */
    NUZ_NOTHING_TO_UNDO = 1005, /* the transaction has no call that could be undone */
    NUZ_SUB_SINCE = 1006,       /* since its last call, a subtransaction has committed */
    NUZ_FULL = 1007,            /* no more transactions or calls are possible before a checkpoint */
    NUZ_DEEP = 1008,            /* the transaction is as deep as one may be */
    NUZ_LIVE = 1009,            /* a transaction is live */
    NUZ_NO_ASK = 1010,          /* the transaction waits for no call */
    NUZ_BAD_LIMITS = 1012,      /* a limit is above the greatest */
    NUZ_WAITS = 1100,
    NUZ_BAD = 1201
};

/* Kinds: a directory, a file, a symbolic link. */
enum { NUZ_DIR = 1, NUZ_FILE = 2, NUZ_LINK = 3 };

/* The limits of a tree, from its opening to its end. Each limit may be any number up to the
 * greatest. A tree that is given no limits has the greatest ones, so that only lack of memory ends
 * a job. */
typedef struct nuz_limits {
    uint64_t file_size;    /* how many bytes a file may have; more is EFBIG */
    uint64_t links;        /* how many names a file may have; one more is EMLINK */
    uint64_t depth;        /* how deep a transaction may be, 1 for nuz_begin; deeper is NUZ_DEEP */
    uint64_t transactions; /* how many may begin before a checkpoint; one more is NUZ_FULL */
    uint64_t calls;        /* how many may be granted before a checkpoint; one more is NUZ_FULL */
    uint64_t reserved[3];  /* 0, for future limits; else NUZ_BAD_LIMITS */
} nuz_limits;

/* The greatest limits: files of 2^47 bytes, 2^32 names of one file, 4,096 transactions inside each
 * other, 2^62 transactions and 2^62 calls. */
#define NUZ_LIMITS_GREATEST \
    { UINT64_C(1) << 47, UINT64_C(1) << 32, 4096, UINT64_C(1) << 62, UINT64_C(1) << 62, { 0 } }

/* The limits of a script if the program that plays it is given none (docs/SCRIPT.md). A file may
 * have a mebibyte. */
#define NUZ_LIMITS_SCRIPT { 1048576, 1000, 64, 100000, 1000000, { 0 } }

/* The options of a tree, combined in one number. A call waits if a transaction that is neither the
 * caller nor above it has a conflicting lock. With NUZ_MOSS the call also waits for a transaction
 * above the caller that holds such a lock itself. It does not wait for one that only keeps the lock
 * for a committed transaction below it. With NUZ_FAIR calls wait in turn, as nuz_tree_fair says. */
enum { NUZ_RELAXED = 0, NUZ_MOSS = 1, NUZ_FAIR = 2 };

/* The flags of nuz_open, combined in one number: one of the first three, and any of the others.
 * They are those of fcntl.h as Linux numbers them. */
enum {
    NUZ_O_RDONLY = 0,     /* reads */
    NUZ_O_WRONLY = 1,     /* writes */
    NUZ_O_RDWR = 2,       /* does both */
    NUZ_O_CREAT = 0100,   /* makes the file if it is missing, even if a link leads to it */
    NUZ_O_EXCL = 0200,    /* with NUZ_O_CREAT: neither the file nor a link may be there */
    NUZ_O_TRUNC = 01000,  /* cuts it to no bytes, and removes its time */
    NUZ_O_APPEND = 02000  /* each write is at its end */
};

/* As a mode of nuz_mkdir or nuz_open, this is the default: 0755 for a directory and 0644 for a
 * file. */
#define NUZ_DEFAULT_MODE UINT32_MAX

/* The whence of nuz_lseek, like SEEK_SET, SEEK_CUR and SEEK_END. */
enum { NUZ_SET = 0, NUZ_CUR = 1, NUZ_END = 2 };

/* As an owner or a group of nuz_chown, nuz_lchown and nuz_fchown, this keeps the present one. It is
 * the (uid_t)-1 of chown. */
#define NUZ_STAYS UINT32_MAX

/* A C string as the two arguments of a path, a line or bytes. The macro uses its argument twice, so
 * give it a name and not a call. */
#define NUZ_S(text) (text), strlen(text)

/** Returns the text of a code, for people to read. The text of an errno is that of strerror, and
 * the next call of strerror may replace it. The other texts stay. */
static inline const char *nuz_strerror(uint32_t code) {
    switch (code) {
    case 0: return "carried out";
    case NUZ_MEMORY: return "there is not enough memory";
    case NUZ_NO_TXN: return "there is no such transaction";
    case NUZ_ENDED: return "the transaction has ended";
    case NUZ_CHILD_LIVE: return "the transaction has a live subtransaction";
    case NUZ_NOTHING_TO_UNDO: return "there is no call to undo";
    case NUZ_SUB_SINCE: return "a subtransaction has committed since the last call";
    case NUZ_FULL: return "the limit on transactions or calls is reached";
    case NUZ_DEEP: return "the transaction is at the greatest depth";
    case NUZ_LIVE: return "a transaction is live";
    case NUZ_NO_ASK: return "the transaction waits for no call";
    case NUZ_BAD_LIMITS: return "a limit is above the greatest";
    case NUZ_WAITS: return "the call waits for other transactions";
    case NUZ_BAD: return "an argument is not valid";
    default: return code < NUZ_MEMORY ? strerror((int)code) : "there is no such code";
    }
}

/* ---- trees */

/** Returns the version of the library. NUZ_VERSION_NUMBER is that of this header. */
uint32_t nuz_version(void);

/** Opens a tree that has only its root, and no transaction. Its limits are NUZ_LIMITS_GREATEST.
 * Returns 0, or NUZ_BAD if an option is not valid, or NUZ_MEMORY.
 * @param tree receives the tree, which the caller closes, or null if there is none. Its previous
 * value does not matter
 * @param options any of NUZ_MOSS and NUZ_FAIR, or 0 */
NUZ_MUST_USE
uint32_t nuz_tree_open(nuz_tree **tree, uint32_t options);

/** The same with these limits, which last, even through checkpoints. Also returns NUZ_BAD_LIMITS if
 * the options are valid and a limit is above the greatest.
 * @param limits what the tree allows, each at most the greatest */
NUZ_MUST_USE
uint32_t nuz_tree_open_with(nuz_tree **tree, uint32_t options, const nuz_limits *limits);

/** Mixes a number into the hashes by which the tree finds names. Anyone who can't guess the number
 * can't choose names that take long to find. If names come from strangers, call this once, right
 * after the tree was opened. Pass a number from getrandom(2) or the like. Without this call the
 * number is 0. The function changes no answer, and takes no memory. */
void nuz_tree_seed(nuz_tree *tree, uint64_t seed);

/** Sets whether calls wait in turn from here on. If they do, a call that no lock blocks also waits
 * for each transaction whose waiting call is older and conflicts with it. So a call that writes is
 * not passed by one reader after another. A call never waits in turn for the caller, for a
 * transaction above or below it, or for one that waits for the caller, directly or through others.
 * If an older one begins to wait for the caller, the next nuz_retry of the caller no longer waits
 * for that one. So to wait in turn closes no deadlock.
 *
 * A call is as old as its first request that had to wait. It stays so if its transaction retries it
 * or makes the same call again. Another call of the transaction is new, and so is one that waited
 * before calls waited in turn: it gets the last turn when it is made again. A waiting call that nobody
 * retries holds others back, so forget it by nuz_cancel. While calls wait, another one takes time
 * and memory for all waits of the tree. The function itself takes no memory.
 * @param is_fair whether calls wait in turn */
void nuz_tree_fair(nuz_tree *tree, bool is_fair);

/** Frees a tree with all its transactions, even live ones. If tree is null, it does nothing. */
void nuz_tree_close(nuz_tree *tree);

/* ---- transactions
 *
 * Each of these functions returns the first of the listed refusals that applies, or else what its
 * description says. A function that takes no memory never returns NUZ_MEMORY. */

/** Begins a transaction: number is that of the transaction. The caller ends it by a commit or an
 * abort. Refused: NUZ_FULL, NUZ_MEMORY. */
uint32_t nuz_begin(nuz_tree *tree, nuz_answer *answer);

/** Begins a subtransaction of txn: number is that of the subtransaction. Refused: NUZ_NO_TXN,
 * NUZ_ENDED, NUZ_DEEP, NUZ_FULL, NUZ_MEMORY. */
uint32_t nuz_begin_sub(nuz_tree *tree, uint64_t txn, nuz_answer *answer);

/** Commits txn. This hands what txn did to the transaction around it, or to the tree. Takes no
 * memory. Refused: NUZ_NO_TXN, NUZ_ENDED, NUZ_CHILD_LIVE. */
uint32_t nuz_commit(nuz_tree *tree, uint64_t txn, nuz_answer *answer);

/** Aborts txn and all live transactions below it. Their calls are rolled back, and so are those of
 * committed subtransactions: number is how many calls. Takes no memory. Refused: NUZ_NO_TXN,
 * NUZ_ENDED. */
uint32_t nuz_abort(nuz_tree *tree, uint64_t txn, nuz_answer *answer);

/** Undoes the last of txn's own standing calls: stamp is that of the call. A standing call is a
 * granted one that no undo and no abort has rolled back. The undone call may be one that only read,
 * like nuz_stat, or one that failed. Takes no memory. Refused: NUZ_NO_TXN, NUZ_ENDED,
 * NUZ_CHILD_LIVE, then NUZ_SUB_SINCE or NUZ_NOTHING_TO_UNDO. */
uint32_t nuz_undo(nuz_tree *tree, uint64_t txn, nuz_answer *answer);

/** Forgets the call that txn waits for. Takes no memory. Refused: NUZ_NO_TXN, NUZ_ENDED,
 * NUZ_NO_ASK. */
uint32_t nuz_cancel(nuz_tree *tree, uint64_t txn, nuz_answer *answer);

/** Makes the call that txn waits for, and returns what that call returns. If the call still has to
 * wait, it returns NUZ_WAITS. The data that nuz_read, nuz_pread, nuz_readlink or nuz_list_all would
 * have copied goes to buffer in the same form. So do the names that nuz_list counts. A read
 * requests as many bytes as it had room for when it was called. Refused: NUZ_NO_TXN, NUZ_ENDED,
 * NUZ_NO_ASK, NUZ_FULL, NUZ_MEMORY.
 * @param buffer where the bytes go
 * @param room how many bytes it has room for */
uint32_t nuz_retry(nuz_tree *tree, uint64_t txn, void *buffer, size_t room, nuz_answer *answer);

/** Makes the present tree the new beginning, and forgets the transactions and the history.
 * Transactions and calls are counted from here, and their numbers continue. Until then each
 * transaction that has ended takes 8 bytes. Takes no memory. Refused: NUZ_LIVE. */
uint32_t nuz_checkpoint(nuz_tree *tree, nuz_answer *answer);

/* ---- calls
 *
 * txn is the number of the transaction that makes the call. path is a path of len bytes. fd is the
 * number of a descriptor.
 *
 * Each function makes one call inside txn. The call does what POSIX.1-2017 says of the function of
 * that name. (nuz_list and nuz_list_all follow readdir, nuz_utime and nuz_lutime follow utimensat,
 * and nuz_futime follows futimens.)
 *
 * Each function returns one of these codes:
 *
 * - NUZ_BAD, if a path has a null byte;
 * - the first that applies of NUZ_NO_TXN, NUZ_ENDED, NUZ_FULL and NUZ_MEMORY, if the call is
 *   refused;
 * - NUZ_WAITS, if the call waits;
 * - 0, or one of the errors that the function lists, if the call is granted. It then has its stamp.
 *
 * A call with a path may also fail with ENOENT, ENOTDIR, ENAMETOOLONG and ELOOP.
 *
 * A symbolic link is followed if more of the path, or a slash, comes after it. A last link is
 * followed by nuz_stat, nuz_list, nuz_list_all, nuz_truncate, nuz_open (except with NUZ_O_CREAT and
 * NUZ_O_EXCL), nuz_chmod, nuz_chown and nuz_utime. For every other call, the path leads to the link
 * itself. A path through more than 40 links is ELOOP: for example, if links lead to each other. */

/** Makes a directory, with owner 0 and group 0. Errors: EEXIST, and EINVAL for a mode above 07777.
 * @param mode the mode of the directory, or NUZ_DEFAULT_MODE. All 12 bits are set as given: there
 * is no umask */
uint32_t nuz_mkdir(nuz_tree *tree, uint64_t txn, const void *path, size_t len, uint32_t mode,
                   nuz_answer *answer);

/** Removes an empty directory. Errors: EINVAL, ENOTEMPTY, EBUSY. */
uint32_t nuz_rmdir(nuz_tree *tree, uint64_t txn, const void *path, size_t len, nuz_answer *answer);

/** Counts the names in a directory, without . and .., into number. nuz_name returns each name. size
 * is the same as for nuz_list_all. */
uint32_t nuz_list(nuz_tree *tree, uint64_t txn, const void *path, size_t len, nuz_answer *answer);

/** Lists all names in a directory, without . and .., in the order of their bytes: number is how
 * many. For each name, buffer gets the kind of what it names as one byte, the bytes of the name,
 * and a null byte. So a name is a C string from the second byte on. size is how many bytes there
 * are in all. As many as have room are copied. If size is more than room, the rest is missing, and
 * nuz_bytes copies all the names. The rest of buffer is untouched. If the code is not 0, all of
 * buffer is untouched. If the call waits, nuz_retry copies the names.
 * @param buffer where the names go
 * @param room how many bytes it has room for */
uint32_t nuz_list_all(nuz_tree *tree, uint64_t txn, const void *path, size_t len, void *buffer,
                      size_t room, nuz_answer *answer);

/** Returns the status of what a path leads to. This is kind, number, links and size, and mode,
 * owner and group, even if these are the default ones. If has_time is true, seconds and nanoseconds
 * are the time of a file's bytes. A directory has one link, size 0, and no time. A last symbolic
 * link is followed, so kind is never NUZ_LINK. */
uint32_t nuz_stat(nuz_tree *tree, uint64_t txn, const void *path, size_t len, nuz_answer *answer);

/** The same, but a last symbolic link is not followed. The size of a link is the length of its
 * target, its mode is 0777, and its owner and its group are 0. It has no time. */
uint32_t nuz_lstat(nuz_tree *tree, uint64_t txn, const void *path, size_t len, nuz_answer *answer);

/** Removes a name of a file or symbolic link. A file lives as long as a descriptor has it open.
 * Errors: EPERM. */
uint32_t nuz_unlink(nuz_tree *tree, uint64_t txn, const void *path, size_t len, nuz_answer *answer);

/** Cuts a file to size bytes, or extends it to them with zeros. The file's time is removed. Errors:
 * EINVAL, EFBIG, EISDIR.
 * @param size how many bytes the file then has */
uint32_t nuz_truncate(nuz_tree *tree, uint64_t txn, const void *path, size_t len, int64_t size,
                      nuz_answer *answer);

/** Gives a file or symbolic link a further name. Errors: EPERM, EEXIST, EMLINK.
 * @param from the existing name
 * @param from_len how many bytes from has
 * @param to the further name
 * @param to_len how many bytes to has */
uint32_t nuz_link(nuz_tree *tree, uint64_t txn, const void *from, size_t from_len, const void *to,
                  size_t to_len, nuz_answer *answer);

/** Gives a file, a symbolic link or a directory another name, and replaces what had that name.
 * Errors: EINVAL, EBUSY, EISDIR, ENOTEMPTY.
 * @param from the old name
 * @param from_len how many bytes from has
 * @param to the new name
 * @param to_len how many bytes to has */
uint32_t nuz_rename(nuz_tree *tree, uint64_t txn, const void *from, size_t from_len, const void *to,
                    size_t to_len, nuz_answer *answer);

/** Makes a symbolic link. Its target is kept as it is given: only following the link shows if it
 * leads to anything. Errors: EEXIST; also ENOENT for a target of no bytes, and ENAMETOOLONG for one
 * of more than 4,095. Returns NUZ_BAD for a target with a null byte.
 * @param target where the link leads
 * @param target_len how many bytes target has
 * @param path the name of the link
 * @param len how many bytes path has */
uint32_t nuz_symlink(nuz_tree *tree, uint64_t txn, const void *target, size_t target_len,
                     const void *path, size_t len, nuz_answer *answer);

/** Reads the target of a symbolic link: number is how many bytes all of it has, 1 to 4,095. As many
 * as have room are copied to the front of buffer. If number is more than room, the rest is missing,
 * and nuz_bytes copies the whole target. The rest of buffer is untouched, and no null byte follows
 * the target. If the code is not 0, all of buffer is untouched. If the call waits, nuz_retry copies
 * the target. Errors: EINVAL for anything that is not a symbolic link.
 * @param buffer where the target goes
 * @param room how many bytes it has room for */
uint32_t nuz_readlink(nuz_tree *tree, uint64_t txn, const void *path, size_t len, void *buffer,
                      size_t room, nuz_answer *answer);

/** Opens a file at offset 0: number is the descriptor. Also returns NUZ_BAD for flags that are not
 * valid. A descriptor belongs to the tree. Any transaction may use it once the transaction that
 * opened it has committed. The caller closes it. An undo or an abort of its opening removes it.
 * Errors: EINVAL, EEXIST, EISDIR.
 * @param flags one of NUZ_O_RDONLY, NUZ_O_WRONLY and NUZ_O_RDWR, and any of NUZ_O_CREAT,
 * NUZ_O_EXCL, NUZ_O_TRUNC and NUZ_O_APPEND
 * @param mode the mode of a file that is made, without a umask, or NUZ_DEFAULT_MODE. An existing
 * file keeps its own. A mode above 07777 is EINVAL, whether or not a file would be made */
uint32_t nuz_open(nuz_tree *tree, uint64_t txn, const void *path, size_t len, uint32_t flags,
                  uint32_t mode, nuz_answer *answer);

/** Closes a descriptor. Errors: EBADF. */
uint32_t nuz_close(nuz_tree *tree, uint64_t txn, uint64_t fd, nuz_answer *answer);

/** Returns the status of what a descriptor has open, in the form of nuz_stat. Errors: EBADF. */
uint32_t nuz_fstat(nuz_tree *tree, uint64_t txn, uint64_t fd, nuz_answer *answer);

/** Cuts the file of a descriptor to size bytes, or extends it to them with zeros. The file's time
 * is removed. Errors: EBADF, EINVAL, EFBIG.
 * @param size how many bytes the file then has */
uint32_t nuz_ftruncate(nuz_tree *tree, uint64_t txn, uint64_t fd, int64_t size, nuz_answer *answer);

/** Sets the offset of a descriptor: number is the new one. Returns NUZ_BAD if whence is not
 * NUZ_SET, NUZ_CUR or NUZ_END. Errors: EBADF, EINVAL, EOVERFLOW.
 * @param off how far
 * @param whence from where: NUZ_SET, NUZ_CUR or NUZ_END */
uint32_t nuz_lseek(nuz_tree *tree, uint64_t txn, uint64_t fd, int64_t off, uint32_t whence,
                   nuz_answer *answer);

/** Reads at the offset as many bytes as buffer has room for, and moves the offset: number is how
 * many there were. They are at the front of buffer, and its rest is untouched. If the code is not
 * 0, all of buffer is untouched. If the call waits, nuz_retry copies the bytes. Errors: EBADF.
 * @param buffer where the bytes go
 * @param room how many bytes it has room for */
uint32_t nuz_read(nuz_tree *tree, uint64_t txn, uint64_t fd, void *buffer, size_t room,
                  nuz_answer *answer);

/** The same at off, and the offset does not move. Errors: EBADF, EINVAL.
 * @param off where it begins to read */
uint32_t nuz_pread(nuz_tree *tree, uint64_t txn, uint64_t fd, void *buffer, size_t room,
                   int64_t off, nuz_answer *answer);

/** Writes at the offset, or at the end of a file that is open for appending, and moves the offset.
 * As many bytes are written as the file has room for: number is how many. If there are any, the
 * file's time is removed. Errors: EBADF, EFBIG.
 * @param bytes the bytes to write
 * @param len how many there are */
uint32_t nuz_write(nuz_tree *tree, uint64_t txn, uint64_t fd, const void *bytes, size_t len,
                   nuz_answer *answer);

/** The same at off, and the offset does not move. Errors: EBADF, EINVAL, EFBIG.
 * @param off where it begins to write */
uint32_t nuz_pwrite(nuz_tree *tree, uint64_t txn, uint64_t fd, const void *bytes, size_t len,
                    int64_t off, nuz_answer *answer);

/* ---- modes, owners and times
 *
 * No mode and no owner forbids a call anything. A mode has 12 bits, those of S_IRWXU, S_IRWXG,
 * S_IRWXO, S_ISUID, S_ISGID and S_ISVTX. A mode above 07777 is EINVAL. Only nuz_chmod and
 * nuz_fchmod change a mode. A change of the owner or of the bytes keeps S_ISUID and S_ISGID.
 *
 * A file has a time if one was set for its present bytes. A write, a cut or NUZ_O_TRUNC removes the
 * time, even if the bytes stay the same. An undo or an abort restores it. No clock is read. A
 * directory and a symbolic link have no time, and setting one is EINVAL. So are 1,000,000,000
 * nanoseconds or more, and therefore UTIME_NOW and UTIME_OMIT.
 *
 * A last symbolic link is followed, except by nuz_lchown and nuz_lutime. The calls on a descriptor
 * take any open one, even if it is only open for reading. */

/** Sets the mode of a directory or file. Errors: EINVAL.
 * @param mode the new mode */
uint32_t nuz_chmod(nuz_tree *tree, uint64_t txn, const void *path, size_t len, uint32_t mode,
                   nuz_answer *answer);

/** Sets the mode of the file of a descriptor. Errors: EBADF, EINVAL.
 * @param mode the new mode */
uint32_t nuz_fchmod(nuz_tree *tree, uint64_t txn, uint64_t fd, uint32_t mode, nuz_answer *answer);

/** Sets the owner and the group of a directory or file. NUZ_STAYS keeps the present one.
 * @param owner the new owner, or NUZ_STAYS
 * @param group the new group, or NUZ_STAYS */
uint32_t nuz_chown(nuz_tree *tree, uint64_t txn, const void *path, size_t len, uint32_t owner,
                   uint32_t group, nuz_answer *answer);

/** The same, but a last symbolic link is not followed. The owner and the group of a link are 0, and
 * setting others is EINVAL. */
uint32_t nuz_lchown(nuz_tree *tree, uint64_t txn, const void *path, size_t len, uint32_t owner,
                    uint32_t group, nuz_answer *answer);

/** Sets the owner and the group of the file of a descriptor. NUZ_STAYS keeps the present one.
 * Errors: EBADF.
 * @param owner the new owner, or NUZ_STAYS
 * @param group the new group, or NUZ_STAYS */
uint32_t nuz_fchown(nuz_tree *tree, uint64_t txn, uint64_t fd, uint32_t owner, uint32_t group,
                    nuz_answer *answer);

/** Sets the time of a file's bytes. Errors: EINVAL.
 * @param seconds whole seconds since the Epoch, less than 0 before it
 * @param nanoseconds the nanoseconds to add, at most 999,999,999 */
uint32_t nuz_utime(nuz_tree *tree, uint64_t txn, const void *path, size_t len, int64_t seconds,
                   uint32_t nanoseconds, nuz_answer *answer);

/** The same, but a last symbolic link is not followed, and is EINVAL. */
uint32_t nuz_lutime(nuz_tree *tree, uint64_t txn, const void *path, size_t len, int64_t seconds,
                    uint32_t nanoseconds, nuz_answer *answer);

/** Sets the time of the bytes of a descriptor's file. Errors: EBADF, EINVAL.
 * @param seconds whole seconds since the Epoch, less than 0 before it
 * @param nanoseconds the nanoseconds to add, at most 999,999,999 */
uint32_t nuz_futime(nuz_tree *tree, uint64_t txn, uint64_t fd, int64_t seconds,
                    uint32_t nanoseconds, nuz_answer *answer);

/* ---- who waits for whom */

/** Lists the transactions for which txn waits now, in ascending order: number is how many. They
 * have a lock that blocks the call. If none has, and calls wait in turn, they have an older call.
 * If there are none any more, nuz_retry makes the call. As many numbers as have room are copied.
 * The function changes nothing, and the last answer stays. Refused as nuz_retry is: NUZ_NO_TXN,
 * NUZ_ENDED, NUZ_NO_ASK, NUZ_FULL, NUZ_MEMORY.
 * @param txns where their numbers go
 * @param room how many numbers it has room for */
uint32_t nuz_blockers(nuz_tree *tree, uint64_t txn, uint64_t *txns, size_t room,
                      nuz_answer *answer);

/** Finds a deadlock, if there is one. In a deadlock each transaction waits for the next, and the
 * last for the first. Each one waits for a lock, or because the next is a live subtransaction of
 * it. (To wait in turn is part of no deadlock, as nuz_tree_fair says.) number is how many
 * transactions there are, and 0 exactly if there is no deadlock. The least comes first. If there
 * are several deadlocks, it is left open which one is returned. As many numbers as have room are
 * copied. The function changes nothing, and the last answer stays. It takes time and memory for all
 * waits of the tree. Refused: NUZ_MEMORY.
 * @param txns where their numbers go
 * @param room how many numbers it has room for */
uint32_t nuz_cycle(nuz_tree *tree, uint64_t *txns, size_t room, nuz_answer *answer);

/* ---- what a transaction has touched */

/** Writes the locks of txn as text. They show what it has read and written, and what came up to it
 * from committed subtransactions. The text has the form of two reports of a script, `locks` and
 * then `attributes` (docs/SCRIPT.md), with only the locks of txn. size is how many bytes it has. As
 * many as have room are copied to buffer, whose rest is untouched. A line `lock entry D NAME read
 * ..` is for a name that txn has looked up in directory D, even in vain. A line with `write` is for
 * a name that txn has made, changed or removed. If txn has ended, or is no transaction, it has no
 * locks. The function changes nothing, and the last answer stays. Refused: NUZ_MEMORY.
 * @param buffer where the text goes
 * @param room how many bytes it has room for */
uint32_t nuz_locks(nuz_tree *tree, uint64_t txn, void *buffer, size_t room, nuz_answer *answer);

/* ---- parts of the last answer
 *
 * These functions read the last answer of this tree, and change nothing. It is the answer to the
 * last request that was carried out, refused or made to wait. (A request that returned NUZ_BAD does
 * not count.) Each function returns 0, or NUZ_BAD if the last answer has no such part. If the
 * request was given enough room, it has already copied the same data. */

/** Returns a name of a list: kind is the kind of what it names, and size is the length of the name.
 * Names are counted from 0, in the order of their bytes. As much of the name as has room is copied
 * to buffer, whose rest is untouched. No null byte follows it. A name has 1 to 255 bytes.
 * @param index which one, from 0
 * @param buffer where its bytes go
 * @param room how many bytes it has room for */
uint32_t nuz_name(nuz_tree *tree, size_t index, void *buffer, size_t room, nuz_answer *answer);

/** Returns a transaction for which the call waits: number is that of the transaction. Transactions
 * are counted from 0, in ascending order.
 * @param index which one, from 0 */
uint32_t nuz_blocker(nuz_tree *tree, size_t index, nuz_answer *answer);

/** Copies the bytes of a read, of the target that nuz_readlink has read, or of a list in the form
 * of nuz_list_all. size is how many there are. As many as have room are copied to buffer, whose
 * rest is untouched.
 * @param buffer where the bytes go
 * @param room how many bytes it has room for */
uint32_t nuz_bytes(nuz_tree *tree, void *buffer, size_t room, nuz_answer *answer);

/* ---- lines of a script
 *
 * A line is one of the same requests as text, or a report, which has no other form
 * (docs/SCRIPT.md). */

/** Carries out one line, without its line feed. For a request, the function returns what the
 * request's own function returns. For a report, `tree`, `locks`, `attributes` or `waits`, it
 * returns 0, and changes nothing of the tree. It also returns 0 for an empty line or a comment,
 * which requests nothing. It returns NUZ_BAD if the line is none of these. It also returns
 * NUZ_MEMORY if there is not enough memory for the words of the line or for the text of a report.
 * The last answer then stays. If there is not enough memory for the data of a report, the reply is
 * `refused Memory`.
 *
 * The reply goes to buffer in the form of nuz_reply: reply is how many bytes it has. As many as
 * have room are copied, and the rest of buffer is untouched. With NUZ_BAD and NUZ_MEMORY there is
 * no reply, and reply is 0. If there is no memory for the text of the reply, reply is UINT64_MAX.
 * Then nuz_reply copies the text once there is memory.
 * @param line the line
 * @param len how many bytes line has
 * @param buffer where the reply goes
 * @param room how many bytes it has room for */
uint32_t nuz_request(nuz_tree *tree, const void *line, size_t len, void *buffer, size_t room,
                     nuz_answer *answer);

/** Copies the text of the reply to the last request, whether or not it was a line. Each line of the
 * reply has its line feed, and size is how many bytes there are. As many as have room are copied to
 * buffer, whose rest is untouched. Returns NUZ_MEMORY if there is no memory for the text: then call
 * it again.
 * @param buffer where the text goes
 * @param room how many bytes it has room for */
uint32_t nuz_reply(nuz_tree *tree, void *buffer, size_t room, nuz_answer *answer);

#ifdef __cplusplus
}
#endif

#endif
