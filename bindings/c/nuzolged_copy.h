/* nuzolged_copy.h: directories of the disk, copied into a tree and out of it.
 *
 * It is part of libnuzolged too, needs a POSIX system, and is written over the functions of
 * nuzolged.h. It is tested, and not proved.
 *
 * A copy includes directories, files with their bytes, and symbolic links with their targets. It
 * also keeps that two names are of one file or link, and the modes, owners and times that a tree
 * holds. A tree does not hold the owner and the time of a symbolic link, or the time of a
 * directory.
 *
 * On the disk, each name is opened in the open directory that has it. A symbolic link is never
 * followed. The kind of a file is taken from what was opened. Even if someone changes names
 * meanwhile, nothing is copied from elsewhere, and nothing is written there. A copy has one
 * directory open for each level. It fails with EMFILE if it is deeper than the process may have
 * directories open.
 */
#ifndef NUZOLGED_COPY_H
#define NUZOLGED_COPY_H

#include <nuzolged.h>

#ifdef __cplusplus
extern "C" {
#endif

/* The flags of a copy. */
enum {
    NUZ_COPY_SET_ID = 1,  /* also copies S_ISUID and S_ISGID, by which a file runs as another */
    NUZ_COPY_REPLACE = 2, /* nuz_copy_out: replaces an existing directory, and removes it */
    NUZ_COPY_SYNC = 4     /* nuz_copy_out: all is on the disk before it gets its name */
};

/* Makes one request of a copy, of this tree, and returns its code. */
typedef uint32_t nuz_copy_request(nuz_tree *tree, void *request);

/* A function that a program puts around each request of a copy. It takes a lock, if threads share
 * the tree, and waits, if make returns NUZ_WAITS. It calls make with the tree and the request, once
 * or more, and returns the last code. If it returns another one, the copy ends with that code. */
typedef uint32_t nuz_copy_around(void *context, nuz_copy_request *make, void *request);

/* How a copy is made, if a program does not use the defaults. */
typedef struct nuz_copy_options {
    uint32_t flags;          /* the flags above, added up */
    nuz_copy_around *around; /* or NULL: each request is made once, and NUZ_WAITS ends the copy */
    void *context;           /* the context with which around is called */
} nuz_copy_options;

/* How many bytes of a path a failure has room for, with the null byte at the end. */
enum { NUZ_COPY_ROOM = 4096 };

/* The reason why a copy failed. */
typedef struct nuz_copy_failure {
    uint32_t code;            /* the code that the copy returns */
    bool on_disk;             /* whether the system failed, at disk, and not the tree, at path */
    uint64_t waits_for;       /* at NUZ_WAITS, with no around: the first blocking transaction */
    char disk[NUZ_COPY_ROOM]; /* the place of the copy on the disk, */
    char path[NUZ_COPY_ROOM]; /* and in the tree; as much of each as has room */
} nuz_copy_failure;

/** Copies what is below a directory of the disk to a directory of the tree, by calls in txn. A
 * missing directory of the tree is made. Existing directories keep their modes and owners. However,
 * the root of an empty tree gets those of disk, unless it has been given others. An existing file
 * or link is EEXIST. If the copy fails, what it has made stays. If memory runs out, a descriptor
 * may stay too. Give the copy a txn of its own, whose abort removes all of it.
 *
 * Returns 0; an errno of the system, or of the tree; a refusal; NUZ_WAITS, with the call forgotten;
 * or NUZ_BAD if path has a null byte. ENOTSUP: something is neither a file, a directory nor a
 * symbolic link. ENOTDIR: disk is not a directory. EFBIG: a file has more bytes than one of the
 * tree may have.
 * @param tree the tree; NULL if around has it
 * @param txn the transaction that makes the calls
 * @param disk the directory of the disk, which may be a symbolic link to one
 * @param path the directory of the tree
 * @param len how many bytes path has
 * @param options how the copy is made; NULL for no flags and no around
 * @param failure the reason, if the function does not return 0; or NULL */
NUZ_MUST_USE
uint32_t nuz_copy_in(nuz_tree *tree, uint64_t txn, const char *disk, const void *path,
                     size_t len, const nuz_copy_options *options, nuz_copy_failure *failure);

/** Copies what is below a directory of the tree to a directory of the disk, as txn sees it. It
 * copies all of it or nothing, even if the process dies, because the copy gets its name at the end.
 * Until then it is a directory next to that name, and its own name begins with a dot. It is removed
 * if the copy fails. A process that dies leaves it.
 *
 * Files are opened with mode 0600 and directories with 0700, and get their own when all is written.
 * If root makes the copy, owners are those of the tree, as far as the system lets root set them.
 * Otherwise everything belongs to the process. A file or directory never has S_ISUID or S_ISGID if
 * it gets another owner or group than it has in the tree. Files that have no time in the tree get
 * that of the copy, which is the same for all of them.
 *
 * An existing directory must be empty, or is ENOTEMPTY. With NUZ_COPY_REPLACE any directory may
 * exist, but no symbolic link. It is exchanged with the copy at once, and removed. If the file
 * system can't exchange two names, the existing directory is renamed first. Then for a moment
 * nothing has its name. With NUZ_COPY_SYNC the copy is whole or nothing even if the power fails.
 *
 * Returns the same as nuz_copy_in, or EBUSY if another directory than at first has the name of the
 * one to be replaced; that directory is kept. If what was replaced can't be removed, it returns the
 * reason for that, and the copy has its name.
 * @param tree the tree; NULL if around has it
 * @param txn the transaction that makes the calls
 * @param path the directory of the tree
 * @param len how many bytes path has
 * @param disk the directory of the disk: its last name is neither . nor .., or is EINVAL
 * @param options how the copy is made; NULL for no flags and no around
 * @param failure the reason, if the function does not return 0; or NULL */
NUZ_MUST_USE
uint32_t nuz_copy_out(nuz_tree *tree, uint64_t txn, const void *path, size_t len,
                      const char *disk, const nuz_copy_options *options,
                      nuz_copy_failure *failure);

#ifdef __cplusplus
}
#endif

#endif
