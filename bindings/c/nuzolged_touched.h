/* nuzolged_touched.h: what a transaction has touched, path by path.
 *
 * It is part of libnuzolged too, and is written over the functions of nuzolged.h. It is tested, and
 * not proved.
 *
 * The result comes from the locks of a live transaction, so nothing is guessed. It has each path
 * that the transaction has looked up (even in vain), read, listed, made, changed, renamed or
 * removed. It also has the paths that came up to it from committed subtransactions. An undone call
 * is included, because its locks stay. An aborted subtransaction is not.
 *
 * - Each directory that a path leads through has been looked up, and so counts as read. A symbolic
 *   link on the way is read, and the object that it leads to is listed by its own path.
 * - A directory is listed by its present path, and a name that was renamed or removed by the path
 *   where it was. If the directory of such a name is gone itself, the name is left out.
 * - A change of a file with several names is listed for all of them. A read is listed for the names
 *   that the transaction has looked up. If it has looked up none, because it was given the
 *   descriptor, a read is listed for all names. These include the names that others have given the
 *   file and not committed.
 *
 * If something was touched, each function makes the report `tree` (docs/SCRIPT.md), which is then
 * the last answer. It also takes time and memory for the whole tree. If threads share the tree,
 * each function is one call to put a lock around. A transaction that has ended or does not exist
 * has touched nothing.
 */
#ifndef NUZOLGED_TOUCHED_H
#define NUZOLGED_TOUCHED_H

#include <nuzolged.h>

#ifdef __cplusplus
extern "C" {
#endif

/* The ways in which a path has been touched. */
enum {
    NUZ_TOUCHED_READ = 1,    /* looked up, even in vain, or its bytes, target or mode were read */
    NUZ_TOUCHED_LISTED = 2,  /* the names in the directory were listed */
    NUZ_TOUCHED_WRITTEN = 4, /* made, changed, renamed or removed */
    NUZ_TOUCHED_ABSENT = 8   /* with NUZ_TOUCHED_READ: nothing is there, and nothing was removed */
};

/* A path that a transaction has touched. */
typedef struct nuz_touch {
    const char *path; /* the path, with a null byte at the end */
    size_t len;       /* how many bytes the path has */
    uint32_t how;     /* the ways above, added up */
    uint32_t kind;    /* what is there now: NUZ_DIR, NUZ_FILE or NUZ_LINK, or 0 if nothing is */
} nuz_touch;

/* Receives one path, which stays until this function returns. It returns 0 to go on. Any other
 * number ends the list, and nuz_touched returns that number. The function may use the tree. */
typedef uint32_t nuz_touched_each(void *context, const nuz_touch *touch);

/** Passes every path that txn has touched to a function, once, in the order of the paths' bytes:
 * number is how many there are. Returns 0, what the function returned, or NUZ_MEMORY.
 * @param each the function that gets the paths
 * @param context the context with which each is called */
uint32_t nuz_touched(nuz_tree *tree, uint64_t txn, nuz_touched_each *each, void *context,
                     nuz_answer *answer);

/** Writes what txn has touched as text, with one line `PATH HOW KIND` for each path. number is how
 * many lines there are, and size is how many bytes. As many as have room are copied to buffer,
 * whose rest is untouched. Returns 0 or NUZ_MEMORY.
 *
 * PATH is coded as in the reports of a script: the bytes 0 to 32, %, and 127 to 255 are % and two
 * hexadecimal digits. HOW has those of the words read or absent, listed and written that apply,
 * with a comma between two. KIND is dir, file, link or none.
 * @param buffer where the text goes
 * @param room how many bytes it has room for */
uint32_t nuz_manifest(nuz_tree *tree, uint64_t txn, void *buffer, size_t room, nuz_answer *answer);

/** Writes what txn has touched in the form that make and Ninja read, with their escapes. This is a
 * target with its dependencies: each file that txn has read, and each directory that it has listed.
 * They are included if they still exist and txn has not written them. number is how many
 * dependencies there are, and size is how many bytes the text has. As many as have room are copied
 * to buffer, whose rest is untouched.
 *
 * Returns 0, NUZ_MEMORY, or NUZ_BAD if one of the two programs would take a name for another one:
 *
 * - a name with a control character or one of " & ' * ; < = > ? [ ^ ` |
 * - a target with %
 * - a name that begins with ~
 * - a name that ends with a space, a colon, a backslash, or a bracket that was opened in it
 * - a name with a backslash before #, : or $
 *
 * Symbolic links are left out, because make and Ninja look through them. Names looked up in vain
 * are left out, because neither program has a form for them. A manifest lists both.
 * @param target the target. If it is null, each file and symbolic link that txn has written and
 * that still exists is a target. If there is none of them, there is no text
 * @param top the prefix of each path of the tree, or null for none. It may be the directory of the
 * disk from which the tree was copied. A slash at its end is left out
 * @param buffer where the text goes
 * @param room how many bytes it has room for */
uint32_t nuz_depfile(nuz_tree *tree, uint64_t txn, const char *target, const char *top,
                     void *buffer, size_t room, nuz_answer *answer);

#ifdef __cplusplus
}
#endif

#endif
