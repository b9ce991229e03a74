/* nuzolged_shared.h: a tree that threads share.
 *
 * It is part of libnuzolged too, needs POSIX threads, and is written over the functions of
 * nuzolged.h and nuzolged_cycle.h. It is tested, and not proved.
 *
 * A thread takes the lock of a shared tree, makes a call with any function, waits if it has to, and
 * releases the lock. Without NUZ_WAITS there is no wait, and the code stays:
 *
 *     nuz_tree *tree = nuz_shared_lock(shared);
 *     nuz_mkdir(tree, txn, NUZ_S("/a"), 0755, &answer);
 *     uint32_t code = nuz_shared_wait(shared, txn, NUZ_FOREVER, NULL, 0, &answer);
 *     nuz_shared_unlock(shared);
 *
 * It is best to give each thread a transaction of its own.
 */
#ifndef NUZOLGED_SHARED_H
#define NUZOLGED_SHARED_H

#include <nuzolged_copy.h>

#ifdef __cplusplus
extern "C" {
#endif

/* A tree with a lock. A program has only pointers to it. */
typedef struct nuz_shared nuz_shared;

/* As a time, no limit. */
#define NUZ_FOREVER UINT32_MAX

/* The context of nuz_shared_around. */
typedef struct nuz_shared_copy {
    nuz_shared *shared;
    uint64_t txn;          /* the transaction of the copy */
    uint32_t milliseconds; /* how long each request waits, or NUZ_FOREVER */
} nuz_shared_copy;

/** Shares a tree. From here on only the shared tree uses it, and closes it. Calls wait in turn, as
 * nuz_shared_fair says. Returns 0, or NUZ_MEMORY: then nothing has changed.
 * @param shared receives the shared tree, which the caller closes, or null
 * @param tree an open tree */
NUZ_MUST_USE
uint32_t nuz_shared_open(nuz_shared **shared, nuz_tree *tree);

/** Frees a shared tree with its tree. No thread uses it any more. If shared is null, it does
 * nothing. */
void nuz_shared_close(nuz_shared *shared);

/** Sets whether calls wait in turn from here on, as nuz_tree_fair says. They do so only as long as
 * at most 32 calls wait, since a turn takes time for all of them: with more, a call may pass older
 * ones. (Don't call nuz_tree_fair for a shared tree.) The thread does not have the lock.
 * @param is_fair whether calls wait in turn */
void nuz_shared_fair(nuz_shared *shared, bool is_fair);

/** Takes the lock, and returns the tree. The thread does not have the lock yet. */
nuz_tree *nuz_shared_lock(nuz_shared *shared);

/** Releases the lock, which the thread has. */
void nuz_shared_unlock(nuz_shared *shared);

/** Waits for the call that txn has just made, if its code is NUZ_WAITS, and returns what the call
 * returns in the end. The thread has the lock, which is free while the thread sleeps. The call is
 * made again when a transaction has ended or another waiting call is forgotten, and every 50
 * milliseconds (5 for each waiting call if more than ten wait). The data that it reads or lists goes
 * to buffer, as with nuz_retry. If another thread forgets the call by nuz_cancel, NUZ_NO_ASK is
 * returned.
 *
 * If the call would wait forever, EDEADLK is returned at once: the transactions in blockers wait
 * for each other, and txn comes first. number is how many there are. No call returns EDEADLK
 * itself. If the time is over, NUZ_WAITS is returned. In both cases the call is forgotten, and so it
 * is if it is refused while it waits.
 * @param milliseconds how long it waits at most, or NUZ_FOREVER
 * @param answer the answer of the call, which is replaced by that of the last one */
uint32_t nuz_shared_wait(nuz_shared *shared, uint64_t txn, uint32_t milliseconds, void *buffer,
                         size_t room, nuz_answer *answer);

/** Commits txn as nuz_commit does, and wakes those that wait. The thread does not have the lock.
 * (They notice other ends, and what nuz_cancel forgets, when their calls are made again.) */
uint32_t nuz_shared_commit(nuz_shared *shared, uint64_t txn, nuz_answer *answer);

/** The same, but aborts txn as nuz_abort does. */
uint32_t nuz_shared_abort(nuz_shared *shared, uint64_t txn, nuz_answer *answer);

/** Is the function around of a copy (nuzolged_copy.h): takes the lock for each request, and waits
 * as nuz_shared_wait does.
 * @param context a nuz_shared_copy
 * @param make what makes the request
 * @param request the request */
uint32_t nuz_shared_around(void *context, nuz_copy_request *make, void *request);

#ifdef __cplusplus
}
#endif

#endif
