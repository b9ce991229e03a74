/* nuzolged_cycle.h: the deadlock of one transaction.
 *
 * It is part of libnuzolged too, and is written over the functions of nuzolged.h. It is tested, and
 * not proved.
 */
#ifndef NUZOLGED_CYCLE_H
#define NUZOLGED_CYCLE_H

#include <nuzolged.h>

#ifdef __cplusplus
extern "C" {
#endif

/** Finds a deadlock that txn is part of, if there is one, whatever other deadlocks there are. Each
 * transaction in it waits for the next, and the last for the first, as in nuz_cycle, but txn comes
 * first. number is how many there are, and 0 exactly if txn is part of no deadlock. It is also 0 if
 * txn only waits for transactions in a deadlock. If txn is part of several, this finds one of the
 * shortest. As many numbers as have room are copied. Returns 0 or NUZ_MEMORY.
 *
 * It changes nothing of the tree. If there is any deadlock, it makes the report `waits`
 * (docs/SCRIPT.md), which is then the last answer. It takes time and memory for all waits of the
 * tree.
 * @param txns where their numbers go
 * @param room how many numbers it has room for */
uint32_t nuz_cycle_of(nuz_tree *tree, uint64_t txn, uint64_t *txns, size_t room,
                      nuz_answer *answer);

#ifdef __cplusplus
}
#endif

#endif
