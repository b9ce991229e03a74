/* The peer `undo`: the same tree, with nested transactions. Each has a log of its changes, which it
   hands to the one around it if it commits, and by which it undoes them if it aborts.
   Nothing is locked, so calls are made no matter who has changed what they look at. */
#include <stdlib.h>

#include "tree.h"

struct transaction {
  uint64_t parent;
  struct log log;
};

static struct tree tree;
static struct transaction *transactions; /* by number; 0 is none */
static size_t transaction_room;

void start(void) { make_tree(&tree); }

void begin(uint64_t number, uint64_t parent) {
  if (number >= transaction_room) {
    transaction_room = 2 * (number + 8);
    transactions = more_memory(transactions, transaction_room * sizeof *transactions);
  }
  transactions[number] = (struct transaction){.parent = parent};
}

/* Hands the changes of a log to that of the transaction around it. */
static void hand_over(struct log *log, struct log *outer) {
  if (log->newest == NULL) return;
  log->oldest->older = outer->newest;
  if (outer->newest == NULL) outer->oldest = log->oldest;
  outer->newest = log->newest;
}

static struct change *take_newest(struct log *log) {
  struct change *newest = log->newest;
  if (newest != NULL) log->newest = newest->older;
  return newest;
}

void commit(uint64_t number) {
  struct transaction *transaction = &transactions[number];
  if (transaction->parent != 0) {
    hand_over(&transaction->log, &transactions[transaction->parent].log);
    return;
  }
  for (struct change *change; (change = take_newest(&transaction->log)) != NULL;)
    drop_change(change);
}

void abort_transaction(uint64_t number) {
  struct log *log = &transactions[number].log;
  for (struct change *change; (change = take_newest(log)) != NULL;) take_back(&tree, change);
}

uint64_t undo(uint64_t number) {
  struct log *log = &transactions[number].log;
  uint64_t stamp = log->newest != NULL ? log->newest->stamp : 0;
  while (log->newest != NULL && log->newest->stamp == stamp) take_back(&tree, take_newest(log));
  return stamp;
}

struct answer call(const struct request *request, uint64_t stamp) {
  tree.log = &transactions[request->transaction].log;
  tree.stamp = stamp;
  struct answer answer = call_on(&tree, request);
  if (tree.log->newest == NULL || tree.log->newest->stamp != stamp)
    note(&tree, NONE, 0); /* a call that changes nothing can be undone too */
  return answer;
}
