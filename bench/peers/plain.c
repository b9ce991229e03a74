/* The peer `plain`: a tree without transactions. It makes each call, and takes nothing back. */
#include "tree.h"

static struct tree tree;

void start(void) { make_tree(&tree); }

void begin(uint64_t transaction, uint64_t parent) {
  (void)transaction;
  (void)parent;
}

void commit(uint64_t transaction) { (void)transaction; }

void abort_transaction(uint64_t transaction) { (void)transaction; }

uint64_t undo(uint64_t transaction) {
  (void)transaction;
  return 0;
}

struct answer call(const struct request *request, uint64_t stamp) {
  tree.stamp = stamp;
  return call_on(&tree, request);
}
