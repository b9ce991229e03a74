/* Keys and values in LMDB, under nested transactions.

   LMDB has one writing transaction, and at most one inside each, which is the only one that can be
   used while it is live: so they are in layers. A transaction of the script gets a layer of its
   own if it can, and else shares the innermost one. The changes in a shared layer are undone by a
   log of the values before, which also serves the undo of single calls. */
#ifndef STORE_H
#define STORE_H

#include "play.h"

#define BEFORE_NAME (1 + 8) /* bytes of a key before the name in it */
#define MOST_KEY (BEFORE_NAME + MOST_NAME)

struct key {
  size_t length;
  unsigned char at[MOST_KEY];
};

/* A key: what it is of, a number and a name. Keys are in this order. */
struct key key_of(char kind, uint64_t number, struct bytes name);

void open_store(void);

/* The call that is made next: its transaction and its stamp. */
void begin_call(uint64_t transaction, uint64_t stamp);
void end_call(void);

/* The value of a key; it stays where it is until the next change. */
bool find(const struct key *key, struct bytes *value);

/* Gives a key another value: old is the one before, and new the one after, or NULL for none. */
void change(const struct key *key, const struct bytes *old, const struct bytes *new);

/* Hands on each key that begins so, in order, with its value, while `more` returns true. */
void for_each(const struct key *prefix, bool (*more)(struct bytes key, struct bytes value));

#endif
