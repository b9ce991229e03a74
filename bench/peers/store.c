#define _DEFAULT_SOURCE
#include "store.h"

#include <endian.h>
#include <lmdb.h>
#include <stdio.h>
#include <stdlib.h>
#include <string.h>
#include <unistd.h>

#define MAP_SIZE ((size_t)1 << 30)
#define MOST_LAYERS 65 /* a script nests transactions 64 deep */
#define ABSENT SIZE_MAX

/* A value before a change, after its key, or no value (ABSENT); without a key, a mark of a call. */
struct past {
  struct past *older;
  uint64_t stamp;
  size_t key_length, value_length;
  unsigned char at[];
};

struct transaction {
  uint64_t parent;
  size_t layer;
  struct past *newest, *oldest;
};

/* A transaction of LMDB. */
struct layer {
  MDB_txn *handle;
  size_t live;    /* transactions of the script that are live in it */
  bool is_shared; /* whether it has held more than the work of one */
};

static MDB_env *environment;
static MDB_dbi database;
static struct layer layers[MOST_LAYERS + 1]; /* from 1 on */
static size_t depth;
static struct transaction *transactions; /* by number; 0 is none */
static size_t transaction_room;
static struct transaction *caller;
static uint64_t caller_stamp;

static void check(int status) {
  if (status != 0) stop(mdb_strerror(status));
}

static MDB_txn *handle(void) { return layers[depth].handle; }

/* The file of the store: it has no name once it is open. */
void open_store(void) {
  const char *folder = getenv("TMPDIR");
  char path[4096];
  snprintf(path, sizeof path, "%s/lmdb-XXXXXX", folder != NULL ? folder : "/tmp");
  int file = mkstemp(path);
  if (file < 0) stop("there is no place for a file");
  close(file);
  unsigned flags = MDB_NOSUBDIR | MDB_NOLOCK | MDB_NOSYNC | MDB_NOMEMINIT;
  check(mdb_env_create(&environment));
  check(mdb_env_set_mapsize(environment, MAP_SIZE));
  check(mdb_env_open(environment, path, flags, 0600));
  unlink(path);
  MDB_txn *first;
  check(mdb_txn_begin(environment, NULL, 0, &first));
  check(mdb_dbi_open(first, NULL, 0, &database));
  check(mdb_txn_commit(first));
}

/* Keys and values. */

struct key key_of(char kind, uint64_t number, struct bytes name) {
  struct key key;
  uint64_t big_end = htobe64(number);
  key.length = BEFORE_NAME + name.length;
  key.at[0] = (unsigned char)kind;
  memcpy(key.at + 1, &big_end, sizeof big_end);
  if (name.length > 0) memcpy(key.at + BEFORE_NAME, name.at, name.length);
  return key;
}

static MDB_val value_of(const void *at, size_t length) {
  return (MDB_val){.mv_size = length, .mv_data = (void *)at};
}

bool find(const struct key *key, struct bytes *value) {
  MDB_val at = value_of(key->at, key->length), found;
  int status = mdb_get(handle(), database, &at, &found);
  if (status == MDB_NOTFOUND) return false;
  check(status);
  *value = (struct bytes){found.mv_data, found.mv_size};
  return true;
}

static void put(const void *key, size_t key_length, const void *value, size_t length) {
  MDB_val at = value_of(key, key_length), put = value_of(value, length);
  if (length == ABSENT)
    check(mdb_del(handle(), database, &at, NULL));
  else
    check(mdb_put(handle(), database, &at, &put, 0));
}

/* Notes the value that a key has before a change. */
static void note_past(const unsigned char *key, size_t key_length, const struct bytes *old) {
  size_t length = old != NULL ? old->length : ABSENT;
  struct past *past = memory(sizeof *past + key_length + (old != NULL ? old->length : 0));
  *past = (struct past){caller->newest, caller_stamp, key_length, length};
  if (key_length > 0) memcpy(past->at, key, key_length);
  if (old != NULL) memcpy(past->at + key_length, old->at, old->length);
  if (caller->newest == NULL) caller->oldest = past;
  caller->newest = past;
}

void change(const struct key *key, const struct bytes *old, const struct bytes *new) {
  note_past(key->at, key->length, old);
  put(key->at, key->length, new != NULL ? new->at : NULL, new != NULL ? new->length : ABSENT);
}

void for_each(const struct key *prefix, bool (*more)(struct bytes key, struct bytes value)) {
  MDB_cursor *cursor;
  MDB_val key = value_of(prefix->at, prefix->length), value;
  check(mdb_cursor_open(handle(), database, &cursor));
  int status = mdb_cursor_get(cursor, &key, &value, MDB_SET_RANGE);
  while (
      status == 0 && key.mv_size >= prefix->length &&
      memcmp(key.mv_data, prefix->at, prefix->length) == 0 &&
      more((struct bytes){key.mv_data, key.mv_size}, (struct bytes){value.mv_data, value.mv_size}))
    status = mdb_cursor_get(cursor, &key, &value, MDB_NEXT);
  if (status != MDB_NOTFOUND) check(status);
  mdb_cursor_close(cursor);
}

/* Logs. */

static struct past *take_newest(struct transaction *transaction) {
  struct past *newest = transaction->newest;
  if (newest != NULL) transaction->newest = newest->older;
  return newest;
}

static void drop_log(struct transaction *transaction) {
  for (struct past *past; (past = take_newest(transaction)) != NULL;) free(past);
}

/* Undoes the newest change of a transaction. */
static void take_back(struct transaction *transaction) {
  struct past *past = take_newest(transaction);
  if (past->key_length > 0)
    put(past->at, past->key_length, past->at + past->key_length, past->value_length);
  free(past);
}

/* Hands the changes of a transaction to the one around it. */
static void hand_over(struct transaction *transaction, struct transaction *outer) {
  if (transaction->newest == NULL) return;
  transaction->oldest->older = outer->newest;
  if (outer->newest == NULL) outer->oldest = transaction->oldest;
  outer->newest = transaction->newest;
}

/* Transactions. */

/* Whether all that is in the innermost layer is the work of this transaction (0: no layer). */
static bool has_innermost(uint64_t number) {
  if (number == 0 || depth == 0) return number == 0 && depth == 0;
  return transactions[number].layer == depth && !layers[depth].is_shared;
}

static void begin_layer(void) {
  struct layer *layer = &layers[depth + 1];
  *layer = (struct layer){0};
  check(mdb_txn_begin(environment, layers[depth].handle, 0, &layer->handle));
  depth++;
}

void begin(uint64_t number, uint64_t parent) {
  if (number >= transaction_room) {
    transaction_room = 2 * (number + 8);
    transactions = more_memory(transactions, transaction_room * sizeof *transactions);
  }
  if (has_innermost(parent))
    begin_layer();
  else
    layers[depth].is_shared = true;
  layers[depth].live++;
  transactions[number] = (struct transaction){.parent = parent, .layer = depth};
}

/* One transaction of a layer has ended: the layers in which none is left are committed. */
static void leave(size_t layer) {
  layers[layer].live--;
  for (; depth > 0 && layers[depth].live == 0; depth--) check(mdb_txn_commit(handle()));
}

void commit(uint64_t number) {
  struct transaction *transaction = &transactions[number];
  if (transaction->parent != 0)
    hand_over(transaction, &transactions[transaction->parent]);
  else
    drop_log(transaction);
  leave(transaction->layer);
}

void abort_transaction(uint64_t number) {
  struct transaction *transaction = &transactions[number];
  if (has_innermost(number)) {
    drop_log(transaction);
    mdb_txn_abort(handle());
    depth--;
    return;
  }
  while (transaction->newest != NULL) take_back(transaction);
  leave(transaction->layer);
}

uint64_t undo(uint64_t number) {
  struct transaction *transaction = &transactions[number];
  uint64_t stamp = transaction->newest != NULL ? transaction->newest->stamp : 0;
  while (transaction->newest != NULL && transaction->newest->stamp == stamp) take_back(transaction);
  return stamp;
}

void begin_call(uint64_t transaction, uint64_t stamp) {
  caller = &transactions[transaction];
  caller_stamp = stamp;
  if (caller->layer != depth) layers[depth].is_shared = true;
}

/* A call that changes nothing can be undone too. */
void end_call(void) {
  if (caller->newest == NULL || caller->newest->stamp != caller_stamp) note_past(NULL, 0, NULL);
}
