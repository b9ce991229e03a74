/* The part that the peers share: they play a script as `ft play` does, and write replies as it
   does. Each peer has its own transactions and calls: the functions at the end. */
#ifndef PLAY_H
#define PLAY_H

#include <stdbool.h>
#include <stddef.h>
#include <stdint.h>

#define MOST_NAME 255
#define MOST_PATH 4095
#define MOST_FILE 1048576

struct bytes {
  const unsigned char *at;
  size_t length;
};

/* Requests for transactions, and then calls. */
enum verb {
  BEGIN,
  SUB,
  COMMIT,
  ABORT,
  UNDO,
  MKDIR,
  RMDIR,
  OPEN,
  CLOSE,
  READ,
  WRITE,
  PREAD,
  PWRITE,
  STAT,
  FSTAT,
  UNLINK,
  RENAME,
  LIST
};

/* How a file is opened, each a bit. */
enum mode { READS = 1, WRITES = 2, CREATES = 4, EXCLUDES = 8, TRUNCATES = 16, APPENDS = 32 };

struct request {
  enum verb verb;
  uint64_t transaction; /* the one that makes the call, or that the request is for */
  struct bytes path, new_path, data;
  uint64_t descriptor, offset, count;
  unsigned mode;
};

/* The answer of a call: the name of an error, or NULL and the result of its kind of call. */
struct answer {
  const char *error;
  uint64_t number; /* the descriptor that was opened, or how many bytes were written */
  struct bytes data;
  struct facts {
    bool is_directory;
    uint64_t number, links, size;
  } facts;
};

/* One name that `list` returns; the names come in the order of their bytes. */
void add_name(struct bytes name, bool is_directory);

/* Ends the program, with a word on why. */
_Noreturn void stop(const char *why);

/* Memory, or the end of the program. */
void *memory(size_t size);
void *more_memory(void *old, size_t size);

/* The functions of a peer. Transactions are numbered from 1; a parent of 0 is none. */
void start(void);
void begin(uint64_t transaction, uint64_t parent);
void commit(uint64_t transaction);
void abort_transaction(uint64_t transaction);
uint64_t undo(uint64_t transaction); /* the stamp of the call that is undone */
struct answer call(const struct request *request, uint64_t stamp);

#endif
