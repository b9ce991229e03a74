/* Plays the script on standard input: each request is carried out, and its reply is written before
   more is read. */
#include "play.h"

#include <stdlib.h>

#include "text.h"

/* One name of a directory, and all that are to be told. */
struct name {
  struct bytes text;
  bool is_directory;
};
static struct name *names;
static size_t name_count, name_room;

void add_name(struct bytes text, bool is_directory) {
  if (name_count == name_room) {
    name_room = name_room ? 2 * name_room : 64;
    names = more_memory(names, name_room * sizeof *names);
  }
  names[name_count++] = (struct name){text, is_directory};
}

static void put_names(void) {
  put_number(name_count);
  for (size_t at = 0; at < name_count; at++) {
    put_text(" ");
    put_coded(names[at].text);
    put_text(names[at].is_directory ? "/" : "");
  }
  name_count = 0;
}

static void put_facts(const struct facts *facts) {
  put_text(facts->is_directory ? "dir " : "file ");
  put_number(facts->number);
  put_text(" ");
  put_number(facts->links);
  put_text(" ");
  put_number(facts->size);
}

static void put_data(struct bytes data) {
  put_number(data.length);
  if (data.length > 0) {
    put_text(" ");
    put_coded(data);
  }
}

static void put_answer(enum verb verb, uint64_t stamp, const struct answer *answer) {
  put_number(stamp);
  put_text(" ");
  if (answer->error != NULL) {
    put_text(answer->error);
    return;
  }
  bool tells = verb == OPEN || verb == READ || verb == WRITE || verb == PREAD || verb == PWRITE ||
               verb == STAT || verb == FSTAT || verb == LIST;
  put_text(tells ? "ok " : "ok");
  if (verb == OPEN || verb == WRITE || verb == PWRITE) put_number(answer->number);
  if (verb == READ || verb == PREAD) put_data(answer->data);
  if (verb == STAT || verb == FSTAT) put_facts(&answer->facts);
  if (verb == LIST) put_names();
}

static void begin_next(uint64_t parent) {
  static uint64_t transactions;
  begin(++transactions, parent);
  put_text("txn ");
  put_number(transactions);
}

static void end(const struct request *request) {
  if (request->verb == COMMIT)
    commit(request->transaction);
  else
    abort_transaction(request->transaction);
  put_text("ok");
}

static void make(const struct request *request) {
  static uint64_t stamp = 1;
  stamp++;
  struct answer answer = call(request, stamp);
  put_answer(request->verb, stamp, &answer);
}

static void carry_out(const struct request *request) {
  if (request->verb == BEGIN || request->verb == SUB) {
    begin_next(request->transaction);
  } else if (request->verb == COMMIT || request->verb == ABORT) {
    end(request);
  } else if (request->verb == UNDO) {
    put_text("undone ");
    put_number(undo(request->transaction));
  } else {
    make(request);
  }
  put_text("\n");
}

int main(void) {
  struct request request;
  start();
  while (next_request(&request)) carry_out(&request);
  write_replies();
  return 0;
}
