/* A file tree in memory, as one writes it by hand, and what takes its changes back.

   A tree without a log makes its changes and frees what they leave. With a log, each change is
   noted there, and what it leaves is kept until the note is dropped. */
#ifndef TREE_H
#define TREE_H

#include "play.h"

/* A directory or a file. */
struct node {
  uint64_t number;
  uint32_t references; /* from entries and descriptors, in the tree or in a log */
  uint32_t links;      /* how many names a file has */
  bool is_directory;
  union {
    struct {
      unsigned char *bytes;
      size_t size, room;
    }; /* of a file */
    struct {
      struct node *parent;
      struct entry *first; /* of the names in it, in no order */
    };                     /* of a directory */
  };
};

/* A name in a directory. */
struct entry {
  struct entry *next_in_chain;
  struct entry *next, *previous; /* in the directory */
  struct node *directory, *node;
  uint32_t hash;
  uint8_t length;
  unsigned char name[];
};

struct descriptor {
  struct descriptor *next_in_chain;
  uint64_t number, offset;
  struct node *file;
  unsigned mode;
};

enum change_kind { NONE, ENTRY_ADDED, ENTRY_REMOVED, OPENED, CLOSED, MOVED, WRITTEN };

/* The way to undo one change. */
struct change {
  struct change *older; /* in the log */
  uint64_t stamp;       /* of the call */
  union {
    struct entry *entry;
    struct descriptor *descriptor;
    struct node *file;
  };
  enum change_kind kind;
  uint32_t offset, size; /* where a file was written, and its size before */
  uint32_t length;       /* how many of its bytes were written over */
  union {
    uint64_t old_offset; /* of the descriptor that was moved */
    unsigned char old_bytes[8];
  };
};

/* The changes of a transaction. */
struct log {
  struct change *newest, *oldest;
};

#define DESCRIPTOR_CHAINS 4096

struct tree {
  struct entry **chains; /* all entries, by the hash of directory and name */
  size_t entries, chain_count;
  struct descriptor *descriptors[DESCRIPTOR_CHAINS];
  struct node *root;
  struct log *log; /* of the transaction whose call is being made, or NULL */
  uint64_t stamp;  /* of that call */
};

void make_tree(struct tree *tree);

/* Makes a call on the tree, and returns its answer (calls.c). */
struct answer call_on(struct tree *tree, const struct request *request);

/* The parts of calls. */
struct entry *find_entry(const struct tree *tree, const struct node *directory, struct bytes name);
struct descriptor *find_descriptor(struct tree *tree, uint64_t number);
struct node *make_node(struct tree *tree, bool is_directory);
void add_entry(struct tree *tree, struct node *directory, struct bytes name, struct node *node);
void remove_entry(struct tree *tree, struct entry *entry);
void open_file(struct tree *tree, struct node *file, unsigned mode);
void close_descriptor(struct tree *tree, struct descriptor *descriptor);
void move_descriptor(struct tree *tree, struct descriptor *descriptor, uint64_t offset);
void write_file(struct tree *tree, struct node *file, size_t offset, struct bytes data);
void empty_file(struct tree *tree, struct node *file);

/* The uses of a log. A change that is undone or dropped is freed. */
struct change *note(struct tree *tree, enum change_kind kind, size_t old_bytes);
void take_back(struct tree *tree, struct change *change);
void drop_change(struct change *change);

#endif
