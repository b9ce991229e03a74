#include "tree.h"

#include <stdlib.h>
#include <string.h>

#define FIRST_CHAINS 1024

/* So many chains, a power of two, with nothing in them. */
static void make_chains(struct tree *tree, size_t count) {
  tree->chain_count = count;
  tree->chains = memory(count * sizeof *tree->chains);
  memset(tree->chains, 0, count * sizeof *tree->chains);
}

void make_tree(struct tree *tree) {
  *tree = (struct tree){.stamp = 1};
  make_chains(tree, FIRST_CHAINS);
  tree->root = make_node(tree, true);
  tree->root->parent = tree->root;
  tree->root->references = 1;
}

struct node *make_node(struct tree *tree, bool is_directory) {
  struct node *node = memory(sizeof *node);
  *node = (struct node){.number = tree->stamp, .is_directory = is_directory};
  return node;
}

static void release(struct node *node) {
  if (--node->references > 0) return;
  if (!node->is_directory) free(node->bytes);
  free(node);
}

/* The log. */

struct change *note(struct tree *tree, enum change_kind kind, size_t old_bytes) {
  if (tree->log == NULL) return NULL;
  size_t inside = sizeof((struct change *)NULL)->old_bytes;
  struct change *change = memory(sizeof *change + (old_bytes > inside ? old_bytes - inside : 0));
  change->older = tree->log->newest;
  change->stamp = tree->stamp;
  change->kind = kind;
  if (tree->log->newest == NULL) tree->log->oldest = change;
  tree->log->newest = change;
  return change;
}

/* Entries. */

static uint32_t hash_of(const struct node *directory, struct bytes name) {
  uint32_t hash = 2166136261u ^ (uint32_t)(directory->number * 2654435769u);
  for (size_t at = 0; at < name.length; at++) hash = (hash ^ name.at[at]) * 16777619u;
  return hash ^ hash >> 15;
}

struct entry *find_entry(const struct tree *tree, const struct node *directory, struct bytes name) {
  uint32_t hash = hash_of(directory, name);
  struct entry *entry = tree->chains[hash & (tree->chain_count - 1)];
  for (; entry != NULL; entry = entry->next_in_chain) {
    if (entry->hash == hash && entry->directory == directory && entry->length == name.length &&
        memcmp(entry->name, name.at, name.length) == 0)
      return entry;
  }
  return NULL;
}

static void add_to_chain(struct tree *tree, struct entry *entry) {
  struct entry **chain = &tree->chains[entry->hash & (tree->chain_count - 1)];
  entry->next_in_chain = *chain;
  *chain = entry;
}

static void add_all_to_chains(struct tree *tree, struct entry *entry) {
  while (entry != NULL) {
    struct entry *next = entry->next_in_chain;
    add_to_chain(tree, entry);
    entry = next;
  }
}

/* Twice as many chains. */
static void double_chains(struct tree *tree) {
  size_t old_count = tree->chain_count;
  struct entry **old = tree->chains;
  make_chains(tree, 2 * old_count);
  for (size_t at = 0; at < old_count; at++) add_all_to_chains(tree, old[at]);
  free(old);
}

/* Puts an entry into the tree. */
static void hang(struct tree *tree, struct entry *entry) {
  if (++tree->entries > tree->chain_count) double_chains(tree);
  add_to_chain(tree, entry);
  entry->previous = NULL;
  entry->next = entry->directory->first;
  if (entry->next != NULL) entry->next->previous = entry;
  entry->directory->first = entry;
  if (entry->node->is_directory)
    entry->node->parent = entry->directory;
  else
    entry->node->links++;
}

/* Takes an entry out of the tree. */
static void unhang(struct tree *tree, struct entry *entry) {
  tree->entries--;
  struct entry **link = &tree->chains[entry->hash & (tree->chain_count - 1)];
  while (*link != entry) link = &(*link)->next_in_chain;
  *link = entry->next_in_chain;
  if (entry->previous != NULL)
    entry->previous->next = entry->next;
  else
    entry->directory->first = entry->next;
  if (entry->next != NULL) entry->next->previous = entry->previous;
  if (!entry->node->is_directory) entry->node->links--;
}

static void free_entry(struct entry *entry) {
  release(entry->node);
  free(entry);
}

void add_entry(struct tree *tree, struct node *directory, struct bytes name, struct node *node) {
  struct entry *entry = memory(sizeof *entry + name.length);
  entry->directory = directory;
  entry->node = node;
  entry->hash = hash_of(directory, name);
  entry->length = (uint8_t)name.length;
  memcpy(entry->name, name.at, name.length);
  node->references++;
  hang(tree, entry);
  struct change *change = note(tree, ENTRY_ADDED, 0);
  if (change != NULL) change->entry = entry;
}

void remove_entry(struct tree *tree, struct entry *entry) {
  unhang(tree, entry);
  struct change *change = note(tree, ENTRY_REMOVED, 0);
  if (change != NULL)
    change->entry = entry;
  else
    free_entry(entry);
}

/* Descriptors. */

static struct descriptor **descriptor_chain(struct tree *tree, uint64_t number) {
  return &tree->descriptors[number % DESCRIPTOR_CHAINS];
}

struct descriptor *find_descriptor(struct tree *tree, uint64_t number) {
  struct descriptor *descriptor = *descriptor_chain(tree, number);
  while (descriptor != NULL && descriptor->number != number) descriptor = descriptor->next_in_chain;
  return descriptor;
}

static void hang_descriptor(struct tree *tree, struct descriptor *descriptor) {
  struct descriptor **chain = descriptor_chain(tree, descriptor->number);
  descriptor->next_in_chain = *chain;
  *chain = descriptor;
}

static void unhang_descriptor(struct tree *tree, struct descriptor *descriptor) {
  struct descriptor **link = descriptor_chain(tree, descriptor->number);
  while (*link != descriptor) link = &(*link)->next_in_chain;
  *link = descriptor->next_in_chain;
}

static void free_descriptor(struct descriptor *descriptor) {
  release(descriptor->file);
  free(descriptor);
}

void open_file(struct tree *tree, struct node *file, unsigned mode) {
  struct descriptor *descriptor = memory(sizeof *descriptor);
  *descriptor = (struct descriptor){.number = tree->stamp, .file = file, .mode = mode};
  file->references++;
  hang_descriptor(tree, descriptor);
  struct change *change = note(tree, OPENED, 0);
  if (change != NULL) change->descriptor = descriptor;
}

void close_descriptor(struct tree *tree, struct descriptor *descriptor) {
  unhang_descriptor(tree, descriptor);
  struct change *change = note(tree, CLOSED, 0);
  if (change != NULL)
    change->descriptor = descriptor;
  else
    free_descriptor(descriptor);
}

void move_descriptor(struct tree *tree, struct descriptor *descriptor, uint64_t offset) {
  struct change *change = note(tree, MOVED, 0);
  if (change != NULL) {
    change->descriptor = descriptor;
    change->old_offset = descriptor->offset;
  }
  descriptor->offset = offset;
}

/* Bytes. */

/* Notes the bytes from offset on, as many as are there of length. */
static void note_bytes(struct tree *tree, struct node *file, size_t offset, size_t length) {
  size_t there = offset < file->size ? file->size - offset : 0;
  size_t old = length < there ? length : there;
  struct change *change = note(tree, WRITTEN, old);
  if (change == NULL) return;
  change->file = file;
  change->offset = (uint32_t)offset;
  change->size = (uint32_t)file->size;
  change->length = (uint32_t)old;
  if (old > 0) memcpy(change->old_bytes, file->bytes + offset, old);
}

void write_file(struct tree *tree, struct node *file, size_t offset, struct bytes data) {
  note_bytes(tree, file, offset, data.length);
  size_t end = offset + data.length;
  if (end > file->room) {
    file->room = end > 2 * file->room ? end : 2 * file->room;
    file->bytes = more_memory(file->bytes, file->room);
  }
  if (offset > file->size) memset(file->bytes + file->size, 0, offset - file->size);
  memcpy(file->bytes + offset, data.at, data.length);
  if (end > file->size) file->size = end;
}

void empty_file(struct tree *tree, struct node *file) {
  note_bytes(tree, file, 0, file->size);
  file->size = 0;
}

/* The ends of changes. */

void take_back(struct tree *tree, struct change *change) {
  switch (change->kind) {
    case NONE:
      break;
    case ENTRY_ADDED:
      unhang(tree, change->entry);
      free_entry(change->entry);
      break;
    case ENTRY_REMOVED:
      hang(tree, change->entry);
      break;
    case OPENED:
      unhang_descriptor(tree, change->descriptor);
      free_descriptor(change->descriptor);
      break;
    case CLOSED:
      hang_descriptor(tree, change->descriptor);
      break;
    case MOVED:
      change->descriptor->offset = change->old_offset;
      break;
    case WRITTEN:
      if (change->length > 0)
        memcpy(change->file->bytes + change->offset, change->old_bytes, change->length);
      change->file->size = change->size;
      break;
  }
  free(change);
}

void drop_change(struct change *change) {
  if (change->kind == ENTRY_REMOVED) free_entry(change->entry);
  if (change->kind == CLOSED) free_descriptor(change->descriptor);
  free(change);
}
