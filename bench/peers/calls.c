/* The calls on a tree in memory. */
#include <stdlib.h>
#include <string.h>

#include "paths.h"
#include "tree.h"

/* The end of a path: a node, or a name that does not exist. */
struct place {
  struct node *directory; /* the one that the last name is in; NULL if the path has none */
  struct bytes name;
  struct entry *entry; /* NULL if there is none, or if the last name is one or two dots */
  struct node *node;   /* NULL if there is none */
};

/* Goes on from the place to a name. */
static const char *step(const struct tree *tree, struct bytes name, struct place *place) {
  struct node *directory = place->node;
  if (directory == NULL) return "ENOENT";
  if (!directory->is_directory) return "ENOTDIR";
  if (name.length > MOST_NAME) return "ENAMETOOLONG";
  int dotted = dots(name);
  *place = (struct place){directory, name, NULL, dotted == 2 ? directory->parent : directory};
  if (dotted == 0) {
    place->entry = find_entry(tree, directory, name);
    place->node = place->entry != NULL ? place->entry->node : NULL;
  }
  return NULL;
}

static const char *walk(const struct tree *tree, struct bytes path, struct place *place) {
  *place = (struct place){.node = tree->root};
  if (path.length == 0) return "ENOENT";
  if (path.length > MOST_PATH) return "ENAMETOOLONG";
  struct bytes name;
  const char *error = NULL;
  while (error == NULL && next_name(&path, &name)) error = step(tree, name, place);
  return error;
}

static struct answer failed(const char *error) { return (struct answer){.error = error}; }

static struct answer done(void) { return (struct answer){0}; }

static struct answer make_directory(struct tree *tree, struct bytes path) {
  struct place place;
  const char *error = walk(tree, path, &place);
  if (error != NULL) return failed(error);
  if (place.node != NULL) return failed("EEXIST");
  add_entry(tree, place.directory, place.name, make_node(tree, true));
  return done();
}

static struct answer remove_directory(struct tree *tree, struct bytes path) {
  struct place place;
  const char *error = walk(tree, path, &place);
  if (error != NULL) return failed(error);
  if (place.node == NULL) return failed("ENOENT");
  if (!place.node->is_directory) return failed("ENOTDIR");
  if (place.entry == NULL) return failed("EBUSY");
  if (place.node->first != NULL) return failed("ENOTEMPTY");
  remove_entry(tree, place.entry);
  return done();
}

static struct answer open_path(struct tree *tree, struct bytes path, unsigned mode) {
  struct place place;
  const char *error = walk(tree, path, &place);
  if (error != NULL) return failed(error);
  if (place.node == NULL && !(mode & CREATES)) return failed("ENOENT");
  if (place.node != NULL && mode & CREATES && mode & EXCLUDES) return failed("EEXIST");
  if (place.node != NULL && place.node->is_directory) return failed("EISDIR");
  if (place.node == NULL) {
    place.node = make_node(tree, false);
    add_entry(tree, place.directory, place.name, place.node);
  } else if (mode & TRUNCATES) {
    empty_file(tree, place.node);
  }
  open_file(tree, place.node, mode);
  return (struct answer){.number = tree->stamp};
}

static struct answer close_number(struct tree *tree, uint64_t number) {
  struct descriptor *descriptor = find_descriptor(tree, number);
  if (descriptor == NULL) return failed("EBADF");
  close_descriptor(tree, descriptor);
  return done();
}

/* Reads at the offset of the request, or at that of the descriptor if the request has none. */
static struct answer read_bytes(struct tree *tree, const struct request *request) {
  struct descriptor *descriptor = find_descriptor(tree, request->descriptor);
  if (descriptor == NULL || !(descriptor->mode & READS)) return failed("EBADF");
  const struct node *file = descriptor->file;
  uint64_t offset = request->verb == READ ? descriptor->offset : request->offset;
  uint64_t there = offset < file->size ? file->size - offset : 0;
  uint64_t count = request->count < there ? request->count : there;
  if (request->verb == READ) move_descriptor(tree, descriptor, offset + count);
  return (struct answer){.data = {count > 0 ? file->bytes + offset : NULL, count}};
}

/* Writes at the offset of the request, or at that of the descriptor if the request has none. */
static struct answer write_bytes(struct tree *tree, const struct request *request) {
  struct descriptor *descriptor = find_descriptor(tree, request->descriptor);
  if (descriptor == NULL || !(descriptor->mode & WRITES)) return failed("EBADF");
  struct node *file = descriptor->file;
  uint64_t offset = request->verb == WRITE ? descriptor->offset : request->offset;
  if (request->verb == WRITE && descriptor->mode & APPENDS) offset = file->size;
  if (offset > MOST_FILE || request->data.length > MOST_FILE - offset) return failed("EFBIG");
  if (request->data.length > 0) write_file(tree, file, offset, request->data);
  if (request->verb == WRITE && request->data.length > 0)
    move_descriptor(tree, descriptor, offset + request->data.length);
  return (struct answer){.number = request->data.length};
}

static struct answer facts_of(const struct node *node) {
  struct facts facts = {node->is_directory, node->number, 1, 0};
  if (!node->is_directory) {
    facts.links = node->links;
    facts.size = node->size;
  }
  return (struct answer){.facts = facts};
}

static struct answer look_at_path(const struct tree *tree, struct bytes path) {
  struct place place;
  const char *error = walk(tree, path, &place);
  if (error != NULL) return failed(error);
  return place.node != NULL ? facts_of(place.node) : failed("ENOENT");
}

static struct answer look_at_descriptor(struct tree *tree, uint64_t number) {
  struct descriptor *descriptor = find_descriptor(tree, number);
  return descriptor != NULL ? facts_of(descriptor->file) : failed("EBADF");
}

static struct answer unlink_path(struct tree *tree, struct bytes path) {
  struct place place;
  const char *error = walk(tree, path, &place);
  if (error != NULL) return failed(error);
  if (place.node == NULL) return failed("ENOENT");
  if (place.node->is_directory) return failed("EPERM");
  remove_entry(tree, place.entry);
  return done();
}

/* Whether a directory is another one or is below it. */
static bool is_inside(const struct node *directory, const struct node *other) {
  while (directory != other && directory != directory->parent) directory = directory->parent;
  return directory == other;
}

/* Why a node may not take the place of another one, or NULL. */
static const char *refusal_to_replace(const struct node *node, const struct node *other) {
  if (node->is_directory && !other->is_directory) return "ENOTDIR";
  if (!node->is_directory && other->is_directory) return "EISDIR";
  return other->is_directory && other->first != NULL ? "ENOTEMPTY" : NULL;
}

static const char *refusal_to_rename(const struct place *old, const struct place *new) {
  if (old->node == NULL) return "ENOENT";
  if (old->entry == NULL || (new->node != NULL &&new->entry == NULL)) return "EBUSY";
  if (old->node->is_directory && is_inside(new->directory, old->node)) return "EINVAL";
  return new->node != NULL ? refusal_to_replace(old->node, new->node) : NULL;
}

static struct answer rename_path(struct tree *tree, struct bytes old_path, struct bytes new_path) {
  struct place old, new;
  const char *error = walk(tree, old_path, &old);
  if (error == NULL) error = walk(tree, new_path, &new);
  if (error == NULL && old.node != NULL && old.node == new.node) return done();
  if (error == NULL) error = refusal_to_rename(&old, &new);
  if (error != NULL) return failed(error);
  if (new.entry != NULL) remove_entry(tree, new.entry);
  add_entry(tree, new.directory, new.name, old.node);
  remove_entry(tree, old.entry);
  return done();
}

static int by_name(const void *one, const void *other) {
  const struct entry *left = *(struct entry *const *)one, *right = *(struct entry *const *)other;
  size_t length = left->length < right->length ? left->length : right->length;
  int order = memcmp(left->name, right->name, length);
  return order != 0 ? order : left->length - right->length;
}

static void add_names(const struct node *directory) {
  size_t count = 0, at = 0;
  for (struct entry *entry = directory->first; entry != NULL; entry = entry->next) count++;
  struct entry **entries = memory((count + 1) * sizeof *entries);
  for (struct entry *entry = directory->first; entry != NULL; entry = entry->next)
    entries[at++] = entry;
  qsort(entries, count, sizeof *entries, by_name);
  for (at = 0; at < count; at++) {
    struct bytes name = {entries[at]->name, entries[at]->length};
    add_name(name, entries[at]->node->is_directory);
  }
  free(entries);
}

static struct answer list_path(const struct tree *tree, struct bytes path) {
  struct place place;
  const char *error = walk(tree, path, &place);
  if (error != NULL) return failed(error);
  if (place.node == NULL) return failed("ENOENT");
  if (!place.node->is_directory) return failed("ENOTDIR");
  add_names(place.node);
  return done();
}

struct answer call_on(struct tree *tree, const struct request *request) {
  switch (request->verb) {
    case MKDIR:
      return make_directory(tree, request->path);
    case RMDIR:
      return remove_directory(tree, request->path);
    case OPEN:
      return open_path(tree, request->path, request->mode);
    case CLOSE:
      return close_number(tree, request->descriptor);
    case READ:
    case PREAD:
      return read_bytes(tree, request);
    case WRITE:
    case PWRITE:
      return write_bytes(tree, request);
    case STAT:
      return look_at_path(tree, request->path);
    case FSTAT:
      return look_at_descriptor(tree, request->descriptor);
    case UNLINK:
      return unlink_path(tree, request->path);
    case RENAME:
      return rename_path(tree, request->path, request->new_path);
    case LIST:
      return list_path(tree, request->path);
    default:
      stop("no call");
  }
}
