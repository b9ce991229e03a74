/* The peer `lmdb`: the tree as keys and values in LMDB.

   'd' and a number       a directory: the one that it is in
   'e', a number, a name  an entry of a directory: where it leads
   'f' and a number       a file
   'b', a number, a piece PIECE bytes of a file, the last piece fewer
   'o' and a number       a descriptor */
#include <string.h>

#include "paths.h"
#include "store.h"

#define PIECE 4080 /* bytes that fit into one page of LMDB as a value of its own */

struct directory {
  uint64_t parent;
};

struct entry {
  uint64_t number, is_directory;
};

struct file {
  uint64_t links, descriptors, size;
};

struct descriptor {
  uint64_t file, offset, mode;
};

/* The end of a path. */
struct place {
  uint64_t directory; /* the one that the last name is in */
  struct bytes name;  /* empty if the path has none, or ends in dots */
  bool is_there;
  struct entry entry;
};

static uint64_t stamp;

/* Records. */

static const struct bytes NO_NAME = {NULL, 0};

static struct bytes bytes_of(const void *at, size_t length) { return (struct bytes){at, length}; }

static bool find_record(char kind, uint64_t number, void *record, size_t size) {
  struct key key = key_of(kind, number, NO_NAME);
  struct bytes value;
  if (!find(&key, &value)) return false;
  memcpy(record, value.at, size);
  return true;
}

/* Gives a record its value after a call; old and new are NULL for none. */
static void change_record(char kind, uint64_t number, const void *old, const void *new,
                          size_t size) {
  struct key key = key_of(kind, number, NO_NAME);
  struct bytes before = bytes_of(old, size), after = bytes_of(new, size);
  change(&key, old != NULL ? &before : NULL, new != NULL ? &after : NULL);
}

static void change_entry(const struct place *place, const struct entry *old,
                         const struct entry *new) {
  struct key key = key_of('e', place->directory, place->name);
  struct bytes before = bytes_of(old, sizeof *old), after = bytes_of(new, sizeof *new);
  change(&key, old != NULL ? &before : NULL, new != NULL ? &after : NULL);
}

/* Paths. */

static uint64_t parent_of(uint64_t number) {
  struct directory directory = {number};
  find_record('d', number, &directory, sizeof directory);
  return directory.parent;
}

/* Goes on from the place to a name. */
static const char *step(struct bytes name, struct place *place) {
  if (!place->is_there) return "ENOENT";
  if (!place->entry.is_directory) return "ENOTDIR";
  if (name.length > MOST_NAME) return "ENAMETOOLONG";
  uint64_t directory = place->entry.number;
  if (dots(name) > 0) {
    place->name = NO_NAME;
    place->entry.number = dots(name) == 2 ? parent_of(directory) : directory;
    return NULL;
  }
  struct key key = key_of('e', directory, name);
  struct bytes value;
  *place = (struct place){directory, name, find(&key, &value), {0, 0}};
  if (place->is_there) memcpy(&place->entry, value.at, sizeof place->entry);
  return NULL;
}

static const char *walk(struct bytes path, struct place *place) {
  *place = (struct place){.is_there = true, .entry = {1, true}};
  if (path.length == 0) return "ENOENT";
  if (path.length > MOST_PATH) return "ENAMETOOLONG";
  struct bytes name;
  const char *error = NULL;
  while (error == NULL && next_name(&path, &name)) error = step(name, place);
  return error;
}

/* The answers of calls. */

static struct answer failed(const char *error) { return (struct answer){.error = error}; }

static struct answer done(void) { return (struct answer){0}; }

/* Directories. */

static struct answer make_directory(struct bytes path) {
  struct place place;
  const char *error = walk(path, &place);
  if (error != NULL) return failed(error);
  if (place.is_there) return failed("EEXIST");
  change_entry(&place, NULL, &(struct entry){stamp, true});
  change_record('d', stamp, NULL, &(struct directory){place.directory}, sizeof(struct directory));
  return done();
}

static bool has_met_one;

static bool meet_one(struct bytes key, struct bytes value) {
  (void)key;
  (void)value;
  has_met_one = true;
  return false;
}

static bool is_empty(uint64_t directory) {
  struct key prefix = key_of('e', directory, NO_NAME);
  has_met_one = false;
  for_each(&prefix, meet_one);
  return !has_met_one;
}

/* Takes a directory and its entry away. */
static void remove_directory_at(const struct place *place) {
  struct directory old = {place->directory};
  change_entry(place, &place->entry, NULL);
  change_record('d', place->entry.number, &old, NULL, sizeof old);
}

static struct answer remove_directory(struct bytes path) {
  struct place place;
  const char *error = walk(path, &place);
  if (error != NULL) return failed(error);
  if (!place.is_there) return failed("ENOENT");
  if (!place.entry.is_directory) return failed("ENOTDIR");
  if (place.name.length == 0) return failed("EBUSY");
  if (!is_empty(place.entry.number)) return failed("ENOTEMPTY");
  remove_directory_at(&place);
  return done();
}

static bool tell_name(struct bytes key, struct bytes value) {
  struct entry entry;
  memcpy(&entry, value.at, sizeof entry);
  add_name((struct bytes){key.at + BEFORE_NAME, key.length - BEFORE_NAME}, entry.is_directory);
  return true;
}

static struct answer list_path(struct bytes path) {
  struct place place;
  const char *error = walk(path, &place);
  if (error != NULL) return failed(error);
  if (!place.is_there) return failed("ENOENT");
  if (!place.entry.is_directory) return failed("ENOTDIR");
  struct key prefix = key_of('e', place.entry.number, NO_NAME);
  for_each(&prefix, tell_name);
  return done();
}

/* Bytes of files. */

static struct key key_of_piece(uint64_t file, uint64_t piece) {
  unsigned char number[] = {(unsigned char)(piece / 256), (unsigned char)(piece % 256)};
  return key_of('b', file, bytes_of(number, sizeof number));
}

/* Reads a piece of a file; returns how many bytes it has. */
static size_t read_piece(uint64_t file, uint64_t piece, unsigned char bytes[PIECE]) {
  struct key key = key_of_piece(file, piece);
  struct bytes value;
  if (!find(&key, &value)) return 0;
  memcpy(bytes, value.at, value.length);
  return value.length;
}

/* Writes data into a piece, from a place in it on. */
static void write_piece(uint64_t file, uint64_t piece, size_t from, struct bytes data) {
  unsigned char old[PIECE], new[PIECE];
  size_t old_length = read_piece(file, piece, old);
  size_t end = from + data.length;
  memcpy(new, old, old_length);
  if (old_length < from) memset(new + old_length, 0, from - old_length);
  memcpy(new + from, data.at, data.length);
  struct key key = key_of_piece(file, piece);
  struct bytes before = {old, old_length}, after = {new, end > old_length ? end : old_length};
  change(&key, old_length > 0 ? &before : NULL, &after);
}

static void write_pieces(uint64_t file, uint64_t offset, struct bytes data) {
  while (data.length > 0) {
    size_t from = offset % PIECE, room = PIECE - from;
    size_t length = data.length < room ? data.length : room;
    write_piece(file, offset / PIECE, from, bytes_of(data.at, length));
    data = bytes_of(data.at + length, data.length - length);
    offset += length;
  }
}

static void remove_pieces(uint64_t file, uint64_t size) {
  unsigned char bytes[PIECE];
  for (uint64_t piece = 0; piece * PIECE < size; piece++) {
    struct bytes old = {bytes, read_piece(file, piece, bytes)};
    struct key key = key_of_piece(file, piece);
    if (old.length > 0) change(&key, &old, NULL);
  }
}

/* Reads bytes that the file has. A piece that is missing or short has zeros after its end. */
static struct bytes read_pieces(uint64_t file, uint64_t offset, size_t count) {
  static unsigned char bytes[MOST_FILE];
  for (size_t done = 0; done < count;) {
    uint64_t at = offset + done;
    size_t from = at % PIECE, wanted = PIECE - from;
    wanted = wanted < count - done ? wanted : count - done;
    struct key key = key_of_piece(file, at / PIECE);
    struct bytes value = {NULL, 0};
    size_t there = find(&key, &value) && value.length > from ? value.length - from : 0;
    there = there < wanted ? there : wanted;
    if (there > 0) memcpy(bytes + done, value.at + from, there);
    memset(bytes + done + there, 0, wanted - there);
    done += wanted;
  }
  return bytes_of(bytes, count);
}

/* Files and descriptors. */

/* Gives a file another record, or none if it has neither name nor descriptor. */
static void change_file(uint64_t number, const struct file *old, const struct file *new) {
  bool stays = new->links > 0 || new->descriptors > 0;
  if (!stays) remove_pieces(number, old->size);
  change_record('f', number, old, stays ? new : NULL, sizeof *old);
}

static void change_descriptor(uint64_t number, const struct descriptor *old,
                              const struct descriptor *new) {
  change_record('o', number, old, new, sizeof *old);
}

/* Opens a file that is there. */
static void open_there(uint64_t number, unsigned mode) {
  struct file old = {0}, new;
  find_record('f', number, &old, sizeof old);
  new = old;
  new.descriptors++;
  if (mode & TRUNCATES) {
    remove_pieces(number, old.size);
    new.size = 0;
  }
  change_file(number, &old, &new);
  change_descriptor(stamp, NULL, &(struct descriptor){number, 0, mode});
}

/* Makes a file and opens it. */
static void open_new(const struct place *place, unsigned mode) {
  change_entry(place, NULL, &(struct entry){stamp, false});
  change_record('f', stamp, NULL, &(struct file){1, 1, 0}, sizeof(struct file));
  change_descriptor(stamp, NULL, &(struct descriptor){stamp, 0, mode});
}

static struct answer open_path(struct bytes path, unsigned mode) {
  struct place place;
  const char *error = walk(path, &place);
  if (error != NULL) return failed(error);
  if (!place.is_there && !(mode & CREATES)) return failed("ENOENT");
  if (place.is_there && mode & CREATES && mode & EXCLUDES) return failed("EEXIST");
  if (place.is_there && place.entry.is_directory) return failed("EISDIR");
  if (place.is_there)
    open_there(place.entry.number, mode);
  else
    open_new(&place, mode);
  return (struct answer){.number = stamp};
}

static struct answer close_number(uint64_t number) {
  struct descriptor descriptor;
  if (!find_record('o', number, &descriptor, sizeof descriptor)) return failed("EBADF");
  struct file old = {0}, new;
  find_record('f', descriptor.file, &old, sizeof old);
  new = old;
  new.descriptors--;
  change_descriptor(number, &descriptor, NULL);
  change_file(descriptor.file, &old, &new);
  return done();
}

/* Reads at the offset of the request, or at that of the descriptor if the request has none. */
static struct answer read_bytes(const struct request *request) {
  struct descriptor old, new;
  struct file file = {0};
  if (!find_record('o', request->descriptor, &old, sizeof old) || !(old.mode & READS))
    return failed("EBADF");
  find_record('f', old.file, &file, sizeof file);
  uint64_t offset = request->verb == READ ? old.offset : request->offset;
  uint64_t there = offset < file.size ? file.size - offset : 0;
  uint64_t count = request->count < there ? request->count : there;
  new = old;
  new.offset = offset + count;
  if (request->verb == READ && count > 0) change_descriptor(request->descriptor, &old, &new);
  return (struct answer){.data = read_pieces(old.file, offset, count)};
}

/* Writes data that is not empty to a file, at an offset. */
static void write_at(uint64_t number, const struct file *old, uint64_t offset, struct bytes data) {
  struct file new = *old;
  write_pieces(number, offset, data);
  if (offset + data.length > old->size) {
    new.size = offset + data.length;
    change_file(number, old, &new);
  }
}

/* Writes at the offset of the request, or at that of the descriptor if the request has none. */
static struct answer write_bytes(const struct request *request) {
  struct descriptor old, new;
  struct file file = {0};
  if (!find_record('o', request->descriptor, &old, sizeof old) || !(old.mode & WRITES))
    return failed("EBADF");
  find_record('f', old.file, &file, sizeof file);
  uint64_t offset = request->verb == WRITE ? old.offset : request->offset;
  if (request->verb == WRITE && old.mode & APPENDS) offset = file.size;
  if (offset > MOST_FILE || request->data.length > MOST_FILE - offset) return failed("EFBIG");
  if (request->data.length == 0) return done();
  write_at(old.file, &file, offset, request->data);
  new = old;
  new.offset = offset + request->data.length;
  if (request->verb == WRITE) change_descriptor(request->descriptor, &old, &new);
  return (struct answer){.number = request->data.length};
}

static struct answer facts_of(uint64_t number, bool is_directory) {
  struct facts facts = {is_directory, number, 1, 0};
  struct file file = {0};
  if (!is_directory) {
    find_record('f', number, &file, sizeof file);
    facts.links = file.links;
    facts.size = file.size;
  }
  return (struct answer){.facts = facts};
}

static struct answer look_at_path(struct bytes path) {
  struct place place;
  const char *error = walk(path, &place);
  if (error != NULL) return failed(error);
  if (!place.is_there) return failed("ENOENT");
  return facts_of(place.entry.number, place.entry.is_directory);
}

static struct answer look_at_descriptor(uint64_t number) {
  struct descriptor descriptor;
  if (!find_record('o', number, &descriptor, sizeof descriptor)) return failed("EBADF");
  return facts_of(descriptor.file, false);
}

/* Takes the name of a file away. */
static void unlink_at(const struct place *place) {
  struct file old = {0}, new;
  find_record('f', place->entry.number, &old, sizeof old);
  new = old;
  new.links--;
  change_entry(place, &place->entry, NULL);
  change_file(place->entry.number, &old, &new);
}

static struct answer unlink_path(struct bytes path) {
  struct place place;
  const char *error = walk(path, &place);
  if (error != NULL) return failed(error);
  if (!place.is_there) return failed("ENOENT");
  if (place.entry.is_directory) return failed("EPERM");
  unlink_at(&place);
  return done();
}

/* Renaming. */

/* Whether a directory is another one or is below it. */
static bool is_inside(uint64_t directory, uint64_t other) {
  while (directory != other && directory != 1) directory = parent_of(directory);
  return directory == other;
}

/* Why one may not take the place of another, or NULL. */
static const char *refusal_to_replace(const struct entry *one, const struct entry *other) {
  if (one->is_directory && !other->is_directory) return "ENOTDIR";
  if (!one->is_directory && other->is_directory) return "EISDIR";
  return other->is_directory && !is_empty(other->number) ? "ENOTEMPTY" : NULL;
}

static const char *refusal_to_rename(const struct place *old, const struct place *new) {
  if (!old->is_there) return "ENOENT";
  if (old->name.length == 0 || new->name.length == 0) return "EBUSY";
  if (old->entry.is_directory && is_inside(new->directory, old->entry.number)) return "EINVAL";
  return new->is_there ? refusal_to_replace(&old->entry, &new->entry) : NULL;
}

static void move(const struct place *old, const struct place *new) {
  if (new->is_there &&new->entry.is_directory)
    remove_directory_at(new);
  else if (new->is_there)
    unlink_at(new);
  change_entry(old, &old->entry, NULL);
  change_entry(new, NULL, &old->entry);
  struct directory before = {old->directory}, after = {new->directory};
  if (old->entry.is_directory && before.parent != after.parent)
    change_record('d', old->entry.number, &before, &after, sizeof before);
}

static struct answer rename_path(struct bytes old_path, struct bytes new_path) {
  struct place old, new;
  const char *error = walk(old_path, &old);
  if (error == NULL) error = walk(new_path, &new);
  if (error == NULL && old.is_there && new.is_there &&old.entry.number == new.entry.number)
    return done();
  if (error == NULL) error = refusal_to_rename(&old, &new);
  if (error != NULL) return failed(error);
  move(&old, &new);
  return done();
}

/* Calls. */

static struct answer call_by_verb(const struct request *request) {
  switch (request->verb) {
    case MKDIR:
      return make_directory(request->path);
    case RMDIR:
      return remove_directory(request->path);
    case OPEN:
      return open_path(request->path, request->mode);
    case CLOSE:
      return close_number(request->descriptor);
    case READ:
    case PREAD:
      return read_bytes(request);
    case WRITE:
    case PWRITE:
      return write_bytes(request);
    case STAT:
      return look_at_path(request->path);
    case FSTAT:
      return look_at_descriptor(request->descriptor);
    case UNLINK:
      return unlink_path(request->path);
    case RENAME:
      return rename_path(request->path, request->new_path);
    case LIST:
      return list_path(request->path);
    default:
      stop("no call");
  }
}

void start(void) { open_store(); }

struct answer call(const struct request *request, uint64_t number) {
  stamp = number;
  begin_call(request->transaction, number);
  struct answer answer = call_by_verb(request);
  end_call();
  return answer;
}
