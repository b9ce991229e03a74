#include "text.h"

#include <stdio.h>
#include <stdlib.h>
#include <string.h>
#include <unistd.h>

#define PIECE 65536 /* bytes that are read at once, and replies that are written at once */

_Noreturn void stop(const char *why) {
  fprintf(stderr, "fault: %s\n", why);
  exit(1);
}

void *memory(size_t size) { return more_memory(NULL, size); }

void *more_memory(void *old, size_t size) {
  void *made = realloc(old, size);
  if (made == NULL) stop("Memory");
  return made;
}

/* Replies. */

static unsigned char replies[PIECE];
static size_t replies_length;

void write_replies(void) {
  for (size_t written = 0; written < replies_length;) {
    ssize_t count = write(STDOUT_FILENO, replies + written, replies_length - written);
    if (count <= 0) stop("Write");
    written += (size_t)count;
  }
  replies_length = 0;
}

/* A place for so many bytes of a reply. */
static unsigned char *room_for(size_t count) {
  if (PIECE - replies_length < count) write_replies();
  return replies + replies_length;
}

void put_text(const char *text) {
  size_t length = strlen(text);
  memcpy(room_for(length), text, length);
  replies_length += length;
}

void put_number(uint64_t number) {
  unsigned char digits[20];
  size_t first = sizeof digits;
  do digits[--first] = (unsigned char)('0' + number % 10);
  while ((number /= 10) > 0);
  memcpy(room_for(sizeof digits), digits + first, sizeof digits - first);
  replies_length += sizeof digits - first;
}

/* Puts at most a third of the room for replies. */
static void put_coded_piece(const unsigned char *from, const unsigned char *end) {
  static const char DIGITS[] = "0123456789ABCDEF";
  unsigned char *to = room_for(3 * (size_t)(end - from));
  for (; from < end; from++) {
    if (*from > 32 && *from < 127 && *from != '%') {
      *to++ = *from;
    } else {
      *to++ = '%';
      *to++ = (unsigned char)DIGITS[*from / 16];
      *to++ = (unsigned char)DIGITS[*from % 16];
    }
  }
  replies_length = (size_t)(to - replies);
}

void put_coded(struct bytes text) {
  while (text.length > 0) {
    size_t length = text.length < PIECE / 3 ? text.length : PIECE / 3;
    put_coded_piece(text.at, text.at + length);
    text.at += length;
    text.length -= length;
  }
}

/* Lines. The bytes that were read and not yet taken are in input, from taken to filled. */

static unsigned char *input;
static size_t taken, filled, input_room;

/* Reads more after what is there; false at the end. */
static bool read_more(void) {
  write_replies();
  if (taken > 0) {
    memmove(input, input + taken, filled - taken);
    filled -= taken;
    taken = 0;
  }
  if (input_room - filled < PIECE) {
    input_room = 2 * input_room + PIECE;
    input = more_memory(input, input_room);
  }
  ssize_t count = read(STDIN_FILENO, input + filled, PIECE);
  if (count < 0) stop("Read");
  filled += (size_t)count;
  return count > 0;
}

/* The next line, without its line feed; false at the end. */
static bool next_line(unsigned char **line, unsigned char **end) {
  size_t looked = 0; /* how many bytes of the line have no line feed among them */
  unsigned char *found = NULL;
  do {
    if (filled > taken + looked)
      found = memchr(input + taken + looked, '\n', filled - taken - looked);
    looked = filled - taken;
  } while (found == NULL && read_more());
  *line = input + taken;
  *end = found != NULL ? found : input + filled;
  taken = found != NULL ? (size_t)(found - input) + 1 : filled;
  return *end > *line || found != NULL;
}

/* Words. */

/* Takes the word that a line begins with, and the space after it. */
static struct bytes take_word(unsigned char **line, unsigned char *end) {
  unsigned char *space = memchr(*line, ' ', (size_t)(end - *line));
  struct bytes word = {*line, (size_t)((space != NULL ? space : end) - *line)};
  *line = space != NULL ? space + 1 : end;
  return word;
}

static uint64_t number_of(struct bytes word) {
  uint64_t number = 0;
  for (size_t at = 0; at < word.length; at++) {
    if (word.at[at] < '0' || word.at[at] > '9') stop("a number is wrong");
    number = 10 * number + (word.at[at] - '0');
  }
  return number;
}

/* The value of a hexadecimal digit, or -1. */
static int digit_of(unsigned char byte) {
  if (byte >= '0' && byte <= '9') return byte - '0';
  byte |= 32;
  return byte >= 'a' && byte <= 'f' ? byte - 'a' + 10 : -1;
}

/* Decodes a word in place. */
static struct bytes decoded(struct bytes word) {
  unsigned char *to = memchr(word.at, '%', word.length);
  if (to == NULL) return word;
  const unsigned char *end = word.at + word.length;
  for (const unsigned char *from = to; from < end; to++) {
    int high = *from == '%' && end - from > 2 ? digit_of(from[1]) : -1;
    int low = high >= 0 ? digit_of(from[2]) : -1;
    *to = (unsigned char)(low >= 0 ? 16 * high + low : *from);
    from += low >= 0 ? 3 : 1;
  }
  return (struct bytes){word.at, (size_t)(to - word.at)};
}

static unsigned mode_of(struct bytes word) {
  static const char LETTERS[] = "rwcxta"; /* in the order of the bits */
  unsigned mode = 0;
  for (size_t at = 0; at < word.length; at++) {
    const char *letter = strchr(LETTERS, word.at[at]);
    if (letter == NULL) stop("a mode is wrong");
    mode |= 1u << (letter - LETTERS);
  }
  return mode;
}

/* All requests, each with what comes after its first word: a transaction (T), a path (P), a
   second one (Q), a mode (M), a descriptor (F), an offset (I), a count (N) or data (D). */
static const struct shape {
  char word[8];
  enum verb verb;
  char kinds[4];
} SHAPES[] = {
    {"stat", STAT, "P"},      {"open", OPEN, "MP"},      {"close", CLOSE, "F"},
    {"write", WRITE, "FD"},   {"read", READ, "FN"},      {"mkdir", MKDIR, "P"},
    {"rename", RENAME, "PQ"}, {"begin", BEGIN, ""},      {"sub", SUB, "T"},
    {"commit", COMMIT, "T"},  {"abort", ABORT, "T"},     {"undo", UNDO, "T"},
    {"unlink", UNLINK, "P"},  {"rmdir", RMDIR, "P"},     {"fstat", FSTAT, "F"},
    {"pread", PREAD, "FIN"},  {"pwrite", PWRITE, "FID"}, {"list", LIST, "P"},
};

static const struct shape *shape_of(struct bytes word) {
  char padded[8] = "";
  if (word.length <= sizeof padded) memcpy(padded, word.at, word.length);
  for (size_t at = 0; at < sizeof SHAPES / sizeof *SHAPES; at++) {
    if (memcmp(SHAPES[at].word, padded, sizeof padded) == 0) return &SHAPES[at];
  }
  stop("a request is none that this peer knows");
}

static void take_argument(char kind, struct bytes word, struct request *request) {
  switch (kind) {
    case 'T':
      request->transaction = number_of(word);
      break;
    case 'P':
      request->path = decoded(word);
      break;
    case 'Q':
      request->new_path = decoded(word);
      break;
    case 'M':
      request->mode = mode_of(word);
      break;
    case 'F':
      request->descriptor = number_of(word);
      break;
    case 'I':
      request->offset = number_of(word);
      break;
    case 'N':
      request->count = number_of(word);
      break;
    case 'D':
      request->data = decoded(word);
      break;
  }
}

bool next_request(struct request *request) {
  unsigned char *line, *end;
  if (!next_line(&line, &end)) return false;
  *request = (struct request){0};
  if (line < end && *line >= '0' && *line <= '9')
    request->transaction = number_of(take_word(&line, end));
  const struct shape *shape = shape_of(take_word(&line, end));
  request->verb = shape->verb;
  for (const char *kind = shape->kinds; *kind != '\0'; kind++)
    take_argument(*kind, take_word(&line, end), request);
  return true;
}
