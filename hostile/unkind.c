/* A library that is loaded before the C library (LD_PRELOAD) and is unkind to a program: it
   refuses memory and threads, and fails, shortens or interrupts reads of standard input and
   writes of standard output. Environment variables say what it does; without them it only
   counts.

   UNKIND_COUNTS           a file that takes what is counted (struct counts)
   UNKIND_ALLOCATION       the number of the allocation that is refused, from 1
   UNKIND_BEHIND_WRITES    counts for UNKIND_ALLOCATION those between so many writes and the next
   UNKIND_READ             the number of the read that UNKIND_READ_HOW is done to
   UNKIND_READ_HOW         fail, interrupt or nothing
   UNKIND_READ_EVERY       each read whose number is a multiple of this is interrupted
   UNKIND_READ_BYTES       the most bytes that a read gives
   UNKIND_READ_LINE        with any value: a read gives nothing after a line feed
   UNKIND_WRITE            the number of the write that UNKIND_WRITE_HOW is done to
   UNKIND_WRITE_HOW        fail, interrupt or nothing
   UNKIND_WRITE_BYTES      the most bytes that a write takes
   UNKIND_THREAD           the number of the thread that is not started
   UNKIND_THREAD_DELAY     so many milliseconds a thread waits before it does anything

   UNKIND_ALLOCATION, UNKIND_READ, UNKIND_WRITE and UNKIND_THREAD each mean just that one; with
   _ON after the name and any value, as UNKIND_ALLOCATION_ON=1, that one and all later ones. */
#define _GNU_SOURCE
#include <dlfcn.h>
#include <errno.h>
#include <fcntl.h>
#include <pthread.h>
#include <stddef.h>
#include <stdint.h>
#include <stdlib.h>
#include <string.h>
#include <sys/mman.h>
#include <sys/uio.h>
#include <unistd.h>

#define MOST_NOTES 65536
#define MOST_MILLISECONDS 10000

/* One read or write: how many allocations there had been before it. */
struct note {
  uint64_t is_write;
  uint64_t allocations;
};

struct counts {
  uint64_t allocations;
  uint64_t refused; /* allocations that were refused */
  uint64_t reads;
  uint64_t writes;
  uint64_t threads; /* threads that were asked for */
  uint64_t threads_started;
  uint64_t threads_begun; /* those that did something */
  uint64_t threads_ended; /* those whose work had ended when the program did */
  uint64_t notes;
  struct note note[MOST_NOTES];
};

/* The things of a kind that are met: one, or all from it on; none if number is 0. */
struct which {
  uint64_t number;
  int is_on;
};

extern void *__libc_malloc(size_t);
extern void *__libc_calloc(size_t, size_t);
extern void *__libc_realloc(void *, size_t);
extern void *__libc_memalign(size_t, size_t);
extern void __libc_free(void *);

static struct counts own;
static struct counts *counts = &own;
static int is_ready;

static struct which allocation, one_read, one_write, thread;
static const char *read_how, *write_how;
static uint64_t read_every, read_bytes, write_bytes;
static int64_t behind_writes = -1;
static uint64_t since_write, thread_delay;
static int is_read_by_lines;

static ssize_t (*real_read)(int, void *, size_t);
static ssize_t (*real_write)(int, const void *, size_t);
static void (*real_exit)(int);
static int (*real_create)(pthread_t *, const pthread_attr_t *, void *(*)(void *), void *);

static uint64_t number_of(const char *name) {
  const char *value = getenv(name);
  return value ? strtoull(value, NULL, 10) : 0;
}

static struct which which_of(const char *name, const char *name_on) {
  struct which which = {number_of(name), getenv(name_on) != NULL};
  return which;
}

static int is_met(struct which which, uint64_t number) {
  if (which.number == 0) return 0;
  return which.is_on ? number >= which.number : number == which.number;
}

static uint64_t next(uint64_t *count) { return __atomic_add_fetch(count, 1, __ATOMIC_SEQ_CST); }

static void note(int is_write) {
  uint64_t at = next(&counts->notes) - 1;
  if (at >= MOST_NOTES) return;
  counts->note[at].is_write = is_write;
  counts->note[at].allocations = counts->allocations;
}

/* Counts in the file instead, which the other side reads when the program has ended. */
static void share_counts(const char *path) {
  int file = open(path, O_RDWR);
  if (file < 0) abort();
  void *shared = mmap(NULL, sizeof own, PROT_READ | PROT_WRITE, MAP_SHARED, file, 0);
  if (shared == MAP_FAILED) abort();
  close(file);
  counts = shared;
  memset(counts, 0, offsetof(struct counts, note));
}

__attribute__((constructor)) static void begin(void) {
  real_read = dlsym(RTLD_NEXT, "read");
  real_write = dlsym(RTLD_NEXT, "write");
  real_exit = dlsym(RTLD_NEXT, "_exit");
  real_create = dlsym(RTLD_NEXT, "pthread_create");
  allocation = which_of("UNKIND_ALLOCATION", "UNKIND_ALLOCATION_ON");
  one_read = which_of("UNKIND_READ", "UNKIND_READ_ON");
  one_write = which_of("UNKIND_WRITE", "UNKIND_WRITE_ON");
  thread = which_of("UNKIND_THREAD", "UNKIND_THREAD_ON");
  read_how = getenv("UNKIND_READ_HOW");
  write_how = getenv("UNKIND_WRITE_HOW");
  read_every = number_of("UNKIND_READ_EVERY");
  read_bytes = number_of("UNKIND_READ_BYTES");
  write_bytes = number_of("UNKIND_WRITE_BYTES");
  thread_delay = number_of("UNKIND_THREAD_DELAY");
  is_read_by_lines = getenv("UNKIND_READ_LINE") != NULL;
  if (getenv("UNKIND_BEHIND_WRITES")) behind_writes = number_of("UNKIND_BEHIND_WRITES");
  if (getenv("UNKIND_COUNTS")) share_counts(getenv("UNKIND_COUNTS"));
  is_ready = 1;
}

/* A thread whose work has ended may have some instructions left when the program ends: if all
   have begun, these are waited for. A thread that the program does not wait for has not begun. */
__attribute__((destructor)) static void wait_for_threads(void) {
  int left = MOST_MILLISECONDS;
  if (thread_delay == 0 || counts->threads_begun < counts->threads_started) return;
  for (; left > 0 && counts->threads_ended < counts->threads_started; left--) usleep(1000);
}

void _exit(int status) {
  wait_for_threads();
  real_exit(status);
  __builtin_unreachable();
}

/* Counts an allocation, and returns whether it is refused. */
static int is_refused(void) {
  if (!is_ready) return 0;
  uint64_t number = next(&counts->allocations);
  if (behind_writes >= 0) {
    if (counts->writes != (uint64_t)behind_writes) return 0;
    number = next(&since_write);
  }
  if (!is_met(allocation, number)) return 0;
  next(&counts->refused);
  errno = ENOMEM;
  return 1;
}

void *malloc(size_t size) { return is_refused() ? NULL : __libc_malloc(size); }

void *calloc(size_t count, size_t size) {
  return is_refused() ? NULL : __libc_calloc(count, size);
}

void *realloc(void *old, size_t size) {
  return is_refused() ? NULL : __libc_realloc(old, size);
}

void *aligned_alloc(size_t alignment, size_t size) {
  return is_refused() ? NULL : __libc_memalign(alignment, size);
}

int posix_memalign(void **place, size_t alignment, size_t size) {
  void *made = is_refused() ? NULL : __libc_memalign(alignment, size);
  if (made == NULL) return ENOMEM;
  *place = made;
  return 0;
}

/* Whether a read or write is not made: an error is set, or it takes nothing. */
static int is_unkind(const char *how, ssize_t *answer) {
  *answer = -1;
  if (how == NULL) return 0;
  if (strcmp(how, "nothing") == 0) *answer = 0;
  errno = strcmp(how, "interrupt") == 0 ? EINTR : EIO;
  return 1;
}

static size_t at_most(size_t size, uint64_t most) { return most > 0 && size > most ? most : size; }

/* Reads up to a line feed. */
static ssize_t read_line(int file, char *bytes, size_t size) {
  size_t count = 0;
  while (count < size) {
    ssize_t answer = real_read(file, bytes + count, 1);
    if (answer < 0 && count == 0) return answer;
    if (answer <= 0) break;
    if (bytes[count++] == '\n') break;
  }
  return count;
}

ssize_t read(int file, void *bytes, size_t size) {
  if (file != STDIN_FILENO || !is_ready) return real_read(file, bytes, size);
  note(0);
  uint64_t number = next(&counts->reads);
  ssize_t answer;
  if (is_met(one_read, number) && is_unkind(read_how, &answer)) return answer;
  if (read_every > 0 && number % read_every == 0 && is_unkind("interrupt", &answer)) return answer;
  size = at_most(size, read_bytes);
  return is_read_by_lines ? read_line(file, bytes, size) : real_read(file, bytes, size);
}

ssize_t write(int file, const void *bytes, size_t size) {
  if (file != STDOUT_FILENO || !is_ready) return real_write(file, bytes, size);
  note(1);
  uint64_t number = next(&counts->writes);
  ssize_t answer;
  if (is_met(one_write, number) && is_unkind(write_how, &answer)) return answer;
  return real_write(file, bytes, at_most(size, write_bytes));
}

/* The names by which other parts of a runtime may call them. */
ssize_t __read(int, void *, size_t) __attribute__((alias("read")));
ssize_t __write(int, const void *, size_t) __attribute__((alias("write")));

/* The arguments with which a thread is started, so that its end can be counted. */
struct start {
  void *(*run)(void *);
  void *with;
};

static void *run_counted(void *given) {
  struct start start = *(struct start *)given;
  __libc_free(given);
  usleep(thread_delay * 1000);
  next(&counts->threads_begun);
  void *answer = start.run(start.with);
  next(&counts->threads_ended);
  return answer;
}

int pthread_create(pthread_t *id, const pthread_attr_t *attributes, void *(*run)(void *),
                   void *with) {
  if (is_met(thread, next(&counts->threads))) return EAGAIN;
  struct start *start = __libc_malloc(sizeof *start);
  if (start == NULL) return EAGAIN;
  start->run = run;
  start->with = with;
  int error = real_create(id, attributes, run_counted, start);
  if (error != 0)
    __libc_free(start);
  else
    next(&counts->threads_started);
  return error;
}
