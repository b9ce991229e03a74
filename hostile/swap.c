/* A library that is loaded before the C library (LD_PRELOAD), and at one call of a program that
   looks at a path or opens one puts something else in the place of the thing at a path.

   SWAP_NUMBER    the number of the call before which that is done, from 1
   SWAP_PLACE     the path
   SWAP_COMING    the path of what comes there: the two are exchanged
   SWAP_BACK      with any value: they are exchanged again before the next call
   SWAP_COUNT     a file into which a byte is written for each call */
#define _GNU_SOURCE
#include <dlfcn.h>
#include <fcntl.h>
#include <stdarg.h>
#include <stdio.h>
#include <stdlib.h>
#include <sys/stat.h>
#include <sys/types.h>
#include <unistd.h>

static unsigned long calls;
static int count = -1;

static void exchange(void) {
  renameat2(AT_FDCWD, getenv("SWAP_PLACE"), AT_FDCWD, getenv("SWAP_COMING"), RENAME_EXCHANGE);
}

/* Called before each of these calls. */
static void come(void) {
  const char *number = getenv("SWAP_NUMBER");
  if (!number) return;
  unsigned long at = strtoul(number, NULL, 10);
  calls++;
  if (calls == at || (getenv("SWAP_BACK") && calls == at + 1)) exchange();
  if (count >= 0 && write(count, ".", 1) < 0) _exit(99);
}

#define NEXT(name) ((__typeof__(&name))dlsym(RTLD_NEXT, #name))

__attribute__((constructor)) static void begin(void) {
  const char *path = getenv("SWAP_COUNT");
  if (path) count = NEXT(open)(path, O_WRONLY | O_APPEND | O_CLOEXEC);
}

int open(const char *path, int flags, ...) {
  va_list more;
  va_start(more, flags);
  mode_t mode = va_arg(more, mode_t);
  va_end(more);
  come();
  return NEXT(open)(path, flags, mode);
}

int openat(int folder, const char *path, int flags, ...) {
  va_list more;
  va_start(more, flags);
  mode_t mode = va_arg(more, mode_t);
  va_end(more);
  come();
  return NEXT(openat)(folder, path, flags, mode);
}

int statx(int folder, const char *path, int flags, unsigned mask, struct statx *told) {
  come();
  return NEXT(statx)(folder, path, flags, mask, told);
}

ssize_t readlink(const char *path, char *bytes, size_t size) {
  come();
  return NEXT(readlink)(path, bytes, size);
}

ssize_t readlinkat(int folder, const char *path, char *bytes, size_t size) {
  come();
  return NEXT(readlinkat)(folder, path, bytes, size);
}

int open64(const char *, int, ...) __attribute__((alias("open")));
int openat64(int, const char *, int, ...) __attribute__((alias("openat")));
