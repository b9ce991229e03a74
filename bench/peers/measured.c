/* measured SCRIPT WAY PROGRAM WORDS..: runs a program with a script as its standard input, and
   prints how many microseconds of the processor it took, user and system, and how many KiB of
   memory it had at most. Its output goes to /dev/null, or through a pipe if WAY is `pipe`.

   It is a small program of its own, since the memory of the process that starts a program counts
   as that of the program until it runs. */
#define _GNU_SOURCE
#include <fcntl.h>
#include <stdio.h>
#include <stdlib.h>
#include <string.h>
#include <sys/resource.h>
#include <sys/wait.h>
#include <unistd.h>

static int checked(int result, const char *what) {
  if (result < 0) {
    perror(what);
    exit(1);
  }
  return result;
}

static void become(char **words, int in, int out) {
  checked(dup2(in, STDIN_FILENO), "standard input");
  checked(dup2(out, STDOUT_FILENO), "standard output");
  execv(words[0], words);
  perror(words[0]);
  _exit(127);
}

/* Reads a pipe to its end. */
static void drain(int pipe) {
  static char bytes[1 << 16];
  while (read(pipe, bytes, sizeof bytes) > 0)
    ;
}

static long microseconds(struct timeval time) { return time.tv_sec * 1000000L + time.tv_usec; }

int main(int count, char **words) {
  if (count < 4) return 2;
  int ends[2] = {-1, -1};
  int in = checked(open(words[1], O_RDONLY | O_CLOEXEC), words[1]);
  int null = checked(open("/dev/null", O_WRONLY | O_CLOEXEC), "/dev/null");
  if (strcmp(words[2], "pipe") == 0) checked(pipe2(ends, O_CLOEXEC), "pipe");
  pid_t child = checked(fork(), "fork");
  if (child == 0) become(words + 3, in, ends[1] >= 0 ? ends[1] : null);
  if (ends[1] >= 0) {
    close(ends[1]);
    drain(ends[0]);
  }
  int status;
  struct rusage usage;
  checked(wait4(child, &status, 0, &usage), "wait4");
  printf("%ld %ld\n", microseconds(usage.ru_utime) + microseconds(usage.ru_stime), usage.ru_maxrss);
  return status == 0 ? 0 : 1;
}
