/* Writes a file only through memory, after its descriptor has been closed:
 *
 *     mapped FILE TEXT HOW
 *
 * HOW says what comes then: 'unmap' unmaps the memory, 'sync' writes it and keeps it mapped, 'exit'
 * ends the process at once, and 'kill' kills it.
 */
#include <fcntl.h>
#include <signal.h>
#include <stdio.h>
#include <stdlib.h>
#include <string.h>
#include <sys/mman.h>
#include <unistd.h>

enum { SIZE = 3 * 4096 + 100 };

/* The file in memory, which is made so large. */
static char *map(const char *path) {
    int file = open(path, O_RDWR | O_CREAT, 0644);
    if (file < 0 || ftruncate(file, SIZE) != 0) {
        return MAP_FAILED;
    }
    char *bytes = mmap(NULL, SIZE, PROT_READ | PROT_WRITE, MAP_SHARED, file, 0);
    close(file);
    return bytes;
}

int main(int count, char **words) {
    if (count != 4) {
        return 2;
    }
    char *bytes = map(words[1]);
    if (bytes == MAP_FAILED) {
        perror(words[1]);
        return 1;
    }
    /* (at the end of a page and in the last one) */
    memcpy(bytes + 4096 - 2, words[2], strlen(words[2]));
    memcpy(bytes + 3 * 4096 + 50, words[2], strlen(words[2]));
    switch (words[3][0]) {
    case 'u': return munmap(bytes, SIZE);
    case 's': return msync(bytes, SIZE, MS_SYNC);
    case 'k': return raise(SIGKILL);
    default: _exit(0);
    }
}
