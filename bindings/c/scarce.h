/* scarce.h: memory that runs out when a test says so, in a program that is linked with
 * --wrap=malloc and --wrap=realloc. */
#ifndef NUZOLGED_SCARCE_H
#define NUZOLGED_SCARCE_H

#include <stdbool.h>
#include <stddef.h>

/* How many allocations succeed before one fails; with -1 all do. */
static long allocations_left = -1;

void *__real_malloc(size_t size);
void *__real_realloc(void *old, size_t size);
void *__wrap_malloc(size_t size);
void *__wrap_realloc(void *old, size_t size);

static bool runs_out(void) {
    if (allocations_left < 0) {
        return false;
    }
    if (allocations_left == 0) {
        return true;
    }
    allocations_left--;
    return false;
}

void *__wrap_malloc(size_t size) {
    return runs_out() ? NULL : __real_malloc(size);
}

void *__wrap_realloc(void *old, size_t size) {
    return runs_out() ? NULL : __real_realloc(old, size);
}

#endif
