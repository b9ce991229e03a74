/* touched.h: what a step has touched (touched.c). */
#ifndef NUZ_MOUNT_TOUCHED_H
#define NUZ_MOUNT_TOUCHED_H

#include <stddef.h>
#include <stdint.h>

/* The requests for a depfile. */
struct asked {
    const char *top;    /* comes before each path, or NULL */
    const char *target; /* or NULL: what was written */
};

/* A text, for its reader to free. */
struct touched {
    char *text;
    size_t size;
};

/* Answer 0 or a code of the tree. For NUZ_BAD the text of a depfile says what has no form in it. */
uint32_t touched_manifest(uint64_t txn, struct touched *touched);
uint32_t touched_depfile(uint64_t txn, const struct asked *asked, struct touched *touched);

#endif
