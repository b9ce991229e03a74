/* Hash tables of what begins with a link, and memory for them. */
#include "mount.h"

#include <stdio.h>

/* Ends the mount: what it has noted of the tree would not be true without this memory. */
static void *memory_or_end(void *at) {
    if (at == NULL) {
        fprintf(stderr, "nuz: out of memory\n");
        abort();
    }
    return at;
}

void *allocate(size_t size) {
    return memory_or_end(calloc(1, size));
}

/* Makes room for one more of what has room for so many, of such a size. */
void *enlarge(void *at, size_t *room, size_t size) {
    *room = *room == 0 ? 16 : 2 * *room;
    return memory_or_end(realloc(at, *room * size));
}

char *copy_of(const char *text) {
    return memory_or_end(strdup(text));
}

/* A hash of some bytes that belong to something. (FNV-1a, with the high bits mixed in.) */
uint64_t hash_of(const void *owner, const void *bytes, size_t len) {
    const unsigned char *at = bytes;
    uint64_t hash = UINT64_C(0xcbf29ce484222325) ^ (uint64_t)(uintptr_t)owner >> 4;
    for (size_t i = 0; i < len; i++) {
        hash = (hash ^ at[i]) * UINT64_C(0x100000001b3);
    }
    return hash ^ hash >> 29;
}

/* The first thing that has the same place in a table as those with a hash, or NULL. */
struct link *table_first(const struct table *table, uint64_t hash) {
    return table->room == 0 ? NULL : table->slots[hash & (table->room - 1)];
}

static void put(struct table *table, struct link *link) {
    struct link **slot = &table->slots[link->hash & (table->room - 1)];
    link->next = *slot;
    *slot = link;
}

/* Puts all things of a place into their new places. */
static void put_all(struct table *table, struct link *link) {
    while (link != NULL) {
        struct link *next = link->next;
        put(table, link);
        link = next;
    }
}

static void grow(struct table *table) {
    struct table old = *table;
    table->room = old.room == 0 ? 256 : 2 * old.room;
    table->slots = allocate(table->room * sizeof *table->slots);
    for (size_t i = 0; i < old.room; i++) {
        put_all(table, old.slots[i]);
    }
    free(old.slots);
}

void table_add(struct table *table, struct link *link, uint64_t hash) {
    if (table->count == table->room) {
        grow(table);
    }
    link->hash = hash;
    put(table, link);
    table->count++;
}

void table_remove(struct table *table, struct link *link) {
    struct link **at = &table->slots[link->hash & (table->room - 1)];
    while (*at != link) {
        at = &(*at)->next;
    }
    *at = link->next;
    table->count--;
}
