/* report.h: reports of a script, as the layers over nuzolged.h read them. */
#ifndef NUZOLGED_REPORT_H
#define NUZOLGED_REPORT_H

#include <nuzolged.h>

#include "text.h"

/* The room with which a report is first requested, in bytes. */
enum { REPORT_ROOM = 1 << 16 };

/* Makes the report of a line. A reply that does not begin with first is NUZ_MEMORY. */
static inline uint32_t make_report(nuz_tree *tree, const char *line, const char *first,
                                   text *text) {
    nuz_answer told;
    if (!text_room(text, REPORT_ROOM)) {
        return NUZ_MEMORY;
    }
    uint32_t code = nuz_request(tree, NUZ_S(line), text->at, text->room, &told);
    text->len = (size_t)told.reply;
    if (code == 0 && told.reply > text->room) {
        bool has_room = told.reply != UINT64_MAX && text_room(text, text->len);
        code = has_room ? nuz_reply(tree, text->at, text->room, &told) : NUZ_MEMORY;
    }
    /* (it is `refused Memory` if there was not enough memory for its data) */
    size_t len = strlen(first);
    bool is_told = code == 0 && text->len > len && memcmp(text->at, first, len) == 0;
    return code == 0 && !is_told ? NUZ_MEMORY : code;
}

typedef struct word {
    const char *at;
    size_t len;
} word;

/* Takes what comes before the next byte end, or all of rest, and removes it and that byte from
 * rest. */
static inline word taken(word *rest, char end) {
    const char *found = rest->len == 0 ? NULL : memchr(rest->at, end, rest->len);
    word word = { rest->at, found != NULL ? (size_t)(found - rest->at) : rest->len };
    size_t passed = word.len + (found != NULL);
    rest->at += passed;
    rest->len -= passed;
    return word;
}

static inline bool is(word word, const char *text) {
    return word.len == strlen(text) && memcmp(word.at, text, word.len) == 0;
}

static inline uint64_t number_of(word word) {
    uint64_t number = 0;
    for (size_t i = 0; i < word.len; i++) {
        number = 10 * number + (uint64_t)(word.at[i] - '0');
    }
    return number;
}

/* Returns an array that has room for one more, or NULL. */
static inline void *grown(void *at, size_t count, size_t *room, size_t size) {
    if (count < *room) {
        return at;
    }
    size_t more = 2 * *room + 64;
    void *made = realloc(at, more * size);
    *room = made != NULL ? more : *room;
    return made;
}

/* Fills in an answer with a code, a count and, for a text, its size. Returns the code. */
static inline uint32_t answered(nuz_answer *answer, uint32_t code, uint64_t number, uint64_t size) {
    memset(answer, 0, sizeof *answer);
    answer->code = code;
    answer->number = number;
    answer->size = size;
    return code;
}

#endif
