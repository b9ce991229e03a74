/* text.h: bytes that grow, with a null byte at the end, for the layers over nuzolged.h. */
#ifndef NUZOLGED_TEXT_H
#define NUZOLGED_TEXT_H

#include <stdbool.h>
#include <stdlib.h>
#include <string.h>

typedef struct text {
    char *at;
    size_t len, room;
} text;

/* Makes room for this many bytes in all. */
static inline bool text_room(text *text, size_t room) {
    char *at = realloc(text->at, room);
    if (at != NULL) {
        text->at = at;
        text->room = room;
    }
    return at != NULL;
}

static inline bool text_add(text *text, const char *bytes, size_t len) {
    if (text->room - text->len <= len && !text_room(text, 2 * (text->len + len) + 64)) {
        return false;
    }
    memcpy(text->at + text->len, bytes, len);
    text->len += len;
    text->at[text->len] = '\0';
    return true;
}

#endif
