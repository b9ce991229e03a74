/* The list of what a transaction has touched, as nuzolged_touched.h says: put together from its
 * locks and the names of the tree. */
#include <nuzolged_touched.h>

#include <stdlib.h>

#include "report.h"

/* The number of the root. */
enum { ROOT = 1 };

/* In addition to the public flags: the name itself was looked up. */
enum { LOOKED_UP = 1 << 16 };

/* ---- coded names */

static uint8_t digit_of(char digit) {
    return (uint8_t)(digit <= '9' ? digit - '0' : digit - 'A' + 10);
}

/* How many bytes a coded name stands for: % and two digits are one. */
static size_t decoded_len(word coded) {
    size_t len = coded.len;
    for (size_t i = 0; i < coded.len; i++) {
        len -= coded.at[i] == '%' ? 2 : 0;
    }
    return len;
}

static void decode(word coded, char *bytes) {
    for (size_t i = 0; i < coded.len; i++) {
        char byte = coded.at[i];
        if (byte == '%') {
            byte = (char)(digit_of(coded.at[i + 1]) << 4 | digit_of(coded.at[i + 2]));
            i += 2;
        }
        *bytes++ = byte;
    }
}

/* ---- what is found */

/* A name in a directory. */
typedef struct name {
    uint64_t folder;
    word coded;
    uint64_t number; /* what it leads to, or 0 */
    uint32_t how;
} name;

/* A directory, a file or a symbolic link. */
typedef struct thing {
    uint64_t number;
    uint32_t kind;
} thing;

typedef struct names {
    name *at;
    size_t count, room;
} names;

typedef struct found {
    text locks, tree;
    names there;      /* the names of the tree, in their order */
    names absent;     /* those that have been looked up or removed, and are not there */
    name **by_number; /* those of the tree, by what they lead to */
    thing *things;    /* what they lead to, by number */
    size_t thing_count, thing_room;
    uint32_t root; /* how the root has been touched */
    nuz_touch *touches;
    size_t count, room;
} found;

static void forget(found *found) {
    for (size_t i = 0; i < found->count; i++) {
        free((char *)found->touches[i].path);
    }
    free(found->touches);
    free(found->things);
    free(found->by_number);
    free(found->absent.at);
    free(found->there.at);
    free(found->tree.at);
    free(found->locks.at);
}

static bool add_name(names *names, name added) {
    name *at = grown(names->at, names->count, &names->room, sizeof *at);
    if (at != NULL) {
        names->at = at;
        at[names->count++] = added;
    }
    return at != NULL;
}

static bool add_thing(found *found, thing added) {
    thing *at = grown(found->things, found->thing_count, &found->thing_room, sizeof *at);
    if (at != NULL) {
        found->things = at;
        at[found->thing_count++] = added;
    }
    return at != NULL;
}

static int compare_numbers(uint64_t one, uint64_t other) {
    return (one > other) - (one < other);
}

/* The order of bytes. */
static int compare_bytes(const char *one, size_t len, const char *other, size_t other_len) {
    int order = memcmp(one, other, len < other_len ? len : other_len);
    return order != 0 ? order : compare_numbers(len, other_len);
}

static int compare_names(const void *at, const void *other_at) {
    const name *one = at, *other = other_at;
    int order = compare_numbers(one->folder, other->folder);
    return order != 0 ? order
                      : compare_bytes(one->coded.at, one->coded.len, other->coded.at,
                                      other->coded.len);
}

static int compare_targets(const void *at, const void *other_at) {
    const name *one = *(name *const *)at, *other = *(name *const *)other_at;
    int order = compare_numbers(one->number, other->number);
    return order != 0 ? order : (one > other) - (one < other);
}

static int compare_things(const void *at, const void *other_at) {
    const thing *one = at, *other = other_at;
    return compare_numbers(one->number, other->number);
}

static int compare_touches(const void *at, const void *other_at) {
    const nuz_touch *one = at, *other = other_at;
    return compare_bytes(one->path, one->len, other->path, other->len);
}

/* ---- the tree */

/* Takes note of a row of the tree, unless it is of another kind. */
static bool read_row(found *found, word row) {
    word kind = taken(&row, ' ');
    uint64_t number = number_of(taken(&row, ' '));
    if (is(kind, "edge")) {
        word coded = taken(&row, ' ');
        return add_name(&found->there, (name){ number, coded, number_of(taken(&row, ' ')), 0 });
    }
    uint32_t code = is(kind, "dir") ? NUZ_DIR : is(kind, "file") ? NUZ_FILE
                  : is(kind, "link") ? NUZ_LINK : 0;
    return code == 0 || add_thing(found, (thing){ number, code });
}

/* Brings the names and what they lead to in order. */
static bool sort_rows(found *found) {
    names *there = &found->there;
    if (there->count > 0) {
        qsort(there->at, there->count, sizeof *there->at, compare_names);
    }
    qsort(found->things, found->thing_count, sizeof *found->things, compare_things);
    found->by_number = malloc((there->count + 1) * sizeof *found->by_number);
    for (size_t i = 0; found->by_number != NULL && i < there->count; i++) {
        found->by_number[i] = &there->at[i];
    }
    if (found->by_number != NULL) {
        qsort(found->by_number, there->count, sizeof *found->by_number, compare_targets);
    }
    return found->by_number != NULL;
}

static uint32_t read_tree(found *found, nuz_tree *tree) {
    uint32_t code = make_report(tree, "tree", "tree ", &found->tree);
    word rest = { found->tree.at, code == 0 ? found->tree.len : 0 };
    taken(&rest, '\n'); /* (how many rows there are) */
    bool has_memory = true;
    while (has_memory && rest.len > 0) {
        has_memory = read_row(found, taken(&rest, '\n'));
    }
    return code != 0 ? code : has_memory && sort_rows(found) ? 0 : NUZ_MEMORY;
}

/* The place of the first name of a directory, a file or a symbolic link. */
static size_t first_name(const found *found, uint64_t number) {
    size_t from = 0, to = found->there.count;
    while (from < to) {
        size_t middle = from + (to - from) / 2;
        if (found->by_number[middle]->number < number) {
            from = middle + 1;
        } else {
            to = middle;
        }
    }
    return from;
}

/* Returns a name of the thing with this number: the first of them, or one after that; or NULL. */
static name *name_at(const found *found, size_t place, uint64_t number) {
    bool is_there = place < found->there.count && found->by_number[place]->number == number;
    return is_there ? found->by_number[place] : NULL;
}

static uint32_t kind_of(const found *found, uint64_t number) {
    const thing key = { number, 0 };
    const thing *thing = bsearch(&key, found->things, found->thing_count, sizeof key,
                                 compare_things);
    return thing != NULL ? thing->kind : 0;
}

/* ---- the locks */

static uint32_t report_locks(nuz_tree *tree, uint64_t txn, text *text) {
    nuz_answer told;
    uint32_t code = text_room(text, REPORT_ROOM) ? nuz_locks(tree, txn, text->at, text->room, &told)
                                          : NUZ_MEMORY;
    if (code == 0 && told.size > text->room) {
        bool has_room = text_room(text, (size_t)told.size);
        code = has_room ? nuz_locks(tree, txn, text->at, text->room, &told) : NUZ_MEMORY;
    }
    text->len = code == 0 ? (size_t)told.size : 0;
    return code;
}

/* Takes note of how a name has been touched, that it is in or is missing in a directory. (Locks of
 * one name follow each other.) */
static bool touch_name(found *found, name key) {
    names *there = &found->there, *absent = &found->absent;
    name *known = there->count == 0 ? NULL
                : bsearch(&key, there->at, there->count, sizeof key, compare_names);
    if (known == NULL && absent->count > 0
        && compare_names(&key, &absent->at[absent->count - 1]) == 0) {
        known = &absent->at[absent->count - 1];
    }
    if (known == NULL) {
        return add_name(absent, key);
    }
    known->how |= key.how;
    return true;
}

static bool has_looked_up(const found *found, uint64_t number) {
    size_t place = first_name(found, number);
    const name *name;
    do {
        name = name_at(found, place++, number);
    } while (name != NULL && !(name->how & LOOKED_UP));
    return name != NULL;
}

/* Takes note of how a directory, a file or a symbolic link has been touched: by all its names, or
 * to read it by those that have been looked up, if some have. */
static void touch_thing(found *found, uint64_t number, uint32_t how) {
    bool is_of_some = !(how & NUZ_TOUCHED_WRITTEN) && has_looked_up(found, number);
    size_t place = first_name(found, number);
    for (name *name; (name = name_at(found, place, number)) != NULL; place++) {
        name->how |= !is_of_some || name->how & LOOKED_UP ? how : 0;
    }
    found->root |= number == ROOT ? how : 0;
}

/* Takes note of a lock. Locks of parents, counts of names and descriptors add no path to those of
 * the others. */
static bool read_lock(found *found, word line) {
    if (!is(taken(&line, ' '), "lock")) {
        return true;
    }
    word part = taken(&line, ' ');
    uint64_t number = number_of(taken(&line, ' '));
    bool is_entry = is(part, "entry"), is_list = is(part, "names");
    word coded = is_entry ? taken(&line, ' ') : part;
    uint32_t how = is(taken(&line, ' '), "write") ? NUZ_TOUCHED_WRITTEN
                 : is_list ? NUZ_TOUCHED_LISTED : NUZ_TOUCHED_READ;
    if (is_entry) {
        return touch_name(found, (name){ number, coded, 0, how | LOOKED_UP });
    }
    if (is_list || is(part, "bytes") || is(part, "attributes")) {
        touch_thing(found, number, how);
    }
    return true;
}

static bool read_locks(found *found) {
    word rest = { found->locks.at, found->locks.len };
    bool has_memory = true;
    while (has_memory && rest.len > 0) {
        has_memory = read_lock(found, taken(&rest, '\n'));
    }
    return has_memory;
}

/* ---- the paths */

/* The length of the path of a name, or 0 if its directory has none. */
static size_t path_len(const found *found, const name *name) {
    size_t len = 1 + decoded_len(name->coded);
    for (uint64_t folder = name->folder; folder != ROOT; folder = name->folder) {
        name = name_at(found, first_name(found, folder), folder);
        if (name == NULL) {
            return 0;
        }
        len += 1 + decoded_len(name->coded);
    }
    return len;
}

/* Writes the path of a name, which has one, so that it ends there. */
static void write_path(const found *found, const name *name, char *end) {
    bool is_below;
    do {
        end -= decoded_len(name->coded);
        decode(name->coded, end);
        *--end = '/';
        is_below = name->folder != ROOT;
        name = is_below ? name_at(found, first_name(found, name->folder), name->folder) : name;
    } while (is_below);
}

/* How a path was touched, if a thing of this kind is there. */
static uint32_t told_how(uint32_t how, uint32_t kind) {
    bool is_absent = kind == 0 && !(how & NUZ_TOUCHED_WRITTEN);
    return (how & ~(uint32_t)LOOKED_UP) | (is_absent ? NUZ_TOUCHED_ABSENT : 0);
}

/* Adds a path that ends there, which this takes. */
static bool add_touch(found *found, char *path, size_t len, uint32_t how, uint32_t kind) {
    nuz_touch *at = path == NULL ? NULL
                  : grown(found->touches, found->count, &found->room, sizeof *at);
    if (at == NULL) {
        free(path);
        return false;
    }
    path[len] = '\0';
    found->touches = at;
    at[found->count++] = (nuz_touch){ path, len, told_how(how, kind), kind };
    return true;
}

/* Adds the path of a name, if it has been touched and has one. */
static bool add_path(found *found, const name *name) {
    size_t len = name->how == 0 ? 0 : path_len(found, name);
    if (len == 0) {
        return true;
    }
    char *path = malloc(len + 1);
    if (path != NULL) {
        write_path(found, name, path + len);
    }
    return add_touch(found, path, len, name->how, kind_of(found, name->number));
}

static bool add_paths(found *found, const names *names) {
    bool has_memory = true;
    for (size_t i = 0; has_memory && i < names->count; i++) {
        has_memory = add_path(found, &names->at[i]);
    }
    return has_memory;
}

static bool add_root(found *found) {
    if (found->root == 0) {
        return true;
    }
    char *path = malloc(2);
    if (path != NULL) {
        *path = '/';
    }
    return add_touch(found, path, 1, found->root, NUZ_DIR);
}

static bool add_all(found *found) {
    bool has_memory = add_root(found) && add_paths(found, &found->there)
                   && add_paths(found, &found->absent);
    if (found->count > 0) {
        qsort(found->touches, found->count, sizeof *found->touches, compare_touches);
    }
    return has_memory;
}

/* Finds what a transaction has touched. */
static uint32_t find(found *found, nuz_tree *tree, uint64_t txn) {
    uint32_t code = report_locks(tree, txn, &found->locks);
    word locks = { found->locks.at, found->locks.len };
    if (code != 0 || is(locks, "locks 0\nattributes 0\n")) {
        return code;
    }
    code = read_tree(found, tree);
    return code != 0 ? code : read_locks(found) && add_all(found) ? 0 : NUZ_MEMORY;
}

/* ---- reports */

uint32_t nuz_touched(nuz_tree *tree, uint64_t txn, nuz_touched_each *each, void *context,
                     nuz_answer *answer) {
    found found = { 0 };
    uint32_t code = find(&found, tree, txn);
    for (size_t i = 0; code == 0 && i < found.count; i++) {
        code = each(context, &found.touches[i]);
    }
    answered(answer, code, code == 0 ? found.count : 0, 0);
    forget(&found);
    return code;
}

/* Fills in an answer with a text, which this takes, and copies as much of it as has room. */
static uint32_t answered_text(nuz_answer *answer, uint32_t code, size_t number, text *text,
                              void *buffer, size_t room) {
    size_t size = code == 0 ? text->len : 0, copied = size < room ? size : room;
    if (copied > 0) {
        memcpy(buffer, text->at, copied);
    }
    free(text->at);
    return answered(answer, code, code == 0 ? number : 0, size);
}

static bool add_string(text *text, const char *string) {
    return text_add(text, string, strlen(string));
}

/* ---- a manifest */

/* Adds a path as a report lists it. */
static bool add_coded(text *text, const nuz_touch *touch) {
    static const char digits[] = "0123456789ABCDEF";
    bool has_memory = true;
    for (size_t i = 0; has_memory && i < touch->len; i++) {
        unsigned char byte = (unsigned char)touch->path[i];
        bool is_plain = byte > 32 && byte < 127 && byte != '%';
        const char coded[] = { '%', digits[byte >> 4], digits[byte & 15] };
        has_memory = is_plain ? text_add(text, touch->path + i, 1) : text_add(text, coded, 3);
    }
    return has_memory;
}

static const char *word_of_kind(uint32_t kind) {
    switch (kind) {
    case NUZ_DIR: return "dir";
    case NUZ_FILE: return "file";
    case NUZ_LINK: return "link";
    default: return "none";
    }
}

/* Adds how a path has been touched: words with a comma between two. */
static bool add_how(text *text, uint32_t how) {
    const char *reads = how & NUZ_TOUCHED_ABSENT ? "absent" : how & NUZ_TOUCHED_READ ? "read" : "";
    const char *lists = how & NUZ_TOUCHED_LISTED ? "listed" : "";
    const char *writes = how & NUZ_TOUCHED_WRITTEN ? "written" : "";
    return add_string(text, reads) && add_string(text, *reads && *lists ? "," : "")
        && add_string(text, lists)
        && add_string(text, (*reads || *lists) && *writes ? "," : "") && add_string(text, writes);
}

static bool add_line(text *text, const nuz_touch *touch) {
    return add_coded(text, touch) && add_string(text, " ") && add_how(text, touch->how)
        && add_string(text, " ") && add_string(text, word_of_kind(touch->kind))
        && add_string(text, "\n");
}

uint32_t nuz_manifest(nuz_tree *tree, uint64_t txn, void *buffer, size_t room, nuz_answer *answer) {
    found found = { 0 };
    text text = { NULL, 0, 0 };
    uint32_t code = find(&found, tree, txn);
    for (size_t i = 0; code == 0 && i < found.count; i++) {
        code = add_line(&text, &found.touches[i]) ? 0 : NUZ_MEMORY;
    }
    code = answered_text(answer, code, found.count, &text, buffer, room);
    forget(&found);
    return code;
}

/* ---- a depfile */

/* Whether make and Ninja read a name that is written there with escapes as that name. */
static bool has_form(const char *name, size_t len, bool is_target) {
    char last = len > 0 ? name[len - 1] : ' ';
    bool is_good = name[0] != '~' && strchr(" :\\", last) == NULL
                && !(last == ')' && memchr(name, '(', len) != NULL);
    for (size_t i = 0; is_good && i < len; i++) {
        unsigned char byte = (unsigned char)name[i];
        is_good = byte >= 32 && byte != 127 && strchr("\"&'*;<=>?[^`|", byte) == NULL
               && !(is_target && byte == '%')
               && !(byte == '\\' && strchr("#:$", name[i + 1]) != NULL);
    }
    return is_good;
}

/* Doubles the backslashes at the end of a text. */
static bool add_backslashes(text *text) {
    size_t count = 0;
    while (count < text->len && text->at[text->len - 1 - count] == '\\') {
        count++;
    }
    bool has_memory = true;
    for (; has_memory && count > 0; count--) {
        has_memory = text_add(text, "\\", 1);
    }
    return has_memory;
}

/* Adds a name with its escapes. */
static bool add_escaped(text *text, const char *name, size_t len) {
    bool has_memory = true;
    for (size_t i = 0; has_memory && i < len; i++) {
        char byte = name[i];
        has_memory = (byte != ' ' || add_backslashes(text))
                  && (strchr(" #:", byte) == NULL || text_add(text, "\\", 1))
                  && (byte != '$' || text_add(text, "$", 1)) && text_add(text, &byte, 1);
    }
    return has_memory;
}

/* The contents of a depfile. */
typedef struct depfile {
    text text;
    text name; /* the prefix of each path of the tree, and a path after it */
    size_t top_len, count;
} depfile;

/* Adds a name after its prefix: 0, NUZ_BAD or NUZ_MEMORY. */
static uint32_t add_form(depfile *depfile, const char *before, const char *name, size_t len,
                         bool is_target) {
    if (!has_form(name, len, is_target)) {
        return NUZ_BAD;
    }
    text *text = &depfile->text;
    return add_string(text, before) && add_escaped(text, name, len) ? 0 : NUZ_MEMORY;
}

/* The same of a path of the tree. */
static uint32_t add_form_of(depfile *depfile, const char *before, const nuz_touch *touch,
                            bool is_target) {
    text *name = &depfile->name;
    name->len = depfile->top_len;
    if (!text_add(name, touch->path, touch->len)) {
        return NUZ_MEMORY;
    }
    return add_form(depfile, before, name->at, name->len, is_target);
}

/* Adds what has been written, as targets. */
static uint32_t add_targets(depfile *depfile, const found *found) {
    uint32_t code = 0;
    for (size_t i = 0; code == 0 && i < found->count; i++) {
        const nuz_touch *touch = &found->touches[i];
        bool is_target = touch->how & NUZ_TOUCHED_WRITTEN
                      && (touch->kind == NUZ_FILE || touch->kind == NUZ_LINK);
        const char *before = depfile->text.len == 0 ? "" : " ";
        code = is_target ? add_form_of(depfile, before, touch, true) : 0;
    }
    return code;
}

/* Whether a target depends on what has been touched so. */
static bool is_needed(const nuz_touch *touch) {
    uint32_t wanted = touch->kind == NUZ_FILE ? NUZ_TOUCHED_READ
                    : touch->kind == NUZ_DIR ? NUZ_TOUCHED_LISTED : 0;
    return touch->how & wanted && !(touch->how & NUZ_TOUCHED_WRITTEN);
}

/* Adds what the targets depend on. */
static uint32_t add_needed(depfile *depfile, const found *found) {
    uint32_t code = add_string(&depfile->text, ":") ? 0 : NUZ_MEMORY;
    for (size_t i = 0; code == 0 && i < found->count; i++) {
        if (is_needed(&found->touches[i])) {
            code = add_form_of(depfile, " \\\n  ", &found->touches[i], false);
            depfile->count++;
        }
    }
    return code != 0 || add_string(&depfile->text, "\n") ? code : NUZ_MEMORY;
}

static uint32_t write_depfile(depfile *depfile, const found *found, const char *target,
                              const char *top) {
    size_t len = top != NULL ? strlen(top) : 0;
    depfile->top_len = len > 0 && top[len - 1] == '/' ? len - 1 : len;
    if (len > 0 && !text_add(&depfile->name, top, len)) {
        return NUZ_MEMORY;
    }
    uint32_t code = target != NULL ? add_form(depfile, "", target, strlen(target), true)
                                   : add_targets(depfile, found);
    return code != 0 || depfile->text.len == 0 ? code : add_needed(depfile, found);
}

uint32_t nuz_depfile(nuz_tree *tree, uint64_t txn, const char *target, const char *top,
                     void *buffer, size_t room, nuz_answer *answer) {
    found found = { 0 };
    depfile depfile = { 0 };
    uint32_t code = find(&found, tree, txn);
    if (code == 0) {
        code = write_depfile(&depfile, &found, target, top);
    }
    code = answered_text(answer, code, depfile.count, &depfile.text, buffer, room);
    free(depfile.name.at);
    forget(&found);
    return code;
}
