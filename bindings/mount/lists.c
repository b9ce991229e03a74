/* Directories that are open: the names of each, as they were when it was read from its start. */
#include "calls.h"

/* The form of nuz_list_all: for each name a byte with its kind, the name and a null byte. */
struct listing {
    char *names;
    size_t size, room;
    bool is_read;
};

/* The offsets of . and .., and those after them. */
enum { OFFSET_DOTS = 2 };

uint32_t list_open(struct request *request) {
    request->file.fh = (uint64_t)(uintptr_t)allocate(sizeof(struct listing));
    request->file.cache_readdir = request->node != &served.top && served.kept > 0;
    request->file.keep_cache = request->file.cache_readdir;
    fuse_reply_open(request->fuse, &request->file);
    return 0;
}

static struct listing *listing_of(const struct request *request) {
    return (struct listing *)(uintptr_t)request->file.fh;
}

uint32_t list_release(struct request *request) {
    struct listing *listing = listing_of(request);
    free(listing->names);
    free(listing);
    fuse_reply_err(request->fuse, 0);
    return 0;
}

static void make_room(struct listing *listing, size_t size) {
    while (listing->room < size) {
        listing->names = enlarge(listing->names, &listing->room, 1);
    }
}

/* The live steps, in place of names. */
static void list_steps(struct listing *listing) {
    listing->size = 0;
    for (const struct step *step = served.steps; step != NULL; step = step->next) {
        size_t size = step->name == NULL ? 0 : strlen(step->name) + 2;
        make_room(listing, listing->size + size);
        if (size > 0) {
            listing->names[listing->size] = NUZ_DIR;
            memcpy(listing->names + listing->size + 1, step->name, size - 1);
        }
        listing->size += size;
    }
}

static uint32_t list_names(struct node *dir, struct listing *listing) {
    nuz_answer answer = { 0 };
    struct path path;
    make_room(listing, 4096);
    uint32_t code = path_of(dir, NULL, &path);
    if (code == 0) {
        code = nuz_list_all(served.tree, dir->step->txn, path.at, path.len, listing->names,
                            listing->room, &answer);
    }
    if (counted(dir->step, &answer, code) != 0) {
        return code;
    }
    listing->size = (size_t)answer.size;
    if (listing->size > listing->room) {
        make_room(listing, listing->size);
        nuz_bytes(served.tree, listing->names, listing->room, &answer);
    }
    return 0;
}

/* Reads all names, if that has not been done, or the directory is read from its start again. */
static uint32_t read_names(const struct request *request, struct listing *listing) {
    uint32_t code = 0;
    if (listing->is_read && request->offset > 0) {
        return 0;
    }
    if (request->node == &served.top) {
        list_steps(listing);
    } else {
        code = list_names(request->node, listing);
    }
    listing->is_read = code == 0;
    return code;
}

/* The names for the kernel: as many as have room. */
struct entries {
    fuse_req_t fuse;
    char *at;
    size_t size, room;
};

/* Adds an entry. Returns whether it had room. */
static bool add(struct entries *entries, const char *name, const struct stat *status, off_t next) {
    size_t left = entries->room - entries->size;
    size_t size = fuse_add_direntry(entries->fuse, entries->at + entries->size, left, name, status,
                                    next);
    if (size > left) {
        return false;
    }
    entries->size += size;
    return true;
}

/* The status of a name without a call: its kind, and its number if the kernel has asked. */
static struct stat status_of(const struct node *dir, const char *name, char kind) {
    const struct node *node = dir == &served.top ? NULL : name_find(dir, name);
    mode_t mode = kind == NUZ_DIR ? S_IFDIR : kind == NUZ_FILE ? S_IFREG : S_IFLNK;
    return (struct stat){ .st_ino = node == NULL ? UINT32_MAX : shown_number(node),
                          .st_mode = mode };
}

static void add_names(struct entries *entries, const struct node *dir,
                      const struct listing *listing, off_t offset) {
    size_t at = (size_t)offset - OFFSET_DOTS;
    bool has_room = true;
    while (has_room && at < listing->size) {
        const char *name = listing->names + at + 1;
        struct stat status = status_of(dir, name, listing->names[at]);
        at += strlen(name) + 2;
        has_room = add(entries, name, &status, (off_t)at + OFFSET_DOTS);
    }
}

uint32_t list_read(struct request *request) {
    struct listing *listing = listing_of(request);
    uint32_t code = read_names(request, listing);
    if (code != 0) {
        return code;
    }
    struct stat dots = { .st_ino = UINT32_MAX, .st_mode = S_IFDIR };
    struct entries entries = { request->fuse, allocate(request->size), 0, request->size };
    off_t offset = request->offset;
    if (offset == 0 && add(&entries, ".", &dots, 1)) {
        offset++;
    }
    if (offset == 1 && add(&entries, "..", &dots, OFFSET_DOTS)) {
        offset++;
    }
    if (offset >= OFFSET_DOTS) {
        add_names(&entries, request->node, listing, offset);
    }
    fuse_reply_buf(request->fuse, entries.at, entries.size);
    free(entries.at);
    return 0;
}
