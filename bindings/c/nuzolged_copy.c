/* Directories of the disk, copied into a tree and out of it, as nuzolged_copy.h says. */
#define _XOPEN_SOURCE 700 /* for openat, futimens and S_ISVTX */
#define _DEFAULT_SOURCE   /* for syscall */

#include <nuzolged_copy.h>

#include <dirent.h>
#include <errno.h>
#include <fcntl.h>
#include <stdio.h>
#include <stdlib.h>
#include <sys/stat.h>
#include <sys/syscall.h>
#include <time.h>
#include <unistd.h>

#include "text.h"

/* How many bytes are read from the disk or the tree at once. */
enum { PIECE = 1 << 20 };

/* The bits by which a file runs as its owner or its group, and those of a mode without them. */
enum { SET_ID = S_ISUID | S_ISGID, PERMISSIONS = 0777 | S_ISVTX };

/* How often one name may be found changed, between the look at it and its opening. */
enum { MOST_CHANGES = 100 };

/* How a directory is opened, if it is no symbolic link to one; and what a file may be, so that a
 * pipe is not waited for. */
#define FOLDER (O_RDONLY | O_DIRECTORY | O_NOFOLLOW | O_CLOEXEC)
#define AS_IT_IS (O_RDONLY | O_NOFOLLOW | O_NONBLOCK | O_NOCTTY | O_CLOEXEC)

/* Closes what is open after a failure, and keeps errno. Returns false. */
static bool close_after(int fd) {
    int number = errno;
    close(fd);
    errno = number;
    return false;
}

/* ---- texts */

/* A copy of a string that grows no more, or NULL. */
static char *text_alone(const char *bytes, size_t len) {
    char *copy = malloc(len + 1);
    if (copy != NULL) {
        memcpy(copy, bytes, len);
        copy[len] = '\0';
    }
    return copy;
}

static void text_cut(text *text, size_t len) {
    if (len < text->len) {
        text->len = len;
        text->at[len] = '\0';
    }
}

/* Makes a text of a path, without the slashes at its end, except the root's if that is to stay. */
static bool text_of_path(text *text, const char *path, size_t len, size_t least) {
    while (len > least && path[len - 1] == '/') {
        len--;
    }
    return text_add(text, path, len);
}

/* ---- the first name of each file or link that has several */

typedef struct first {
    uint64_t key[2];
    char *name; /* NULL if there is none */
} first;

typedef struct names {
    first *at;
    size_t count, room; /* room is 0 or a power of 2, and more than count */
} names;

/* Returns the place of a key, or the place that it would have. */
static first *names_place(const names *names, const uint64_t key[2]) {
    uint64_t hash = (key[0] ^ (key[1] << 32 | key[1] >> 32)) * UINT64_C(0x9e3779b97f4a7c15);
    size_t index = (size_t)(hash >> 20) & (names->room - 1);
    while (names->at[index].name != NULL && memcmp(names->at[index].key, key, 16) != 0) {
        index = (index + 1) & (names->room - 1);
    }
    return &names->at[index];
}

static const char *names_find(const names *names, const uint64_t key[2]) {
    return names->room == 0 ? NULL : names_place(names, key)->name;
}

static bool names_grow(names *old) {
    names grown = { NULL, old->count, old->room == 0 ? 64 : 2 * old->room };
    grown.at = calloc(grown.room, sizeof *grown.at);
    if (grown.at == NULL) {
        return false;
    }
    for (size_t i = 0; i < old->room; i++) {
        if (old->at[i].name != NULL) {
            *names_place(&grown, old->at[i].key) = old->at[i];
        }
    }
    free(old->at);
    *old = grown;
    return true;
}

static bool names_add(names *names, const uint64_t key[2], const char *name) {
    if (2 * (names->count + 1) > names->room && !names_grow(names)) {
        return false;
    }
    first *place = names_place(names, key);
    place->name = text_alone(name, strlen(name));
    memcpy(place->key, key, sizeof place->key);
    names->count += place->name != NULL;
    return place->name != NULL;
}

static void names_free(names *names) {
    for (size_t i = 0; i < names->room; i++) {
        free(names->at[i].name);
    }
    free(names->at);
}

/* ---- a copy */

/* A directory that a copy out has made, and its status. */
typedef struct folder {
    char *name; /* below the top of the copy */
    nuz_answer told;
} folder;

typedef struct copy {
    nuz_tree *tree;
    uint64_t txn;
    nuz_copy_options how;
    nuz_copy_failure *failure;
    text disk, path; /* its place, on the disk and in the tree; the root of that is empty */
    names names;
    char *piece;
    /* a copy out: */
    int top; /* the directory that it makes */
    size_t disk_top; /* how long the path of that is, */
    text name; /* and its last name */
    bool was_there; /* whether there was something before the copy, */
    struct stat before; /* and what */
    folder *folders;
    size_t count, room;
    struct timespec now; /* the time of what has none */
} copy;

/* Takes note of a failure, unless there was one before. Returns false. */
static bool fails(copy *copy, uint32_t code, bool on_disk) {
    nuz_copy_failure *failure = copy->failure;
    if (failure->code == 0) {
        failure->code = code;
        failure->on_disk = on_disk;
        const char *path = copy->path.len == 0 ? "/" : copy->path.at;
        snprintf(failure->disk, sizeof failure->disk, "%s", copy->disk.len ? copy->disk.at : "");
        snprintf(failure->path, sizeof failure->path, "%s", path);
    }
    return false;
}

static bool disk_fails(copy *copy) {
    return fails(copy, (uint32_t)errno, true);
}

static bool memory_fails(copy *copy) {
    return fails(copy, NUZ_MEMORY, false);
}

/* Begins a copy, and keeps the path of the tree. */
static bool begin(copy *copy, const nuz_copy_options *how, const char *path, size_t len) {
    if (how != NULL) {
        copy->how = *how;
    }
    memset(copy->failure, 0, sizeof *copy->failure);
    copy->piece = malloc(PIECE);
    return (copy->piece != NULL && text_of_path(&copy->path, path, len, 0)) || memory_fails(copy);
}

/* Ends a copy, and returns its code. */
static uint32_t end(copy *copy) {
    for (size_t i = 0; i < copy->count; i++) {
        free(copy->folders[i].name);
    }
    free(copy->folders);
    names_free(&copy->names);
    free(copy->disk.at);
    free(copy->path.at);
    free(copy->name.at);
    free(copy->piece);
    return copy->failure->code;
}

/* The place at which a copy was. */
typedef struct place {
    size_t disk, path;
} place;

/* Goes to a name, or a path, below the place of the copy. */
static bool enter(copy *copy, const char *name, place *from) {
    size_t len = strlen(name);
    *from = (place){ copy->disk.len, copy->path.len };
    bool has_slash = copy->disk.len > 0 && copy->disk.at[copy->disk.len - 1] == '/';
    return (text_add(&copy->disk, "/", !has_slash) && text_add(&copy->disk, name, len)
            && text_add(&copy->path, "/", 1) && text_add(&copy->path, name, len))
        || memory_fails(copy);
}

static void leave(copy *copy, place from) {
    text_cut(&copy->disk, from.disk);
    text_cut(&copy->path, from.path);
}

/* ---- requests of a copy */

typedef struct request {
    uint32_t (*make)(nuz_tree *tree, struct request *request);
    uint64_t txn;
    const char *path, *other; /* (path is the place of the copy) */
    size_t len, other_len;
    uint64_t fd;
    char *bytes;
    size_t count;
    text *names; /* of a list, each with its kind before it and a null byte after it */
    uint32_t mode, owner, group;
    struct timespec time;
    nuz_answer answer;
} request;

#define PATH(r) (r)->txn, (r)->path, (r)->len

static uint32_t make_folder(nuz_tree *tree, request *r) {
    return nuz_mkdir(tree, PATH(r), r->mode, &r->answer);
}

static uint32_t tell(nuz_tree *tree, request *r) {
    return nuz_stat(tree, PATH(r), &r->answer);
}

static uint32_t tell_name(nuz_tree *tree, request *r) {
    return nuz_lstat(tree, PATH(r), &r->answer);
}

static uint32_t set_mode(nuz_tree *tree, request *r) {
    return nuz_chmod(tree, PATH(r), r->mode, &r->answer);
}

static uint32_t set_owner(nuz_tree *tree, request *r) {
    return nuz_chown(tree, PATH(r), r->owner, r->group, &r->answer);
}

static uint32_t make_link(nuz_tree *tree, request *r) {
    return nuz_symlink(tree, r->txn, r->other, r->other_len, r->path, r->len, &r->answer);
}

static uint32_t make_name(nuz_tree *tree, request *r) {
    return nuz_link(tree, r->txn, r->other, r->other_len, r->path, r->len, &r->answer);
}

static uint32_t read_link(nuz_tree *tree, request *r) {
    return nuz_readlink(tree, PATH(r), r->bytes, r->count, &r->answer);
}

static uint32_t make_file(nuz_tree *tree, request *r) {
    return nuz_open(tree, PATH(r), NUZ_O_WRONLY | NUZ_O_CREAT | NUZ_O_EXCL, r->mode, &r->answer);
}

static uint32_t open_file(nuz_tree *tree, request *r) {
    return nuz_open(tree, PATH(r), NUZ_O_RDONLY, NUZ_DEFAULT_MODE, &r->answer);
}

static uint32_t set_file_owner(nuz_tree *tree, request *r) {
    return nuz_fchown(tree, r->txn, r->fd, r->owner, r->group, &r->answer);
}

static uint32_t set_file_time(nuz_tree *tree, request *r) {
    return nuz_futime(tree, r->txn, r->fd, r->time.tv_sec, (uint32_t)r->time.tv_nsec, &r->answer);
}

static uint32_t read_file(nuz_tree *tree, request *r) {
    return nuz_read(tree, r->txn, r->fd, r->bytes, r->count, &r->answer);
}

static uint32_t write_file(nuz_tree *tree, request *r) {
    return nuz_write(tree, r->txn, r->fd, r->bytes, r->count, &r->answer);
}

static uint32_t close_file(nuz_tree *tree, request *r) {
    return nuz_close(tree, r->txn, r->fd, &r->answer);
}

/* Lists a directory. If there was no room for all names, it takes them again. */
static uint32_t list(nuz_tree *tree, request *r) {
    text *names = r->names;
    if (names->room == 0 && !text_room(names, 4096)) {
        return NUZ_MEMORY;
    }
    uint32_t code = nuz_list_all(tree, PATH(r), names->at, names->room, &r->answer);
    size_t size = (size_t)r->answer.size;
    if (code == 0 && size > names->room) {
        nuz_answer told;
        bool has_room = text_room(names, size);
        code = has_room ? nuz_bytes(tree, names->at, names->room, &told) : NUZ_MEMORY;
    }
    names->len = code == 0 ? size : 0;
    return code;
}

static uint32_t make(nuz_tree *tree, void *at) {
    request *request = at;
    return request->make(tree, request);
}

/* Makes a request about the place of the copy. */
static uint32_t ask(copy *copy, request *request) {
    bool is_root = copy->path.len == 0;
    request->txn = copy->txn;
    request->path = is_root ? "/" : copy->path.at;
    request->len = is_root ? 1 : copy->path.len;
    if (copy->how.around != NULL) {
        return copy->how.around(copy->how.context, make, request);
    }
    uint32_t code = make(copy->tree, request);
    if (code == NUZ_WAITS) {
        nuz_answer forgotten;
        if (copy->failure->code == 0) {
            copy->failure->waits_for = request->answer.blockers[0];
        }
        nuz_cancel(copy->tree, copy->txn, &forgotten);
    }
    return code;
}

/* Makes a request about the place of the copy, and takes note of its failure. */
static bool asked(copy *copy, request *request) {
    uint32_t code = ask(copy, request);
    return code == 0 || fails(copy, code, false);
}

static bool closed(copy *copy, uint64_t fd) {
    request r = { .make = close_file, .fd = fd };
    return asked(copy, &r);
}

/* The bits of a mode that are copied. */
static uint32_t kept(const copy *copy, uint32_t mode) {
    uint32_t bits = PERMISSIONS | (copy->how.flags & NUZ_COPY_SET_ID ? SET_ID : 0);
    return mode & bits;
}

/* ---- in */

/* The outcome for a name of the disk; if it has changed meanwhile, it is looked at again. */
typedef enum { COPIED, FAILED, CHANGED } outcome;

static outcome outcome_of(bool copied) {
    return copied ? COPIED : FAILED;
}

/* Whether it has another owner or group than what is made in a tree. */
static bool has_owner(const struct stat *status) {
    return status->st_uid != 0 || status->st_gid != 0;
}

/* Sets what is set of the root, if that is as it was made and the tree is empty. */
static bool in_root(copy *copy, const struct stat *status) {
    text names = { NULL, 0, 0 };
    request told = { .make = tell }, listed = { .make = list, .names = &names };
    bool goes_on = asked(copy, &told) && asked(copy, &listed);
    free(names.at);
    const nuz_answer *root = &told.answer;
    bool is_new = root->mode == 0755 && root->owner == 0 && root->group == 0
               && listed.answer.number == 0;
    if (!goes_on || !is_new) {
        return goes_on;
    }
    request mode = { .make = set_mode, .mode = kept(copy, status->st_mode) };
    request owner = { .make = set_owner, .owner = status->st_uid, .group = status->st_gid };
    return asked(copy, &mode) && asked(copy, &owner);
}

/* Makes a directory, unless it is there already. */
static bool in_folder(copy *copy, const struct stat *status) {
    request made = { .make = make_folder, .mode = kept(copy, status->st_mode) };
    uint32_t code = ask(copy, &made);
    if (code == EEXIST) {
        request told = { .make = tell };
        return (ask(copy, &told) == 0 && told.answer.kind == NUZ_DIR) || fails(copy, code, false);
    }
    if (code != 0) {
        return fails(copy, code, false);
    }
    request owner = { .make = set_owner, .owner = status->st_uid, .group = status->st_gid };
    return !has_owner(status) || asked(copy, &owner);
}

static bool in_piece(copy *copy, uint64_t to, size_t count) {
    request r = { .make = write_file, .fd = to, .bytes = copy->piece, .count = count };
    while (r.count > 0) {
        if (!asked(copy, &r)) {
            return false;
        }
        r.bytes += r.answer.number;
        r.count -= (size_t)r.answer.number;
    }
    return true;
}

/* Copies the bytes of a file, and sets its owner and then its time, which a write takes away. */
static bool in_bytes(copy *copy, int fd, uint64_t to, const struct stat *status) {
    request owner = { .make = set_file_owner,
                      .fd = to,
                      .owner = status->st_uid,
                      .group = status->st_gid };
    request time_of = { .make = set_file_time, .fd = to, .time = status->st_mtim };
    bool goes_on = !has_owner(status) || asked(copy, &owner);
    ssize_t count = 1;
    while (goes_on && count != 0) {
        count = read(fd, copy->piece, PIECE);
        if (count > 0) {
            goes_on = in_piece(copy, to, (size_t)count);
        } else if (count < 0 && errno != EINTR) {
            goes_on = disk_fails(copy);
        }
    }
    return goes_on && asked(copy, &time_of);
}

static bool in_file(copy *copy, int fd, const struct stat *status) {
    request made = { .make = make_file, .mode = kept(copy, status->st_mode) };
    if (!asked(copy, &made)) {
        return false;
    }
    bool copied = in_bytes(copy, fd, made.answer.number, status);
    return closed(copy, made.answer.number) && copied;
}

/* The first name in the tree of a file or link of the disk, if it has been copied. */
static const char *in_first(const copy *copy, const struct stat *status) {
    const uint64_t key[2] = { status->st_dev, status->st_ino };
    return status->st_nlink < 2 ? NULL : names_find(&copy->names, key);
}

/* Takes note of the name in the tree of a file or link that may have others. */
static bool in_noted(copy *copy, const struct stat *status) {
    const uint64_t key[2] = { status->st_dev, status->st_ino };
    return status->st_nlink < 2 || names_add(&copy->names, key, copy->path.at)
        || memory_fails(copy);
}

/* Gives what has been copied a further name. */
static bool in_name_of(copy *copy, const char *first) {
    request r = { .make = make_name, .other = first, .other_len = strlen(first) };
    return asked(copy, &r);
}

static bool in_below(copy *copy, int fd);

/* Copies what has been opened, and closes it. */
static outcome in_opened(copy *copy, int fd) {
    struct stat status;
    outcome came = CHANGED;
    if (fstat(fd, &status) != 0) {
        came = outcome_of(disk_fails(copy));
    } else if (S_ISDIR(status.st_mode)) {
        if (in_folder(copy, &status)) {
            return outcome_of(in_below(copy, fd));
        }
        came = FAILED;
    } else if (S_ISREG(status.st_mode)) {
        const char *first = in_first(copy, &status);
        came = outcome_of(first != NULL ? in_name_of(copy, first)
                                        : in_file(copy, fd, &status) && in_noted(copy, &status));
    }
    close(fd);
    return came;
}

/* Copies a symbolic link, which was looked at: its target is that of the same link. */
static outcome in_link(copy *copy, int above, const char *name, const struct stat *seen) {
    struct stat again;
    ssize_t len = readlinkat(above, name, copy->piece, PIECE);
    if (len < 0 || fstatat(above, name, &again, AT_SYMLINK_NOFOLLOW) != 0) {
        return errno == EINVAL || errno == ENOENT ? CHANGED : outcome_of(disk_fails(copy));
    }
    if (again.st_ino != seen->st_ino || again.st_dev != seen->st_dev) {
        return CHANGED;
    }
    const char *first = in_first(copy, seen);
    if (first != NULL) {
        return outcome_of(in_name_of(copy, first));
    }
    request r = { .make = make_link, .other = copy->piece, .other_len = (size_t)len };
    return outcome_of(asked(copy, &r) && in_noted(copy, seen));
}

/* Copies what has a name, as it looks. (To open a device may do something: so it is not opened.) */
static outcome in_seen(copy *copy, int above, const char *name) {
    struct stat seen;
    if (fstatat(above, name, &seen, AT_SYMLINK_NOFOLLOW) != 0) {
        return outcome_of(disk_fails(copy));
    }
    if (S_ISLNK(seen.st_mode)) {
        return in_link(copy, above, name, &seen);
    }
    if (!S_ISREG(seen.st_mode) && !S_ISDIR(seen.st_mode)) {
        return outcome_of(fails(copy, ENOTSUP, true));
    }
    int fd = openat(above, name, AS_IT_IS);
    if (fd < 0) {
        bool has_changed = errno == ELOOP || errno == ENXIO || errno == ENODEV;
        return has_changed ? CHANGED : outcome_of(disk_fails(copy));
    }
    return in_opened(copy, fd);
}

/* Copies what has a name in an open directory. */
static bool in_name(copy *copy, int above, const char *name) {
    place from;
    outcome came = outcome_of(enter(copy, name, &from));
    if (came == COPIED) {
        int changes = 0;
        do {
            came = in_seen(copy, above, name);
        } while (came == CHANGED && ++changes < MOST_CHANGES);
    }
    if (came == CHANGED) {
        fails(copy, EBUSY, true);
    }
    leave(copy, from);
    return came == COPIED;
}

static int compare(const void *a, const void *b) {
    return strcmp(*(char *const *)a, *(char *const *)b);
}

/* Reads the names of a directory, each with a null byte after it, and counts them. */
static bool in_read(copy *copy, DIR *folder, text *names, size_t *count) {
    const struct dirent *entry;
    while (errno = 0, (entry = readdir(folder)) != NULL) {
        const char *name = entry->d_name;
        if (strcmp(name, ".") == 0 || strcmp(name, "..") == 0) {
            continue;
        }
        if (!text_add(names, name, strlen(name) + 1)) {
            return memory_fails(copy);
        }
        ++*count;
    }
    return errno == 0 || disk_fails(copy);
}

/* Copies names in the order of their bytes. */
static bool in_names(copy *copy, int above, const text *names, size_t count) {
    char **sorted = calloc(count + 1, sizeof *sorted);
    if (sorted == NULL) {
        return memory_fails(copy);
    }
    size_t at = 0;
    for (size_t i = 0; i < count; i++) {
        sorted[i] = names->at + at;
        at += strlen(sorted[i]) + 1;
    }
    qsort(sorted, count, sizeof *sorted, compare);
    bool goes_on = true;
    for (size_t i = 0; goes_on && i < count; i++) {
        goes_on = in_name(copy, above, sorted[i]);
    }
    free(sorted);
    return goes_on;
}

/* Copies what is in an open directory, and closes that. */
static bool in_below(copy *copy, int fd) {
    DIR *folder = fdopendir(fd);
    if (folder == NULL) {
        disk_fails(copy);
        close(fd);
        return false;
    }
    text names = { NULL, 0, 0 };
    size_t count = 0;
    bool copied = in_read(copy, folder, &names, &count) && in_names(copy, fd, &names, count);
    free(names.at);
    closedir(folder);
    return copied;
}

static bool in_whole(copy *copy, const char *disk) {
    struct stat status;
    int fd = open(disk, O_RDONLY | O_DIRECTORY | O_CLOEXEC);
    if (fd < 0) {
        return disk_fails(copy);
    }
    bool is_made = fstat(fd, &status) != 0 ? disk_fails(copy)
                 : copy->path.len == 0     ? in_root(copy, &status)
                                           : in_folder(copy, &status);
    if (is_made) {
        return in_below(copy, fd);
    }
    close(fd);
    return false;
}

uint32_t nuz_copy_in(nuz_tree *tree, uint64_t txn, const char *disk, const void *path,
                     size_t len, const nuz_copy_options *options, nuz_copy_failure *failure) {
    nuz_copy_failure unseen;
    copy copy = { .tree = tree, .txn = txn, .failure = failure != NULL ? failure : &unseen };
    if (begin(&copy, options, (const char *)path, len)) {
        bool has_room = text_of_path(&copy.disk, disk, strlen(disk), 1);
        has_room ? in_whole(&copy, disk) : memory_fails(&copy);
    }
    return end(&copy);
}

/* ---- out */

/* Opens a directory for its owner to work in, also if a umask or its mode keeps him out of it. */
static int open_owned(int above, const char *name) {
    struct stat status;
    int fd = openat(above, name, FOLDER);
    if (fd < 0 && errno == EACCES && fchmodat(above, name, 0700, AT_SYMLINK_NOFOLLOW) == 0) {
        fd = openat(above, name, FOLDER);
    }
    if (fd >= 0 && fstat(fd, &status) == 0 && (status.st_mode & 0700) != 0700) {
        (void)!fchmod(fd, status.st_mode | 0700);
    }
    return fd;
}

/* Opens a directory by a path below an open one, name by name; that itself by an empty path. */
static int reach(int top, const char *path, size_t len) {
    int fd = openat(top, ".", FOLDER);
    while (fd >= 0 && len > 0) {
        char name[256] = { 0 };
        const char *slash = memchr(path, '/', len);
        size_t count = slash != NULL ? (size_t)(slash - path) : len;
        memcpy(name, path, count < sizeof name ? count : sizeof name - 1);
        int below = openat(fd, name, FOLDER);
        close_after(fd);
        fd = below;
        path += count + (slash != NULL);
        len -= count + (slash != NULL);
    }
    return fd;
}

/* The mode of what is open on the disk: without the bits by which a file runs as its owner or its
 * group, if these are others than in the tree. */
static uint32_t mode_of(const copy *copy, int fd, const nuz_answer *told) {
    struct stat status;
    uint32_t mode = kept(copy, told->mode);
    if ((mode & SET_ID) == 0) {
        return mode;
    }
    bool is_same = fstat(fd, &status) == 0 && status.st_uid == told->owner
                && status.st_gid == told->group;
    return is_same ? mode : mode & ~(uint32_t)SET_ID;
}

/* Sets the owner, if that may be: it takes bits of the mode away. Then the mode, and the time. */
static bool finish(copy *copy, int fd, const nuz_answer *told) {
    if (geteuid() == 0 && fchown(fd, told->owner, told->group) != 0 && errno != EPERM
        && errno != EINVAL) {
        return disk_fails(copy);
    }
    if (fchmod(fd, mode_of(copy, fd, told)) != 0) {
        return disk_fails(copy);
    }
    struct timespec times[2] = { copy->now, copy->now };
    if (told->has_time) {
        times[1].tv_sec = told->seconds;
        times[1].tv_nsec = told->nanoseconds;
    }
    if (told->kind == NUZ_FILE && futimens(fd, times) != 0) {
        return disk_fails(copy);
    }
    return !(copy->how.flags & NUZ_COPY_SYNC) || fsync(fd) == 0 || disk_fails(copy);
}

/* Returns the path of the copy's place below its top. */
static const char *below_top(const copy *copy) {
    size_t len = copy->disk_top;
    return copy->disk.len > len ? copy->disk.at + len + 1 : copy->disk.at + len;
}

/* Takes note of the directory at the place of the copy, to finish it when nothing is left to do. */
static bool out_noted(copy *copy, const nuz_answer *told) {
    if (copy->count == copy->room) {
        size_t room = 2 * copy->room + 16;
        folder *folders = realloc(copy->folders, room * sizeof *folders);
        if (folders == NULL) {
            return memory_fails(copy);
        }
        copy->folders = folders;
        copy->room = room;
    }
    char *name = text_alone(below_top(copy), strlen(below_top(copy)));
    if (name == NULL) {
        return memory_fails(copy);
    }
    copy->folders[copy->count++] = (folder){ name, *told };
    return true;
}

static bool out_below(copy *copy, int fd);

static bool out_folder(copy *copy, int above, const char *name, const nuz_answer *told) {
    if (mkdirat(above, name, 0700) != 0) {
        return disk_fails(copy);
    }
    int fd = open_owned(above, name);
    if (fd < 0) {
        return disk_fails(copy);
    }
    bool copied = out_noted(copy, told) && out_below(copy, fd);
    close(fd);
    return copied;
}

static bool out_piece(copy *copy, int to, size_t count) {
    const char *bytes = copy->piece;
    while (count > 0) {
        ssize_t written = write(to, bytes, count);
        if (written >= 0) {
            bytes += written;
            count -= (size_t)written;
        } else if (errno != EINTR) {
            return disk_fails(copy);
        }
    }
    return true;
}

static bool out_bytes(copy *copy, int to) {
    request opened = { .make = open_file };
    if (!asked(copy, &opened)) {
        return false;
    }
    request r = { .make = read_file,
                  .fd = opened.answer.number,
                  .bytes = copy->piece,
                  .count = PIECE };
    bool goes_on = true;
    do {
        goes_on = asked(copy, &r) && out_piece(copy, to, (size_t)r.answer.number);
    } while (goes_on && r.answer.number > 0);
    return closed(copy, r.fd) && goes_on;
}

static bool out_file(copy *copy, int above, const char *name, const nuz_answer *told) {
    int fd = openat(above, name, O_WRONLY | O_CREAT | O_EXCL | O_NOFOLLOW | O_CLOEXEC, 0600);
    if (fd < 0) {
        return disk_fails(copy);
    }
    bool copied = out_bytes(copy, fd) && finish(copy, fd, told);
    return (close(fd) == 0 || disk_fails(copy)) && copied;
}

static bool out_link(copy *copy, int above, const char *name) {
    char target[NUZ_COPY_ROOM];
    request r = { .make = read_link, .bytes = target, .count = sizeof target - 1 };
    if (!asked(copy, &r)) {
        return false;
    }
    target[r.answer.number] = '\0';
    return symlinkat(target, above, name) == 0 || disk_fails(copy);
}

/* Gives what has been copied a further name. */
static bool out_name_of(copy *copy, const char *first, int above, const char *name) {
    const char *slash = strrchr(first, '/');
    int from = reach(copy->top, first, slash != NULL ? (size_t)(slash - first) : 0);
    if (from < 0) {
        return disk_fails(copy);
    }
    const char *last = slash != NULL ? slash + 1 : first;
    bool linked = linkat(from, last, above, name, 0) == 0 || disk_fails(copy);
    close(from);
    return linked;
}

/* Copies a file or link that may have other names. */
static bool out_named(copy *copy, int above, const char *name, const nuz_answer *told) {
    const uint64_t key[2] = { told->number, 0 };
    const char *first = told->links < 2 ? NULL : names_find(&copy->names, key);
    if (first != NULL) {
        return out_name_of(copy, first, above, name);
    }
    bool copied = told->kind == NUZ_LINK ? out_link(copy, above, name)
                                         : out_file(copy, above, name, told);
    return copied
        && (told->links < 2 || names_add(&copy->names, key, below_top(copy)) || memory_fails(copy));
}

static bool out_name(copy *copy, int above, const char *name) {
    place from;
    request r = { .make = tell_name };
    bool copied = enter(copy, name, &from) && asked(copy, &r)
               && (r.answer.kind == NUZ_DIR ? out_folder(copy, above, name, &r.answer)
                                            : out_named(copy, above, name, &r.answer));
    leave(copy, from);
    return copied;
}

/* Copies the contents of the tree's directory at the place of the copy. */
static bool out_below(copy *copy, int fd) {
    text names = { NULL, 0, 0 };
    request r = { .make = list, .names = &names };
    bool goes_on = asked(copy, &r);
    for (size_t at = 0; goes_on && at < names.len; at += strlen(names.at + at) + 1) {
        goes_on = out_name(copy, fd, names.at + at + 1);
    }
    free(names.at);
    return goes_on;
}

/* Finishes the directories, those in one before that: so nobody else comes into the copy before all
 * of it is finished. */
static bool finish_folders(copy *copy) {
    bool goes_on = true;
    for (size_t i = copy->count; goes_on && i-- > 0;) {
        const folder *folder = &copy->folders[i];
        place from = { copy->disk.len, copy->path.len };
        goes_on = *folder->name == '\0' || enter(copy, folder->name, &from);
        int fd = goes_on ? reach(copy->top, folder->name, strlen(folder->name)) : -1;
        if (fd >= 0) {
            goes_on = finish(copy, fd, &folder->told);
            close(fd);
        } else if (goes_on) {
            goes_on = disk_fails(copy);
        }
        leave(copy, from);
    }
    return goes_on;
}

static bool removed_below(int fd);

/* Removes what has a name in an open directory, with all below it, also if modes keep its owner
 * from that. No symbolic link is followed. */
static bool removed(int above, const char *name) {
    if (unlinkat(above, name, 0) == 0) {
        return true;
    }
    if (errno != EISDIR && errno != EPERM) {
        return false;
    }
    if (unlinkat(above, name, AT_REMOVEDIR) == 0) {
        return true;
    }
    if (errno != ENOTEMPTY && errno != EEXIST) {
        return false;
    }
    int fd = open_owned(above, name);
    return fd >= 0 && removed_below(fd) && unlinkat(above, name, AT_REMOVEDIR) == 0;
}

/* Removes what is in an open directory, and closes that. */
static bool removed_below(int fd) {
    DIR *folder = fdopendir(fd);
    if (folder == NULL) {
        return close_after(fd);
    }
    const struct dirent *entry;
    bool goes_on = true;
    while (goes_on && (entry = readdir(folder)) != NULL) {
        const char *name = entry->d_name;
        goes_on = strcmp(name, ".") == 0 || strcmp(name, "..") == 0 || removed(fd, name);
    }
    int number = errno;
    closedir(folder);
    errno = number;
    return goes_on;
}

/* Makes a directory of an unused name, alongside the final place of the copy. */
static bool make_beside(copy *copy, int above, char made[256]) {
    unsigned long mix = (unsigned long)copy->now.tv_nsec ^ (unsigned long)getpid() << 12;
    for (unsigned long tries = 0; tries < 1000; tries++) {
        snprintf(made, 256, ".%.200s.%08lx", copy->name.at, (mix + 7919 * tries) & 0xffffffff);
        if (mkdirat(above, made, 0700) == 0) {
            return true;
        }
        if (errno != EEXIST) {
            break;
        }
    }
    return disk_fails(copy);
}

/* Exchanges two names in steps, between which the second one is missing. */
static bool exchange_in_steps(int above, const char *one, const char *other) {
    char spare[270];
    snprintf(spare, sizeof spare, "%.250s.old", one);
    if (renameat(above, other, above, spare) != 0) {
        return false;
    }
    if (renameat(above, one, above, other) != 0) {
        int number = errno;
        renameat(above, spare, above, other);
        errno = number;
        return false;
    }
    return renameat(above, spare, above, one) == 0;
}

/* Exchanges two names in an open directory, at once if the file system can. */
static bool exchange(int above, const char *one, const char *other) {
#ifdef SYS_renameat2
    const unsigned exchange = 2; /* RENAME_EXCHANGE */
    if (syscall(SYS_renameat2, above, one, above, other, exchange) == 0) {
        return true;
    }
    if (errno != EINVAL && errno != ENOSYS) {
        return false;
    }
#endif
    return exchange_in_steps(above, one, other);
}

/* Whether a name leads to what the copy has found in its place; if not, errno says why. */
static bool is_before(const copy *copy, int above, const char *name) {
    struct stat there;
    if (fstatat(above, name, &there, AT_SYMLINK_NOFOLLOW) != 0) {
        return false;
    }
    bool is_same = there.st_dev == copy->before.st_dev && there.st_ino == copy->before.st_ino;
    errno = is_same ? errno : EBUSY;
    return is_same;
}

/* Exchanges the copy with what was there before it. Whatever else has got its name gets it back.
 * Returns whether the directory that is left alongside it is to be removed. */
static bool replace(copy *copy, int above, const char *made, bool *is_left) {
    const char *name = copy->name.at;
    *is_left = true;
    if (!S_ISDIR(copy->before.st_mode)) {
        return fails(copy, ENOTDIR, true);
    }
    if (!is_before(copy, above, name) || !exchange(above, made, name)) {
        return disk_fails(copy);
    }
    if (!is_before(copy, above, made)) {
        disk_fails(copy);
        *is_left = exchange(above, made, name);
        return false;
    }
    return true;
}

/* Gives the copy its name. Whether something is left then of the name under which it was made. */
static bool give_name(copy *copy, int above, const char *made, bool *is_left) {
    struct stat there;
    bool is_named;
    if (copy->was_there && copy->how.flags & NUZ_COPY_REPLACE
        && fstatat(above, copy->name.at, &there, AT_SYMLINK_NOFOLLOW) == 0) {
        is_named = replace(copy, above, made, is_left);
    } else {
        is_named = renameat(above, made, above, copy->name.at) == 0 || disk_fails(copy);
        *is_left = !is_named;
    }
    if (!is_named) {
        return false;
    }
    return !(copy->how.flags & NUZ_COPY_SYNC) || fsync(above) == 0 || disk_fails(copy);
}

static bool out_made(copy *copy, int above, const char *made, const nuz_answer *told) {
    copy->top = open_owned(above, made);
    if (copy->top < 0) {
        return disk_fails(copy);
    }
    bool copied = out_noted(copy, told) && out_below(copy, copy->top) && finish_folders(copy);
    close(copy->top);
    return copied;
}

/* Takes note that the directory which was made alongside the place of the copy can't be removed. */
static bool left_fails(copy *copy, const char *made) {
    uint32_t code = (uint32_t)errno;
    text_cut(&copy->disk, copy->disk_top - copy->name.len);
    return text_add(&copy->disk, made, strlen(made)) ? fails(copy, code, true)
                                                     : memory_fails(copy);
}

/* Copies to a directory alongside the place of the copy, which then gets its name. */
static bool out_beside(copy *copy, int above, const nuz_answer *told) {
    char made[256];
    copy->was_there = fstatat(above, copy->name.at, &copy->before, AT_SYMLINK_NOFOLLOW) == 0;
    if (!make_beside(copy, above, made)) {
        return false;
    }
    bool is_left = true;
    bool copied = out_made(copy, above, made, told) && give_name(copy, above, made, &is_left);
    return (!is_left || removed(above, made) || left_fails(copy, made)) && copied;
}

/* Takes the last name of the place of the copy, and opens the directory above it. */
static int open_above(copy *copy) {
    const char *slash = strrchr(copy->disk.at, '/');
    const char *name = slash != NULL ? slash + 1 : copy->disk.at;
    size_t len = strlen(name), len_above = copy->disk.len - len;
    errno = EINVAL;
    if (len == 0 || strcmp(name, ".") == 0 || strcmp(name, "..") == 0) {
        return -1;
    }
    errno = ENOMEM;
    char *above = len_above == 0 ? text_alone(".", 1) : text_alone(copy->disk.at, len_above);
    bool has_room = above != NULL && text_add(&copy->name, name, len);
    int fd = has_room ? open(above, O_RDONLY | O_DIRECTORY | O_CLOEXEC) : -1;
    int number = errno;
    free(above);
    errno = number;
    return fd;
}

static bool out_whole(copy *copy) {
    copy->disk_top = copy->disk.len;
    request r = { .make = tell };
    if (!asked(copy, &r)) {
        return false;
    }
    if (r.answer.kind != NUZ_DIR) {
        return fails(copy, ENOTDIR, false);
    }
    int above = open_above(copy);
    if (above < 0) {
        return disk_fails(copy);
    }
    bool copied = out_beside(copy, above, &r.answer);
    close(above);
    return copied;
}

uint32_t nuz_copy_out(nuz_tree *tree, uint64_t txn, const void *path, size_t len,
                      const char *disk, const nuz_copy_options *options,
                      nuz_copy_failure *failure) {
    nuz_copy_failure unseen;
    copy copy = { .tree = tree, .txn = txn, .failure = failure != NULL ? failure : &unseen };
    clock_gettime(CLOCK_REALTIME, &copy.now);
    if (begin(&copy, options, (const char *)path, len)) {
        bool has_room = text_of_path(&copy.disk, disk, strlen(disk), 1);
        has_room ? out_whole(&copy) : memory_fails(&copy);
    }
    return end(&copy);
}
