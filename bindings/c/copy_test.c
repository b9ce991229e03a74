/* Tries the functions of nuzolged_copy.h on a real disk, where things change meanwhile, have no
 * room or fail, and where the process dies.
 *
 *     copy_test FOLDER
 *
 * FOLDER is an empty directory to work in. The last line is 'N passed, M failed', and the status is
 * 0 if none failed.
 *
 * It is linked with --wrap for the functions of the system by which a copy works, so that a test
 * can do something right before one of them, or have it fail.
 */
#define _GNU_SOURCE /* for nftw, mount and renameat2 */

#include <nuzolged_copy.h>

#include <dirent.h>
#include <errno.h>
#include <fcntl.h>
#include <ftw.h>
#include <inttypes.h>
#include <signal.h>
#include <stdarg.h>
#include <stdio.h>
#include <stdlib.h>
#include <sys/mount.h>
#include <sys/resource.h>
#include <sys/socket.h>
#include <sys/stat.h>
#include <sys/syscall.h>
#include <sys/un.h>
#include <sys/wait.h>
#include <unistd.h>

#include "testing.h"

/* ---- functions of the system, before each of which something may happen */

/* Runs before a function of the system; returns 0, or the errno with which that is to fail. */
static int (*before)(const char *function, int folder, const char *name);

static bool goes_wrong(const char *function, int folder, const char *name) {
    int number = before == NULL ? 0 : before(function, folder, name);
    errno = number != 0 ? number : errno;
    return number != 0;
}

#define WRAPPED(type, failed, function, takes, args, folder, name)           \
    type __real_##function takes;                                            \
    type __wrap_##function takes;                                            \
    type __wrap_##function takes {                                           \
        return goes_wrong(#function, folder, name) ? (type)(failed)          \
                                                   : __real_##function args; \
    }

WRAPPED(void *, NULL, malloc, (size_t size), (size), -1, NULL)
WRAPPED(void *, NULL, calloc, (size_t count, size_t size), (count, size), -1, NULL)
WRAPPED(void *, NULL, realloc, (void *old, size_t size), (old, size), -1, NULL)
WRAPPED(int, -1, fstat, (int fd, struct stat *status), (fd, status), fd, NULL)
WRAPPED(int, -1, fstatat, (int fd, const char *name, struct stat *status, int flags),
        (fd, name, status, flags), fd, name)
WRAPPED(ssize_t, -1, readlinkat, (int fd, const char *name, char *bytes, size_t room),
        (fd, name, bytes, room), fd, name)
WRAPPED(ssize_t, -1, read, (int fd, void *bytes, size_t room), (fd, bytes, room), fd, NULL)
WRAPPED(ssize_t, -1, write, (int fd, const void *bytes, size_t count), (fd, bytes, count), fd, NULL)
WRAPPED(int, -1, mkdirat, (int fd, const char *name, mode_t mode), (fd, name, mode), fd, name)
WRAPPED(int, -1, symlinkat, (const char *target, int fd, const char *name), (target, fd, name), fd,
        name)
WRAPPED(int, -1, linkat, (int fd, const char *name, int to, const char *other, int flags),
        (fd, name, to, other, flags), fd, name)
WRAPPED(int, -1, renameat, (int fd, const char *name, int to, const char *other),
        (fd, name, to, other), fd, name)
WRAPPED(int, -1, unlinkat, (int fd, const char *name, int flags), (fd, name, flags), fd, name)
WRAPPED(int, -1, fchown, (int fd, uid_t owner, gid_t group), (fd, owner, group), fd, NULL)
WRAPPED(int, -1, fchmod, (int fd, mode_t mode), (fd, mode), fd, NULL)
WRAPPED(int, -1, futimens, (int fd, const struct timespec *times), (fd, times), fd, NULL)
WRAPPED(int, -1, fsync, (int fd), (fd), fd, NULL)
WRAPPED(DIR *, NULL, fdopendir, (int fd), (fd), fd, NULL)
WRAPPED(struct dirent *, NULL, readdir, (DIR *folder), (folder), -1, NULL)

int __real_openat(int folder, const char *name, int flags, ...);
int __wrap_openat(int folder, const char *name, int flags, ...);
int __wrap_openat(int folder, const char *name, int flags, ...) {
    va_list rest;
    va_start(rest, flags);
    mode_t mode = flags & O_CREAT ? va_arg(rest, mode_t) : 0;
    va_end(rest);
    return goes_wrong("openat", folder, name) ? -1 : __real_openat(folder, name, flags, mode);
}

long __real_syscall(long number, int fd, const char *name, int to, const char *other, unsigned how);
long __wrap_syscall(long number, int fd, const char *name, int to, const char *other, unsigned how);
long __wrap_syscall(long number, int fd, const char *name, int to, const char *other,
                    unsigned how) {
    return goes_wrong("renameat2", fd, name) ? -1
                                             : __real_syscall(number, fd, name, to, other, how);
}

/* ---- what the tests begin with */

typedef struct job {
    nuz_tree *tree;
    uint64_t txn;
    nuz_answer last;
} job;

static const char *top; /* the directory to work in */

/* A path below that, of which four are kept. */
static const char *at(const char *name) {
    static char paths[4][8192];
    static unsigned next;
    char *path = paths[next++ % 4];
    snprintf(path, sizeof paths[0], "%s%s%s", top, *name ? "/" : "", name);
    return path;
}

static uint64_t other_txn(job *job) {
    return nuz_begin(job->tree, &job->last) == 0 ? job->last.number : 0;
}

static bool begun_with(job *job, const nuz_limits *limits) {
    return nuz_tree_open_with(&job->tree, 0, limits) == 0 && (job->txn = other_txn(job)) != 0;
}

static bool begun(job *job) {
    const nuz_limits greatest = NUZ_LIMITS_GREATEST;
    return begun_with(job, &greatest);
}

static void ended(job *job) {
    nuz_tree_close(job->tree);
}

static uint32_t commit(job *job, uint64_t txn) {
    return nuz_commit(job->tree, txn, &job->last);
}

static bool aborted(job *job) {
    return nuz_abort(job->tree, job->txn, &job->last) == 0;
}

static nuz_answer told(job *job, const char *path) {
    nuz_lstat(job->tree, job->txn, NUZ_S(path), &job->last);
    return job->last;
}

static uint32_t tree_folder(job *job, uint64_t txn, const char *path, uint32_t mode) {
    return nuz_mkdir(job->tree, txn, NUZ_S(path), mode, &job->last);
}

static uint32_t tree_link(job *job, const char *target, const char *path) {
    return nuz_symlink(job->tree, job->txn, NUZ_S(target), NUZ_S(path), &job->last);
}

static uint32_t tree_name(job *job, const char *path, const char *other) {
    return nuz_link(job->tree, job->txn, NUZ_S(path), NUZ_S(other), &job->last);
}

static uint32_t tree_owner(job *job, const char *path, uint32_t owner, uint32_t group) {
    return nuz_chown(job->tree, job->txn, NUZ_S(path), owner, group, &job->last);
}

static uint64_t tree_opened(job *job, const char *path, uint32_t flags, uint32_t mode) {
    uint32_t code = nuz_open(job->tree, job->txn, NUZ_S(path), flags, mode, &job->last);
    return code == 0 ? job->last.number : 0;
}

/* Makes a file of the tree of so many bytes of one kind. */
static uint32_t tree_file(job *job, const char *path, uint32_t mode, int byte, size_t count) {
    uint8_t *bytes = malloc(count + 1);
    if (bytes == NULL) {
        return NUZ_MEMORY;
    }
    memset(bytes, byte, count);
    uint64_t fd = tree_opened(job, path, NUZ_O_WRONLY | NUZ_O_CREAT | NUZ_O_EXCL, mode);
    uint32_t code = job->last.code;
    if (code == 0 && count > 0) {
        code = nuz_write(job->tree, job->txn, fd, bytes, count, &job->last);
    }
    free(bytes);
    return code != 0 ? code : nuz_close(job->tree, job->txn, fd, &job->last);
}

/* Whether a file of the tree has these bytes. */
static bool tree_has(job *job, const char *path, const char *bytes) {
    uint8_t found[4096];
    uint64_t fd = tree_opened(job, path, NUZ_O_RDONLY, NUZ_DEFAULT_MODE);
    uint32_t code = nuz_read(job->tree, job->txn, fd, found, sizeof found, &job->last);
    size_t count = (size_t)job->last.number;
    return code == 0 && nuz_close(job->tree, job->txn, fd, &job->last) == 0
        && count == strlen(bytes) && memcmp(found, bytes, count) == 0;
}

/* Whether nothing in the tree is open. */
static bool none_is_open(job *job) {
    static char text[65536];
    uint32_t code = nuz_request(job->tree, NUZ_S("tree"), text, sizeof text - 1, &job->last);
    text[job->last.reply < sizeof text ? job->last.reply : 0] = '\0';
    return code == 0 && *text != '\0' && strstr(text, "fd ") == NULL;
}

static uint32_t copy_in(job *job, const char *disk, const char *path, nuz_copy_failure *failure) {
    return nuz_copy_in(job->tree, job->txn, disk, NUZ_S(path), NULL, failure);
}

static uint32_t copy_out(job *job, const char *disk, uint32_t flags, nuz_copy_failure *failure) {
    nuz_copy_options how = { flags, NULL, NULL };
    return nuz_copy_out(job->tree, job->txn, NUZ_S("/"), disk, &how, failure);
}

/* ---- the disk */

static bool disk_file(const char *path, mode_t mode, const char *bytes) {
    FILE *file = fopen(path, "w");
    return file != NULL && fputs(bytes, file) >= 0 && fclose(file) == 0 && chmod(path, mode) == 0;
}

static bool disk_has(const char *path, const char *bytes) {
    char found[4096];
    FILE *file = fopen(path, "r");
    size_t count = file == NULL ? 0 : fread(found, 1, sizeof found, file);
    return file != NULL && fclose(file) == 0 && count == strlen(bytes)
        && memcmp(found, bytes, count) == 0;
}

static bool is_there(const char *path) {
    struct stat status;
    return lstat(path, &status) == 0;
}

static unsigned mode_of(const char *path) {
    struct stat status;
    return lstat(path, &status) == 0 ? (unsigned)status.st_mode & 07777 : 010000;
}

static bool leads_to(const char *path, const char *target) {
    char found[4096];
    ssize_t len = readlink(path, found, sizeof found);
    return len == (ssize_t)strlen(target) && memcmp(found, target, (size_t)len) == 0;
}

static int remove_one(const char *path, const struct stat *status, int kind, struct FTW *walk) {
    (void)status, (void)kind, (void)walk;
    return remove(path);
}

static bool removed(const char *path) {
    return !is_there(path) || nftw(path, remove_one, 16, FTW_DEPTH | FTW_PHYS) == 0;
}

/* How many names of the directory to work in begin with a dot: what copies have left. */
static unsigned left(void) {
    unsigned count = 0;
    DIR *folder = opendir(top);
    for (struct dirent *entry; folder != NULL && (entry = readdir(folder)) != NULL;) {
        count += entry->d_name[0] == '.' && strcmp(entry->d_name, ".") != 0
              && strcmp(entry->d_name, "..") != 0;
    }
    closedir(folder);
    return count;
}

/* Removes what copies have left. */
static void remove_left(void) {
    DIR *folder = opendir(top);
    for (struct dirent *entry; folder != NULL && (entry = readdir(folder)) != NULL;) {
        if (strcmp(entry->d_name, ".") != 0 && strcmp(entry->d_name, "..") != 0
            && entry->d_name[0] == '.') {
            removed(at(entry->d_name));
        }
    }
    closedir(folder);
}

/* Makes a directory of the disk with something of each kind. */
static bool made_source(void) {
    return removed(at("in")) && mkdir(at("in"), 0751) == 0 && mkdir(at("in/sub"), 0755) == 0
        && mkdir(at("in/empty"), 0700) == 0 && disk_file(at("in/sub/file"), 0640, "some bytes")
        && disk_file(at("in/secret"), 0600, "nobody else's") && chmod(at("in"), 0751) == 0
        && link(at("in/sub/file"), at("in/zname")) == 0
        && symlink("sub/file", at("in/link")) == 0 && symlink("no/such", at("in/sub/none")) == 0;
}

/* ---- tests */

static bool copies_are_alike(void) {
    job job;
    nuz_copy_failure failure;
    struct timespec times[2] = { { 5, 0 }, { -7, 250000000 } };
    struct stat one, other;
    CHECK(made_source() && begun(&job));
    CHECK(utimensat(AT_FDCWD, at("in/sub/file"), times, 0) == 0);
    CHECK(copy_in(&job, at("in/"), "/", &failure) == 0 && failure.code == 0);
    CHECK(told(&job, "/").mode == 0751 && told(&job, "/empty").mode == 0700);
    CHECK(told(&job, "/secret").mode == 0600 && told(&job, "/zname").links == 2);
    CHECK(told(&job, "/zname").number == told(&job, "/sub/file").number);
    CHECK(told(&job, "/zname").seconds == -7 && told(&job, "/zname").nanoseconds == 250000000);
    CHECK(told(&job, "/link").kind == NUZ_LINK && none_is_open(&job));
    CHECK(copy_out(&job, at("out//"), NUZ_COPY_SYNC, &failure) == 0 && failure.code == 0);
    CHECK(disk_has(at("out/sub/file"), "some bytes") && mode_of(at("out/sub/file")) == 0640);
    CHECK(mode_of(at("out")) == 0751 && mode_of(at("out/empty")) == 0700);
    CHECK(mode_of(at("out/secret")) == 0600 && disk_has(at("out/secret"), "nobody else's"));
    CHECK(leads_to(at("out/link"), "sub/file") && leads_to(at("out/sub/none"), "no/such"));
    CHECK(stat(at("out/zname"), &one) == 0 && stat(at("out/sub/file"), &other) == 0);
    CHECK(one.st_ino == other.st_ino && one.st_mtim.tv_sec == -7);
    CHECK(left() == 0 && none_is_open(&job));
    ended(&job);
    return removed(at("out"));
}

static bool place_in_the_tree_may_be_there(void) {
    job job;
    nuz_copy_failure failure;
    CHECK(made_source() && begun(&job));
    CHECK(tree_folder(&job, job.txn, "/sub", 0711) == 0);
    CHECK(copy_in(&job, at("in"), "/new/", NULL) == 0 && told(&job, "/new").mode == 0751);
    CHECK(copy_in(&job, at("in"), "//", NULL) == 0);
    CHECK(told(&job, "/").mode == 0755 && told(&job, "/sub").mode == 0711);
    CHECK(copy_in(&job, at("in"), "/", &failure) == EEXIST && !failure.on_disk);
    CHECK(strcmp(failure.path, "/link") == 0 && strcmp(failure.disk, at("in/link")) == 0);
    CHECK(copy_in(&job, at("in"), "/no/such", &failure) == ENOENT && !failure.on_disk);
    CHECK(copy_in(&job, at("in"), "/secret", &failure) == EEXIST);
    CHECK(strcmp(failure.path, "/secret") == 0);
    CHECK(copy_in(&job, at("none"), "/", &failure) == ENOENT && failure.on_disk);
    CHECK(strcmp(failure.disk, at("none")) == 0 && strcmp(failure.path, "/") == 0);
    CHECK(copy_in(&job, at("in/secret"), "/", &failure) == ENOTDIR && failure.on_disk);
    CHECK(nuz_copy_in(job.tree, job.txn, at("in"), "/a\0b", 4, NULL, NULL)
          == NUZ_BAD);
    CHECK(nuz_copy_in(job.tree, 99, at("in"), NUZ_S("/a"), NULL, NULL) == NUZ_NO_TXN);
    ended(&job);
    return true;
}

static bool place_on_the_disk_may_be_empty_or_replaced(void) {
    job job;
    nuz_copy_failure failure;
    CHECK(made_source() && begun(&job) && copy_in(&job, at("in"), "/", NULL) == 0);
    CHECK(mkdir(at("out"), 0700) == 0 && copy_out(&job, at("out"), 0, NULL) == 0);
    CHECK(mode_of(at("out")) == 0751 && disk_file(at("out/mine"), 0644, "mine"));
    CHECK(copy_out(&job, at("out"), 0, &failure) == ENOTEMPTY && failure.on_disk);
    CHECK(strcmp(failure.disk, at("out")) == 0 && disk_has(at("out/mine"), "mine"));
    CHECK(copy_out(&job, at("out"), NUZ_COPY_REPLACE | NUZ_COPY_SYNC, NULL) == 0);
    CHECK(!is_there(at("out/mine")) && is_there(at("out/link")) && left() == 0);
    CHECK(symlink("in", at("to_in")) == 0);
    CHECK(copy_out(&job, at("to_in"), NUZ_COPY_REPLACE, &failure) == ENOTDIR);
    CHECK(copy_out(&job, at("to_in"), 0, &failure) == ENOTDIR && leads_to(at("to_in"), "in"));
    CHECK(copy_out(&job, at("in/secret"), NUZ_COPY_REPLACE, NULL) == ENOTDIR);
    CHECK(copy_out(&job, at("new"), NUZ_COPY_REPLACE, NULL) == 0 && is_there(at("new/zname")));
    CHECK(copy_out(&job, at("."), 0, NULL) == EINVAL && copy_out(&job, "/", 0, NULL) == EINVAL);
    CHECK(copy_out(&job, "", 0, NULL) == EINVAL && copy_out(&job, at("in/.."), 0, NULL) == EINVAL);
    CHECK(copy_out(&job, at("no/such"), 0, &failure) == ENOENT && failure.on_disk);
    CHECK(nuz_copy_out(job.tree, job.txn, NUZ_S("/none"), at("o"), NULL, NULL) == ENOENT);
    CHECK(nuz_copy_out(job.tree, job.txn, NUZ_S("/zname"), at("o"), NULL, &failure) == ENOTDIR);
    CHECK(!failure.on_disk && strcmp(failure.path, "/zname") == 0 && !is_there(at("o")));
    CHECK(nuz_copy_out(job.tree, job.txn, NUZ_S("sub//"), at("o"), NULL, NULL) == 0);
    CHECK(disk_has(at("o/file"), "some bytes") && left() == 0);
    ended(&job);
    return removed(at("out")) && removed(at("new")) && removed(at("o")) && removed(at("to_in"));
}

static int no_exchange(const char *function, int folder, const char *name) {
    (void)folder, (void)name;
    return strcmp(function, "renameat2") == 0 ? EINVAL : 0;
}

static bool place_is_replaced_in_steps(void) {
    job job;
    CHECK(made_source() && begun(&job) && copy_in(&job, at("in"), "/", NULL) == 0);
    CHECK(mkdir(at("out"), 0700) == 0 && disk_file(at("out/mine"), 0644, "mine"));
    before = no_exchange;
    uint32_t code = copy_out(&job, at("out"), NUZ_COPY_REPLACE, NULL);
    before = NULL;
    CHECK(code == 0 && !is_there(at("out/mine")) && is_there(at("out/link")) && left() == 0);
    ended(&job);
    return removed(at("out"));
}

static const char *swaps_before;

/* Puts another directory in the place of a copy, once. */
static int swap_place(const char *function, int folder, const char *name) {
    (void)folder, (void)name;
    if (swaps_before == NULL || strcmp(function, swaps_before) != 0) {
        return 0;
    }
    swaps_before = NULL;
    bool is_swapped = rename(at("out"), at("aside")) == 0 && rename(at("other"), at("out")) == 0;
    return is_swapped ? 0 : EIO;
}

static bool another_directory_is_not_replaced(void) {
    const char *functions[] = { "mkdirat", "fchmod", "renameat2" };
    job job;
    nuz_copy_failure failure;
    CHECK(made_source() && begun(&job) && copy_in(&job, at("in"), "/", NULL) == 0);
    for (size_t i = 0; i < sizeof functions / sizeof functions[0]; i++) {
        CHECK(mkdir(at("out"), 0700) == 0 && mkdir(at("other"), 0700) == 0);
        CHECK(disk_file(at("out/mine"), 0644, "mine"));
        CHECK(disk_file(at("other/file"), 0644, "of somebody else"));
        swaps_before = functions[i];
        before = swap_place;
        uint32_t code = copy_out(&job, at("out"), NUZ_COPY_REPLACE, &failure);
        before = NULL;
        CHECK(code == EBUSY && failure.on_disk && strcmp(failure.disk, at("out")) == 0);
        CHECK(disk_has(at("out/file"), "of somebody else") && disk_has(at("aside/mine"), "mine"));
        CHECK(left() == 0 && removed(at("out")) && removed(at("aside")));
    }
    ended(&job);
    return true;
}

static bool modes_that_shut_their_owner_out_are_copied(void) {
    job job;
    CHECK(begun(&job) && tree_folder(&job, job.txn, "/shut", 0) == 0);
    CHECK(tree_folder(&job, job.txn, "/shut/in", 0100) == 0);
    CHECK(tree_file(&job, "/shut/in/file", 0, 'a', 3) == 0);
    CHECK(tree_name(&job, "/shut/in/file", "/zname") == 0);
    mode_t mask = umask(0777);
    uint32_t code = copy_out(&job, at("out"), 0, NULL);
    CHECK(code == 0 && copy_out(&job, at("out"), NUZ_COPY_REPLACE, NULL) == 0);
    umask(mask);
    CHECK(mode_of(at("out/shut")) == 0 && mode_of(at("out/zname")) == 0);
    CHECK(chmod(at("out/shut"), 0700) == 0 && mode_of(at("out/shut/in")) == 0100);
    CHECK(chmod(at("out/shut/in"), 0700) == 0 && left() == 0);
    ended(&job);
    return removed(at("out"));
}

static bool bits_that_run_as_another_are_asked_for(void) {
    job job;
    nuz_copy_options set_id = { NUZ_COPY_SET_ID, NULL, NULL };
    CHECK(removed(at("in")) && mkdir(at("in"), 0755) == 0);
    CHECK(disk_file(at("in/run"), 04755, "") && begun(&job));
    CHECK(nuz_copy_in(job.tree, job.txn, at("in"), NUZ_S("/"), &set_id, NULL) == 0);
    CHECK(told(&job, "/run").mode == 04755 && copy_in(&job, at("in"), "/b", NULL) == 0);
    CHECK(told(&job, "/b/run").mode == 0755 && copy_out(&job, at("out"), 0, NULL) == 0);
    CHECK(mode_of(at("out/run")) == 0755);
    CHECK(copy_out(&job, at("out"), NUZ_COPY_SET_ID | NUZ_COPY_REPLACE, NULL) == 0);
    CHECK(mode_of(at("out/run")) == 04755);
    CHECK(geteuid() == 0 || tree_owner(&job, "/run", 12345, 12345) == 0);
    CHECK(copy_out(&job, at("out"), NUZ_COPY_SET_ID | NUZ_COPY_REPLACE, NULL) == 0);
    CHECK(mode_of(at("out/run")) == (geteuid() == 0 ? 04755 : 0755));
    ended(&job);
    return removed(at("out"));
}

static bool owners_are_copied_by_root(void) {
    job job;
    struct stat status;
    if (geteuid() != 0) {
        return true;
    }
    CHECK(made_source() && chown(at("in/sub"), 3, 4) == 0 && chown(at("in/secret"), 5, 6) == 0);
    CHECK(begun(&job) && copy_in(&job, at("in"), "/", NULL) == 0);
    CHECK(told(&job, "/sub").owner == 3 && told(&job, "/secret").group == 6);
    CHECK(copy_out(&job, at("out"), 0, NULL) == 0);
    CHECK(stat(at("out/sub"), &status) == 0 && status.st_uid == 3 && status.st_gid == 4);
    CHECK(stat(at("out/secret"), &status) == 0 && status.st_uid == 5 && status.st_gid == 6);
    CHECK(mode_of(at("out/secret")) == 0600);
    ended(&job);
    return removed(at("out"));
}

static bool made_socket(const char *name) {
    struct sockaddr_un address = { .sun_family = AF_UNIX };
    int fd = socket(AF_UNIX, SOCK_STREAM, 0);
    bool is_made = chdir(top) == 0 && snprintf(address.sun_path, 100, "%s", name) < 100
                && bind(fd, (struct sockaddr *)&address, sizeof address) == 0;
    close(fd);
    return is_made;
}

static bool what_no_tree_has_is_told(void) {
    job job;
    nuz_copy_failure failure;
    CHECK(made_source() && mkfifo(at("in/sub/pipe"), 0600) == 0 && begun(&job));
    CHECK(copy_in(&job, at("in"), "/", &failure) == ENOTSUP && failure.on_disk);
    CHECK(strcmp(failure.disk, at("in/sub/pipe")) == 0);
    CHECK(strcmp(failure.path, "/sub/pipe") == 0 && none_is_open(&job));
    CHECK(unlink(at("in/sub/pipe")) == 0 && made_socket("in/sub/socket"));
    CHECK(copy_in(&job, at("in"), "/a", &failure) == ENOTSUP);
    CHECK(strcmp(failure.disk, at("in/sub/socket")) == 0);
    ended(&job);
    return true;
}

static bool file_above_the_limit_is_told(void) {
    nuz_limits limits = NUZ_LIMITS_GREATEST;
    limits.file_size = 10;
    job job;
    nuz_copy_failure failure;
    CHECK(made_source() && begun_with(&job, &limits));
    CHECK(copy_in(&job, at("in"), "/", &failure) == EFBIG && !failure.on_disk);
    CHECK(strcmp(failure.disk, at("in/secret")) == 0 && none_is_open(&job));
    ended(&job);
    return true;
}

/* ---- names that change between the look at them and their opening */

/* The two names to swap, right before one of these functions is called with the first one. */
static struct {
    const char *functions, *name, *with;
    unsigned times;
} swap;

static int swap_names(const char *function, int folder, const char *name) {
    (void)folder;
    if (name != NULL && swap.times > 0 && strstr(swap.functions, function) != NULL
        && strcmp(name, swap.name) == 0) {
        char one[4096];
        swap.times--;
        snprintf(one, sizeof one, "in/%s", name);
        if (renameat2(AT_FDCWD, at(one), AT_FDCWD, at(swap.with), RENAME_EXCHANGE) != 0) {
            abort();
        }
    }
    return 0;
}

/* Copies in while something is swapped, so many times. */
static uint32_t swapped(job *job, const char *functions, const char *name, const char *with,
                        unsigned times, nuz_copy_failure *failure) {
    swap.functions = functions;
    swap.name = name;
    swap.with = with;
    swap.times = times;
    before = swap_names;
    uint32_t code = copy_in(job, at("in"), "/", failure);
    before = NULL;
    return code;
}

static bool link_in_place_of_a_file_is_not_followed(void) {
    job job;
    for (unsigned times = 1; times < 5; times++) {
        CHECK(made_source() && disk_file(at("victim"), 0600, "secret"));
        CHECK(removed(at("trap")) && symlink("../victim", at("trap")) == 0 && begun(&job));
        CHECK(swapped(&job, "openat readlinkat", "secret", "trap", times, NULL) == 0);
        bool is_link = told(&job, "/secret").kind == NUZ_LINK;
        CHECK(is_link == (times % 2 == 1));
        CHECK(is_link || tree_has(&job, "/secret", "nobody else's"));
        ended(&job);
    }
    return removed(at("trap")) && removed(at("victim"));
}

static bool pipe_in_place_of_a_file_is_not_waited_for(void) {
    job job;
    nuz_copy_failure failure;
    CHECK(made_source() && removed(at("pipe")) && mkfifo(at("pipe"), 0600) == 0 && begun(&job));
    CHECK(swapped(&job, "openat", "secret", "pipe", 1, &failure) == ENOTSUP);
    CHECK(strcmp(failure.disk, at("in/secret")) == 0 && none_is_open(&job));
    ended(&job);
    return removed(at("pipe"));
}

static bool link_in_place_of_a_directory_is_not_followed(void) {
    job job;
    CHECK(made_source() && removed(at("others")) && mkdir(at("others"), 0700) == 0);
    CHECK(disk_file(at("others/file"), 0600, "secret") && begun(&job));
    CHECK(removed(at("trap")) && symlink("../others", at("trap")) == 0);
    CHECK(swapped(&job, "openat", "sub", "trap", 1, NULL) == 0);
    CHECK(told(&job, "/sub").kind == NUZ_LINK && told(&job, "/zname").kind == NUZ_FILE);
    ended(&job);
    return removed(at("trap")) && removed(at("others"));
}

static bool file_in_place_of_a_link_is_copied(void) {
    job job;
    CHECK(made_source() && disk_file(at("other"), 0604, "other") && begun(&job));
    CHECK(swapped(&job, "readlinkat", "link", "other", 1, NULL) == 0);
    CHECK(tree_has(&job, "/link", "other") && told(&job, "/link").mode == 0604);
    ended(&job);
    CHECK(made_source() && removed(at("other")) && symlink("elsewhere", at("other")) == 0);
    CHECK(begun(&job) && swapped(&job, "readlinkat", "link", "other", 1, NULL) == 0);
    CHECK(told(&job, "/link").size == strlen("elsewhere"));
    ended(&job);
    return removed(at("other"));
}

static bool directory_in_place_of_a_file_is_copied(void) {
    job job;
    CHECK(made_source() && removed(at("other")) && mkdir(at("other"), 0700) == 0);
    CHECK(disk_file(at("other/below"), 0600, "below") && begun(&job));
    CHECK(swapped(&job, "openat", "secret", "other", 1, NULL) == 0);
    CHECK(tree_has(&job, "/secret/below", "below"));
    ended(&job);
    return removed(at("other"));
}

static bool name_that_always_changes_is_told(void) {
    job job;
    nuz_copy_failure failure;
    CHECK(made_source() && removed(at("pipe")) && symlink("link", at("pipe")) == 0);
    CHECK(begun(&job) && swapped(&job, "readlinkat", "link", "pipe", 1000, &failure) == EBUSY);
    CHECK(failure.on_disk && strcmp(failure.disk, at("in/link")) == 0);
    ended(&job);
    return removed(at("pipe"));
}

/* Swaps two names as fast as may be, till it is killed. */
static void swap_for_ever(const char *one, const char *other) {
    for (;;) {
        renameat2(AT_FDCWD, one, AT_FDCWD, other, RENAME_EXCHANGE);
    }
}

/* Another process swaps a file with a link to a secret; and a directory with a link to one. */
static bool nothing_is_read_through_a_link(void) {
    job job;
    CHECK(made_source() && removed(at("others")) && mkdir(at("others"), 0700) == 0);
    CHECK(disk_file(at("others/file"), 0600, "secret!!!!") && removed(at("trap")));
    for (unsigned round = 0; round < 2; round++) {
        CHECK(removed(at("trap")) && symlink(round ? "../others" : "others/file", at("trap")) == 0);
        pid_t child = fork();
        if (child == 0) {
            swap_for_ever(strdup(at(round ? "in/sub" : "in/sub/file")), strdup(at("trap")));
        }
        bool was_link = false, was_file = false;
        for (unsigned i = 0; i < 2000; i++) {
            CHECK(begun(&job) && copy_in(&job, at("in"), "/", NULL) == 0);
            bool is_link = told(&job, "/sub").kind == NUZ_LINK
                        || told(&job, "/sub/file").kind == NUZ_LINK;
            CHECK(is_link || tree_has(&job, "/sub/file", "some bytes"));
            was_link |= is_link;
            was_file |= !is_link;
            ended(&job);
        }
        CHECK(kill(child, SIGKILL) == 0 && waitpid(child, NULL, 0) == child);
        CHECK(was_link && was_file && made_source());
    }
    return removed(at("trap")) && removed(at("others"));
}

/* A name of the tree is a link out of the copy, and a directory of the copy becomes one. */
static int link_before_a_file(const char *function, int folder, const char *name) {
    if (strcmp(function, "openat") == 0 && name != NULL && strcmp(name, "file") == 0) {
        symlinkat("/etc/passwd", folder, "file");
    }
    return 0;
}

static bool nothing_is_written_through_a_link(void) {
    job job;
    nuz_copy_failure failure;
    CHECK(begun(&job) && tree_folder(&job, job.txn, "/b", 0755) == 0);
    CHECK(tree_link(&job, at("victim"), "/a") == 0 && tree_link(&job, "../a", "/b/a") == 0);
    CHECK(tree_file(&job, "/b/file", 0644, 'x', 10) == 0 && disk_file(at("victim"), 0600, "mine"));
    CHECK(copy_out(&job, at("out"), 0, NULL) == 0 && disk_has(at("victim"), "mine"));
    CHECK(leads_to(at("out/a"), at("victim")) && removed(at("out")));
    before = link_before_a_file;
    uint32_t code = copy_out(&job, at("out"), 0, &failure);
    before = NULL;
    CHECK(code == EEXIST && failure.on_disk && strcmp(failure.disk, at("out/b/file")) == 0);
    CHECK(!is_there(at("out")) && left() == 0);
    ended(&job);
    return removed(at("victim"));
}

/* ---- others that may see it meanwhile */

static bool was_open;

/* Whether anything that a copy is making may be seen by others. */
static int look_at_modes(const char *function, int folder, const char *name) {
    (void)folder, (void)name;
    if (strcmp(function, "write") == 0) {
        int (*look)(const char *, int, const char *) = before;
        before = NULL;
        DIR *above = opendir(top);
        for (struct dirent *entry; (entry = readdir(above)) != NULL;) {
            if (strncmp(entry->d_name, ".out.", 5) == 0) {
                was_open |= (mode_of(at(entry->d_name)) & 077) != 0;
            }
        }
        closedir(above);
        struct stat status;
        was_open |= fstat(folder, &status) != 0 || (status.st_mode & 0777) != 0600;
        before = look;
    }
    return 0;
}

static bool nobody_else_sees_it_meanwhile(void) {
    job job;
    CHECK(begun(&job) && tree_file(&job, "/file", 0666, 'x', 3000000) == 0);
    CHECK(tree_folder(&job, job.txn, "/open", 0777) == 0);
    CHECK(tree_file(&job, "/open/file", 0644, 'y', 10) == 0);
    mode_t mask = umask(0);
    was_open = false;
    before = look_at_modes;
    uint32_t code = copy_out(&job, at("out"), 0, NULL);
    before = NULL;
    umask(mask);
    CHECK(code == 0 && !was_open && mode_of(at("out/open")) == 0777);
    CHECK(mode_of(at("out/file")) == 0666);
    ended(&job);
    return removed(at("out"));
}

/* ---- a disk that is full */

static bool full_disk_is_told(void) {
    job job;
    nuz_copy_failure failure;
    CHECK(mkdir(at("small"), 0700) == 0);
    if (mount("tmpfs", at("small"), "tmpfs", 0, "size=1m") != 0) {
        fprintf(stderr, "a full disk skipped: no small one can be mounted\n");
        return rmdir(at("small")) == 0;
    }
    const char *small = strdup(at("small")), *path = strdup(at("small/out"));
    bool goes_on = begun(&job) && tree_file(&job, "/a", 0644, 'a', 400000) == 0
                && tree_folder(&job, job.txn, "/big", 0755) == 0
                && copy_out(&job, path, 0, NULL) == 0
                && tree_file(&job, "/big/file", 0644, 'b', 900000) == 0;
    uint32_t code = copy_out(&job, path, NUZ_COPY_REPLACE | NUZ_COPY_SYNC, &failure);
    bool stays = is_there(at("small/out/a")) && !is_there(at("small/out/big/file"));
    struct stat status;
    bool is_alone = stat(small, &status) == 0 && status.st_nlink == 3;
    CHECK(umount(small) == 0 && rmdir(small) == 0);
    CHECK(goes_on && code == ENOSPC && failure.on_disk && stays && is_alone);
    CHECK(strcmp(failure.disk, at("small/out/big/file")) == 0);
    ended(&job);
    free((char *)small), free((char *)path);
    return true;
}

/* ---- what fails, and processes that die, before each function of the system in turn */

static long calls_left;
static int fails_with;

static bool is_of_disk(const char *function) {
    return strcmp(function, "malloc") != 0 && strcmp(function, "calloc") != 0
        && strcmp(function, "realloc") != 0;
}

static int fail_once(const char *function, int folder, const char *name) {
    (void)folder, (void)name;
    bool counts = is_of_disk(function) == (fails_with != ENOMEM);
    return counts && calls_left-- == 0 ? fails_with : 0;
}

/* Whether what is at a place is whole, of the tree of these tests; or what was there before. */
static bool is_whole(const char *name) {
    char path[200];
    snprintf(path, sizeof path, "%s/sub/file", name);
    if (!disk_has(at(path), "some bytes")) {
        return false;
    }
    snprintf(path, sizeof path, "%s/link", name);
    return leads_to(at(path), "sub/file") && mode_of(at(name)) == 0751;
}

static bool is_as_before(bool was_there) {
    return was_there ? disk_has(at("out/mine"), "mine") && mode_of(at("out")) == 0700
                     : !is_there(at("out"));
}

static bool made_old(bool is_old) {
    remove_left();
    return removed(at("out"))
        && (!is_old || (mkdir(at("out"), 0700) == 0 && disk_file(at("out/mine"), 0644, "mine")));
}

static bool failure_leaves_nothing(void) {
    job job;
    nuz_copy_failure failure;
    CHECK(made_source() && begun(&job) && copy_in(&job, at("in"), "/", NULL) == 0);
    CHECK(commit(&job, job.txn) == 0);
    for (int with = 0; with < 4; with++) {
        uint32_t flags = with & 1 ? NUZ_COPY_REPLACE | NUZ_COPY_SYNC : 0;
        bool goes_on = true;
        for (long calls = 0; goes_on; calls++) {
            job.txn = other_txn(&job);
            CHECK(made_old(with & 1));
            calls_left = calls;
            fails_with = with & 2 ? ENOMEM : EIO;
            before = fail_once;
            uint32_t code = copy_out(&job, at("out"), flags, &failure);
            before = NULL;
            goes_on = calls_left < 0;
            CHECK(code == failure.code && (goes_on || code == 0));
            CHECK(none_is_open(&job) || code == NUZ_MEMORY);
            CHECK(aborted(&job) && none_is_open(&job));
            CHECK(is_whole("out") || (code != 0 && is_as_before(with & 1)));
            CHECK(code != 0 || left() == 0);
            CHECK(with & 2 ? code == 0 || code == NUZ_MEMORY || code == ENOMEM
                           : code == 0 || code == EIO || code == ENOTEMPTY);
            CHECK(calls < 10000);
        }
    }
    ended(&job);
    return made_old(false);
}

static bool failure_of_a_copy_in_is_told(void) {
    for (int with = 0; with < 2; with++) {
        bool goes_on = true;
        for (long calls = 0; goes_on; calls++) {
            job job;
            nuz_copy_failure failure;
            CHECK(made_source() && begun(&job));
            calls_left = calls;
            fails_with = with ? ENOMEM : EIO;
            before = fail_once;
            uint32_t code = copy_in(&job, at("in"), "/", &failure);
            before = NULL;
            goes_on = calls_left < 0;
            CHECK(code == failure.code && (code != 0 || tree_has(&job, "/zname", "some bytes")));
            CHECK(goes_on || code == 0);
            CHECK(with ? code == 0 || code == NUZ_MEMORY || code == ENOMEM
                       : code == 0 || code == EIO);
            CHECK(calls < 10000);
            ended(&job);
        }
    }
    return true;
}

static int synced, synced_before;

/* Counts what is put on the disk, in all and before a name is given. */
static int count_synced(const char *function, int folder, const char *name) {
    (void)folder, (void)name;
    if (strncmp(function, "renameat", 8) == 0) {
        synced_before = synced;
    }
    synced += strcmp(function, "fsync") == 0;
    return 0;
}

/* Three directories and two files, and then the directory above. */
static bool all_is_on_the_disk_before_it_gets_its_name(void) {
    job job;
    CHECK(made_source() && begun(&job) && copy_in(&job, at("in"), "/", NULL) == 0);
    for (int with = 0; with < 4; with++) {
        bool syncs = with & 1, replaces = with & 2;
        uint32_t flags = (syncs ? NUZ_COPY_SYNC : 0) | (replaces ? NUZ_COPY_REPLACE : 0);
        CHECK(made_old(replaces));
        synced = synced_before = 0;
        before = count_synced;
        CHECK(copy_out(&job, at("out"), flags, NULL) == 0);
        before = NULL;
        CHECK(synced_before == (syncs ? 5 : 0) && synced == (syncs ? 6 : 0));
    }
    ended(&job);
    return made_old(false);
}

static int die(const char *function, int folder, const char *name) {
    (void)folder, (void)name;
    if (is_of_disk(function) && calls_left-- == 0) {
        kill(getpid(), SIGKILL);
    }
    return 0;
}

static bool death_leaves_all_or_nothing(void) {
    job job;
    CHECK(made_source() && begun(&job) && copy_in(&job, at("in"), "/", NULL) == 0);
    for (int replaces = 0; replaces < 2; replaces++) {
        int status = -1;
        for (long calls = 0; status != 0; calls++) {
            CHECK(made_old(replaces));
            pid_t child = fork();
            if (child == 0) {
                calls_left = calls;
                before = die;
                _exit(copy_out(&job, at("out"), replaces ? NUZ_COPY_REPLACE : 0, NULL) != 0);
            }
            CHECK(waitpid(child, &status, 0) == child);
            CHECK(status == 0 || (WIFSIGNALED(status) && WTERMSIG(status) == SIGKILL));
            CHECK(is_whole("out") || (status != 0 && is_as_before(replaces)));
            CHECK(calls < 10000);
            if (status != 0 && !is_whole("out")) {
                CHECK(copy_out(&job, at("out"), replaces ? NUZ_COPY_REPLACE : 0, NULL) == 0);
                CHECK(is_whole("out"));
            }
        }
    }
    ended(&job);
    return made_old(false);
}

static bool too_deep_a_directory_is_told(void) {
    job job;
    nuz_copy_failure failure;
    struct rlimit old, few;
    char path[400] = "";
    CHECK(removed(at("in")) && mkdir(at("in"), 0755) == 0 && begun(&job));
    for (unsigned i = 0; i < 100; i++) {
        strcat(path, "/d");
        CHECK(tree_folder(&job, job.txn, path, 0755) == 0);
    }
    CHECK(getrlimit(RLIMIT_NOFILE, &old) == 0);
    few = old;
    few.rlim_cur = 60;
    CHECK(setrlimit(RLIMIT_NOFILE, &few) == 0);
    uint32_t code = copy_out(&job, at("out"), 0, &failure);
    CHECK(setrlimit(RLIMIT_NOFILE, &old) == 0);
    CHECK(code == EMFILE && failure.on_disk && !is_there(at("out")) && left() == 0);
    CHECK(copy_out(&job, at("out"), 0, &failure) == 0);
    CHECK(copy_in(&job, at("out"), "/again", NULL) == 0);
    ended(&job);
    return removed(at("out"));
}

/* ---- other transactions */

static bool copy_that_waits_is_told(void) {
    job job;
    nuz_copy_failure failure;
    CHECK(made_source() && begun(&job));
    uint64_t other = other_txn(&job);
    CHECK(tree_folder(&job, other, "/link", 0755) == 0);
    CHECK(copy_in(&job, at("in"), "/", &failure) == NUZ_WAITS && failure.waits_for == other);
    CHECK(copy_out(&job, at("out"), 0, &failure) == NUZ_WAITS && failure.waits_for == other);
    CHECK(!failure.on_disk && !is_there(at("out")) && left() == 0);
    CHECK(nuz_cancel(job.tree, job.txn, &job.last) == NUZ_NO_ASK);
    ended(&job);
    return true;
}

typedef struct other {
    job *job;
    uint64_t txn;
    unsigned requests, waits;
} other;

/* Ends the other transaction if a request waits, and makes it again. */
static uint32_t around(void *context, nuz_copy_request *make, void *request) {
    other *other = context;
    uint32_t code = make(other->job->tree, request);
    other->requests++;
    if (code == NUZ_WAITS && commit(other->job, other->txn) == 0) {
        other->waits++;
        code = make(other->job->tree, request);
    }
    return code;
}

static uint32_t interrupted(void *context, nuz_copy_request *make, void *request) {
    other *other = context;
    return other->requests++ > 9 ? 77777 : make(other->job->tree, request);
}

static bool program_is_around_each_request(void) {
    job job;
    nuz_copy_failure failure;
    CHECK(made_source() && begun(&job));
    other other = { &job, other_txn(&job), 0, 0 };
    nuz_copy_options how = { 0, around, &other };
    CHECK(tree_folder(&job, other.txn, "/empty", 0755) == 0);
    CHECK(nuz_copy_in(NULL, job.txn, at("in"), NUZ_S("/"), &how, &failure) == 0);
    CHECK(other.waits == 1 && other.requests > 9 && tree_has(&job, "/zname", "some bytes"));
    CHECK(nuz_copy_out(NULL, job.txn, NUZ_S("/"), at("out"), &how, NULL) == 0);
    CHECK(disk_has(at("out/sub/file"), "some bytes"));
    how.around = interrupted;
    other.requests = 0;
    CHECK(nuz_copy_out(NULL, job.txn, NUZ_S("/"), at("o"), &how, &failure) == 77777);
    CHECK(failure.code == 77777 && !failure.on_disk && !is_there(at("o")) && left() == 0);
    ended(&job);
    return removed(at("out"));
}

/* ---- all of them */

static const test TESTS[] = {
    TEST(copies_are_alike),
    TEST(place_in_the_tree_may_be_there),
    TEST(place_on_the_disk_may_be_empty_or_replaced),
    TEST(place_is_replaced_in_steps),
    TEST(another_directory_is_not_replaced),
    TEST(modes_that_shut_their_owner_out_are_copied),
    TEST(bits_that_run_as_another_are_asked_for),
    TEST(owners_are_copied_by_root),
    TEST(what_no_tree_has_is_told),
    TEST(file_above_the_limit_is_told),
    TEST(link_in_place_of_a_file_is_not_followed),
    TEST(pipe_in_place_of_a_file_is_not_waited_for),
    TEST(link_in_place_of_a_directory_is_not_followed),
    TEST(file_in_place_of_a_link_is_copied),
    TEST(directory_in_place_of_a_file_is_copied),
    TEST(name_that_always_changes_is_told),
    TEST(nothing_is_read_through_a_link),
    TEST(nothing_is_written_through_a_link),
    TEST(nobody_else_sees_it_meanwhile),
    TEST(full_disk_is_told),
    TEST(failure_leaves_nothing),
    TEST(failure_of_a_copy_in_is_told),
    TEST(all_is_on_the_disk_before_it_gets_its_name),
    TEST(death_leaves_all_or_nothing),
    TEST(too_deep_a_directory_is_told),
    TEST(copy_that_waits_is_told),
    TEST(program_is_around_each_request),
};

/* Nothing goes wrong any more, and nothing is left of what has failed. */
static void clean_up(bool is_good) {
    before = NULL;
    if (!is_good) {
        removed(at("out"));
        remove_left();
    }
}

int main(int argc, char **argv) {
    top = argc > 1 ? realpath(argv[1], NULL) : NULL;
    if (top == NULL) {
        fprintf(stderr, "usage: copy_test FOLDER\n");
        return EXIT_FAILURE;
    }
    return RUN_TESTS(TESTS, clean_up);
}
