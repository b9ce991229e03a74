/* The directory that is saved to. Its name is locked while a command is to save there; and it is
 * looked at first, and again before it is replaced. */
#define _GNU_SOURCE
#include "commands.h"

#include <dirent.h>
#include <errno.h>
#include <fcntl.h>
#include <mntent.h>
#include <stdint.h>
#include <stdio.h>
#include <stdlib.h>
#include <string.h>
#include <sys/stat.h>
#include <unistd.h>

static bool refuses(const struct target *target, const char *why) {
    complain("save %s: %s", target->said, why);
    return false;
}

/* ---- what there is */

bool is_at_or_below(const char *path, const char *top) {
    size_t len = strlen(top);
    while (len > 0 && top[len - 1] == '/') {
        len--;
    }
    return strncmp(path, top, len) == 0 && (path[len] == '\0' || path[len] == '/');
}

/* Whether something is mounted on a directory, or below it. */
static bool has_mount(const char *path) {
    char *top = realpath(path, NULL);
    FILE *list = top == NULL ? NULL : setmntent("/proc/self/mounts", "re");
    const struct mntent *each = NULL;
    while (list != NULL && (each = getmntent(list)) != NULL
           && !is_at_or_below(each->mnt_dir, top)) {
    }
    if (list != NULL) {
        endmntent(list);
    }
    free(top);
    return each != NULL;
}

/* Whether a directory has nothing in it; if not, errno says why. */
static bool is_empty(const char *path) {
    struct dirent **names = NULL;
    int count = scandir(path, &names, NULL, NULL);
    for (int i = 0; i < count; i++) {
        free(names[i]);
    }
    free(names);
    errno = count > 2 ? ENOTEMPTY : errno;
    return count == 2;
}

/* Whether a directory can be saved to as it looks now. */
static bool takes(struct target *target) {
    struct stat status;
    if (lstat(target->path, &status) != 0) {
        return errno == ENOENT || fails("save", target->said);
    }
    target->dir = open(target->path, O_PATH | O_DIRECTORY | O_NOFOLLOW | O_CLOEXEC);
    if (target->dir < 0) {
        return fails("save", target->said);
    }
    if (has_mount(target->path)) {
        return refuses(target, "something is mounted on it or below it");
    }
    if (target->replaces || is_empty(target->path)) {
        return true;
    }
    return errno == ENOTEMPTY ? refuses(target, "it is not empty, and only --replace replaces it")
                              : fails("save", target->said);
}

/* ---- the lock of its name */

/* The byte of a directory that is locked for a name in it. */
static off_t byte_of(const char *name) {
    uint64_t hash = UINT64_C(0xcbf29ce484222325);
    while (*name != '\0') {
        hash = (hash ^ (unsigned char)*name++) * UINT64_C(0x100000001b3);
    }
    return (off_t)(hash >> 2);
}

/* Locks a name, unless somebody else has; or if the disk has no such locks. (A directory is open
 * only for reading, so that all have the locks of readers, and each looks whether there is another
 * one.) */
static bool locks(int above, const char *name) {
    struct flock mine = {
        .l_type = F_RDLCK, .l_whence = SEEK_SET, .l_start = byte_of(name), .l_len = 1
    };
    struct flock other = mine;
    other.l_type = F_WRLCK;
    if (fcntl(above, F_OFD_SETLK, &mine) != 0 || fcntl(above, F_OFD_GETLK, &other) != 0
        || other.l_type == F_UNLCK) {
        return true;
    }
    mine.l_type = F_UNLCK;
    fcntl(above, F_OFD_SETLK, &mine);
    return false;
}

/* Locks a name until this process ends. (Two that begin at once may both find another one, and try
 * again after times that differ.) */
static bool locks_in_time(int above, const char *name) {
    const struct timespec a_moment = { 0, 1000000 * (1 + getpid() * 7 % 13) };
    bool is_locked = locks(above, name);
    for (int tries = 0; !is_locked && tries < 5; tries++) {
        nanosleep(&a_moment, NULL);
        is_locked = locks(above, name);
    }
    return is_locked;
}

/* ---- from the beginning to the save */

/* Opens the directory that the target is in. It is not one of a mount that is to save there, which
 * would copy its own copy. */
static bool opens_above(struct target *target, const char *dir, int control) {
    struct stat above, mount;
    target->above = open(dir, O_RDONLY | O_DIRECTORY | O_CLOEXEC);
    if (target->above < 0 || access(dir, W_OK | X_OK) != 0) {
        return fails("save", target->said);
    }
    bool is_inside = control >= 0 && fstat(control, &mount) == 0
                  && fstat(target->above, &above) == 0 && mount.st_dev == above.st_dev;
    return !is_inside || refuses(target, "it is in the mount that is to be saved");
}

struct target target_of(const char *said, bool replaces) {
    return (struct target){ .said = said, .replaces = replaces, .above = -1, .dir = -1 };
}

/* Finds the path of a target, without slashes at its end. */
static bool finds(struct target *target, struct place *place) {
    char *path = absolute(target->said);
    bool has_path = path != NULL;
    bool has_name = has_path && place_of(path, place);
    free(path);
    if (has_name) {
        target->path = joined(place->dir, "/", place->name);
    }
    return has_name || (has_path ? refuses(target, "it can't be replaced")
                                 : fails("save", target->said));
}

bool target_take(struct target *target, int control) {
    struct place place = { 0 };
    bool is_good = finds(target, &place) && opens_above(target, place.dir, control)
                && (locks_in_time(target->above, place.name)
                    || refuses(target, "it is busy: another nuz is to save there"))
                && takes(target);
    place_free(&place);
    return is_good;
}

void target_free(const struct target *target) {
    free(target->path);
    if (target->above >= 0) {
        close(target->above);
    }
    if (target->dir >= 0) {
        close(target->dir);
    }
}

/* Whether the save takes away nothing but what was there when the target was taken. */
static bool is_as_before(const struct target *target) {
    struct stat first, status;
    if (lstat(target->path, &status) != 0) {
        return true;
    }
    bool is_same = target->dir >= 0 && fstat(target->dir, &first) == 0
                && first.st_dev == status.st_dev && first.st_ino == status.st_ino;
    return is_same || (target->dir < 0 && is_empty(target->path));
}

bool target_save(const struct target *target, int control, const char *name) {
    if (!is_as_before(target)) {
        return refuses(target, "something else has got its name since nuz began");
    }
    bool replaces = target->replaces && target->dir >= 0;
    int number = ask(control, replaces ? "replace" : "save", name, target->path);
    if (number != 0) {
        complain_of(control, number, "save", target->said);
        return false;
    }
    size_t size = 0;
    char *left = reply_of(control, &size);
    if (left != NULL && size > 0) {
        complain("save %s: it is saved, but %s", target->said, left);
    }
    free(left);
    return true;
}

/* ---- nuz save */

static bool save_of(const struct place *place, const char *path, struct target *target) {
    int control = control_of_mount(place->dir);
    if (control < 0 && errno == EMEDIUMTYPE) {
        complain("save %s: not DIR/NAME of a nuz mount", path);
        return false;
    } else if (control < 0) {
        return fails("save", path);
    }
    bool is_saved = target_take(target, control) && target_save(target, control, place->name);
    target_free(target);
    close(control);
    return is_saved;
}

int save(const char *path, const char *to, bool replaces) {
    struct target target = target_of(to, replaces);
    struct place place;
    bool has_name = place_of(path, &place), is_saved = has_name && save_of(&place, path, &target);
    if (!has_name) {
        complain("save %s: not DIR/NAME of a nuz mount", path);
    }
    place_free(&place);
    return is_saved ? DONE : NOT_DONE;
}
