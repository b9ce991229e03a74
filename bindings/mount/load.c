/* The beginning of a mount: a folder of the disk, in the tree. Things in it that a tree does not
 * hold are reported, once of each kind. */
#include "mount.h"

#include "commands.h"

#include <fcntl.h>
#include <fts.h>
#include <nuzolged_copy.h>
#include <stdio.h>
#include <sys/xattr.h>
#include <unistd.h>

/* ---- what is left out */

/* The parts of a file that a tree does not hold. */
enum kind { ATTRIBUTES, ACLS, CAPABILITIES, LABELS, HOLES, KINDS };

static const char *const told_of[KINDS] = {
    "extended attributes are left out", "ACLs are left out", "file capabilities are left out",
    "security labels are left out", "holes become zeros",
};

/* How many files have something of a kind, and the path of the first one. */
struct lost {
    size_t count;
    char *first;
};

/* The kind of an extended attribute. */
static enum kind kind_of(const char *name) {
    bool is_acl = strncmp(name, "system.posix_acl_", strlen("system.posix_acl_")) == 0;
    bool is_label = strncmp(name, "security.", strlen("security.")) == 0;
    return is_acl                                   ? ACLS
         : strcmp(name, "security.capability") == 0 ? CAPABILITIES
         : is_label                                 ? LABELS
                                                    : ATTRIBUTES;
}

static void note(struct lost *lost, const char *path) {
    if (lost->count++ == 0) {
        lost->first = copy_of(path);
    }
}

/* Notes the extended attributes of a file: each kind once. */
static void note_attributes(struct lost lost[KINDS], const char *path) {
    static char names[1 << 16]; /* as many as Linux lists */
    bool has[KINDS] = { false };
    ssize_t size = llistxattr(path, names, sizeof names);
    for (ssize_t at = 0; at < size; at += (ssize_t)strlen(names + at) + 1) {
        has[kind_of(names + at)] = true;
    }
    for (size_t kind = 0; kind < KINDS; kind++) {
        if (has[kind]) {
            note(&lost[kind], path);
        }
    }
}

/* Whether a file has a hole before its end. */
static bool has_hole(const char *path, const struct stat *status) {
    if (!S_ISREG(status->st_mode) || status->st_blocks * 512 >= status->st_size) {
        return false;
    }
    int file = open(path, O_RDONLY | O_NOFOLLOW | O_NONBLOCK | O_CLOEXEC);
    off_t hole = file < 0 ? -1 : lseek(file, 0, SEEK_HOLE);
    if (file >= 0) {
        close(file);
    }
    return hole >= 0 && hole < status->st_size;
}

static void note_all(struct lost lost[KINDS], char *folder) {
    char *const tops[] = { folder, NULL };
    FTS *walk = fts_open(tops, FTS_PHYSICAL | FTS_COMFOLLOW | FTS_NOCHDIR, NULL);
    const FTSENT *entry;
    while (walk != NULL && (entry = fts_read(walk)) != NULL) {
        if (entry->fts_info != FTS_D && entry->fts_info != FTS_F && entry->fts_info != FTS_SL) {
            continue;
        }
        note_attributes(lost, entry->fts_path);
        if (has_hole(entry->fts_path, entry->fts_statp)) {
            note(&lost[HOLES], entry->fts_path);
        }
    }
    if (walk != NULL) {
        fts_close(walk);
    }
}

/* Reports what of a folder is left out, and of how many files. */
static void tell_lost(const char *folder) {
    struct lost lost[KINDS] = { { 0 } };
    char *top = copy_of(folder);
    note_all(lost, top);
    free(top);
    for (size_t kind = 0; kind < KINDS; kind++) {
        if (lost[kind].count > 0) {
            complain("load %s: %s (files: %zu; the first: %s)", folder, told_of[kind],
                     lost[kind].count, lost[kind].first);
        }
        free(lost[kind].first);
    }
}

/* ---- the beginning */

bool load(const char *folder) {
    nuz_answer job, answer;
    nuz_copy_options options = { .flags = NUZ_COPY_SET_ID };
    nuz_copy_failure failure = { 0 };
    uint32_t code = nuz_begin(served.tree, &job);
    if (code == 0) {
        code = nuz_copy_in(served.tree, job.number, folder, NUZ_S("/"), &options, &failure);
    }
    if (code == 0) {
        code = nuz_commit(served.tree, job.number, &answer);
        nuz_checkpoint(served.tree, &answer);
    }
    if (code != 0) {
        complain("load %s: %s", failure.disk[0] == '\0' ? folder : failure.disk,
                 code == ENOTSUP ? "pipes, sockets and devices can't be loaded"
                                 : nuz_strerror(code));
    } else {
        tell_lost(folder);
    }
    return code == 0;
}
