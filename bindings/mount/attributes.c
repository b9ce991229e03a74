/* Attributes: what stat shows, and what chmod, chown, utimensat and truncate set. */
#include "calls.h"

uint32_t counted_for(const struct node *node, const nuz_answer *answer, uint32_t code) {
    return counted(node->step, answer, code);
}

uint32_t learn(struct node *node) {
    if (node->is_told) {
        return node->step->is_live ? 0 : ESTALE;
    }
    nuz_answer answer = { 0 };
    struct path path;
    uint32_t code = path_of(node, NULL, &path);
    if (code == 0) {
        code = nuz_lstat(IN(node), AT(path), &answer);
    } else if (code == ESTALE && node->fd != 0) {
        code = nuz_fstat(IN(node), node->fd, &answer);
    }
    if (counted_for(node, &answer, code) == 0) {
        node_tell(node, &answer);
    }
    return code;
}

static void top_status(const struct node *node, struct stat *status) {
    bool is_top = node == &served.top;
    *status = (struct stat){
        .st_ino = node->number,
        .st_mode = is_top ? S_IFDIR | 0755 : S_IFREG | 0600,
        .st_nlink = 1,
        .st_uid = served.user,
        .st_gid = served.group,
        .st_mtim = served.born,
        .st_ctim = served.born,
        .st_atim = served.born,
    };
}

void any_status(const struct node *node, struct stat *status) {
    if (node->step == NULL) {
        top_status(node, status);
    } else {
        node_status(node, status);
    }
}

static uint32_t reply_status(const struct request *request, const struct node *node) {
    struct stat status;
    any_status(node, &status);
    fuse_reply_attr(request->fuse, &status, served.kept);
    return 0;
}

uint32_t make_getattr(struct request *request) {
    struct node *node = request->node;
    uint32_t code = node->step == NULL ? 0 : learn(node);
    return code == 0 ? reply_status(request, node) : code;
}

/* ---- setting attributes
 *
 * A mode or an owner that is there already is not set, so that steps that set the same don't wait
 * for each other: tar sets both of each directory on the way. A time is always set, and so the file
 * is written: the clock ticks every few milliseconds, or later on a busy machine, so a program that
 * touches a file may set the time that the file has already. */

static uint32_t set_mode(struct node *node, uint32_t mode) {
    nuz_answer answer = { 0 };
    struct path path;
    uint32_t code = 0;
    if (node->told.mode == mode || node->told.kind == NUZ_LINK) {
        return 0;
    } else if (node->fd != 0) {
        code = nuz_fchmod(IN(node), node->fd, mode, &answer);
    } else if ((code = path_of(node, NULL, &path)) == 0) {
        code = nuz_chmod(IN(node), AT(path), mode, &answer);
    }
    if (counted_for(node, &answer, code) == 0) {
        note_content(node, answer.stamp);
        node->told.mode = mode;
    }
    return code;
}

uint32_t take_set_id(struct node *node) {
    uint32_t mode = node->told.mode & ~(uint32_t)S_ISUID;
    if ((mode & S_IXGRP) != 0) {
        mode &= ~(uint32_t)S_ISGID;
    }
    return node->told.kind == NUZ_FILE ? set_mode(node, mode) : 0;
}

static uint32_t set_owner(struct node *node, uint32_t owner, uint32_t group) {
    nuz_answer answer = { 0 };
    struct path path;
    uint32_t code = 0;
    struct told *told = &node->told;
    if ((told->owner == owner && told->group == group) || told->kind == NUZ_LINK) {
        return 0;
    } else if (node->fd != 0) {
        code = nuz_fchown(IN(node), node->fd, owner, group, &answer);
    } else if ((code = path_of(node, NULL, &path)) == 0) {
        code = nuz_chown(IN(node), AT(path), owner, group, &answer);
    }
    if (counted_for(node, &answer, code) == 0) {
        note_content(node, answer.stamp);
        told->owner = owner;
        told->group = group;
    }
    return code;
}

/* Sets the time of a file. Directories and links have none. */
static uint32_t set_file_time(struct node *node, struct timespec time) {
    if (node->told.kind != NUZ_FILE) {
        return 0;
    }
    struct timespec before = node->time;
    bool was_untimed = node->is_untimed;
    node->time = time;
    node->is_untimed = true;
    uint64_t stamp = 0;
    uint32_t code = set_time(node, &stamp);
    if (code == 0) {
        note_content(node, stamp);
    } else {
        node->time = before;
        node->is_untimed = was_untimed;
    }
    return code;
}

static uint32_t set_owner_and_mode(const struct request *request) {
    struct node *node = request->node;
    const struct stat *set = &request->set;
    bool has_owner = (request->flags & FUSE_SET_ATTR_UID) != 0;
    bool has_group = (request->flags & FUSE_SET_ATTR_GID) != 0;
    uint32_t code = set_owner(node, has_owner ? set->st_uid : node->told.owner,
                              has_group ? set->st_gid : node->told.group);
    if (code == 0 && (has_owner || has_group)) {
        code = take_set_id(node);
    }
    if (code == 0 && (request->flags & FUSE_SET_ATTR_MODE) != 0) {
        code = set_mode(node, set->st_mode & 07777);
    }
    return code;
}

/* The size comes before the time, which it takes away. A file that is not open for writing gets its
 * time at once. */
static uint32_t set_size_and_time(const struct request *request) {
    struct node *node = request->node;
    uint32_t code = 0;
    if ((request->flags & FUSE_SET_ATTR_SIZE) != 0) {
        code = cut(node, request->set.st_size);
        code = code == 0 && fuse_req_ctx(request->fuse)->uid != 0 ? take_set_id(node) : code;
    }
    if (code != 0) {
        return code;
    }
    if ((request->flags & FUSE_SET_ATTR_MTIME_NOW) != 0) {
        return set_file_time(node, now());
    } else if ((request->flags & FUSE_SET_ATTR_MTIME) != 0) {
        return set_file_time(node, request->set.st_mtim);
    }
    return node->opens == 0 ? set_time(node, NULL) : 0;
}

uint32_t make_setattr(struct request *request) {
    struct node *node = request->node;
    if (node->step == NULL) {
        return node == &served.top ? EPERM : reply_status(request, node);
    }
    uint32_t code = learn(node);
    if (code == 0) {
        code = set_owner_and_mode(request);
    }
    if (code == 0) {
        code = set_size_and_time(request);
    }
    return code == 0 ? reply_status(request, node) : code;
}
