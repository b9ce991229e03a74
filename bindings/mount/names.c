/* Names: what they lead to, and what makes, changes and removes them. */
#include "calls.h"

#include "commands.h"

#include <stdio.h>

/* ---- what a name leads to */

struct fuse_entry_param entry_of(struct node *node) {
    struct fuse_entry_param entry = {
        .ino = inode_of(node),
        .attr_timeout = node->step == NULL || node->is_told ? served.kept : 0,
        .entry_timeout = node_is_control(node) ? 0 : served.kept,
    };
    any_status(node, &entry.attr);
    return entry;
}

/* Tells the kernel of a node, which it counts, unless the program is gone. */
uint32_t reply_entry(const struct request *request, struct node *node) {
    struct fuse_entry_param entry = entry_of(node);
    node->lookups++;
    if (fuse_reply_entry(request->fuse, &entry) == -ENOENT) {
        node_forget(node, 1);
    }
    return 0;
}

/* Tells it that a name leads to nothing, which stays so until the step itself changes it. */
static uint32_t reply_absent(const struct request *request) {
    struct fuse_entry_param entry = { .entry_timeout = served.kept };
    fuse_reply_entry(request->fuse, &entry);
    return 0;
}

/* Tells the kernel of a step. This never waits, since nothing else could be done in DIR meanwhile:
 * if another step has changed the mode of the root, the kernel learns that later, when it asks. */
static uint32_t reply_step(const struct request *request, struct step *step) {
    struct node *node = node_of(step, 1);
    nuz_answer ignored;
    if (learn(node) == NUZ_WAITS) {
        nuz_cancel(IN(node), &ignored);
    }
    struct told told = { .kind = NUZ_DIR, .mode = 0755, .links = 1 };
    node->told = node->is_told ? node->told : told;
    return reply_entry(request, node);
}

/* A name in DIR: a step, or the control file. */
static uint32_t lookup_step(const struct request *request) {
    if (strcmp(request->name, CONTROL_NAME) == 0) {
        return reply_entry(request, node_of_control());
    }
    struct step *step = step_named(request->name, strlen(request->name));
    return step == NULL ? ENOENT : reply_step(request, step);
}

uint32_t look_up(struct node *dir, const char *name, struct node **node) {
    nuz_answer answer = { 0 };
    struct path path;
    uint32_t code = path_of(dir, name, &path);
    if (code == 0) {
        code = counted_for(dir, &answer, nuz_lstat(IN(dir), AT(path), &answer));
    }
    if (code == 0) {
        *node = node_of(dir->step, answer.number);
        node_tell(*node, &answer);
        name_set(dir, name, *node);
    }
    return code;
}

uint32_t make_lookup(struct request *request) {
    if (request->node == &served.top) {
        return lookup_step(request);
    }
    struct node *node;
    uint32_t code = look_up(request->node, request->name, &node);
    return code == 0 ? reply_entry(request, node) : code == ENOENT ? reply_absent(request) : code;
}

/* ---- what is made */

struct told owners_of_new(const struct request *request) {
    const struct fuse_ctx *context = fuse_req_ctx(request->fuse);
    const struct told *dir = &request->node->told;
    bool is_handed_on = request->node->is_told && (dir->mode & S_ISGID) != 0;
    return (struct told){ .owner = context->uid,
                          .group = is_handed_on ? dir->group : context->gid,
                          .mode = is_handed_on ? S_ISGID : 0 };
}

uint32_t own(struct node *node, const struct path *path, struct told owners) {
    nuz_answer answer = { 0 };
    if (owners.owner == 0 && owners.group == 0) {
        return 0;
    }
    uint32_t code = nuz_lchown(IN(node), path->at, path->len, owners.owner, owners.group, &answer);
    if (counted_for(node, &answer, code) == 0) {
        node->told.owner = owners.owner;
        node->told.group = owners.group;
    }
    return code;
}

struct node *made(const struct request *request, const nuz_answer *answer,
                         struct told told) {
    struct node *dir = request->node;
    struct node *node = node_of(dir->step, answer->stamp);
    node->is_told = true;
    node->told = told;
    node->told.links = 1;
    node->time = now();
    note_name(dir, request->name, node, answer->stamp, answer->stamp);
    return node;
}

static uint32_t make_step(const struct request *request) {
    struct step *step;
    uint32_t code = step_begin(request->name, &step);
    return code == 0 ? reply_step(request, step) : code;
}

uint32_t make_mkdir(struct request *request) {
    struct node *dir = request->node;
    if (dir == &served.top) {
        return make_step(request);
    }
    nuz_answer answer = { 0 };
    struct path path;
    struct told owners = owners_of_new(request);
    uint32_t mode = request->mode | owners.mode;
    uint32_t code = path_of(dir, request->name, &path);
    if (code == 0) {
        code = counted_for(dir, &answer, nuz_mkdir(IN(dir), AT(path), mode, &answer));
    }
    if (code != 0) {
        return code;
    }
    struct node *node = made(request, &answer, (struct told){ .kind = NUZ_DIR, .mode = mode });
    own(node, &path, owners);
    return reply_entry(request, node);
}

uint32_t make_symlink(struct request *request) {
    struct node *dir = request->node;
    const char *target = request->other_name;
    nuz_answer answer = { 0 };
    struct path path;
    uint32_t code = path_of(dir, request->name, &path);
    if (code == 0) {
        code = counted_for(dir, &answer, nuz_symlink(IN(dir), NUZ_S(target), AT(path), &answer));
    }
    if (code != 0) {
        return code;
    }
    struct told told = { .kind = NUZ_LINK, .mode = 0777, .size = strlen(target) };
    return reply_entry(request, made(request, &answer, told));
}

/* ---- changes of names */

/* Notes that something has a name more or less. */
static void note_links(struct node *node, int more, uint64_t stamp) {
    if (node != NULL && node->told.kind != NUZ_DIR) {
        node->told.links += (uint64_t)(int64_t)more;
        note_content(node, stamp);
    }
}

/* Aborts a step, whose directory is removed. */
static uint32_t remove_step(const struct request *request) {
    struct step *step = step_named(request->name, strlen(request->name));
    struct stale *stale;
    if (step == NULL) {
        return strcmp(request->name, CONTROL_NAME) == 0 ? ENOTDIR : ENOENT;
    }
    if (step->parent == NULL) {
        return EBUSY;
    }
    step->is_removed = true;
    uint32_t code = step_abort(step, &stale);
    if (code == 0) {
        fuse_reply_err(request->fuse, 0);
        ended_steps(stale, NULL, 0);
    }
    return code;
}

uint32_t make_unlink(struct request *request) {
    struct node *dir = request->node;
    if (dir == &served.top) {
        return EPERM;
    }
    nuz_answer answer = { 0 };
    struct path path;
    uint32_t code = path_of(dir, request->name, &path);
    if (code == 0) {
        code = counted_for(dir, &answer, nuz_unlink(IN(dir), AT(path), &answer));
    }
    if (code == 0) {
        note_links(name_find(dir, request->name), -1, answer.stamp);
        note_name(dir, request->name, NULL, 0, answer.stamp);
        fuse_reply_err(request->fuse, 0);
    }
    return code;
}

uint32_t make_rmdir(struct request *request) {
    struct node *dir = request->node;
    if (dir == &served.top) {
        return remove_step(request);
    }
    nuz_answer answer = { 0 };
    struct path path;
    uint32_t code = path_of(dir, request->name, &path);
    if (code == 0) {
        code = counted_for(dir, &answer, nuz_rmdir(IN(dir), AT(path), &answer));
    }
    if (code == 0) {
        note_name(dir, request->name, NULL, 0, answer.stamp);
        fuse_reply_err(request->fuse, 0);
    }
    return code;
}

/* Whether a name that must not be there is not. It stays so, since it has been looked for. */
static uint32_t is_free(struct node *dir, const char *name) {
    struct node *node;
    uint32_t code = look_up(dir, name, &node);
    return code == 0 ? EEXIST : code == ENOENT ? 0 : code;
}

static void note_rename(const struct request *request, uint64_t stamp) {
    struct node *moved = name_find(request->node, request->name);
    struct node *replaced = name_find(request->other, request->other_name);
    if (moved != NULL && moved == replaced) {
        return;
    }
    note_links(replaced, -1, stamp);
    note_name(request->other, request->other_name, moved, moved == NULL ? 0 : moved->number, stamp);
    note_name(request->node, request->name, NULL, 0, stamp);
}

uint32_t make_rename(struct request *request) {
    struct node *from = request->node, *to = request->other;
    if (from->step != to->step || from->step == NULL) {
        return from->step == to->step ? EPERM : EXDEV;
    }
    if ((request->flags & ~(uint32_t)RENAME_NOREPLACE) != 0) {
        return EINVAL;
    }
    uint32_t code = request->flags == 0 ? 0 : is_free(to, request->other_name);
    nuz_answer answer = { 0 };
    struct path path, other;
    code = code == 0 ? path_of(from, request->name, &path) : code;
    code = code == 0 ? path_of(to, request->other_name, &other) : code;
    if (code == 0) {
        code = nuz_rename(IN(from), AT(path), AT(other), &answer);
    }
    if (counted_for(from, &answer, code) == 0) {
        note_rename(request, answer.stamp);
        fuse_reply_err(request->fuse, 0);
    }
    return code;
}

uint32_t make_link(struct request *request) {
    struct node *node = request->node, *dir = request->other;
    if (node->step != dir->step) {
        return EXDEV;
    }
    nuz_answer answer = { 0 };
    struct path path, other;
    uint32_t code = learn(node);
    code = code == 0 ? path_of(node, NULL, &path) : code;
    code = code == 0 ? path_of(dir, request->name, &other) : code == ESTALE ? ENOENT : code;
    if (code == 0) {
        code = nuz_link(IN(node), AT(path), AT(other), &answer);
    }
    if (counted_for(node, &answer, code) != 0) {
        return code;
    }
    note_links(node, 1, answer.stamp);
    note_name(dir, request->name, node, node->number, answer.stamp);
    return reply_entry(request, node);
}

uint32_t make_readlink(struct request *request) {
    struct node *node = request->node;
    char target[4096];
    nuz_answer answer = { 0 };
    struct path path;
    uint32_t code = path_of(node, NULL, &path);
    if (code == 0) {
        code = nuz_readlink(IN(node), AT(path), target, sizeof target - 1, &answer);
    }
    if (counted_for(node, &answer, code) == 0) {
        target[answer.number] = '\0';
        fuse_reply_readlink(request->fuse, target);
    }
    return code;
}
