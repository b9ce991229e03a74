/* Files that are made, opened, read, written and closed. */
#include "calls.h"

#include <fcntl.h>

/* ---- files that are made */

/* Makes a file, which is open then. */
static uint32_t new_file(struct request *request, struct node **node) {
    struct node *dir = request->node;
    nuz_answer answer = { 0 };
    struct path path;
    uint32_t flags = NUZ_O_RDWR | NUZ_O_CREAT | NUZ_O_EXCL;
    uint32_t code = path_of(dir, request->name, &path);
    if (code == 0) {
        code = nuz_open(IN(dir), AT(path), flags, request->mode, &answer);
        counted_for(dir, &answer, code);
    }
    if (code != 0) {
        return code;
    }
    note_writer(dir->step, answer.stamp);
    *node = made(request, &answer, (struct told){ .kind = NUZ_FILE, .mode = request->mode });
    (*node)->is_untimed = true;
    node_opened(*node, answer.number);
    own(*node, &path, owners_of_new(request));
    return 0;
}

/* ---- files that are open */

static uint64_t handle_of(int flags) {
    return (flags & O_ACCMODE) == O_RDONLY && (flags & O_TRUNC) == 0 ? READS : WRITES;
}

uint32_t cut(struct node *node, int64_t size) {
    nuz_answer answer = { 0 };
    struct path path;
    uint32_t code = 0;
    if (node->fd != 0) {
        code = nuz_ftruncate(IN(node), node->fd, size, &answer);
    } else if ((code = path_of(node, NULL, &path)) == 0) {
        code = nuz_truncate(IN(node), AT(path), size, &answer);
    }
    if (counted_for(node, &answer, code) == 0) {
        note_content(node, answer.stamp);
        node->told.size = (uint64_t)size;
        node->time = now();
        node->is_untimed = true;
    }
    return code;
}

/* Has a file a descriptor, for reading and writing whatever the kernel does with it: one serves all
 * that have the file open, also when it has no name any more. */
static uint32_t need_descriptor(struct node *node, uint64_t *stamp) {
    nuz_answer answer = { 0 };
    struct path path;
    *stamp = 0;
    if (node->fd != 0) {
        return 0;
    }
    uint32_t code = path_of(node, NULL, &path);
    if (code == 0) {
        code = nuz_open(IN(node), AT(path), NUZ_O_RDWR, NUZ_DEFAULT_MODE, &answer);
    }
    if (counted_for(node, &answer, code) == 0) {
        node_opened(node, answer.number);
        *stamp = answer.stamp;
    }
    return code;
}

/* Opens a file once more. */
static uint32_t open_node(struct node *node, int flags) {
    uint64_t stamp;
    uint32_t code = node->step->is_live ? need_descriptor(node, &stamp) : ESTALE;
    if (code != 0) {
        return code;
    }
    if (handle_of(flags) == WRITES) {
        note_writer(node->step, stamp);
    }
    code = (flags & O_TRUNC) != 0 ? cut(node, 0) : 0;
    if (code != 0) {
        node->step->writers--;
        return code;
    }
    node->opens++;
    return 0;
}

uint32_t make_open(struct request *request) {
    uint32_t code = open_node(request->node, request->file.flags);
    if (code != 0) {
        return code;
    }
    if ((request->file.flags & O_TRUNC) != 0 && fuse_req_ctx(request->fuse)->uid != 0) {
        take_set_id(request->node);
    }
    request->file.fh = handle_of(request->file.flags);
    request->file.keep_cache = served.kept > 0;
    fuse_reply_open(request->fuse, &request->file);
    return 0;
}

/* A file that is made and opened. If it is there after all, since a step has committed it a moment
 * ago, the kernel looks again. */
static uint32_t make_new(struct request *request, struct node **node) {
    uint32_t code = new_file(request, node);
    return code == EEXIST && (request->file.flags & O_EXCL) == 0 ? ESTALE : code;
}

uint32_t make_create(struct request *request) {
    struct node *node;
    uint32_t code = make_new(request, &node);
    if (code != 0) {
        return code;
    }
    struct fuse_entry_param entry = entry_of(node);
    node->opens++;
    node->lookups++;
    request->file.fh = WRITES;
    request->file.keep_cache = served.kept > 0;
    fuse_reply_create(request->fuse, &entry, &request->file);
    return 0;
}

/* Gives a file that was written its time, and closes its descriptor if nobody else has it open. (If
 * the step has ended, both was done then.) */
uint32_t make_release(struct request *request) {
    struct node *node = request->node;
    nuz_answer answer = { 0 };
    bool is_live = node->step->is_live;
    if (is_live && request->file.fh == WRITES) {
        set_time(node, NULL);
    }
    if (is_live && node->opens == 1 && node->fd != 0) {
        uint32_t code = nuz_close(IN(node), node->fd, &answer);
        if (counted_for(node, &answer, code) == NUZ_WAITS) {
            return code;
        }
        node_closed(node);
    }
    node->opens--;
    node->step->writers -= request->file.fh == WRITES;
    fuse_reply_err(request->fuse, 0);
    return 0;
}

/* A file that is made and not opened. */
uint32_t make_mknod(struct request *request) {
    struct node *node;
    nuz_answer answer = { 0 };
    uint32_t code = new_file(request, &node);
    if (code != 0) {
        return code;
    }
    set_time(node, NULL);
    code = nuz_close(IN(node), node->fd, &answer);
    counted_for(node, &answer, code);
    node_closed(node);
    node->step->writers--;
    return reply_entry(request, node);
}

/* The room for what is read: requests are made one at a time. */
static char room[MOST_BYTES];

uint32_t make_read(struct request *request) {
    struct node *node = request->node;
    nuz_answer answer = { 0 };
    size_t size = request->size < sizeof room ? request->size : sizeof room;
    uint32_t code = node->fd == 0 ? ESTALE
                  : nuz_pread(IN(node), node->fd, room, size, request->offset, &answer);
    if (counted_for(node, &answer, code) == 0) {
        fuse_reply_buf(request->fuse, room, (size_t)answer.number);
    }
    return code;
}

uint32_t make_write(struct request *request) {
    struct node *node = request->node;
    nuz_answer answer = { 0 };
    uint32_t code = node->fd == 0 ? ESTALE
                  : nuz_pwrite(IN(node), node->fd, request->bytes, request->size,
                               request->offset, &answer);
    if (counted_for(node, &answer, code) != 0) {
        /* (the kernel reports that only to a program that syncs) */
        node->step->is_lost |= request->file.writepage && code != NUZ_WAITS;
        return code;
    }
    uint64_t end = (uint64_t)request->offset + answer.number;
    note_content(node, answer.stamp);
    node->told.size = end > node->told.size ? end : node->told.size;
    node->time = now();
    node->is_untimed = true;
    if ((node->told.mode & (S_ISUID | S_ISGID)) != 0 && fuse_req_ctx(request->fuse)->uid != 0) {
        take_set_id(node);
    }
    fuse_reply_write(request->fuse, (size_t)answer.number);
    return 0;
}
