/* The kernel's requests, as libfuse calls them. */
#include "calls.h"

#include <sys/statvfs.h>
#include <sys/sysinfo.h>

/* As much room as the machine has memory, in blocks of a page: if fallocate is not supported, the C
 * library writes a byte a block. */
enum { BLOCK = 4096 };
static uint32_t make_statfs(struct request *request) {
    struct sysinfo info;
    sysinfo(&info);
    fsblkcnt_t room = (info.freeram + info.bufferram) * info.mem_unit / BLOCK;
    struct statvfs status = {
        .f_bsize = BLOCK,
        .f_frsize = BLOCK,
        .f_blocks = info.totalram * info.mem_unit / BLOCK,
        .f_bfree = room,
        .f_bavail = room,
        .f_files = UINT32_MAX,
        .f_ffree = UINT32_MAX,
        .f_favail = UINT32_MAX,
        .f_namemax = 255,
    };
    fuse_reply_statfs(request->fuse, &status);
    return 0;
}

/* ---- as libfuse calls them */

static void on_init(void *ignored, struct fuse_conn_info *connection) {
    (void)ignored;
    const unsigned unwanted = FUSE_CAP_AUTO_INVAL_DATA | FUSE_CAP_READDIRPLUS
                            | FUSE_CAP_READDIRPLUS_AUTO | FUSE_CAP_IOCTL_DIR;
    const unsigned wanted = FUSE_CAP_EXPLICIT_INVAL_DATA | FUSE_CAP_CACHE_SYMLINKS
                          | FUSE_CAP_PARALLEL_DIROPS | FUSE_CAP_ATOMIC_O_TRUNC
                          | FUSE_CAP_HANDLE_KILLPRIV;
    connection->want = (connection->want & ~unwanted) | (connection->capable & wanted);
    connection->max_write = MOST_BYTES;
    connection->max_readahead = MOST_BYTES;
    connection->max_background = 64;
    connection->congestion_threshold = 48;
    connection->time_gran = 1;
}

static void on_lookup(fuse_req_t fuse, fuse_ino_t dir, const char *name) {
    serve(&(struct request){ fuse, make_lookup, .node = node_at(dir), .name = name });
}

static void on_forget(fuse_req_t fuse, fuse_ino_t inode, uint64_t times) {
    pthread_mutex_lock(&served.lock);
    node_forget(node_at(inode), times);
    pthread_mutex_unlock(&served.lock);
    fuse_reply_none(fuse);
}

static void on_forget_multi(fuse_req_t fuse, size_t count, struct fuse_forget_data *forgets) {
    pthread_mutex_lock(&served.lock);
    for (size_t i = 0; i < count; i++) {
        node_forget(node_at(forgets[i].ino), forgets[i].nlookup);
    }
    pthread_mutex_unlock(&served.lock);
    fuse_reply_none(fuse);
}

static void on_getattr(fuse_req_t fuse, fuse_ino_t inode, struct fuse_file_info *ignored) {
    (void)ignored;
    serve(&(struct request){ fuse, make_getattr, .node = node_at(inode) });
}

static void on_setattr(fuse_req_t fuse, fuse_ino_t inode, struct stat *set, int flags,
                       struct fuse_file_info *ignored) {
    (void)ignored;
    serve(&(struct request){ fuse, make_setattr, .node = node_at(inode), .set = *set,
                             .flags = (uint32_t)flags });
}

static void on_readlink(fuse_req_t fuse, fuse_ino_t inode) {
    serve(&(struct request){ fuse, make_readlink, .node = node_at(inode) });
}

static void on_mkdir(fuse_req_t fuse, fuse_ino_t dir, const char *name, mode_t mode) {
    serve(&(struct request){ fuse, make_mkdir, .node = node_at(dir), .name = name,
                             .mode = mode & 07777 });
}

static void on_mknod(fuse_req_t fuse, fuse_ino_t dir, const char *name, mode_t mode,
                     dev_t ignored) {
    (void)ignored;
    if (!S_ISREG(mode) || dir == FUSE_ROOT_ID) {
        fuse_reply_err(fuse, EPERM);
        return;
    }
    serve(&(struct request){ fuse, make_mknod, .node = node_at(dir), .name = name,
                             .mode = mode & 07777 });
}

static void on_unlink(fuse_req_t fuse, fuse_ino_t dir, const char *name) {
    serve(&(struct request){ fuse, make_unlink, .node = node_at(dir), .name = name });
}

static void on_rmdir(fuse_req_t fuse, fuse_ino_t dir, const char *name) {
    serve(&(struct request){ fuse, make_rmdir, .node = node_at(dir), .name = name });
}

static void on_symlink(fuse_req_t fuse, const char *target, fuse_ino_t dir, const char *name) {
    if (dir == FUSE_ROOT_ID) {
        fuse_reply_err(fuse, EPERM);
        return;
    }
    serve(&(struct request){ fuse, make_symlink, .node = node_at(dir), .name = name,
                             .other_name = target });
}

static void on_rename(fuse_req_t fuse, fuse_ino_t dir, const char *name, fuse_ino_t other,
                      const char *other_name, unsigned flags) {
    serve(&(struct request){ fuse, make_rename, .node = node_at(dir), .name = name,
                             .other = node_at(other), .other_name = other_name, .flags = flags });
}

static void on_link(fuse_req_t fuse, fuse_ino_t inode, fuse_ino_t dir, const char *name) {
    serve(&(struct request){ fuse, make_link, .node = node_at(inode), .other = node_at(dir),
                             .name = name });
}

static bool is_control(fuse_ino_t inode) {
    return node_is_control(node_at(inode));
}

static void on_open(fuse_req_t fuse, fuse_ino_t inode, struct fuse_file_info *file) {
    if (is_control(inode)) {
        control_open(fuse, file);
        return;
    }
    serve(&(struct request){ fuse, make_open, .node = node_at(inode), .file = *file });
}

static void on_create(fuse_req_t fuse, fuse_ino_t dir, const char *name, mode_t mode,
                      struct fuse_file_info *file) {
    if (dir == FUSE_ROOT_ID) {
        fuse_reply_err(fuse, EPERM);
        return;
    }
    serve(&(struct request){ fuse, make_create, .node = node_at(dir), .name = name,
                             .mode = mode & 07777, .file = *file });
}

static void on_read(fuse_req_t fuse, fuse_ino_t inode, size_t size, off_t offset,
                    struct fuse_file_info *file) {
    if (is_control(inode)) {
        control_read(fuse, file, size);
        return;
    }
    serve(&(struct request){ fuse, make_read, .node = node_at(inode), .size = size,
                             .offset = offset });
}

static void on_write(fuse_req_t fuse, fuse_ino_t inode, const char *bytes, size_t size,
                     off_t offset, struct fuse_file_info *file) {
    if (is_control(inode)) {
        control_write(fuse, file, bytes, size);
        return;
    }
    serve(&(struct request){ fuse, make_write, .node = node_at(inode), .bytes = bytes,
                             .size = size, .offset = offset, .file = *file });
}

static void on_release(fuse_req_t fuse, fuse_ino_t inode, struct fuse_file_info *file) {
    if (is_control(inode)) {
        control_release(fuse, file);
        return;
    }
    serve(&(struct request){ fuse, make_release, .node = node_at(inode), .file = *file });
}

static void on_opendir(fuse_req_t fuse, fuse_ino_t inode, struct fuse_file_info *file) {
    serve(&(struct request){ fuse, list_open, .node = node_at(inode), .file = *file });
}

static void on_readdir(fuse_req_t fuse, fuse_ino_t inode, size_t size, off_t offset,
                       struct fuse_file_info *file) {
    serve(&(struct request){ fuse, list_read, .node = node_at(inode), .size = size,
                             .offset = offset, .file = *file });
}

static void on_releasedir(fuse_req_t fuse, fuse_ino_t inode, struct fuse_file_info *file) {
    serve(&(struct request){ fuse, list_release, .node = node_at(inode), .file = *file });
}

static void on_statfs(fuse_req_t fuse, fuse_ino_t inode) {
    serve(&(struct request){ fuse, make_statfs, .node = node_at(inode) });
}

/* The kernel does what is not here by itself, or refuses it: extended attributes, fallocate,
 * copy_file_range, SEEK_DATA, locks, fsync. There is no flush, so that no close waits for one: a
 * file gets its time when it is released. */
const struct fuse_lowlevel_ops operations = {
    .init = on_init,
    .lookup = on_lookup,
    .forget = on_forget,
    .forget_multi = on_forget_multi,
    .getattr = on_getattr,
    .setattr = on_setattr,
    .readlink = on_readlink,
    .mknod = on_mknod,
    .mkdir = on_mkdir,
    .unlink = on_unlink,
    .rmdir = on_rmdir,
    .symlink = on_symlink,
    .rename = on_rename,
    .link = on_link,
    .open = on_open,
    .create = on_create,
    .read = on_read,
    .write = on_write,
    .release = on_release,
    .opendir = on_opendir,
    .readdir = on_readdir,
    .releasedir = on_releasedir,
    .statfs = on_statfs,
};
