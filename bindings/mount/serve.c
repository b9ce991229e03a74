/* A mount from its beginning to its end. */
#include "mount.h"

#include "commands.h"

#include <fcntl.h>
#include <linux/fuse.h>
#include <poll.h>
#include <signal.h>
#include <stdio.h>
#include <sys/mman.h>
#include <sys/prctl.h>
#include <sys/random.h>
#include <sys/sysmacros.h>
#include <sys/uio.h>
#include <unistd.h>

struct mount served = {
    .lock = PTHREAD_MUTEX_INITIALIZER,
    .top = { .number = FUSE_ROOT_ID },
};

/* ---- the tree */

/* The mode and owner of an empty tree: those of the directory that it is to replace, or else of a
 * new one. */
static struct stat root_of(const struct serve_options *options) {
    struct stat status;
    if (options->like == NULL || lstat(options->like, &status) != 0) {
        mode_t mask = umask(0);
        umask(mask);
        status.st_mode = 0777 & ~mask;
        status.st_uid = served.user;
        status.st_gid = served.group;
    }
    return status;
}

static uint32_t own_root(const struct serve_options *options) {
    nuz_answer job, answer;
    const struct stat root = root_of(options);
    uint32_t code = nuz_begin(served.tree, &job);
    if (code == 0) {
        code = nuz_chown(served.tree, job.number, NUZ_S("/"), root.st_uid, root.st_gid, &answer);
    }
    if (code == 0) {
        code = nuz_chmod(served.tree, job.number, NUZ_S("/"), root.st_mode & 07777, &answer);
    }
    if (code == 0) {
        code = nuz_commit(served.tree, job.number, &answer);
        nuz_checkpoint(served.tree, &answer);
    }
    return code;
}

static bool open_tree(const struct serve_options *options) {
    uint64_t seed = 0;
    served.kept = options->is_uncached ? 0 : FOREVER;
    uint32_t code = nuz_tree_open(&served.tree, options->is_moss ? NUZ_MOSS : NUZ_RELAXED);
    if (code != 0) {
        complain("%s", nuz_strerror(code));
        return false;
    }
    if (getrandom(&seed, sizeof seed, GRND_NONBLOCK) == sizeof seed) {
        nuz_tree_seed(served.tree, seed);
    }
    if (options->from != NULL && !load(options->from)) {
        return false;
    }
    code = options->from == NULL ? own_root(options) : 0;
    code = code == 0 ? job_begin() : code;
    if (code != 0) {
        complain("%s", nuz_strerror(code));
    }
    return code == 0;
}

/* ---- the session */

static void do_nothing(int ignored) {
    (void)ignored;
}

/* Has waits be timed by a clock that nobody sets, and threads be interrupted by SIGUSR1. */
static void prepare(const struct serve_options *options) {
    const struct sigaction action = { .sa_handler = do_nothing };
    sigaction(SIGUSR1, &action, NULL);
    pthread_condattr_t attributes;
    pthread_condattr_init(&attributes);
    pthread_condattr_setclock(&attributes, CLOCK_MONOTONIC);
    pthread_cond_init(&served.ended, &attributes);
    pthread_condattr_destroy(&attributes);
    served.stamped = memfd_create("nuz", MFD_CLOEXEC);
    served.born = now();
    served.has_limit = options->has_limit;
    served.limit = options->limit;
    served.user = geteuid();
    served.group = getegid();
}

/* Two things that libfuse 3.14 does not request from the kernel, even if it is told to: a name
 * which is waited for does not keep others of its directory waiting, and set-id bits are left to
 * the mount. */
enum { ASKED_FOR = FUSE_PARALLEL_DIROPS | FUSE_HANDLE_KILLPRIV };

/* Requests more, in the reply with the options of the mount. */
static void ask_for_more(const struct iovec *parts, int count) {
    if (count > 1 && parts[1].iov_len > offsetof(struct fuse_init_out, flags)) {
        struct fuse_init_out *init = parts[1].iov_base;
        init->flags |= ASKED_FOR;
    }
}

/* Writes a reply. The first one is that one, before there are other threads. */
static ssize_t write_reply(int fd, struct iovec *parts, int count, void *ignored) {
    static bool has_asked;
    (void)ignored;
    if (!has_asked) {
        ask_for_more(parts, count);
        has_asked = true;
    }
    return writev(fd, parts, count);
}

static ssize_t read_request(int fd, void *buffer, size_t room, void *ignored) {
    (void)ignored;
    return read(fd, buffer, room);
}

/* How a mount is used: by all users, by the modes of what is in it; by the user who has mounted, by
 * them too; or by root, to whom they forbid nothing, so that the kernel need not check them. */
static char *use_of(const struct serve_options *options) {
    return options->is_for_all ? "fsname=nuz,subtype=nuz,default_permissions,allow_other"
         : served.user != 0    ? "fsname=nuz,subtype=nuz,default_permissions"
                               : "fsname=nuz,subtype=nuz";
}

static bool open_session(const struct serve_options *options) {
    char *words[] = { "nuz", "-o", use_of(options), NULL };
    struct fuse_args arguments = FUSE_ARGS_INIT(3, words);
    const struct fuse_custom_io io = { .writev = write_reply, .read = read_request };
    served.session = fuse_session_new(&arguments, &operations, sizeof operations, NULL);
    fuse_opt_free_args(&arguments);
    if (options->is_own || options->stays) {
        signal(SIGTERM, SIG_DFL); /* (libfuse has its handler only in the place of that) */
    }
    return served.session != NULL && fuse_set_signal_handlers(served.session) == 0
        && fuse_session_mount(served.session, options->dir) == 0
        && fuse_session_custom_io(served.session, &io, fuse_session_fd(served.session)) == 0;
}

/* Waits for a request, or until there is something to do for those that wait. Returns whether a
 * request came. */
static bool has_request(void) {
    pthread_mutex_lock(&served.lock);
    int timeout = waits_look(), look = saves_look();
    pthread_mutex_unlock(&served.lock);
    timeout = look >= 0 && (timeout < 0 || look < timeout) ? look : timeout;
    struct pollfd poll_for = { .fd = fuse_session_fd(served.session), .events = POLLIN };
    return timeout < 0 || poll(&poll_for, 1, timeout) > 0;
}

static void serve_requests(void) {
    struct fuse_buf buffer = { 0 };
    while (!fuse_session_exited(served.session)) {
        int size = has_request() ? fuse_session_receive_buf(served.session, &buffer) : -EINTR;
        if (size > 0) {
            fuse_session_process_buf(served.session, &buffer);
        } else if (size != -EINTR && size != -EAGAIN) {
            break;
        }
    }
    free(buffer.mem);
}

/* Releases the terminal, and the current directory, which could not be unmounted else. */
static bool go_behind(void) {
    int null = open("/dev/null", O_RDWR | O_CLOEXEC);
    bool is_behind = null >= 0 && dup2(null, STDIN_FILENO) >= 0 && dup2(null, STDOUT_FILENO) >= 0
                  && dup2(null, STDERR_FILENO) >= 0 && chdir("/") == 0;
    if (null >= 0) {
        close(null);
    }
    return is_behind;
}

/* Serves a mount until it is unmounted or a signal ends it; then all that is live is aborted, and
 * the lock kept, so that no copy goes on. */
static int serve_until_end(const struct serve_options *options, int ready) {
    char done = 0;
    prepare(options);
    if (!open_tree(options)) {
        return 1;
    }
    if (!open_session(options)) {
        complain("mount %s: it can't be mounted", options->dir);
        return 1;
    }
    bool is_ready = options->stays || go_behind();
    if (is_ready && write(ready, &done, 1) == 1) {
        close(ready);
        serve_requests();
    }
    pthread_mutex_lock(&served.lock);
    fuse_session_unmount(served.session);
    nuz_answer answer;
    if (served.steps != NULL) {
        nuz_abort(served.tree, served.steps->txn, &answer);
    }
    nuz_tree_close(served.tree);
    if (options->is_own) {
        rmdir(options->dir);
    }
    return 0;
}

/* ---- as others begin it */

/* Lets the kernel read as much at once as a request may have, if root mounts. */
static void read_far_ahead(const char *dir) {
    struct stat status;
    char path[80];
    if (stat(dir, &status) != 0) {
        return;
    }
    snprintf(path, sizeof path, "/sys/class/bdi/%u:%u/read_ahead_kb", major(status.st_dev),
             minor(status.st_dev));
    FILE *file = fopen(path, "we");
    if (file != NULL) {
        fputs("1024\n", file);
        fclose(file);
    }
}

/* The directory of a mount that ends with its parent, which may be killed before it can be used. */
static const char *own_dir;

static void remove_own(int ignored) {
    (void)ignored;
    rmdir(own_dir);
    _exit(1);
}

/* Has the process end with its parent. */
static void end_with_parent(const struct serve_options *options, pid_t parent) {
    own_dir = options->is_own ? options->dir : "";
    signal(SIGTERM, remove_own);
    if (prctl(PR_SET_PDEATHSIG, SIGTERM) != 0 || getppid() != parent) {
        remove_own(SIGTERM);
    }
}

/* The work of the process of a mount. It keeps nothing open that somebody waits to be closed. */
static _Noreturn void be_mount(const struct serve_options *options, pid_t parent,
                               const int ready[2]) {
    unsigned kept = (unsigned)ready[1];
    if (kept > 3) {
        close_range(3, kept - 1, 0);
    }
    close_range(kept + 1, ~0u, 0);
    if (!options->stays) {
        setsid();
    }
    if (options->stays || options->is_own) {
        end_with_parent(options, parent);
    }
    exit(serve_until_end(options, ready[1]));
}

/* Begins a mount in a process of its own, and returns when it can be used, or -1. */
pid_t serve_begin(const struct serve_options *options) {
    int ready[2];
    char done;
    if (pipe2(ready, O_CLOEXEC) != 0) {
        complain("pipe: %s", strerror(errno));
        return -1;
    }
    pid_t parent = getpid(), process = fork();
    if (process == 0) {
        be_mount(options, parent, ready);
    }
    close(ready[1]);
    bool is_ready = process > 0 && read(ready[0], &done, 1) == 1;
    close(ready[0]);
    if (process < 0) {
        complain("fork: %s", strerror(errno));
    } else if (is_ready) {
        read_far_ahead(options->dir);
    }
    return is_ready ? process : -1;
}
