/* mount.h: what the files of the mount share.
 *
 * One thread serves the kernel's requests, and makes all calls of the tree but those of a copy,
 * which has a thread of its own. Each holds the lock of the mount while it touches what is here.
 */
#ifndef NUZ_MOUNT_H
#define NUZ_MOUNT_H

#define _GNU_SOURCE
#define FUSE_USE_VERSION 35

#include <nuzolged.h>

#include <errno.h>
#include <fuse_lowlevel.h>
#include <pthread.h>
#include <stdbool.h>
#include <stdint.h>
#include <stdlib.h>
#include <string.h>
#include <sys/stat.h>
#include <time.h>

/* ---- hash tables (table.c) */

/* The first member of what is in a table. */
struct link {
    struct link *next;
    uint64_t hash;
};

struct table {
    struct link **slots;
    size_t count, room; /* room is 0 or a power of 2 */
};

uint64_t hash_of(const void *owner, const void *bytes, size_t len);
struct link *table_first(const struct table *table, uint64_t hash);
void table_add(struct table *table, struct link *link, uint64_t hash);
void table_remove(struct table *table, struct link *link);

/* Memory for the mount's own notes. Without it the process ends, and all live steps with it. */
void *allocate(size_t size);
void *enlarge(void *at, size_t *room, size_t size);
char *copy_of(const char *text);

/* ---- nodes: what the kernel knows (nodes.c) */

struct step;
struct node;

/* A name by which a node is known in a directory. */
struct name {
    struct link link;
    struct node *dir, *node;
    struct name *more; /* of the same node */
    char text[];
};

/* The part of a file's stat that the mount remembers, as its step saw it. */
struct told {
    uint32_t kind, mode, owner, group;
    uint64_t links, size;
    bool has_time;
    struct timespec time;
};

/* A directory, file or symbolic link of one step. The kernel's number of it is its address. */
struct node {
    struct link link;
    struct step *step; /* NULL for DIR and the control file */
    uint64_t number;   /* in the tree */
    uint64_t lookups;  /* how often the kernel has got it */
    size_t children;   /* how many names are known in it */
    struct name *names;
    bool is_told;      /* whether `told` is what a stat would say */
    struct told told;
    struct timespec time; /* of a file's last write; of a directory's last change of names */
    bool is_untimed;   /* whether a file was written and the tree has no time of it yet */
    uint64_t fd;       /* a descriptor that is open for reading and writing, or 0 */
    size_t opens;      /* how many open files of the kernel use it */
    struct node *next_open, *previous_open;
    size_t marked;     /* the last mark of the step at which a change of it was noted */
    uint64_t let_go;   /* the last list of things for the kernel to forget that it was put in */
};

/* A path of the tree, at the end of a room. */
enum { PATH_ROOM = 4096 + 256 + 2 };
struct path {
    const char *at;
    size_t len;
    char room[PATH_ROOM];
};

fuse_ino_t inode_of(const struct node *node);
struct node *node_at(fuse_ino_t inode);
uint64_t shown_number(const struct node *node);
struct node *node_find(const struct step *step, uint64_t number);
struct node *node_of(struct step *step, uint64_t number);
struct node *node_of_control(void);
bool node_is_control(const struct node *node);
void node_forget(struct node *node, uint64_t times);
struct node *name_find(const struct node *dir, const char *text);
void name_set(struct node *dir, const char *text, struct node *node);
uint32_t path_of(const struct node *node, const char *name, struct path *path);
void node_tell(struct node *node, const nuz_answer *answer);
void node_status(const struct node *node, struct stat *status);
void node_opened(struct node *node, uint64_t fd);
void node_closed(struct node *node);
struct timespec now(void);

/* ---- steps (steps.c) */

/* A change by a step: what a name leads to, by numbers (0: to nothing), or, with no name, a file's
 * bytes or attributes. */
struct change {
    char *name;
    uint64_t dir, before, after;
};

/* The beginning of a change that can be undone by itself. */
struct mark {
    uint64_t stamp; /* of its first call */
    size_t change;  /* the first of its changes */
};

/* A live transaction, or one that has ended and of which the kernel still knows something. */
struct step {
    char *name;      /* in DIR; NULL of one that only a copy uses */
    uint64_t txn;
    uint64_t place;  /* how many had begun, with it */
    struct step *parent, *next;
    bool is_live;
    bool is_seen;    /* by a search for a cycle */
    bool is_removed; /* whether the kernel removes its directory itself */
    bool is_kept;    /* whether a copy goes on with it */
    bool is_lost;    /* whether the kernel could not write what a program has put into memory */
    bool is_broken;  /* whether a call in it has failed with EDEADLK: */
    uint64_t *in_way; /* the transactions that must end before it can be tried again */
    size_t in_way_count;
    size_t steps;    /* how many live ones are directly in it */
    size_t nodes;    /* how many nodes it has */
    uint64_t calls;  /* that were granted, with those of steps that have committed */
    struct node *open; /* its nodes that have a descriptor */
    size_t writers;  /* how many open files of the kernel may be written */
    uint64_t opened; /* the stamp with which they began */
    struct change *changes;
    size_t change_count, change_room;
    struct mark *marks;
    size_t mark_count, mark_room;
    bool has_committed; /* whether a step of it has committed, before all marks */
    size_t marks_made;
};

struct stale;
struct control;

struct step *step_named(const char *name, size_t len);
struct step *step_of_txn(uint64_t txn);
/* The outermost transaction around a step that does not have another one in it, or the step. */
struct step *step_apart(struct step *step, const struct step *other);
uint32_t step_begin(const char *name, struct step **begun);
uint32_t step_begin_in(struct step *parent, char *name, struct step **begun);
uint32_t step_commit(struct step *step, struct stale **stale);
uint32_t step_abort(struct step *step, struct stale **stale);
uint32_t step_undo(struct step *step, struct stale **stale);
void step_free_if_over(struct step *step);
uint32_t job_begin(void);

/* Counts a call of a step that was granted, and returns its code. */
uint32_t counted(struct step *step, const nuz_answer *answer, uint32_t code);

/* Notes what a granted call has changed. */
void note_name(struct node *dir, const char *name, struct node *to, uint64_t number,
               uint64_t stamp);
void note_content(struct node *node, uint64_t stamp);
void note_writer(struct step *step, uint64_t stamp);

/* Gives a file its time in the tree, if it has none yet; and returns the stamp of that, unless it
 * is NULL. */
uint32_t set_time(struct node *node, uint64_t *stamp);

/* ---- requests of the kernel, and those that wait (waiting.c) */

/* That a step waits for others. */
struct wait {
    struct step *step;
    bool is_given; /* for whom, and not by a call of the tree */
    uint64_t *blockers;
    size_t count, room;
    struct timespec until;
    struct wait *next;
};

struct request;

/* Carries out a request: returns 0 if it has been replied to, the code of its error, or NUZ_WAITS,
 * after which it is carried out again when a transaction has ended. */
typedef uint32_t operation(struct request *request);

struct request {
    fuse_req_t fuse;
    operation *make;
    struct node *node, *other; /* what it is about; for a rename or link also the new directory */
    const char *name, *other_name;
    const char *bytes;
    size_t size;
    off_t offset;
    uint32_t mode, flags; /* (flags: of a rename, or those of fuse_setattr) */
    struct stat set;
    struct fuse_file_info file;
    struct wait wait;
    bool is_watched; /* whether a signal has come that did not interrupt it: another one may */
    struct timespec look; /* when it is looked whether it has */
    struct request *next;
};

void serve(struct request *request);
/* Adds a transaction to those that a step is given to wait for. */
void wait_add(struct wait *wait, uint64_t txn);
/* Replies to a write when all transactions have ended that a step is given to wait for, whose list
 * it frees; or with an error. */
void reply_when_ended(fuse_req_t fuse, size_t written, const struct wait *wait);
void waits_try_again(void);
void waits_end_of(const struct step *step);
/* Whether a request waits that is about something, so that the kernel may have that locked. */
bool waits_about(fuse_ino_t inode);
/* Ends the requests that have waited for too long, and those of programs that a signal has come to.
 * Returns in how many milliseconds that is to be done again, or -1 if not before a request. */
int waits_look(void);
/* How often it is looked whether a signal has come, in milliseconds. */
enum { LOOK_EVERY = 100 };
/* Whether a signal has come to the program of a request that interrupts it. */
bool has_signal(fuse_req_t fuse);

/* For a copy: notes that it waits, and for whom, unless that closes a cycle (EDEADLK); and that it
 * does no more. */
uint32_t wait_begins(struct wait *wait);
void wait_ends(struct wait *wait);
/* A time of the monotonic clock, so far from now; and how long it is until then, up to a minute. */
struct timespec time_ahead(struct timespec how_far);
int milliseconds_until(const struct timespec *until);
/* Whether a step waits for another one; or, with NULL, for any. */
bool waits_for(const struct step *step, const struct step *other);

int errno_of(uint32_t code);

/* ---- things for the kernel to forget (cache.c) */

struct stale *stale_new(void);
void stale_name(struct stale *stale, struct node *dir, const char *name);
void stale_node(struct stale *stale, struct node *node);
/* Tells the kernel, in a thread of its own, and then that so many bytes of a request were written,
 * unless that is NULL. */
void stale_let_go(struct stale *stale, fuse_req_t reply, size_t written);
/* Whether the kernel must still forget a step of a name that has ended. */
bool stale_has_step(const char *name);

/* ---- the kernel's requests (calls.c), and those of the control file (control.c) */

extern const struct fuse_lowlevel_ops operations;

void control_open(fuse_req_t fuse, struct fuse_file_info *file);
void control_read(fuse_req_t fuse, struct fuse_file_info *file, size_t size);
void control_write(fuse_req_t fuse, struct fuse_file_info *file, const char *bytes, size_t size);
void control_release(fuse_req_t fuse, struct fuse_file_info *file);

/* Makes a text the reply to the last request. */
void control_say(struct control *control, const char *text);

/* Ends a request that ends steps, with the things that the kernel must forget. */
void ended_steps(struct stale *stale, fuse_req_t reply, size_t written);

/* ---- copies (save.c) */

struct save {
    struct step *step; /* its own, in the one that is saved */
    char *to;          /* the folder, which it frees */
    bool replaces;
    fuse_req_t fuse;   /* the process that asked for it, by a write */
    size_t written;    /* of so many bytes, */
    struct control *control; /* to what it has open until it is replied to */
    bool is_watched;   /* whether a signal has come that did not end it: another one may */
    bool is_over;      /* whether it must end */
    pthread_t thread;
    struct save *next;
};

/* Begins a copy, which replies when it has ended. */
uint32_t save_begin(const struct save *save);
/* Interrupts the copies that have been given up: they may wait for the disk, which may be a mount
 * too. Returns what waits_look returns. */
int saves_look(void);

/* ---- the beginning (load.c) */

/* Has the tree hold a folder, and makes that its beginning. */
bool load(const char *folder);

/* ---- the mount */

struct mount {
    nuz_tree *tree;
    struct fuse_session *session;
    pthread_mutex_t lock;
    pthread_cond_t ended; /* a transaction has */
    struct step *steps;   /* the live ones, by when they began, the job first */
    uint64_t begun;       /* how many have */
    struct node top; /* DIR */
    struct table nodes, names;
    struct wait *waits;
    struct request *parked;
    int stamped; /* a file without a name, to which the kernel gives the time, or -1 */
    struct timespec born;
    struct timespec limit; /* of a wait */
    bool has_limit;
    double kept; /* for how many seconds the kernel may keep its knowledge */
    uid_t user;
    gid_t group;
};

extern struct mount served;

/* For how long the kernel may keep its knowledge, in seconds: until it is notified. */
#define FOREVER 1e9

#endif
