/* The things that the kernel must forget, since a transaction has ended or something was undone.
 *
 * The kernel is notified in a thread of its own, because it may then wait for a request of the same
 * directory, which the thread that serves requests must answer. Things that waiting requests may
 * have locked come last, so that nobody waits for them. */
#include "mount.h"

/* A name in a directory; or, with no name, all of a node. */
struct item {
    fuse_ino_t inode;
    char *name;
    bool is_locked; /* whether requests about it wait */
};

/* How long it takes at most until the end of a step is replied to, in seconds: a request that waits
 * may have more locked than is known of it. */
enum { MOST_SECONDS = 1 };

struct stale {
    struct item *items;
    size_t count, room;
    uint64_t number;
    fuse_req_t reply;
    size_t written;
    pthread_mutex_t lock;
    pthread_cond_t told;
    bool is_told;
    int users; /* how many threads, and the list of those that are not notified */
    struct stale *next;
};

/* The things of which the kernel has not been notified yet, or not long ago. */
static struct stale *untold;

struct stale *stale_new(void) {
    static uint64_t count;
    struct stale *stale = allocate(sizeof *stale);
    stale->number = ++count;
    pthread_mutex_init(&stale->lock, NULL);
    pthread_cond_init(&stale->told, NULL);
    return stale;
}

static void add(struct stale *stale, const struct node *node, char *name) {
    if (stale->count == stale->room) {
        stale->items = enlarge(stale->items, &stale->room, sizeof *stale->items);
    }
    stale->items[stale->count++] = (struct item){ inode_of(node), name, false };
}

/* All that the kernel keeps of a node: its attributes, and its bytes or the list of its names. */
void stale_node(struct stale *stale, struct node *node) {
    if (node->let_go != stale->number) {
        node->let_go = stale->number;
        add(stale, node, NULL);
    }
}

/* All that the kernel keeps of a name in a directory, and of the list of its names. */
void stale_name(struct stale *stale, struct node *dir, const char *name) {
    add(stale, dir, copy_of(name));
    stale_node(stale, dir);
}

/* Notifies the kernel of what may be locked, or of all else. (It forgets what it does not know.) */
static void tell(const struct stale *stale, bool is_locked) {
    for (size_t i = 0; i < stale->count; i++) {
        const struct item *item = &stale->items[i];
        if (item->is_locked != is_locked) {
            continue;
        }
        if (item->name == NULL) {
            fuse_lowlevel_notify_inval_inode(served.session, item->inode, 0, 0);
        } else {
            fuse_lowlevel_notify_inval_entry(served.session, item->inode, item->name,
                                             strlen(item->name));
        }
    }
}

static void stale_free(struct stale *stale) {
    for (size_t i = 0; i < stale->count; i++) {
        free(stale->items[i].name);
    }
    free(stale->items);
    pthread_cond_destroy(&stale->told);
    pthread_mutex_destroy(&stale->lock);
    free(stale);
}

/* Frees it when the last thread has done with it. */
static void leave(struct stale *stale) {
    pthread_mutex_lock(&stale->lock);
    bool is_last = --stale->users == 0;
    pthread_mutex_unlock(&stale->lock);
    if (is_last) {
        stale_free(stale);
    }
}

/* Takes the things of which the kernel was notified out of the list. */
static void forget_told(void) {
    struct stale **at = &untold;
    while (*at != NULL) {
        struct stale *stale = *at;
        pthread_mutex_lock(&stale->lock);
        bool is_told = stale->is_told;
        pthread_mutex_unlock(&stale->lock);
        if (is_told) {
            *at = stale->next;
            leave(stale);
        } else {
            at = &stale->next;
        }
    }
}

static bool is_of_step(const struct item *item, const char *name) {
    return item->inode == FUSE_ROOT_ID && item->name != NULL && strcmp(item->name, name) == 0;
}

static bool has_step(const struct stale *stale, const char *name) {
    size_t i = 0;
    while (i < stale->count && !is_of_step(&stale->items[i], name)) {
        i++;
    }
    return i < stale->count;
}

bool stale_has_step(const char *name) {
    forget_told();
    const struct stale *stale = untold;
    while (stale != NULL && !has_step(stale, name)) {
        stale = stale->next;
    }
    return stale != NULL;
}

static void *tell_all(void *at) {
    struct stale *stale = at;
    tell(stale, false);
    pthread_mutex_lock(&stale->lock);
    stale->is_told = true;
    pthread_cond_signal(&stale->told);
    pthread_mutex_unlock(&stale->lock);
    tell(stale, true);
    leave(stale);
    return NULL;
}

static void *reply_when_told(void *at) {
    struct stale *stale = at;
    struct timespec until;
    int late = 0;
    clock_gettime(CLOCK_REALTIME, &until);
    until.tv_sec += MOST_SECONDS;
    pthread_mutex_lock(&stale->lock);
    while (!stale->is_told && late == 0) {
        late = pthread_cond_timedwait(&stale->told, &stale->lock, &until);
    }
    pthread_mutex_unlock(&stale->lock);
    fuse_reply_write(stale->reply, stale->written);
    leave(stale);
    return NULL;
}

/* Has a thread do something. If there is none, it is done at once. */
static void begin(void *(*what)(void *), struct stale *stale) {
    pthread_t thread;
    if (pthread_create(&thread, NULL, what, stale) == 0) {
        pthread_detach(thread);
    } else {
        what(stale);
    }
}

void stale_let_go(struct stale *stale, fuse_req_t reply, size_t written) {
    stale->reply = reply;
    stale->written = written;
    stale->users = reply == NULL ? 2 : 3;
    for (size_t i = 0; i < stale->count; i++) {
        stale->items[i].is_locked = waits_about(stale->items[i].inode);
    }
    forget_told();
    stale->next = untold;
    untold = stale;
    begin(tell_all, stale);
    if (reply != NULL) {
        begin(reply_when_told, stale);
    }
}
