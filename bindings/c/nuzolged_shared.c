/* A tree that threads share, as nuzolged_shared.h says: a lock, and a condition that a transaction
 * has ended, or waits no longer. */
#define _POSIX_C_SOURCE 200809L /* for the clock of a condition */

#include <nuzolged_cycle.h>
#include <nuzolged_shared.h>

#include <errno.h>
#include <pthread.h>
#include <stdlib.h>
#include <time.h>

/* How many milliseconds a thread sleeps at most before its call is made again: so many, or so many
 * for each call that waits if that is more. */
enum { MOST_PAUSE = 50, PAUSE_EACH = 5 };

/* With how many waiting calls they wait in turn. A turn takes time for each pair of them. */
enum { MOST_TURNS = 32 };

struct nuz_shared {
    nuz_tree *tree;
    pthread_mutex_t lock;
    pthread_cond_t ended;
    uint64_t waiting; /* how many calls wait */
    bool is_fair;     /* whether calls are to wait in turn */
};

/* A call that waits. It is made again by a retry or, if it is of a copy, by make. */
typedef struct call {
    uint64_t txn;
    void *buffer;
    size_t room;
    nuz_answer *answer;
    nuz_copy_request *make;
    void *request;
} call;

static bool is_ready(nuz_shared *shared) {
    pthread_condattr_t how;
    if (pthread_mutex_init(&shared->lock, NULL) != 0) {
        return false;
    }
    bool is_set = pthread_condattr_init(&how) == 0;
    bool is_good = is_set && pthread_condattr_setclock(&how, CLOCK_MONOTONIC) == 0
        && pthread_cond_init(&shared->ended, &how) == 0;
    if (is_set) {
        pthread_condattr_destroy(&how);
    }
    if (!is_good) {
        pthread_mutex_destroy(&shared->lock);
    }
    return is_good;
}

uint32_t nuz_shared_open(nuz_shared **shared, nuz_tree *tree) {
    *shared = malloc(sizeof **shared);
    if (*shared == NULL || !is_ready(*shared)) {
        free(*shared);
        *shared = NULL;
        return NUZ_MEMORY;
    }
    (*shared)->tree = tree;
    (*shared)->waiting = 0;
    (*shared)->is_fair = true;
    nuz_tree_fair(tree, true);
    return 0;
}

void nuz_shared_close(nuz_shared *shared) {
    if (shared != NULL) {
        pthread_cond_destroy(&shared->ended);
        pthread_mutex_destroy(&shared->lock);
        nuz_tree_close(shared->tree);
        free(shared);
    }
}

nuz_tree *nuz_shared_lock(nuz_shared *shared) {
    pthread_mutex_lock(&shared->lock);
    return shared->tree;
}

void nuz_shared_unlock(nuz_shared *shared) {
    pthread_mutex_unlock(&shared->lock);
}

/* Lets calls wait in turn, if they are to and not too many wait. */
static void set_turns(nuz_shared *shared) {
    nuz_tree_fair(shared->tree, shared->is_fair && shared->waiting <= MOST_TURNS);
}

void nuz_shared_fair(nuz_shared *shared, bool is_fair) {
    nuz_shared_lock(shared);
    shared->is_fair = is_fair;
    set_turns(shared);
    nuz_shared_unlock(shared);
}

static uint64_t now(void) {
    struct timespec time;
    clock_gettime(CLOCK_MONOTONIC, &time);
    return (uint64_t)time.tv_sec * 1000 + (uint64_t)time.tv_nsec / 1000000;
}

/* Sleeps until a transaction has ended or waits no longer, but at most to that time, or for a
 * pause. */
static void nap(nuz_shared *shared, uint64_t begun, uint64_t end) {
    uint64_t each = shared->waiting * PAUSE_EACH;
    uint64_t pause = each < MOST_PAUSE ? MOST_PAUSE : each;
    uint64_t woken = end - begun < pause ? end : begun + pause;
    struct timespec time = { (time_t)(woken / 1000), (long)(woken % 1000) * 1000000 };
    pthread_cond_timedwait(&shared->ended, &shared->lock, &time);
}

/* Whether a transaction is part of a deadlock, which is then the answer. */
static bool is_dead(nuz_shared *shared, const call *call) {
    uint64_t members[NUZ_BLOCKERS] = { 0 };
    nuz_answer told;
    if (nuz_cycle_of(shared->tree, call->txn, members, NUZ_BLOCKERS, &told) != 0
        || told.number == 0) {
        return false;
    }
    told.code = EDEADLK;
    memcpy(told.blockers, members, sizeof members);
    *call->answer = told;
    return true;
}

/* Forgets a call, for which others may have waited in turn. */
static void forget(nuz_shared *shared, const call *call) {
    nuz_answer cancelled;
    nuz_cancel(shared->tree, call->txn, &cancelled);
    pthread_cond_broadcast(&shared->ended);
}

static uint32_t make_again(nuz_shared *shared, const call *call) {
    return call->make != NULL
        ? call->make(shared->tree, call->request)
        : nuz_retry(shared->tree, call->txn, call->buffer, call->room, call->answer);
}

/* Makes a call again as long as it has to wait. */
static uint32_t wait_on(nuz_shared *shared, const call *call, uint32_t milliseconds) {
    uint32_t code = NUZ_WAITS;
    uint64_t begun = now();
    uint64_t end = milliseconds == NUZ_FOREVER ? UINT64_MAX : begun + milliseconds;
    while (code == NUZ_WAITS) {
        if (is_dead(shared, call)) {
            forget(shared, call);
            return EDEADLK;
        }
        begun = now();
        if (begun >= end) {
            forget(shared, call);
            return NUZ_WAITS;
        }
        nap(shared, begun, end);
        code = make_again(shared, call);
    }
    if (code >= NUZ_MEMORY) {
        forget(shared, call);
    }
    return code;
}

/* Waits for a call as long as it has to. */
static uint32_t waited(nuz_shared *shared, const call *call, uint32_t milliseconds) {
    shared->waiting++;
    set_turns(shared);
    uint32_t code = wait_on(shared, call, milliseconds);
    shared->waiting--;
    set_turns(shared);
    return code;
}

uint32_t nuz_shared_wait(nuz_shared *shared, uint64_t txn, uint32_t milliseconds, void *buffer,
                         size_t room, nuz_answer *answer) {
    call call = { txn, buffer, room, answer, NULL, NULL };
    return answer->code == NUZ_WAITS ? waited(shared, &call, milliseconds) : answer->code;
}

uint32_t nuz_shared_commit(nuz_shared *shared, uint64_t txn, nuz_answer *answer) {
    uint32_t code = nuz_commit(nuz_shared_lock(shared), txn, answer);
    pthread_cond_broadcast(&shared->ended);
    nuz_shared_unlock(shared);
    return code;
}

uint32_t nuz_shared_abort(nuz_shared *shared, uint64_t txn, nuz_answer *answer) {
    uint32_t code = nuz_abort(nuz_shared_lock(shared), txn, answer);
    pthread_cond_broadcast(&shared->ended);
    nuz_shared_unlock(shared);
    return code;
}

uint32_t nuz_shared_around(void *context, nuz_copy_request *make, void *request) {
    const nuz_shared_copy *copy = context;
    nuz_answer answer;
    call call = { copy->txn, NULL, 0, &answer, make, request };
    uint32_t code = make(nuz_shared_lock(copy->shared), request);
    if (code == NUZ_WAITS) {
        code = waited(copy->shared, &call, copy->milliseconds);
    }
    nuz_shared_unlock(copy->shared);
    return code;
}
