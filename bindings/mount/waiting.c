/* Requests of the kernel that wait for other transactions: they are kept, without a thread, and
 * made again when a transaction has ended. */
#include "mount.h"

#include <signal.h>
#include <stdio.h>

int errno_of(uint32_t code) {
    switch (code) {
    case NUZ_MEMORY: return ENOMEM;
    case NUZ_FULL: return ENOSPC;
    case NUZ_NO_TXN:
    case NUZ_ENDED: return ESTALE;
    case NUZ_CHILD_LIVE:
    case NUZ_LIVE: return EBUSY;
    case NUZ_SUB_SINCE:
    case NUZ_NOTHING_TO_UNDO: return ENODATA;
    case NUZ_DEEP: return ELOOP;
    case NUZ_WAITS: return EDEADLK;
    case NUZ_BAD: return EINVAL;
    default: return code < NUZ_MEMORY ? (int)code : EIO;
    }
}

/* ---- which step waits for which */

/* Learns for whom a step waits, from the call that it has made last, unless that is given. */
static void learn_blockers(struct wait *wait) {
    nuz_answer answer;
    uint32_t code;
    if (wait->is_given) {
        return;
    }
    while ((code = nuz_blockers(served.tree, wait->step->txn, wait->blockers, wait->room,
                                &answer)) == 0
           && answer.number > wait->room) {
        wait->blockers = enlarge(wait->blockers, &wait->room, sizeof *wait->blockers);
    }
    wait->count = code == 0 ? (size_t)answer.number : 0;
}

static bool leads_to(struct step *from, const struct step *to);

static bool blockers_lead_to(const struct wait *wait, const struct step *to) {
    for (size_t i = 0; i < wait->count; i++) {
        struct step *blocker = step_of_txn(wait->blockers[i]);
        if (blocker != NULL && leads_to(blocker, to)) {
            return true;
        }
    }
    return false;
}

static bool waits_lead_to(const struct step *from, const struct step *to) {
    for (const struct wait *wait = served.waits; wait != NULL; wait = wait->next) {
        if (wait->step == from && blockers_lead_to(wait, to)) {
            return true;
        }
    }
    return false;
}

static bool steps_lead_to(const struct step *from, const struct step *to) {
    for (struct step *step = served.steps; step != NULL; step = step->next) {
        if (step->parent == from && leads_to(step, to)) {
            return true;
        }
    }
    return false;
}

/* Whether a step can't end before another one does, because it waits for it, or for one that does,
 * or because a live step of it can't. */
static bool leads_to(struct step *from, const struct step *to) {
    if (from == to || from->is_seen) {
        return from == to;
    }
    from->is_seen = true;
    return waits_lead_to(from, to) || steps_lead_to(from, to);
}

static bool closes_cycle(const struct wait *wait) {
    for (struct step *step = served.steps; step != NULL; step = step->next) {
        step->is_seen = false;
    }
    return blockers_lead_to(wait, wait->step);
}

static bool has_blocker(const struct wait *wait, const struct step *other) {
    size_t i = 0;
    while (other != NULL && i < wait->count && wait->blockers[i] != other->txn) {
        i++;
    }
    return other == NULL || i < wait->count;
}

bool waits_for(const struct step *step, const struct step *other) {
    const struct wait *wait = served.waits;
    while (wait != NULL && (wait->step != step || !has_blocker(wait, other))) {
        wait = wait->next;
    }
    return wait != NULL;
}

static void add_wait(struct wait *wait) {
    wait->next = served.waits;
    served.waits = wait;
}

static void remove_wait(struct wait *wait) {
    struct wait **at = &served.waits;
    while (*at != wait) {
        at = &(*at)->next;
    }
    *at = wait->next;
    free(wait->blockers);
}

struct timespec time_ahead(struct timespec how_far) {
    struct timespec until;
    clock_gettime(CLOCK_MONOTONIC, &until);
    until.tv_sec += how_far.tv_sec;
    until.tv_nsec += how_far.tv_nsec;
    if (until.tv_nsec >= 1000000000) {
        until.tv_sec++;
        until.tv_nsec -= 1000000000;
    }
    return until;
}

/* ---- requests that are kept */

static void cancel(const struct step *step) {
    nuz_answer ignored;
    nuz_cancel(served.tree, step->txn, &ignored);
}

bool waits_about(fuse_ino_t inode) {
    const struct request *each = served.parked;
    while (each != NULL && inode_of(each->node) != inode
           && (each->other == NULL || inode_of(each->other) != inode)) {
        each = each->next;
    }
    return each != NULL;
}

/* Notes that a call in a step fails with EDEADLK, and the blockers of the first one. (The
 * transactions around them get their locks.) */
static void note_broken(const struct wait *wait) {
    struct step *step = wait->step;
    if (step->is_broken) {
        return;
    }
    step->is_broken = true;
    step->in_way = allocate((wait->count + 1) * sizeof *step->in_way);
    for (size_t i = 0; i < wait->count; i++) {
        struct step *blocker = step_of_txn(wait->blockers[i]);
        if (blocker != NULL) {
            step->in_way[step->in_way_count++] = step_apart(blocker, step)->txn;
        }
    }
}

/* Ends a request that has waited, or would wait, with an error. */
static void fail(const struct request *request, uint32_t code) {
    if (code == EDEADLK) {
        note_broken(&request->wait);
    }
    cancel(request->wait.step);
    fuse_reply_err(request->fuse, errno_of(code));
}

/* Takes a request out of those that are kept, with what it ends with, or 0 if it has ended. */
static void leave(struct request **at, uint32_t code) {
    struct request *request = *at;
    *at = request->next;
    if (code != 0) {
        fail(request, code);
    }
    remove_wait(&request->wait);
    free((char *)request->name);
    free((char *)request->other_name);
    free((char *)request->bytes);
    free(request);
}

/* Makes a request again. Returns whether it is still kept. */
static bool try_again(struct request **at) {
    struct request *request = *at;
    uint32_t code = request->make(request);
    if (code == NUZ_WAITS) {
        learn_blockers(&request->wait);
        code = closes_cycle(&request->wait) ? EDEADLK : NUZ_WAITS;
    }
    if (code != NUZ_WAITS) {
        leave(at, code);
    }
    return code == NUZ_WAITS;
}

/* Makes all requests again that wait, the first one first. */
void waits_try_again(void) {
    pthread_cond_broadcast(&served.ended);
    struct request **at = &served.parked;
    while (*at != NULL) {
        if (try_again(at)) {
            at = &(*at)->next;
        }
    }
}

/* Ends those of a step that has ended. */
void waits_end_of(const struct step *step) {
    struct request **at = &served.parked;
    while (*at != NULL) {
        if ((*at)->wait.step == step) {
            leave(at, ESTALE);
        } else {
            at = &(*at)->next;
        }
    }
}

int milliseconds_until(const struct timespec *until) {
    struct timespec time;
    clock_gettime(CLOCK_MONOTONIC, &time);
    int64_t left = (until->tv_sec - time.tv_sec) * 1000 + (until->tv_nsec - time.tv_nsec) / 1000000;
    return left < 0 ? 0 : left > 60000 ? 60000 : (int)left + 1;
}

/* The code with which a request ends now, or 0; and in how many milliseconds to look again. */
static uint32_t look_at(struct request *request, int *again) {
    *again = served.has_limit ? milliseconds_until(&request->wait.until) : -1;
    if (*again == 0) {
        return EDEADLK;
    }
    if (!request->is_watched) {
        return 0;
    }
    int look = milliseconds_until(&request->look);
    if (look == 0) {
        request->look = time_ahead((struct timespec){ 0, LOOK_EVERY * 1000000 });
    }
    *again = *again >= 0 && *again < LOOK_EVERY ? *again : LOOK_EVERY;
    return look == 0 && has_signal(request->fuse) ? EINTR : 0;
}

int waits_look(void) {
    int first = -1;
    struct request **at = &served.parked;
    while (*at != NULL) {
        int again;
        uint32_t code = look_at(*at, &again);
        if (code != 0) {
            leave(at, code);
            continue;
        }
        first = again >= 0 && (first < 0 || again < first) ? again : first;
        at = &(*at)->next;
    }
    return first;
}

/* ---- signals */

/* The signals of a line of /proc/PID/status, as bits from 0. */
static uint64_t signals_of(const char *status, const char *word) {
    const char *line = strstr(status, word);
    return line == NULL ? 0 : strtoull(line + strlen(word), NULL, 16);
}

static uint64_t bit_of(int signal) {
    return UINT64_C(1) << (signal - 1);
}

/* Whether a signal waits for a program that is not one that it gets by the way, or that stops it or
 * has it go on. */
static bool has_signal_in(const char *status) {
    const int quiet[] = { SIGCHLD, SIGWINCH, SIGURG, SIGCONT, SIGSTOP, SIGTSTP, SIGTTIN, SIGTTOU };
    uint64_t signals = signals_of(status, "\nSigPnd:") | signals_of(status, "\nShdPnd:");
    signals &= ~(signals_of(status, "\nSigBlk:") | signals_of(status, "\nSigIgn:"));
    for (size_t i = 0; i < sizeof quiet / sizeof quiet[0]; i++) {
        signals &= ~bit_of(quiet[i]);
    }
    return signals != 0;
}

bool has_signal(fuse_req_t fuse) {
    char path[40], status[8192] = "";
    snprintf(path, sizeof path, "/proc/%d/status", (int)fuse_req_ctx(fuse)->pid);
    FILE *file = fopen(path, "re");
    if (file == NULL) {
        return true;
    }
    size_t size = fread(status, 1, sizeof status - 1, file);
    fclose(file);
    return size == 0 || has_signal_in(status);
}

/* Ends the request of a program that a signal has come to, if it waits; or has it watched. (The
 * kernel reports only the first signal.) */
static void interrupted(fuse_req_t fuse, void *ignored) {
    (void)ignored;
    pthread_mutex_lock(&served.lock);
    struct request **at = &served.parked;
    while (*at != NULL && (*at)->fuse != fuse) {
        at = &(*at)->next;
    }
    if (*at != NULL && has_signal(fuse)) {
        leave(at, EINTR);
    } else if (*at != NULL) {
        (*at)->is_watched = true;
    }
    pthread_mutex_unlock(&served.lock);
}

static char *copy_if_any(const char *text) {
    return text == NULL ? NULL : copy_of(text);
}

/* Keeps a request with all that it is about. */
static void keep(const struct request *request) {
    struct request *kept = allocate(sizeof *kept);
    *kept = *request;
    kept->next = NULL;
    kept->name = copy_if_any(request->name);
    kept->other_name = copy_if_any(request->other_name);
    if (request->bytes != NULL) {
        char *bytes = allocate(request->size);
        memcpy(bytes, request->bytes, request->size);
        kept->bytes = bytes;
    }
    struct request **at = &served.parked;
    while (*at != NULL) {
        at = &(*at)->next;
    }
    *at = kept;
    add_wait(&kept->wait);
    if (!kept->is_watched) {
        fuse_req_interrupt_func(kept->fuse, interrupted, NULL);
    }
}

/* Has a request wait, unless it closes a cycle of waits. (The others are made again first: they may
 * wait for more than when they were made last, since a reader of what is read goes on.) */
static void park(struct request *request) {
    struct wait *wait = &request->wait;
    wait->until = time_ahead(served.limit);
    learn_blockers(wait);
    waits_try_again();
    request->is_watched = fuse_req_interrupted(request->fuse) != 0;
    uint32_t code = closes_cycle(wait) ? EDEADLK
                  : request->is_watched && has_signal(request->fuse) ? EINTR
                                                                     : 0;
    if (code == 0) {
        keep(request);
        return;
    }
    fail(request, code);
    free(wait->blockers);
}

/* Carries out a request, at once or when it may be. */
void serve(struct request *request) {
    pthread_mutex_lock(&served.lock);
    uint32_t code = request->make(request);
    if (code == NUZ_WAITS) {
        request->wait = (struct wait){ .step = request->node->step };
        park(request);
    } else if (code != 0) {
        fuse_reply_err(request->fuse, errno_of(code));
    }
    pthread_mutex_unlock(&served.lock);
}

/* ---- steps that begin when others have ended */

static uint32_t make_reply(struct request *request) {
    const struct wait *wait = &request->wait;
    for (size_t i = 0; i < wait->count; i++) {
        if (step_of_txn(wait->blockers[i]) != NULL) {
            return NUZ_WAITS;
        }
    }
    fuse_reply_write(request->fuse, request->size);
    return 0;
}

void wait_add(struct wait *wait, uint64_t txn) {
    if (wait->count == wait->room) {
        wait->blockers = enlarge(wait->blockers, &wait->room, sizeof *wait->blockers);
    }
    wait->blockers[wait->count++] = txn;
}

/* Whether two wait for one of the same that is live. */
static bool wait_alike(const struct wait *one, const struct wait *other) {
    size_t i = 0;
    while (i < one->count && (step_of_txn(one->blockers[i]) == NULL
                              || !has_blocker(other, step_of_txn(one->blockers[i])))) {
        i++;
    }
    return i < one->count;
}

/* Has a step wait for those too that wait for one of the same before they begin, unless that closes
 * a cycle: else they would be in each other's way again. */
static void line_up(struct wait *wait) {
    for (const struct request *each = served.parked; each != NULL; each = each->next) {
        if (each->wait.is_given && wait_alike(&each->wait, wait)) {
            wait_add(wait, each->wait.step->txn);
            wait->count -= closes_cycle(wait);
        }
    }
}

void reply_when_ended(fuse_req_t fuse, size_t written, const struct wait *wait) {
    struct request request = { fuse, make_reply, .size = written, .wait = *wait };
    request.wait.is_given = true;
    line_up(&request.wait);
    if (make_reply(&request) == NUZ_WAITS) {
        park(&request);
    } else {
        free(request.wait.blockers);
    }
}

/* ---- copies that wait */

uint32_t wait_begins(struct wait *wait) {
    learn_blockers(wait);
    if (closes_cycle(wait)) {
        free(wait->blockers);
        cancel(wait->step);
        return EDEADLK;
    }
    add_wait(wait);
    return 0;
}

void wait_ends(struct wait *wait) {
    remove_wait(wait);
}
