/* Copies of what a transaction shows, to a folder of the disk. Each has a thread, and a transaction
 * of its own inside the one that is saved, which is aborted at its end: so it leaves no locks. */
#include "mount.h"

#include "commands.h"

#include <nuzolged_copy.h>
#include <signal.h>
#include <stdio.h>

/* The copies that are being made, since a program may give one up. */
static struct save *saves;

/* Whether the program that has asked for a copy has given it up. */
static bool is_given_up(struct save *save) {
    save->is_over = save->is_over || (save->is_watched && has_signal(save->fuse));
    return save->is_over;
}

/* Waits until a transaction has ended, but no longer than it takes to look for signals. */
static uint32_t wait_for_end(struct save *save, const struct timespec *until) {
    struct wait wait = { .step = save->step };
    uint32_t code = wait_begins(&wait);
    if (code != 0) {
        return code;
    }
    struct timespec soon = time_ahead((struct timespec){ 0, LOOK_EVERY * 1000000 });
    pthread_cond_timedwait(&served.ended, &served.lock, &soon);
    wait_ends(&wait);
    return served.has_limit && milliseconds_until(until) == 0 ? EDEADLK : 0;
}

/* Makes a request of a copy, with the lock around it, until it need not wait any more. */
static uint32_t around(void *context, nuz_copy_request *make, void *request) {
    struct save *save = context;
    struct timespec until = time_ahead(served.limit);
    uint32_t code = NUZ_WAITS, ended = 0;
    pthread_mutex_lock(&served.lock);
    while (code == NUZ_WAITS && ended == 0) {
        code = is_given_up(save) ? EINTR : make(served.tree, request);
        save->step->calls += code < NUZ_MEMORY;
        ended = code == NUZ_WAITS ? wait_for_end(save, &until) : 0;
    }
    pthread_mutex_unlock(&served.lock);
    return ended != 0 ? ended : code;
}

static void forget(struct save *save) {
    struct save **at = &saves;
    while (*at != save) {
        at = &(*at)->next;
    }
    *at = save->next;
    free(save->to);
    free(save);
}

/* Reports why a copy failed, and at which path; or why the old directory could not be removed. */
static void say(struct save *save, bool is_saved, uint32_t code,
                const nuz_copy_failure *failure) {
    const char *place = failure->on_disk ? failure->disk : failure->path;
    size_t size = strlen(place) + 200;
    char *text = allocate(size);
    snprintf(text, size, "%s%s: %s", is_saved ? "what was there before is left: " : "", place,
             nuz_strerror(code));
    control_say(save->control, text);
    free(text);
}

/* Whether a copy has its name: the failure may be that the replaced directory, which is next to it,
 * could not be removed. */
static bool has_name(const struct save *save, uint32_t code, const nuz_copy_failure *failure) {
    return code == 0
        || (save->replaces && failure->on_disk && !is_at_or_below(failure->disk, save->to));
}

/* Ends the transaction of a copy, and replies to the process that asked for it. */
static void end(struct save *save, uint32_t code, const nuz_copy_failure *failure) {
    struct stale *stale;
    fuse_req_t fuse = save->fuse;
    size_t written = save->written;
    bool is_saved = has_name(save, code, failure);
    pthread_mutex_lock(&served.lock);
    if (code != 0) {
        say(save, is_saved, code, failure);
    } else if (save->step->is_live && save->step->parent->is_lost) {
        control_say(save->control, "not all that a program has written by a memory map is there");
    }
    save->step->is_kept = false;
    if (save->step->is_live && step_abort(save->step, &stale) == 0) {
        ended_steps(stale, NULL, 0);
    } else {
        step_free_if_over(save->step);
    }
    forget(save);
    pthread_mutex_unlock(&served.lock);
    if (is_saved) {
        fuse_reply_write(fuse, written);
    } else {
        fuse_reply_err(fuse, errno_of(code));
    }
}

static void *copy(void *at) {
    struct save *save = at;
    sigset_t signals;
    sigemptyset(&signals);
    sigaddset(&signals, SIGUSR1);
    pthread_sigmask(SIG_UNBLOCK, &signals, NULL);
    nuz_copy_options options = {
        .flags = NUZ_COPY_SET_ID | (save->replaces ? (uint32_t)NUZ_COPY_REPLACE : 0),
        .around = around,
        .context = save,
    };
    nuz_copy_failure failure;
    uint32_t code =
        nuz_copy_out(NULL, save->step->txn, NUZ_S("/"), save->to, &options, &failure);
    end(save, code, &failure);
    return NULL;
}

/* Watches a copy's program to which a signal has come: the kernel reports only the first one. */
static void interrupted(fuse_req_t fuse, void *ignored) {
    (void)ignored;
    pthread_mutex_lock(&served.lock);
    struct save *save = saves;
    while (save != NULL && save->fuse != fuse) {
        save = save->next;
    }
    if (save != NULL) {
        save->is_watched = true;
    }
    pthread_mutex_unlock(&served.lock);
}

int saves_look(void) {
    int again = -1;
    for (struct save *save = saves; save != NULL; save = save->next) {
        if (save->is_watched) {
            again = LOOK_EVERY;
        }
        if (is_given_up(save)) {
            pthread_kill(save->thread, SIGUSR1);
        }
    }
    return again;
}

uint32_t save_begin(const struct save *begun) {
    struct save *save = allocate(sizeof *save);
    *save = *begun;
    save->step->is_kept = true;
    save->next = saves;
    saves = save;
    save->is_watched = fuse_req_interrupted(save->fuse) != 0;
    if (!save->is_watched) {
        fuse_req_interrupt_func(save->fuse, interrupted, NULL);
    }
    if (pthread_create(&save->thread, NULL, copy, save) == 0) {
        pthread_detach(save->thread);
        return 0;
    }
    struct stale *stale;
    save->step->is_kept = false;
    if (step_abort(save->step, &stale) == 0) {
        stale_let_go(stale, NULL, 0);
    }
    forget(save);
    return EAGAIN;
}
