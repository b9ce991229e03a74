/* nuz run: a command in a step, which is committed if it ends well, and else aborted. */
#define _GNU_SOURCE
#include "commands.h"

#include <errno.h>
#include <stdio.h>
#include <stdlib.h>
#include <string.h>
#include <sys/mount.h>
#include <sys/wait.h>
#include <unistd.h>

bool fails(const char *what, const char *path) {
    complain("%s %s: %s", what, path, strerror(errno));
    return false;
}

/* A text from some others; or the end of the process, for lack of memory. */
char *joined(const char *one, const char *two, const char *three) {
    char *text = NULL;
    if (asprintf(&text, "%s%s%s", one, two, three) < 0) {
        complain("%s", strerror(ENOMEM));
        exit(RUN_FAILED);
    }
    return text;
}

/* ---- the place of the step */

/* How long a path is without its last name, and the slash before that. */
static size_t len_above(const char *path, size_t len) {
    while (len > 0 && path[len - 1] != '/') {
        len--;
    }
    return len > 0 ? len - 1 : 0;
}

/* Finds the transaction that a directory is in, by going up from it to a mount; and where in it. */
static bool find_above(const char *start, struct job *job) {
    size_t len = len_above(start, strlen(start));
    char *dir = strndup(start, len);
    while (dir != NULL && len > 0 && !is_mount(dir)) {
        len = len_above(start, len);
        dir[len] = '\0';
    }
    if (dir == NULL || len == 0) {
        free(dir);
        return false;
    }
    const char *name = start + len + 1;
    size_t name_len = strcspn(name, "/");
    job->dir = dir;
    job->below = joined(name + name_len, "", "");
    job->parent = strndup(name, name_len);
    return job->parent != NULL;
}

/* The transaction that the current directory is in, or else that of the run around this one. */
static bool find_parent(struct job *job) {
    const char *around = getenv("NUZ_STEP");
    char *here = getcwd(NULL, 0);
    bool is_found = here != NULL && find_above(here, job);
    free(here);
    if (!is_found && around != NULL && find_above(around, job)) {
        const char *at = getenv("NUZ_AT");
        job->at = job->at == NULL && at != NULL ? joined(at, "", "") : job->at;
        is_found = true;
    }
    if (!is_found) {
        complain("run: the current directory is not in a mount: give --in, or --from and --to");
    }
    return is_found;
}

/* Finds the mount and the name of a step that --in names. */
static bool find_named(struct job *job) {
    struct place place;
    if (!place_of(job->run->in, &place)) {
        complain("run %s: not DIR/STEP of a nuz mount", job->run->in);
        place_free(&place);
        return false;
    }
    job->dir = realpath(place.dir, NULL);
    job->name = joined(place.name, "", "");
    job->path = joined(job->dir == NULL ? place.dir : job->dir, "/", job->name);
    place_free(&place);
    return job->dir != NULL || fails("run", job->path);
}

/* ---- its beginning */

/* Says why a step could not begin. */
static void fails_to_begin(const struct job *job, int number) {
    if (number == EEXIST) {
        complain("run %s: a transaction has that name, and --in needs a new name", job->path);
    } else if (number == EMEDIUMTYPE) {
        complain("run %s: not DIR/STEP of a nuz mount", job->path);
    } else {
        complain_of(job->control, number, "run", job->path);
    }
}

/* Begins the step of a run, which the mount aborts if this process ends before it does so itself.
 * Returns 0 or an errno. (A name is busy until the kernel has forgotten a step that had it.) */
static int begin_step(struct job *job) {
    if (job->control < 0) {
        job->control = control_of_mount(job->dir);
    }
    return job->control < 0 ? errno : ask(job->control, "begin", job->name, job->in_way);
}

static int begin_named(struct job *job) {
    const struct timespec a_moment = { 0, 10000000 };
    int failure;
    while ((failure = begin_step(job)) == EBUSY && was_sent() == 0) {
        nanosleep(&a_moment, NULL);
    }
    return failure;
}

/* Begins a step whose name is still free: run1, run2 and so on, of a transaction. */
static int begin_numbered(struct job *job) {
    bool is_job = strcmp(job->parent, "job") == 0;
    int number = 0, failure;
    do {
        char digits[16];
        snprintf(digits, sizeof digits, "%d", ++number);
        free(job->name);
        free(job->path);
        job->name = joined(is_job ? "" : job->parent, is_job ? "run" : ".run", digits);
        job->path = joined(job->dir, "/", job->name);
        failure = begin_step(job);
    } while (failure == EEXIST || failure == EBUSY);
    return failure;
}

/* Whether a step can take the place of --at: that is not the root, which processes keep, and does
 * not hide the mount. */
static bool can_bind(const struct job *job) {
    if (job->at == NULL || !is_at_or_below(job->dir, job->at)) {
        return true;
    }
    complain("run: --at %s: %s", job->at,
             strcmp(job->at, "/") == 0 ? "nothing can take the place of the root"
                                       : "the mount of the step is in this directory");
    return false;
}

/* Whether a mount of this run would be in the directory that is saved to. */
static bool is_in_target(const struct job *job) {
    char *top = job->target.dir < 0 ? NULL : realpath(job->target.path, NULL);
    bool is_inside = top != NULL && is_at_or_below(job->dir, top);
    free(top);
    if (is_inside) {
        complain("save %s: the mount of the step would be in it", job->target.said);
    }
    return is_inside;
}

/* Makes a directory for a mount of this run. */
static bool have_directory(struct job *job) {
    const char *folder = getenv("TMPDIR");
    char *top = realpath(folder == NULL ? "/tmp" : folder, NULL);
    if (top == NULL) {
        return fails("mount", folder == NULL ? "/tmp" : folder);
    }
    job->dir = joined(top, "/nuz.XXXXXX", "");
    free(top);
    return can_bind(job) && !is_in_target(job)
        && (mkdtemp(job->dir) != NULL || fails("mount", job->dir));
}

/* Begins a mount for this run, in a directory of its own. */
static bool have_own(struct job *job) {
    if (!have_directory(job)) {
        return false;
    }
    struct serve_options options = job->run->own;
    options.dir = job->dir;
    options.from = job->run->from;
    options.like = job->target.dir < 0 ? NULL : job->target.path;
    options.is_own = true;
    if (serve_begin(&options) < 0) {
        rmdir(job->dir);
        return false;
    }
    job->parent = joined("job", "", "");
    return true;
}

/* Finds out in which mount and transaction the step of a run is to begin. */
static bool find(struct job *job) {
    bool is_own = job->run->from != NULL || job->run->to != NULL;
    return is_own                 ? have_own(job)
         : job->run->in != NULL   ? find_named(job) && can_bind(job)
                                  : find_parent(job) && can_bind(job);
}

/* Begins the step. Returns 0, or an errno that it has reported. */
static int begin(struct job *job) {
    int failure = job->parent == NULL ? begin_named(job) : begin_numbered(job);
    if (failure != 0) {
        fails_to_begin(job, failure);
    }
    job->is_live = failure == 0;
    return failure;
}

/* ---- what comes of it */

/* Commits the step, and saves what the mount shows then if it is one for this run. */
static bool commit_and_save(struct job *job) {
    int number = ask(job->control, "commit", job->name, NULL);
    if (number != 0) {
        complain_of(job->control, number, "commit", job->path);
        return false;
    }
    job->is_live = false;
    return job->run->to == NULL || target_save(&job->target, job->control, "job");
}

/* Commits the step, and reports what it has touched: at the end, because the files may be in the
 * saved directory. Returns the status of the run. */
static int commit(struct job *job) {
    struct texts texts = { 0 };
    int status = make_texts(job, &texts) && commit_and_save(job) ? 0 : RUN_FAILED;
    if (status == 0 && !write_texts(job->run, &texts)) {
        complain("run %s: the step is committed%s even so", job->path,
                 job->run->to == NULL ? "" : ", and saved,");
        status = NOT_TOLD;
    }
    free(texts.depfile);
    free(texts.depfile_at);
    free(texts.manifest);
    free(texts.manifest_at);
    return status;
}

/* Whether a call of the command has failed so that steps do not wait for each other: the step may
 * be half of what the command was to do then, whatever its status. Learns its blockers. */
static bool is_broken(struct job *job) {
    size_t size;
    if (ask(job->control, "whole", job->name, NULL) != EDEADLK) {
        return false;
    }
    free(job->in_way);
    job->in_way = reply_of(job->control, &size);
    return true;
}

/* Aborts the step, unless it is: another one may have its name by then. */
static void abort_step(struct job *job) {
    if (job->is_live) {
        ask(job->control, "abort", job->name, NULL);
    }
    job->is_live = false;
}

/* Says that a step is broken, and what comes of that. */
static void tell_broken(const struct job *job, bool runs_again) {
    complain("run %s: a call has failed with EDEADLK, because steps would wait for each other or "
             "for too long; the step is aborted, and %s", job->path,
             runs_again ? "the command runs again" : "can be run again, as with --retries");
}

/* Begins a step again, when its blockers have ended. Returns 0, or the status of the run. (A run
 * that was told to end begins no more.) */
static int begin_again(struct job *job) {
    int failure = begin(job);
    return was_sent() != 0 ? 128 + was_sent()
         : failure == EDEADLK ? TRY_AGAIN
         : failure != 0 ? RUN_FAILED : 0;
}

/* Runs the command in a step, and in others as often as it may while they are broken. Returns the
 * status of the run. */
static int run_in_steps(struct job *job) {
    int status = run_command(job);
    for (long left = job->run->retries; is_broken(job); left--) {
        bool runs_again = left > 0 && was_sent() == 0;
        tell_broken(job, runs_again);
        abort_step(job);
        int ended = runs_again ? begin_again(job) : TRY_AGAIN;
        if (ended != 0) {
            return was_sent() != 0 && status != 0 ? status : ended;
        }
        status = run_command(job);
    }
    return status;
}

/* Runs the command, and commits its step, or aborts it. Returns the status of the run. */
static int run_and_end(struct job *job) {
    int status = run_in_steps(job);
    if (status == 0) {
        status = commit(job);
    }
    if (status != 0) {
        abort_step(job);
    }
    return status;
}

/* Ends the mount of a run. Processes that still use it go on to see what they have open. */
static void end_own(struct job *job) {
    if (job->control >= 0) {
        close(job->control);
        job->control = -1;
    }
    if (umount2(job->dir, MNT_DETACH) != 0) {
        pid_t process = fork();
        if (process == 0) {
            execlp("fusermount3", "fusermount3", "-quz", job->dir, (char *)NULL);
            _exit(1);
        }
        waitpid(process, NULL, 0);
    }
    rmdir(job->dir);
}

static void job_free(const struct job *job) {
    if (job->control >= 0) {
        close(job->control);
    }
    free(job->dir);
    free(job->name);
    free(job->path);
    free(job->at);
    free(job->below);
    free(job->parent);
    free(job->in_way);
    target_free(&job->target);
}

int run(const struct run *run) {
    struct job job = { .run = run, .control = -1,
                       .target = target_of(run->to, run->replaces) };
    int status = RUN_FAILED;
    job.at = run->at == NULL ? NULL : realpath(run->at, NULL);
    if (run->at != NULL && job.at == NULL) {
        fails("bind", run->at);
    } else if (can_tell(run) && (run->to == NULL || target_take(&job.target, -1)) && find(&job)) {
        status = begin(&job) == 0 ? run_and_end(&job) : RUN_FAILED;
        if (run->from != NULL || run->to != NULL) {
            end_own(&job);
        }
    }
    job_free(&job);
    return status;
}
