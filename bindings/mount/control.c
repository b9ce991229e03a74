/* The control file: a request is a line that is written to it, and what is read from it then is the
 * reply. */
#include "mount.h"

#include "touched.h"

#include <stdio.h>

/* The control file as one program has it open. */
struct control {
    char *reply; /* or NULL, before the first request */
    size_t size, at;
    char *held;  /* the step that is aborted when it is closed */
    uint64_t held_txn;
};

static struct control *control_of(const struct fuse_file_info *file) {
    return (struct control *)(uintptr_t)file->fh;
}

void control_open(fuse_req_t fuse, struct fuse_file_info *file) {
    file->fh = (uint64_t)(uintptr_t)allocate(sizeof(struct control));
    file->direct_io = 1;
    fuse_reply_open(fuse, file);
}

static void set_reply(struct control *control, char *reply, size_t size) {
    free(control->reply);
    control->reply = reply;
    control->size = size;
    control->at = 0;
}

void control_say(struct control *control, const char *text) {
    set_reply(control, copy_of(text), strlen(text));
}

/* ---- reports */

static void write_waits(FILE *to, const struct step *step) {
    for (const struct step *other = served.steps; other != NULL; other = other->next) {
        if (waits_for(step, other)) {
            fprintf(to, " %s", other->name == NULL ? "(save)" : other->name);
        }
    }
}

/* Each live transaction, with how many calls it has made and for whom it waits. */
static void write_steps(FILE *to) {
    for (const struct step *step = served.steps; step != NULL; step = step->next) {
        if (step->name == NULL) {
            continue;
        }
        fprintf(to, "%s txn %ju calls %ju", step->name, (uintmax_t)step->txn,
                (uintmax_t)step->calls);
        if (waits_for(step, NULL)) {
            fputs(" waits", to);
            write_waits(to, step);
        }
        fputc('\n', to);
    }
}

static void write_edges(FILE *to, const struct step *step) {
    for (const struct step *other = served.steps; other != NULL; other = other->next) {
        if (waits_for(step, other)) {
            fprintf(to, "  %ju -> %ju [style=solid];\n", (uintmax_t)step->txn,
                    (uintmax_t)other->txn);
        }
        if (other->parent == step) {
            fprintf(to, "  %ju -> %ju [style=dashed];\n", (uintmax_t)step->txn,
                    (uintmax_t)other->txn);
        }
    }
}

/* The waits-for graph of the transactions, in the DOT language. */
static void write_dot(FILE *to) {
    fputs("digraph waits {\n", to);
    for (const struct step *step = served.steps; step != NULL; step = step->next) {
        fprintf(to, "  %ju [label=\"%s %ju\"];\n", (uintmax_t)step->txn,
                step->name == NULL ? "(save)" : step->name, (uintmax_t)step->txn);
    }
    for (const struct step *step = served.steps; step != NULL; step = step->next) {
        write_edges(to, step);
    }
    fputs("}\n", to);
}

static void report(struct control *control, void (*write_report)(FILE *)) {
    char *text = NULL;
    size_t size = 0;
    FILE *to = open_memstream(&text, &size);
    if (to != NULL) {
        write_report(to);
        fclose(to);
    }
    set_reply(control, text, size);
}

/* ---- requests */

/* A request, in its words: the last one is the rest of the line. */
struct order {
    struct control *control;
    const char *word, *name;
    char *rest;
    struct step *step; /* of the name, if there is one */
    fuse_req_t fuse;
    size_t written;
};

/* The work that remains for a request that has ended well, and is not replied to yet. */
static uint32_t written(const struct order *order) {
    fuse_reply_write(order->fuse, order->written);
    return 0;
}

void ended_steps(struct stale *stale, fuse_req_t reply, size_t size) {
    waits_try_again();
    stale_let_go(stale, reply, size);
}

typedef uint32_t end_step(struct step *step, struct stale **stale);

/* Commits, aborts or undoes, and replies when the kernel knows. */
static uint32_t end_by(const struct order *order, end_step *end) {
    struct stale *stale;
    uint32_t code = end(order->step, &stale);
    if (code == 0) {
        ended_steps(stale, order->fuse, order->written);
    }
    return code;
}

/* Commits a step, unless it lacks something that a program has written. */
static uint32_t commit(const struct order *order) {
    if (order->step->is_lost) {
        control_say(order->control, "what a program has written by a memory map is not all there: "
                                    "writing it has failed, perhaps for lack of memory");
        return EIO;
    }
    return end_by(order, step_commit);
}

static uint32_t undo(const struct order *order) {
    uint32_t code = end_by(order, step_undo);
    if (code == EBUSY) {
        control_say(order->control, "a file is open that was opened since, or to be written");
    }
    return code;
}

/* Has a step be aborted when the control file is closed. */
static void hold(const struct order *order) {
    struct control *control = order->control;
    free(control->held);
    control->held = copy_of(order->name);
    control->held_txn = order->step->txn;
}

/* Has a step wait for the transactions whose numbers are in a text. */
static void wait_for_all(const struct order *order, const char *numbers) {
    struct wait wait = { .step = order->step };
    char *end;
    for (uint64_t txn; txn = strtoull(numbers, &end, 10), end != numbers; numbers = end) {
        wait_add(&wait, txn);
    }
    reply_when_ended(order->fuse, order->written, &wait);
}

/* Begins a step that is held from its beginning, and replies when those have ended that it must
 * wait for. (The thing that the kernel knows under its name is not one that has ended, as after
 * mkdir.) */
static uint32_t begin_held(struct order *order) {
    uint32_t code = stale_has_step(order->name) ? EBUSY : step_begin(order->name, &order->step);
    if (code == 0) {
        hold(order);
        wait_for_all(order, order->rest == NULL ? "" : order->rest);
    }
    return code;
}

/* Fails with EDEADLK if a call in a step has, and reports its blockers. */
static uint32_t whole(const struct order *order) {
    const struct step *step = order->step;
    if (!step->is_broken) {
        return written(order);
    }
    char *text = NULL;
    size_t size = 0;
    FILE *to = open_memstream(&text, &size);
    for (size_t i = 0; to != NULL && i < step->in_way_count; i++) {
        fprintf(to, "%ju ", (uintmax_t)step->in_way[i]);
    }
    if (to != NULL) {
        fputc('\n', to);
        fclose(to);
    }
    set_reply(order->control, text, size);
    return EDEADLK;
}

static uint32_t save(const struct order *order, bool replaces) {
    if (order->rest == NULL || order->rest[0] != '/') {
        return EINVAL;
    }
    struct save save = { .to = copy_of(order->rest), .replaces = replaces, .fuse = order->fuse,
                         .written = order->written, .control = order->control };
    uint32_t code = step_begin_in(order->step, NULL, &save.step);
    if (code == 0) {
        code = save_begin(&save);
    } else {
        free(save.to);
    }
    return code;
}

/* Replies with what a step has touched. The last word of a request for a depfile is the prefix of
 * each path, and after a newline the target. */
static uint32_t touched(const struct order *order, bool is_depfile) {
    struct touched touched = { 0 };
    char *rest = order->rest;
    struct asked asked = { .top = strsep(&rest, "\n"), .target = rest };
    uint64_t txn = order->step->txn;
    uint32_t code = is_depfile ? touched_depfile(txn, &asked, &touched)
                               : touched_manifest(txn, &touched);
    set_reply(order->control, touched.text, touched.size);
    return code == 0 ? written(order) : code;
}

/* A request about a step. */
static uint32_t order_about_step(const struct order *order) {
    const char *word = order->word;
    if (strcmp(word, "commit") == 0) {
        return commit(order);
    } else if (strcmp(word, "abort") == 0) {
        return end_by(order, step_abort);
    } else if (strcmp(word, "undo") == 0) {
        return undo(order);
    } else if (strcmp(word, "hold") == 0) {
        hold(order);
        return written(order);
    } else if (strcmp(word, "whole") == 0) {
        return whole(order);
    } else if (strcmp(word, "save") == 0) {
        return save(order, false);
    } else if (strcmp(word, "replace") == 0) {
        return save(order, true);
    }
    bool is_depfile = strcmp(word, "depfile") == 0;
    if (!is_depfile && strcmp(word, "manifest") != 0) {
        return EINVAL;
    }
    return touched(order, is_depfile);
}

static uint32_t carry_out(struct order *order) {
    if (strcmp(order->word, "steps") == 0 || strcmp(order->word, "dot") == 0) {
        report(order->control, order->word[0] == 'd' ? write_dot : write_steps);
        return written(order);
    }
    if (order->name == NULL) {
        return EINVAL;
    }
    if (strcmp(order->word, "begin") == 0) {
        return begin_held(order);
    }
    order->step = step_named(order->name, strlen(order->name));
    return order->step == NULL ? ENOENT : order_about_step(order);
}

void control_write(fuse_req_t fuse, struct fuse_file_info *file, const char *bytes, size_t size) {
    struct control *control = control_of(file);
    char *line = allocate(size + 1), *rest = line;
    memcpy(line, bytes, size);
    if (size > 0 && line[size - 1] == '\n') {
        line[size - 1] = '\0';
    }
    struct order order = { .control = control, .fuse = fuse, .written = size };
    order.word = strsep(&rest, " ");
    order.name = strsep(&rest, " ");
    order.rest = rest;
    pthread_mutex_lock(&served.lock);
    control_say(control, "");
    uint32_t code = carry_out(&order);
    if (code != 0) {
        if (control->size == 0) {
            control_say(control, nuz_strerror(code));
        }
        fuse_reply_err(fuse, errno_of(code));
    }
    pthread_mutex_unlock(&served.lock);
    free(line);
}

void control_read(fuse_req_t fuse, struct fuse_file_info *file, size_t size) {
    struct control *control = control_of(file);
    pthread_mutex_lock(&served.lock);
    if (control->reply == NULL) {
        report(control, write_steps);
    }
    size_t left = control->size - control->at;
    size = size < left ? size : left;
    fuse_reply_buf(fuse, size == 0 ? NULL : control->reply + control->at, size);
    control->at += size;
    pthread_mutex_unlock(&served.lock);
}

/* Aborts the step that was held, if it is live. */
static void let_held_go(const struct control *control) {
    struct step *step = step_named(control->held, strlen(control->held));
    struct stale *stale;
    if (step != NULL && step->txn == control->held_txn && step_abort(step, &stale) == 0) {
        ended_steps(stale, NULL, 0);
    }
}

void control_release(fuse_req_t fuse, struct fuse_file_info *file) {
    struct control *control = control_of(file);
    pthread_mutex_lock(&served.lock);
    if (control->held != NULL) {
        let_held_go(control);
    }
    pthread_mutex_unlock(&served.lock);
    free(control->reply);
    free(control->held);
    free(control);
    fuse_reply_err(fuse, 0);
}
