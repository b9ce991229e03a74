/* Steps: the transactions in DIR, what they have changed, and how they end. */
#include "mount.h"

#include <stdio.h>

/* ---- finding them */

struct step *step_named(const char *name, size_t len) {
    struct step *step = served.steps;
    while (step != NULL) {
        if (step->name != NULL && strlen(step->name) == len && memcmp(step->name, name, len) == 0) {
            return step;
        }
        step = step->next;
    }
    return NULL;
}

struct step *step_of_txn(uint64_t txn) {
    struct step *step = served.steps;
    while (step != NULL && step->txn != txn) {
        step = step->next;
    }
    return step;
}

static bool stands_in(const struct step *step, const struct step *other) {
    while (step != NULL && step != other) {
        step = step->parent;
    }
    return step == other;
}

struct step *step_apart(struct step *step, const struct step *other) {
    while (step->parent != NULL && !stands_in(other, step->parent)) {
        step = step->parent;
    }
    return step;
}

uint32_t counted(struct step *step, const nuz_answer *answer, uint32_t code) {
    step->calls += answer->stamp != 0;
    return code;
}

/* ---- beginning */

/* Whether a step may have a name: a word for each level, with a dot between two. */
static bool is_good_name(const char *name) {
    const char *good = "ABCDEFGHIJKLMNOPQRSTUVWXYZabcdefghijklmnopqrstuvwxyz0123456789_-+~@,:=.";
    size_t len = strlen(name);
    return strspn(name, good) == len && name[0] != '.' && name[len - 1] != '.'
        && strstr(name, "..") == NULL;
}

static struct step **end_of_steps(void) {
    struct step **at = &served.steps;
    while (*at != NULL) {
        at = &(*at)->next;
    }
    return at;
}

static struct step *step_new(struct step *parent, char *name, uint64_t txn) {
    struct step *step = allocate(sizeof *step);
    step->name = name;
    step->txn = txn;
    step->place = ++served.begun;
    step->parent = parent;
    step->is_live = true;
    if (parent == NULL) {
        step->next = served.steps;
        served.steps = step;
    } else {
        parent->steps++;
        *end_of_steps() = step;
    }
    return step;
}

/* Begins the job. */
uint32_t job_begin(void) {
    nuz_answer answer;
    uint32_t code = nuz_begin(served.tree, &answer);
    if (code == 0) {
        step_new(NULL, copy_of("job"), answer.number);
    }
    return code;
}

/* Begins a step, with a name that it keeps, or with none. */
uint32_t step_begin_in(struct step *parent, char *name, struct step **begun) {
    nuz_answer answer;
    uint32_t code = nuz_begin_sub(served.tree, parent->txn, &answer);
    if (code == 0) {
        *begun = step_new(parent, name, answer.number);
    }
    return code;
}

/* Begins a step of the one that its name says, or of the job. */
uint32_t step_begin(const char *name, struct step **begun) {
    if (!is_good_name(name)) {
        return EINVAL;
    }
    const char *dot = strrchr(name, '.');
    struct step *parent = dot == NULL ? served.steps : step_named(name, (size_t)(dot - name));
    if (parent == NULL) {
        return ENOENT;
    }
    if (step_named(name, strlen(name)) != NULL) {
        return EEXIST;
    }
    char *kept = copy_of(name);
    uint32_t code = step_begin_in(parent, kept, begun);
    if (code != 0) {
        free(kept);
    }
    return code;
}

/* ---- what they change */

static void add_change(struct step *step, struct change change) {
    if (step->change_count == step->change_room) {
        step->changes = enlarge(step->changes, &step->change_room, sizeof change);
    }
    step->changes[step->change_count++] = change;
}

/* Begins a change that can be undone by itself, unless it goes on with what is open for writing. */
static void begin_change(struct step *step, uint64_t stamp) {
    if (step->writers > 0) {
        bool goes_on = step->opened != 0 && step->mark_count > 0
                    && step->marks[step->mark_count - 1].stamp >= step->opened;
        if (goes_on) {
            return;
        }
        step->opened = step->opened == 0 ? stamp : step->opened;
        stamp = step->opened;
    } else if (step->mark_count > 0 && step->marks[step->mark_count - 1].stamp == stamp) {
        return;
    }
    if (step->mark_count == step->mark_room) {
        step->marks = enlarge(step->marks, &step->mark_room, sizeof *step->marks);
    }
    step->marks[step->mark_count++] = (struct mark){ stamp, step->change_count };
    step->marks_made++;
}

/* Notes that one more file is open for writing, by a call with this stamp, or 0 if by none. */
void note_writer(struct step *step, uint64_t stamp) {
    if (step->writers++ == 0) {
        step->opened = stamp;
    }
}

/* Notes that a name leads to something else now: to a number, and a node if there is one. */
void note_name(struct node *dir, const char *name, struct node *to, uint64_t number,
               uint64_t stamp) {
    const struct node *before = name_find(dir, name);
    begin_change(dir->step, stamp);
    add_change(dir->step, (struct change){ copy_of(name), dir->number,
                                           before == NULL ? 0 : before->number, number });
    dir->time = now();
    name_set(dir, name, to);
}

/* Notes that the bytes or attributes of something are others, or how many names it has. */
void note_content(struct node *node, uint64_t stamp) {
    struct step *step = node->step;
    begin_change(step, stamp);
    if (node->marked != step->marks_made) {
        node->marked = step->marks_made;
        add_change(step, (struct change){ NULL, 0, 0, node->number });
    }
}

uint32_t set_time(struct node *node, uint64_t *stamp) {
    if (!node->is_untimed) {
        return 0;
    }
    struct step *step = node->step;
    struct path path;
    nuz_answer answer = { 0 };
    int64_t seconds = node->time.tv_sec;
    uint32_t nanoseconds = (uint32_t)node->time.tv_nsec;
    uint32_t code = 0;
    if (node->fd != 0) {
        code = nuz_futime(served.tree, step->txn, node->fd, seconds, nanoseconds, &answer);
    } else if ((code = path_of(node, NULL, &path)) == 0) {
        code = nuz_utime(served.tree, step->txn, path.at, path.len, seconds, nanoseconds, &answer);
    }
    counted(step, &answer, code);
    if (code == 0) {
        node->is_untimed = false;
        node->told.has_time = true;
        node->told.time = node->time;
    }
    if (code == 0 && stamp != NULL) {
        *stamp = answer.stamp;
    }
    return code;
}

/* ---- what others see of it */

/* Makes a directory of another step known in a step, with the names on the way to it. NULL: that is
 * not known in the other one. */
static struct node *adopt(struct step *step, const struct node *other) {
    struct node *node = other == NULL ? NULL : node_find(step, other->number);
    if (node != NULL || other == NULL || (other->number != 1 && other->names == NULL)) {
        return node;
    }
    struct node *dir = other->number == 1 ? NULL : adopt(step, other->names->dir);
    if (dir == NULL && other->number != 1) {
        return NULL;
    }
    node = node_of(step, other->number);
    if (dir != NULL) {
        name_set(dir, other->names->text, node);
    }
    return node;
}

/* The directory of a change, as a step knows it. If something is used there that a step of it has
 * moved to a place at which the step has not looked, the step learns that. */
static struct node *dir_of_change(struct step *step, const struct change *change,
                                  const struct node *moved, const struct step *by) {
    struct node *dir = node_find(step, change->dir);
    bool is_new = dir == NULL && moved != NULL && by != NULL;
    return is_new ? adopt(step, node_find(by, change->dir)) : dir;
}

/* Has a step see a change, by itself (NULL) or a step of it: `number` is what the name leads to
 * then. */
static void see(struct step *step, const struct step *by, const struct change *change,
                uint64_t number, struct stale *stale) {
    struct node *node = number == 0 ? NULL : node_find(step, number);
    if (change->name == NULL) {
        if (node != NULL) {
            node->is_told = false;
            node->is_untimed = false;
            stale_node(stale, node);
        }
        return;
    }
    struct node *dir = dir_of_change(step, change, node, by);
    if (dir != NULL) {
        dir->time = now();
        stale_name(stale, dir, change->name);
        name_set(dir, change->name, node);
    }
}

static void drop_changes(struct step *step, size_t from) {
    for (size_t i = from; i < step->change_count; i++) {
        free(step->changes[i].name);
    }
    step->change_count = from;
}

/* Forgets what of a step could be undone: from here on other changes can. */
static void drop_marks(struct step *step) {
    step->mark_count = 0;
    step->opened = 0;
    step->has_committed = false;
}

/* Hands what a step has changed to the one around it. (Nothing is around the job, so that it needs
 * to keep no changes that can't be undone.) */
static void hand_up(struct step *step, struct stale *stale) {
    struct step *parent = step->parent;
    parent->calls += step->calls;
    drop_marks(parent);
    parent->has_committed = true;
    for (size_t i = 0; i < step->change_count; i++) {
        see(parent, step, &step->changes[i], step->changes[i].after, stale);
        add_change(parent, step->changes[i]);
    }
    step->change_count = 0;
    if (parent->parent == NULL) {
        drop_changes(parent, 0);
    }
}

/* ---- ending */

void step_free_if_over(struct step *step) {
    if (step->is_live || step->is_kept || step->nodes > 0 || step->steps > 0) {
        return;
    }
    drop_changes(step, 0);
    free(step->changes);
    free(step->marks);
    free(step->in_way);
    free(step->name);
    free(step);
}

/* Takes a step that has ended out of DIR. The kernel's knowledge of it is stale. */
static void end(struct step *step, struct stale *stale) {
    struct step **at = &served.steps;
    while (*at != step) {
        at = &(*at)->next;
    }
    *at = step->next;
    step->is_live = false;
    while (step->open != NULL) {
        stale_node(stale, step->open);
        node_closed(step->open);
    }
    if (step->name != NULL && !step->is_removed) {
        stale_name(stale, &served.top, step->name);
    }
    waits_end_of(step);
    struct step *parent = step->parent;
    step->steps++; /* (so that it stays until here) */
    if (parent != NULL) {
        parent->steps--;
        step_free_if_over(parent);
    }
    step->steps--;
    step_free_if_over(step);
}

/* Gives all open files of a step their times. */
static uint32_t set_times(const struct step *step) {
    uint32_t code = 0;
    struct node *node = step->open;
    while (node != NULL && code == 0) {
        code = set_time(node, NULL);
        node = node->next_open;
    }
    return code;
}

/* Closes all descriptors of a step in the tree. The kernel releases them later. */
static void close_all(const struct step *step) {
    nuz_answer answer;
    for (const struct node *node = step->open; node != NULL; node = node->next_open) {
        nuz_close(served.tree, step->txn, node->fd, &answer);
    }
}

/* Makes what there is the beginning of a new job, in place of one that has ended. */
static uint32_t begin_anew(nuz_answer *answer) {
    nuz_answer ignored;
    nuz_checkpoint(served.tree, &ignored);
    return nuz_begin(served.tree, answer);
}

/* Commits the job. The kernel's knowledge of it stays true, and its descriptors stay open. */
static uint32_t job_commit(struct step *job) {
    nuz_answer answer;
    uint32_t code = nuz_commit(served.tree, job->txn, &answer);
    if (code == 0) {
        code = begin_anew(&answer);
        job->txn = answer.number;
        job->calls = 0;
        drop_marks(job);
        drop_changes(job, 0);
    }
    return code;
}

uint32_t step_commit(struct step *step, struct stale **stale) {
    nuz_answer answer;
    uint32_t code = step->steps > 0 ? NUZ_CHILD_LIVE : set_times(step);
    if (code == 0 && step->parent == NULL) {
        *stale = stale_new();
        return job_commit(step);
    }
    if (code == 0) {
        close_all(step);
        code = nuz_commit(served.tree, step->txn, &answer);
    }
    if (code == 0) {
        *stale = stale_new();
        hand_up(step, *stale);
        end(step, *stale);
    }
    return code;
}

/* The last live step in one, or that itself. */
static struct step *last_in(struct step *step) {
    struct step *last = step;
    for (struct step *each = step; each != NULL; each = each->next) {
        if (stands_in(each, step)) {
            last = each;
        }
    }
    return last;
}

uint32_t step_abort(struct step *step, struct stale **stale) {
    nuz_answer answer;
    uint32_t code = nuz_abort(served.tree, step->txn, &answer);
    if (code != 0) {
        return code;
    }
    *stale = stale_new();
    bool is_job = step->parent == NULL, is_over;
    do {
        struct step *last = last_in(step);
        is_over = last == step;
        end(last, *stale);
    } while (!is_over);
    if (is_job) {
        nuz_checkpoint(served.tree, &answer);
        code = job_begin();
    }
    return code;
}

/* ---- undoing */

static bool is_open_since(const struct step *step, uint64_t stamp) {
    const struct node *node = step->open;
    while (node != NULL && (node->fd < stamp || node->opens == 0)) {
        node = node->next_open;
    }
    return node != NULL;
}

/* Releases descriptors that are not there any more, which no program has open. */
static void let_closed_go(struct step *step, uint64_t stamp) {
    struct node *node = step->open;
    while (node != NULL) {
        struct node *next = node->next_open;
        if (node->fd >= stamp) {
            node_closed(node);
        }
        node = next;
    }
}

/* Has a step see what was before its changes, from the last one back. */
static void take_back(struct step *step, size_t first, struct stale *stale) {
    for (size_t i = step->change_count; i > first; i--) {
        const struct change *change = &step->changes[i - 1];
        see(step, NULL, change, change->name == NULL ? change->after : change->before, stale);
    }
    drop_changes(step, first);
}

uint32_t step_undo(struct step *step, struct stale **stale) {
    if (step->steps > 0) {
        return NUZ_CHILD_LIVE;
    }
    if (step->mark_count == 0) {
        return step->has_committed ? NUZ_SUB_SINCE : NUZ_NOTHING_TO_UNDO;
    }
    struct mark mark = step->marks[step->mark_count - 1];
    if (step->writers > 0 || is_open_since(step, mark.stamp)) {
        return EBUSY;
    }
    nuz_answer answer;
    uint32_t code;
    do {
        code = nuz_undo(served.tree, step->txn, &answer);
    } while (code == 0 && answer.stamp != mark.stamp);
    if (code == 0) {
        step->mark_count--;
        let_closed_go(step, mark.stamp);
        *stale = stale_new();
        take_back(step, mark.change, *stale);
    }
    return code;
}
