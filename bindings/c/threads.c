/* threads: jobs in threads that share a tree. Each reads a number from a file, and writes the next.
 *
 * A lock is around each request. A blocked call is made again when a transaction has ended. A job
 * whose call would wait for ever is aborted, and begins again when another has ended.
 */
#define _DEFAULT_SOURCE /* for barriers */

#include <nuzolged_cycle.h>

#include <pthread.h>
#include <stdio.h>
#include <stdlib.h>

enum { THREADS = 8, JOBS = 25, ROOM = 16 };

/* The code of a call that would wait for ever: none of the header's. */
enum { DEADLOCK = 2000 };

/* A tree that threads share, how many of its transactions have ended, and how many calls would have
 * waited for ever. */
static struct {
    nuz_tree *tree;
    pthread_mutex_t lock;
    pthread_cond_t has_ended;
    unsigned long ended;
    unsigned long deadlocks;
} shared = { NULL, PTHREAD_MUTEX_INITIALIZER, PTHREAD_COND_INITIALIZER, 0, 0 };

/* The first jobs of all threads meet here when they have read, so that they block each other: only
 * one of them can write. */
static pthread_barrier_t meeting;
static _Thread_local bool has_met;

/* Ends a request that was begun with the lock: waits until its call is carried out, and gives the
 * lock back. Returns the code. The bytes that the call reads go to the buffer. */
static uint32_t carried_out(uint32_t code, uint64_t txn, void *buffer, size_t room,
                            nuz_answer *answer) {
    nuz_answer told;
    while (code == NUZ_WAITS) {
        if (nuz_cycle_of(shared.tree, txn, NULL, 0, &told) == 0 && told.number > 0) {
            nuz_cancel(shared.tree, txn, &told);
            shared.deadlocks++;
            code = DEADLOCK;
        } else {
            pthread_cond_wait(&shared.has_ended, &shared.lock);
            code = nuz_retry(shared.tree, txn, buffer, room, answer);
        }
    }
    pthread_mutex_unlock(&shared.lock);
    return code;
}

static uint32_t open_file(uint64_t txn, const char *path, uint32_t flags, nuz_answer *answer) {
    pthread_mutex_lock(&shared.lock);
    uint32_t code = nuz_open(shared.tree, txn, NUZ_S(path), flags, NUZ_DEFAULT_MODE, answer);
    return carried_out(code, txn, NULL, 0, answer);
}

static uint32_t read_file(uint64_t txn, uint64_t fd, char *text, nuz_answer *answer) {
    pthread_mutex_lock(&shared.lock);
    uint32_t code = nuz_pread(shared.tree, txn, fd, text, ROOM - 1, 0, answer);
    code = carried_out(code, txn, text, ROOM - 1, answer);
    text[code == 0 ? answer->number : 0] = '\0';
    return code;
}

static uint32_t write_file(uint64_t txn, uint64_t fd, const char *text, nuz_answer *answer) {
    pthread_mutex_lock(&shared.lock);
    uint32_t code = nuz_pwrite(shared.tree, txn, fd, NUZ_S(text), 0, answer);
    return carried_out(code, txn, NULL, 0, answer);
}

static uint32_t close_file(uint64_t txn, uint64_t fd, nuz_answer *answer) {
    pthread_mutex_lock(&shared.lock);
    uint32_t code = nuz_close(shared.tree, txn, fd, answer);
    return carried_out(code, txn, NULL, 0, answer);
}

/* Commits a job, or aborts it if something has failed, and wakes those that wait. After a deadlock
 * it waits until another job has ended, since one of the others in the cycle will. If it began
 * again at once, it could block them once more. */
static uint32_t end_job(uint64_t txn, uint32_t code) {
    nuz_answer answer;
    pthread_mutex_lock(&shared.lock);
    if (code == 0) {
        code = nuz_commit(shared.tree, txn, &answer);
    } else {
        nuz_abort(shared.tree, txn, &answer);
    }
    unsigned long ended = ++shared.ended;
    pthread_cond_broadcast(&shared.has_ended);
    while (code == DEADLOCK && shared.ended == ended) {
        pthread_cond_wait(&shared.has_ended, &shared.lock);
    }
    pthread_mutex_unlock(&shared.lock);
    return code;
}

static uint32_t begin_job(uint64_t *txn) {
    nuz_answer begun;
    pthread_mutex_lock(&shared.lock);
    uint32_t code = nuz_begin(shared.tree, &begun);
    pthread_mutex_unlock(&shared.lock);
    *txn = begun.number;
    return code;
}

/* A job: adds to the number in /count, or makes it, and returns it. */
static uint32_t add(unsigned long more, unsigned long *number) {
    char text[ROOM];
    nuz_answer opened, answer;
    uint64_t txn;
    uint32_t code = begin_job(&txn);
    if (code != 0) return code;
    code = open_file(txn, "/count", NUZ_O_RDWR | NUZ_O_CREAT, &opened);
    if (code == 0) code = read_file(txn, opened.number, text, &answer);
    if (more != 0 && !has_met) {
        has_met = true;
        pthread_barrier_wait(&meeting);
    }
    if (code == 0) {
        *number = strtoul(text, NULL, 10) + more;
        snprintf(text, sizeof text, "%lu", *number);
        code = write_file(txn, opened.number, text, &answer);
    }
    if (code == 0) code = close_file(txn, opened.number, &answer);
    return end_job(txn, code);
}

/* A thread: so many jobs, each of them again after a deadlock. */
static void *add_often(void *failed) {
    unsigned long number;
    for (int left = JOBS; left > 0;) {
        uint32_t code = add(1, &number);
        if (code == 0) {
            left--;
        } else if (code != DEADLOCK) {
            *(uint32_t *)failed = code;
            break;
        }
    }
    return NULL;
}

/* Runs the threads. Returns 0, or the code of one that failed. */
static uint32_t run_threads(void) {
    pthread_t threads[THREADS];
    uint32_t codes[THREADS] = { 0 }, failed = 0;
    pthread_barrier_init(&meeting, NULL, THREADS);
    for (int each = 0; each < THREADS; each++) {
        if (pthread_create(&threads[each], NULL, add_often, &codes[each]) != 0) {
            exit(EXIT_FAILURE);
        }
    }
    for (int each = 0; each < THREADS; each++) {
        pthread_join(threads[each], NULL);
        failed = codes[each] != 0 ? codes[each] : failed;
    }
    return failed;
}

int main(void) {
    unsigned long number = 0;
    uint32_t code = nuz_tree_open(&shared.tree, 0);
    if (code == 0) code = add(0, &number);
    if (code == 0) code = run_threads();
    if (code == 0) code = add(0, &number);
    if (code == 0) {
        printf("%d threads have added %lu\n", THREADS, number);
        puts(shared.deadlocks < THREADS - 1 ? "too few deadlocks" : "none of them waited for ever");
    } else {
        fprintf(stderr, "threads: %s\n", nuz_strerror(code));
    }
    nuz_tree_close(shared.tree);
    return code == 0 ? EXIT_SUCCESS : EXIT_FAILURE;
}
