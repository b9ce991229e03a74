/* Tries the functions of nuzolged_shared.h, by threads that wait for each other.
 *
 * The last line is 'N passed, M failed', and the status is 0 if none failed.
 */
#define _POSIX_C_SOURCE 200809L /* for clocks and sleeps */

#include <nuzolged_shared.h>

#include <errno.h>
#include <pthread.h>
#include <time.h>

#include "scarce.h"
#include "testing.h"
#include "waiting.h"

static nuz_shared *shared;
static nuz_answer answer;

static uint64_t begin(void) {
    nuz_begin(nuz_shared_lock(shared), &answer);
    nuz_shared_unlock(shared);
    return answer.number;
}

static bool opened(void) {
    nuz_tree *tree;
    return nuz_tree_open(&tree, 0) == 0 && nuz_shared_open(&shared, tree) == 0;
}

/* A call of a transaction on a path, in a thread of its own if it may be blocked. */
typedef struct call {
    uint64_t txn;
    uint32_t milliseconds;
    const char *path;
    uint32_t code;
    nuz_answer answer;
    char names[16];
    pthread_t thread;
} call;

static void make_directory(call *call) {
    nuz_tree *tree = nuz_shared_lock(shared);
    nuz_mkdir(tree, call->txn, NUZ_S(call->path), NUZ_DEFAULT_MODE, &call->answer);
    call->code = nuz_shared_wait(shared, call->txn, call->milliseconds, NULL, 0, &call->answer);
    nuz_shared_unlock(shared);
}

static void *list(void *context) {
    call *call = context;
    nuz_tree *tree = nuz_shared_lock(shared);
    nuz_list_all(tree, call->txn, NUZ_S(call->path), call->names, sizeof call->names,
                 &call->answer);
    call->code = nuz_shared_wait(shared, call->txn, call->milliseconds, call->names,
                                 sizeof call->names, &call->answer);
    nuz_shared_unlock(shared);
    return NULL;
}

/* Begins a call that waits, in a thread, and waits until it does. */
static bool begins_to_wait(call *call) {
    return pthread_create(&call->thread, NULL, list, call) == 0
        && comes_to_wait(shared, call->txn);
}

static bool has_ended(call *call) {
    return pthread_join(call->thread, NULL) == 0;
}

static bool waits_for_nothing(uint64_t txn) {
    nuz_cancel(nuz_shared_lock(shared), txn, &answer);
    nuz_shared_unlock(shared);
    return answer.code == NUZ_NO_ASK;
}

static bool call_goes_on_when_the_other_has_ended(void) {
    CHECK(opened());
    call one = { .txn = begin(), .path = "/a" }, other = { begin(), LONG, .path = "/" };
    make_directory(&one);
    CHECK(one.code == 0 && begins_to_wait(&other));
    CHECK(nuz_shared_commit(shared, one.txn, &answer) == 0 && has_ended(&other));
    CHECK(other.code == 0 && other.answer.number == 1 && strcmp(other.names + 1, "a") == 0);
    CHECK(nuz_shared_commit(shared, other.txn, &answer) == 0);
    nuz_shared_close(shared);
    return true;
}

static bool abort_wakes_too(void) {
    CHECK(opened());
    call one = { .txn = begin(), .path = "/a" }, other = { begin(), LONG, .path = "/" };
    make_directory(&one);
    CHECK(begins_to_wait(&other));
    CHECK(nuz_shared_abort(shared, one.txn, &answer) == 0 && answer.number == 1);
    CHECK(has_ended(&other) && other.code == 0 && other.answer.number == 0);
    nuz_shared_close(shared);
    return true;
}

static bool end_that_wakes_nobody_is_noticed(void) {
    CHECK(opened());
    call one = { .txn = begin(), .path = "/a" }, other = { begin(), LONG, .path = "/" };
    make_directory(&one);
    CHECK(begins_to_wait(&other));
    nuz_abort(nuz_shared_lock(shared), one.txn, &answer);
    nuz_shared_unlock(shared);
    CHECK(has_ended(&other) && other.code == 0);
    nuz_shared_close(shared);
    return true;
}

static bool time_may_be_over(void) {
    struct timespec begun, ended;
    CHECK(opened());
    call one = { .txn = begin(), .path = "/a" }, other = { begin(), 30, .path = "/" };
    make_directory(&one);
    clock_gettime(CLOCK_MONOTONIC, &begun);
    list(&other);
    clock_gettime(CLOCK_MONOTONIC, &ended);
    CHECK(other.code == NUZ_WAITS && other.answer.number == 1);
    CHECK(other.answer.blockers[0] == one.txn && waits_for_nothing(other.txn));
    long long waited = (ended.tv_sec - begun.tv_sec) * 1000000000LL + ended.tv_nsec - begun.tv_nsec;
    CHECK(waited >= 29000000);
    other.milliseconds = 0;
    list(&other);
    CHECK(other.code == NUZ_WAITS && waits_for_nothing(other.txn));
    nuz_shared_close(shared);
    return true;
}

static bool call_that_need_not_wait_does_not(void) {
    CHECK(opened());
    call one = { begin(), LONG, .path = "/no/a" };
    make_directory(&one);
    CHECK(one.code == ENOENT && one.answer.code == ENOENT);
    nuz_shared_close(shared);
    return true;
}

static bool deadlock_is_told_at_once(void) {
    CHECK(opened());
    call one = { begin(), LONG, .path = "/a" };
    call other = { begin(), LONG, .path = "/b" };
    make_directory(&one);
    make_directory(&other);
    one.path = "/b", other.path = "/a";
    CHECK(begins_to_wait(&one));
    list(&other);
    CHECK(other.code == EDEADLK && other.answer.code == EDEADLK && other.answer.number == 2);
    CHECK(other.answer.blockers[0] == other.txn && other.answer.blockers[1] == one.txn);
    CHECK(waits_for_nothing(other.txn));
    CHECK(nuz_shared_commit(shared, other.txn, &answer) == 0 && has_ended(&one));
    CHECK(one.code == 0);
    nuz_shared_close(shared);
    return true;
}

/* A request of a copy, which makes a directory. */
static uint32_t make(nuz_tree *tree, void *request) {
    call *call = request;
    return nuz_mkdir(tree, call->txn, NUZ_S(call->path), NUZ_DEFAULT_MODE, &call->answer);
}

static void *copy(void *context) {
    call *call = context;
    nuz_shared_copy how = { shared, call->txn, call->milliseconds };
    call->code = nuz_shared_around(&how, make, call);
    return NULL;
}

static bool request_of_a_copy_waits(void) {
    CHECK(opened());
    call one = { .txn = begin(), .path = "/a" }, other = { begin(), 10, .path = "/a" };
    make_directory(&one);
    copy(&other);
    CHECK(other.code == NUZ_WAITS && waits_for_nothing(other.txn));
    other.milliseconds = NUZ_FOREVER;
    CHECK(pthread_create(&other.thread, NULL, copy, &other) == 0);
    sleep_for(5);
    CHECK(nuz_shared_abort(shared, one.txn, &answer) == 0 && has_ended(&other));
    CHECK(other.code == 0 && other.answer.stamp > 0);
    nuz_shared_close(shared);
    return true;
}

enum { THREADS = 4, JOBS = 50 };

/* Adds a byte to each of two files, so often, in an order of its own. */
static void *add(void *order) {
    const char *paths[2] = { "/f", "/g" };
    size_t first = order != NULL;
    for (int done = 0; done < JOBS;) {
        uint64_t txn;
        nuz_answer told;
        uint32_t code = nuz_begin(nuz_shared_lock(shared), &told);
        nuz_shared_unlock(shared);
        txn = told.number;
        for (size_t i = 0; code == 0 && i < 2; i++) {
            const char *path = paths[(first + i) % 2];
            nuz_tree *tree = nuz_shared_lock(shared);
            nuz_stat(tree, txn, NUZ_S(path), &told);
            code = nuz_shared_wait(shared, txn, LONG, NULL, 0, &told);
            if (code == 0) {
                nuz_truncate(tree, txn, NUZ_S(path), (int64_t)told.size + 1, &told);
                code = nuz_shared_wait(shared, txn, LONG, NULL, 0, &told);
            }
            nuz_shared_unlock(shared);
        }
        done += code == 0;
        code == 0 ? nuz_shared_commit(shared, txn, &told) : nuz_shared_abort(shared, txn, &told);
    }
    return NULL;
}

static bool jobs_are_done_once_each(void) {
    pthread_t threads[THREADS];
    const uint32_t flags = NUZ_O_WRONLY | NUZ_O_CREAT;
    CHECK(opened());
    uint64_t txn = begin();
    nuz_tree *tree = nuz_shared_lock(shared);
    CHECK(nuz_open(tree, txn, NUZ_S("/f"), flags, NUZ_DEFAULT_MODE, &answer) == 0);
    CHECK(nuz_open(tree, txn, NUZ_S("/g"), flags, NUZ_DEFAULT_MODE, &answer) == 0);
    nuz_shared_unlock(shared);
    CHECK(nuz_shared_commit(shared, txn, &answer) == 0);
    for (size_t i = 0; i < THREADS; i++) {
        CHECK(pthread_create(&threads[i], NULL, add, i % 2 ? &answer : NULL) == 0);
    }
    for (size_t i = 0; i < THREADS; i++) {
        CHECK(pthread_join(threads[i], NULL) == 0);
    }
    txn = begin();
    tree = nuz_shared_lock(shared);
    CHECK(nuz_stat(tree, txn, NUZ_S("/f"), &answer) == 0 && answer.size == THREADS * JOBS);
    CHECK(nuz_stat(tree, txn, NUZ_S("/g"), &answer) == 0 && answer.size == THREADS * JOBS);
    nuz_shared_unlock(shared);
    nuz_shared_close(shared);
    return true;
}

static bool want_of_memory_changes_nothing(void) {
    nuz_tree *tree;
    CHECK(nuz_tree_open(&tree, 0) == 0);
    allocations_left = 0;
    uint32_t code = nuz_shared_open(&shared, tree);
    allocations_left = -1;
    CHECK(code == NUZ_MEMORY && shared == NULL && nuz_begin(tree, &answer) == 0);
    nuz_shared_close(shared);
    nuz_tree_close(tree);
    return true;
}

static const test TESTS[] = {
    TEST(call_goes_on_when_the_other_has_ended),
    TEST(abort_wakes_too),
    TEST(end_that_wakes_nobody_is_noticed),
    TEST(time_may_be_over),
    TEST(call_that_need_not_wait_does_not),
    TEST(deadlock_is_told_at_once),
    TEST(request_of_a_copy_waits),
    TEST(jobs_are_done_once_each),
    TEST(want_of_memory_changes_nothing),
};

int main(void) {
    return RUN_TESTS(TESTS, NULL);
}
