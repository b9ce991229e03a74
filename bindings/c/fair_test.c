/* Tries calls that wait in turn: nuz_tree_fair, NUZ_FAIR, and the trees of nuzolged_shared.h.
 *
 * The last line is 'N passed, M failed', and the status is 0 if none failed. It is linked with
 * --wrap=malloc and --wrap=realloc, so that memory runs out when a test says so.
 */
#define _POSIX_C_SOURCE 200809L /* for sleeps */

#include <nuzolged_cycle.h>
#include <nuzolged_shared.h>

#include <errno.h>
#include <pthread.h>
#include <sched.h>
#include <time.h>

#include "scarce.h"
#include "testing.h"
#include "waiting.h"

static nuz_answer answer;

/* ---- lines */

static uint32_t play(nuz_tree *tree, const char *line) {
    return nuz_request(tree, NUZ_S(line), NULL, 0, &answer);
}

/* Carries out lines, with a semicolon after each: none is refused. */
static bool carries_out(nuz_tree *tree, const char *lines) {
    bool is_good = true;
    for (const char *at = lines; is_good && *at != '\0';) {
        size_t len = strcspn(at, ";");
        uint32_t code = nuz_request(tree, at, len, NULL, 0, &answer);
        is_good = code < NUZ_MEMORY || code == NUZ_WAITS;
        at += len + 1;
    }
    return is_good;
}

/* The first lines of each tree. */
#define BEGUN "begin;1 mkdir /d;1 mkdir /e;commit 1;"

static bool opened(nuz_tree **tree, uint32_t options, const char *lines) {
    return nuz_tree_open(tree, options) == 0 && carries_out(*tree, lines);
}

/* Whether a line of a transaction waits, and for one other only. */
static bool is_held(nuz_tree *tree, const char *line, uint64_t other) {
    bool is_retry = strncmp(line, "retry ", 6) == 0;
    uint64_t txn = strtoull(is_retry ? line + 6 : line, NULL, 10), blocker = 0;
    CHECK(play(tree, line) == NUZ_WAITS && answer.number == 1 && answer.blockers[0] == other);
    CHECK(nuz_blockers(tree, txn, &blocker, 1, &answer) == 0);
    CHECK(answer.number == 1 && blocker == other);
    return true;
}

/* A reader, a writer that waits for it, and another one that is to read. */
#define READERS BEGUN "begin;begin;begin;2 list /d;3 mkdir /d/w;"

static bool writer_is_not_passed(void) {
    nuz_tree *t;
    CHECK(opened(&t, NUZ_FAIR, READERS));
    CHECK(is_held(t, "4 list /d", 3));
    CHECK(play(t, "commit 2") == 0 && is_held(t, "retry 4", 3));
    CHECK(play(t, "retry 3") == 0 && is_held(t, "retry 4", 3));
    CHECK(play(t, "commit 3") == 0 && play(t, "retry 4") == 0 && answer.number == 1);
    nuz_tree_close(t);
    return true;
}

static bool writer_is_passed_without_turns(void) {
    nuz_tree *t;
    CHECK(opened(&t, NUZ_RELAXED, READERS) && play(t, "4 list /d") == 0);
    nuz_tree_close(t);
    CHECK(opened(&t, NUZ_MOSS, READERS) && play(t, "4 list /d") == 0);
    nuz_tree_close(t);
    CHECK(opened(&t, NUZ_FAIR | NUZ_MOSS, READERS) && is_held(t, "4 list /d", 3));
    nuz_tree_close(t);
    return true;
}

static bool turns_begin_and_end_at_any_time(void) {
    nuz_tree *t;
    CHECK(opened(&t, NUZ_RELAXED, READERS "begin;"));
    nuz_tree_fair(t, true);
    CHECK(is_held(t, "retry 3", 2) && is_held(t, "4 list /d", 3));
    nuz_tree_fair(t, false);
    CHECK(play(t, "retry 4") == 0);
    nuz_tree_fair(t, true);
    CHECK(is_held(t, "5 list /d", 3));
    nuz_tree_close(t);
    return true;
}

/* A call that makes a name is not held back by calls that make other names, here or elsewhere. */
static bool nobody_waits_without_need(void) {
    nuz_tree *t;
    CHECK(opened(&t, NUZ_FAIR, BEGUN "begin;begin;begin;begin;2 list /d;3 open wc /d/a;"));
    CHECK(play(t, "5 mkdir /e/c") == 0 && play(t, "5 open wc /e/f") == 0);
    CHECK(play(t, "5 rename /e/f /e/g") == 0 && play(t, "5 list /e") == 0);
    CHECK(is_held(t, "4 open wc /d/b", 2));
    CHECK(play(t, "commit 2") == 0 && play(t, "retry 4") == 0 && play(t, "retry 3") == 0);
    nuz_tree_close(t);
    return true;
}

/* A job, its step and a reader: neither of the first two waits for the other's turn. */
static bool related_ones_are_not_held_back(void) {
    nuz_tree *t;
    CHECK(opened(&t, NUZ_FAIR, BEGUN "begin;begin;sub 3;sub 3;2 list /d;4 mkdir /d/s;"));
    CHECK(play(t, "3 list /d") == 0);
    CHECK(is_held(t, "5 list /d", 4));
    CHECK(play(t, "commit 2") == 0 && play(t, "retry 4") == 0 && is_held(t, "retry 5", 4));
    nuz_tree_close(t);
    CHECK(opened(&t, NUZ_FAIR, BEGUN "begin;begin;sub 3;2 list /d;3 mkdir /d/j;"));
    CHECK(play(t, "4 list /d") == 0);
    nuz_tree_close(t);
    return true;
}

/* A call does not wait for the turn of one that waits for its own transaction, directly or not. */
static bool who_waits_for_the_asker_is_passed(void) {
    nuz_tree *t;
    CHECK(opened(&t, NUZ_FAIR, BEGUN "begin;begin;2 mkdir /d/t;3 list /d;"));
    CHECK(play(t, "2 mkdir /d/u") == 0);
    nuz_tree_close(t);
    CHECK(opened(&t, NUZ_FAIR, BEGUN "begin;begin;begin;begin;2 mkdir /t;3 mkdir /d/v;"
                                     "3 stat /t;4 list /d;"));
    CHECK(is_held(t, "5 mkdir /d/y", 4));
    CHECK(play(t, "2 mkdir /d/x") == 0);
    nuz_tree_close(t);
    return true;
}

/* 2 waits for the turn of 4, which waits for a lock of 3. When 3 comes to wait for a lock of 2,
 * that is no deadlock: 2 waits no more. */
static bool ring_through_a_turn_is_no_deadlock(void) {
    nuz_tree *t;
    uint64_t txns[3] = { 0 };
    CHECK(opened(&t, NUZ_FAIR, BEGUN "begin;begin;begin;2 mkdir /t;3 mkdir /d/v;4 list /d;"));
    CHECK(is_held(t, "2 mkdir /d/x", 4));
    CHECK(is_held(t, "3 stat /t", 2));
    CHECK(nuz_cycle(t, txns, 3, &answer) == 0 && answer.number == 0);
    CHECK(nuz_cycle_of(t, 3, txns, 3, &answer) == 0 && answer.number == 0);
    CHECK(nuz_blockers(t, 2, txns, 3, &answer) == 0 && answer.number == 0);
    CHECK(play(t, "retry 2") == 0 && play(t, "commit 2") == 0);
    CHECK(play(t, "retry 3") == 0 && play(t, "commit 3") == 0);
    CHECK(play(t, "retry 4") == 0 && answer.number == 2);
    nuz_tree_close(t);
    return true;
}

static bool turn_of_one_that_gives_up_is_gone(void) {
    const char *const ends[] = { "drop 3", "abort 3", "commit 3" };
    for (size_t i = 0; i < sizeof ends / sizeof *ends; i++) {
        nuz_tree *t;
        CHECK(opened(&t, NUZ_FAIR, READERS) && is_held(t, "4 list /d", 3));
        CHECK(play(t, ends[i]) == 0 && play(t, "retry 4") == 0);
        nuz_tree_close(t);
    }
    return true;
}

/* Two that would make the same directory, and wait for a reader. */
#define MAKERS BEGUN "begin;begin;begin;2 list /d;3 mkdir /d/x;4 mkdir /d/x;"

static bool same_call_keeps_its_turn(void) {
    nuz_tree *t;
    CHECK(opened(&t, NUZ_FAIR, MAKERS "3 mkdir /d/x;retry 4;retry 3;commit 2;"));
    CHECK(is_held(t, "retry 4", 3) && is_held(t, "4 mkdir /d/x", 3));
    CHECK(play(t, "3 mkdir /d/x") == 0);
    nuz_tree_close(t);
    return true;
}

static bool another_call_gets_the_last_turn(void) {
    nuz_tree *t;
    CHECK(opened(&t, NUZ_FAIR, MAKERS "3 mkdir /d/y;3 mkdir /d/x;commit 2;"));
    CHECK(is_held(t, "retry 3", 4));
    CHECK(play(t, "retry 4") == 0);
    nuz_tree_close(t);
    return true;
}

/* ---- answers */

/* A call of transaction 4, which puts what it reads into a room. */
typedef uint32_t request(nuz_tree *tree, uint8_t *room, size_t size);

static uint32_t ask_list(nuz_tree *tree, uint8_t *room, size_t size) {
    return nuz_list_all(tree, 4, NUZ_S("/d"), room, size, &answer);
}

static uint32_t ask_stat(nuz_tree *tree, uint8_t *room, size_t size) {
    (void)room, (void)size;
    return nuz_stat(tree, 4, NUZ_S("/d/f"), &answer);
}

static uint32_t ask_target(nuz_tree *tree, uint8_t *room, size_t size) {
    return nuz_readlink(tree, 4, NUZ_S("/d/l"), room, size, &answer);
}

static uint32_t ask_open(nuz_tree *tree, uint8_t *room, size_t size) {
    (void)room, (void)size;
    return nuz_open(tree, 4, NUZ_S("/d/g"), NUZ_O_RDWR | NUZ_O_CREAT, 0600, &answer);
}

static uint32_t ask_in_vain(nuz_tree *tree, uint8_t *room, size_t size) {
    (void)room, (void)size;
    return nuz_rmdir(tree, 4, NUZ_S("/d"), &answer);
}

static uint32_t ask_read(nuz_tree *tree, uint8_t *room, size_t size) {
    return nuz_pread(tree, 4, 4, room, size, 1, &answer);
}

static uint32_t ask_retry(nuz_tree *tree, uint8_t *room, size_t size) {
    return nuz_retry(tree, 4, room, size, &answer);
}

/* A directory, a file that is open as descriptor 4, and a link; a reader of each of them, and two
 * writers that wait for these. */
static const char *const PLACES =
    BEGUN "begin;2 open rwc /d/f;2 write 4 bytes;2 symlink target /d/l;commit 2;begin;begin;"
          "begin;begin;3 stat /d;3 pread 4 0 1;5 rename /d /z;6 truncate 0 /d/f;";

static bool is_same_answer(const nuz_answer *one, const nuz_answer *other) {
    return one->code == other->code && one->kind == other->kind && one->stamp == other->stamp
        && one->number == other->number && one->links == other->links && one->size == other->size
        && one->mode == other->mode && one->owner == other->owner && one->group == other->group
        && one->has_time == other->has_time;
}

/* Whether a call that was held back is answered as one that was not. */
static bool is_answered_alike(request *ask, uint32_t code) {
    nuz_tree *t;
    uint8_t room[64] = { 0 }, other_room[64] = { 0 };
    CHECK(opened(&t, NUZ_RELAXED, PLACES) && ask(t, room, sizeof room) == code);
    nuz_answer direct = answer;
    nuz_tree_close(t);
    CHECK(opened(&t, NUZ_FAIR, PLACES) && ask(t, other_room, sizeof other_room) == NUZ_WAITS);
    CHECK(play(t, "drop 5") == 0 && play(t, "drop 6") == 0);
    CHECK(ask_retry(t, other_room, sizeof other_room) == code);
    CHECK(is_same_answer(&answer, &direct) && answer.stamp > 0);
    CHECK(memcmp(room, other_room, sizeof room) == 0);
    nuz_tree_close(t);
    return true;
}

static bool calls_are_answered_alike(void) {
    CHECK(is_answered_alike(ask_list, 0) && is_answered_alike(ask_stat, 0));
    CHECK(is_answered_alike(ask_target, 0) && is_answered_alike(ask_open, 0));
    CHECK(is_answered_alike(ask_read, 0) && is_answered_alike(ask_in_vain, ENOTEMPTY));
    return true;
}

/* Refuses each allocation of a request in turn: then it is refused, and else ends with a code. */
static bool is_refused_in_turn(nuz_tree *tree, request *ask, uint32_t code) {
    uint32_t told = NUZ_MEMORY;
    long count = 0;
    for (; told == NUZ_MEMORY; count++) {
        allocations_left = count;
        told = ask(tree, NULL, 0);
        allocations_left = -1;
    }
    CHECK(told == code && count > 2);
    return true;
}

static uint32_t ask_blockers(nuz_tree *tree, uint8_t *room, size_t size) {
    (void)room, (void)size;
    return nuz_blockers(tree, 4, NULL, 0, &answer);
}

static bool want_of_memory_changes_nothing(void) {
    nuz_tree *t;
    CHECK(opened(&t, NUZ_FAIR, PLACES));
    CHECK(is_refused_in_turn(t, ask_list, NUZ_WAITS) && answer.blockers[0] == 5);
    CHECK(is_refused_in_turn(t, ask_retry, NUZ_WAITS) && answer.blockers[0] == 5);
    CHECK(is_refused_in_turn(t, ask_blockers, 0) && answer.number == 1);
    allocations_left = 0;
    uint32_t code = nuz_cancel(t, 5, &answer);
    nuz_tree_fair(t, false);
    nuz_tree_fair(t, true);
    allocations_left = -1;
    CHECK(code == 0 && play(t, "retry 4") == 0);
    nuz_tree_close(t);
    return true;
}

/* ---- threads */

static nuz_shared *shared;

/* A line of a transaction that waits, in a thread of its own. */
typedef struct call {
    uint64_t txn;
    const char *line;
    uint32_t milliseconds;
    nuz_answer answer;
    pthread_t thread;
} call;

static void *make(void *context) {
    call *call = context;
    nuz_request(nuz_shared_lock(shared), NUZ_S(call->line), NULL, 0, &call->answer);
    nuz_shared_wait(shared, call->txn, call->milliseconds, NULL, 0, &call->answer);
    nuz_shared_unlock(shared);
    return NULL;
}

/* Begins a call, in a thread, and waits until it waits: whether it does. */
static bool begins_to_wait(call *call) {
    return pthread_create(&call->thread, NULL, make, call) == 0
        && comes_to_wait(shared, call->txn);
}

static bool ends_with(call *call, uint32_t code) {
    return pthread_join(call->thread, NULL) == 0 && call->answer.code == code;
}

static bool shared_with(const char *lines) {
    nuz_tree *tree;
    return opened(&tree, NUZ_RELAXED, lines) && nuz_shared_open(&shared, tree) == 0;
}

static bool shared_tree_has_turns(void) {
    CHECK(shared_with(BEGUN "begin;begin;begin;2 list /d;"));
    call writer = { 3, "3 mkdir /d/w", LONG, .answer = { 0 } };
    call reader = { 4, "4 list /d", 0, .answer = { 0 } };
    CHECK(begins_to_wait(&writer));
    make(&reader);
    CHECK(reader.answer.code == NUZ_WAITS && reader.answer.blockers[0] == 3);
    reader.milliseconds = LONG;
    CHECK(begins_to_wait(&reader));
    CHECK(nuz_shared_commit(shared, 2, &answer) == 0 && ends_with(&writer, 0));
    CHECK(nuz_shared_commit(shared, 3, &answer) == 0 && ends_with(&reader, 0));
    CHECK(reader.answer.number == 1);
    nuz_shared_close(shared);
    return true;
}

static bool shared_tree_may_be_without(void) {
    CHECK(shared_with(BEGUN "begin;begin;begin;2 list /d;"));
    nuz_shared_fair(shared, false);
    call writer = { 3, "3 mkdir /d/w", LONG, .answer = { 0 } };
    call reader = { 4, "4 list /d", 0, .answer = { 0 } };
    CHECK(begins_to_wait(&writer));
    make(&reader);
    CHECK(reader.answer.code == 0);
    CHECK(nuz_shared_commit(shared, 2, &answer) == 0 && nuz_shared_commit(shared, 4, &answer) == 0);
    CHECK(ends_with(&writer, 0));
    nuz_shared_close(shared);
    return true;
}

static bool time_that_is_over_frees_the_next(void) {
    CHECK(shared_with(BEGUN "begin;begin;begin;2 list /d;"));
    call writer = { 3, "3 mkdir /d/w", 500, .answer = { 0 } };
    call reader = { 4, "4 list /d", LONG, .answer = { 0 } };
    CHECK(begins_to_wait(&writer) && begins_to_wait(&reader));
    CHECK(ends_with(&writer, NUZ_WAITS) && ends_with(&reader, 0));
    nuz_shared_close(shared);
    return true;
}

/* 4 waits for the turn of 2, which waits for 3. If 3 then needs a lock of 2, it is a deadlock. */
static bool deadlock_is_told_at_once(void) {
    CHECK(shared_with(BEGUN "begin;begin;begin;2 mkdir /d/a;3 mkdir /e/b;"));
    call first = { 2, "2 rename /e/b /c", LONG, .answer = { 0 } };
    call second = { 3, "3 stat /d/a", LONG, .answer = { 0 } };
    call third = { 4, "4 stat /c", LONG, .answer = { 0 } };
    CHECK(begins_to_wait(&first) && begins_to_wait(&third));
    make(&second);
    CHECK(second.answer.code == EDEADLK && second.answer.number == 2);
    CHECK(second.answer.blockers[0] == 3 && second.answer.blockers[1] == 2);
    CHECK(nuz_shared_abort(shared, 3, &answer) == 0);
    CHECK(ends_with(&first, ENOENT) && ends_with(&third, ENOENT));
    nuz_shared_close(shared);
    return true;
}

enum { THREADS = 8, JOBS = 25 };

/* Reads how long a file is, lets others go on, and adds a byte: the code with which that ends. */
static uint32_t add_one(uint64_t txn) {
    nuz_answer told;
    nuz_stat(nuz_shared_lock(shared), txn, NUZ_S("/f"), &told);
    uint32_t code = nuz_shared_wait(shared, txn, NUZ_FOREVER, NULL, 0, &told);
    nuz_shared_unlock(shared);
    if (code == 0) {
        sched_yield();
        int64_t size = (int64_t)told.size + 1;
        nuz_truncate(nuz_shared_lock(shared), txn, NUZ_S("/f"), size, &told);
        code = nuz_shared_wait(shared, txn, NUZ_FOREVER, NULL, 0, &told);
        nuz_shared_unlock(shared);
    }
    return code;
}

static void *add(void *context) {
    for (int done = 0; done < JOBS;) {
        nuz_answer told;
        nuz_begin(nuz_shared_lock(shared), &told);
        nuz_shared_unlock(shared);
        uint64_t txn = told.number;
        bool is_done = add_one(txn) == 0;
        done += is_done;
        is_done ? nuz_shared_commit(shared, txn, &told) : nuz_shared_abort(shared, txn, &told);
    }
    return context;
}

static bool each_thread_comes_to_its_end(void) {
    pthread_t threads[THREADS];
    CHECK(shared_with("begin;1 open wc /f;commit 1;"));
    for (size_t i = 0; i < THREADS; i++) {
        CHECK(pthread_create(&threads[i], NULL, add, NULL) == 0);
    }
    for (size_t i = 0; i < THREADS; i++) {
        CHECK(pthread_join(threads[i], NULL) == 0);
    }
    nuz_tree *tree = nuz_shared_lock(shared);
    CHECK(nuz_begin(tree, &answer) == 0);
    CHECK(nuz_stat(tree, answer.number, NUZ_S("/f"), &answer) == 0);
    CHECK(answer.size == THREADS * JOBS);
    nuz_shared_unlock(shared);
    nuz_shared_close(shared);
    return true;
}

enum { MANY = 150 };

static int asked;

/* Changes the mode of a file, for which all wait, in a transaction of its own. */
static void *change(void *is_good) {
    nuz_answer told;
    nuz_tree *tree = nuz_shared_lock(shared);
    nuz_begin(tree, &told);
    uint64_t txn = told.number;
    nuz_chmod(tree, txn, NUZ_S("/f"), 0600, &told);
    asked++;
    uint32_t code = nuz_shared_wait(shared, txn, NUZ_FOREVER, NULL, 0, &told);
    nuz_shared_unlock(shared);
    *(bool *)is_good = code == 0 && nuz_shared_commit(shared, txn, &told) == 0;
    return NULL;
}

static void await_all(void) {
    for (int count = 0; count < MANY; sleep_for(5)) {
        nuz_shared_lock(shared);
        count = asked;
        nuz_shared_unlock(shared);
    }
}

/* All wait for one transaction, and then each for those that come before it. */
static bool many_come_to_their_end(void) {
    pthread_t threads[MANY];
    bool are_good[MANY] = { false };
    CHECK(shared_with("begin;1 open wc /f;commit 1;begin;2 stat /f;"));
    for (size_t i = 0; i < MANY; i++) {
        CHECK(pthread_create(&threads[i], NULL, change, &are_good[i]) == 0);
    }
    await_all();
    time_t begun = time(NULL);
    CHECK(nuz_shared_commit(shared, 2, &answer) == 0);
    for (size_t i = 0; i < MANY; i++) {
        CHECK(pthread_join(threads[i], NULL) == 0 && are_good[i]);
    }
    CHECK(time(NULL) - begun < 60);
    nuz_shared_close(shared);
    return true;
}

static const test TESTS[] = {
    TEST(writer_is_not_passed),
    TEST(writer_is_passed_without_turns),
    TEST(turns_begin_and_end_at_any_time),
    TEST(nobody_waits_without_need),
    TEST(related_ones_are_not_held_back),
    TEST(who_waits_for_the_asker_is_passed),
    TEST(ring_through_a_turn_is_no_deadlock),
    TEST(turn_of_one_that_gives_up_is_gone),
    TEST(same_call_keeps_its_turn),
    TEST(another_call_gets_the_last_turn),
    TEST(calls_are_answered_alike),
    TEST(want_of_memory_changes_nothing),
    TEST(shared_tree_has_turns),
    TEST(shared_tree_may_be_without),
    TEST(time_that_is_over_frees_the_next),
    TEST(deadlock_is_told_at_once),
    TEST(each_thread_comes_to_its_end),
    TEST(many_come_to_their_end),
};

int main(void) {
    return RUN_TESTS(TESTS, NULL);
}
