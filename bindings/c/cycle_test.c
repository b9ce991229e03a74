/* Tries the function of nuzolged_cycle.h.
 *
 * The last line is 'N passed, M failed', and the status is 0 if none failed. It is linked with
 * --wrap=malloc and --wrap=realloc, so that memory runs out when a test says so.
 */
#include <nuzolged_cycle.h>

#include "scarce.h"
#include "testing.h"

static nuz_answer answer;

/* Opens a tree, and carries out lines, each with a semicolon after it: none is refused. */
static bool opened(nuz_tree **tree, uint32_t options, const char *lines) {
    bool is_good = nuz_tree_open(tree, options) == 0;
    for (const char *at = lines; is_good && *at != '\0';) {
        size_t len = strcspn(at, ";");
        uint32_t code = nuz_request(*tree, at, len, NULL, 0, &answer);
        is_good = code < NUZ_MEMORY || code == NUZ_WAITS;
        at += len + 1;
    }
    return is_good;
}

/* Whether the deadlock of a transaction has these members, as many as there are. */
static bool has_cycle(nuz_tree *tree, uint64_t txn, const uint64_t *members, size_t count) {
    uint64_t txns[8] = { 0 };
    memset(&answer, 0xa5, sizeof answer);
    uint32_t code = nuz_cycle_of(tree, txn, txns, 8, &answer);
    CHECK(code == 0 && answer.code == 0 && answer.number == count && answer.size == 0);
    CHECK(count == 0 || memcmp(txns, members, count * sizeof *txns) == 0);
    CHECK(txns[count] == 0);
    return true;
}

#define HAS_CYCLE(tree, txn, ...)                                                         \
    has_cycle(tree, txn, (const uint64_t[]){ __VA_ARGS__ },                               \
              sizeof((const uint64_t[]){ __VA_ARGS__ }) / sizeof(uint64_t))

#define HAS_NONE(tree, txn) has_cycle(tree, txn, NULL, 0)

/* Each of transactions makes a directory of its own, and looks for that of the next one. */
static const char *const RING = "begin;begin;begin;1 mkdir /1;2 mkdir /2;3 mkdir /3;"
                                "1 stat /2;2 stat /3;3 stat /1;";

static bool each_member_comes_first(void) {
    nuz_tree *t;
    CHECK(opened(&t, 0, RING));
    CHECK(HAS_CYCLE(t, 1, 1, 2, 3) && HAS_CYCLE(t, 2, 2, 3, 1) && HAS_CYCLE(t, 3, 3, 1, 2));
    CHECK(nuz_cancel(t, 2, &answer) == 0 && HAS_NONE(t, 1) && HAS_NONE(t, 2) && HAS_NONE(t, 3));
    nuz_tree_close(t);
    return true;
}

/* A transaction that waits for a member, one that is not connected to it, and none. */
static bool others_have_none(void) {
    nuz_tree *t;
    CHECK(opened(&t, 0, RING) && nuz_begin(t, &answer) == 0 && nuz_begin(t, &answer) == 0);
    CHECK(nuz_stat(t, 4, NUZ_S("/2"), &answer) == NUZ_WAITS);
    CHECK(HAS_NONE(t, 4) && HAS_NONE(t, 5) && HAS_NONE(t, 99) && HAS_NONE(t, 0));
    nuz_tree_close(t);
    return true;
}

static bool deadlocks_are_told_apart(void) {
    nuz_tree *t;
    CHECK(opened(&t, 0, "begin;begin;begin;begin;1 mkdir /1;2 mkdir /2;3 mkdir /3;4 mkdir /4;"
                        "1 stat /2;2 stat /1;3 stat /4;4 stat /3;"));
    CHECK(HAS_CYCLE(t, 1, 1, 2) && HAS_CYCLE(t, 2, 2, 1));
    CHECK(HAS_CYCLE(t, 3, 3, 4) && HAS_CYCLE(t, 4, 4, 3));
    nuz_tree_close(t);
    return true;
}

/* A transaction on two cycles: the shorter one is reported. */
static bool shortest_is_told(void) {
    nuz_tree *t;
    CHECK(opened(&t, 0, "begin;1 mkdir /d;commit 1;begin;begin;begin;"
                        "2 mkdir /2;3 mkdir /d/3;4 mkdir /d/4;3 stat /d/4;2 list /d;4 stat /2;"));
    CHECK(HAS_CYCLE(t, 4, 4, 2) && HAS_CYCLE(t, 2, 2, 4) && HAS_CYCLE(t, 3, 3, 4, 2));
    nuz_tree_close(t);
    return true;
}

/* A job waits for its step to end, that for another job, and that for the first one. */
static bool step_is_on_the_way(void) {
    nuz_tree *t;
    CHECK(opened(&t, 0, "begin;1 mkdir /1;begin;2 mkdir /2;sub 1;3 stat /2;2 stat /1;"));
    CHECK(HAS_CYCLE(t, 1, 1, 3, 2) && HAS_CYCLE(t, 3, 3, 2, 1) && HAS_CYCLE(t, 2, 2, 1, 3));
    nuz_tree_close(t);
    CHECK(opened(&t, NUZ_MOSS, "begin;1 mkdir /1;sub 1;2 stat /1;"));
    CHECK(HAS_CYCLE(t, 2, 2, 1));
    nuz_tree_close(t);
    return true;
}

static bool numbers_are_cut_to_the_room(void) {
    nuz_tree *t;
    uint64_t txns[2] = { 0, 0 };
    CHECK(opened(&t, 0, RING));
    CHECK(nuz_cycle_of(t, 2, txns, 1, &answer) == 0 && answer.number == 3);
    CHECK(txns[0] == 2 && txns[1] == 0);
    CHECK(nuz_cycle_of(t, 2, NULL, 0, &answer) == 0 && answer.number == 3);
    nuz_tree_close(t);
    return true;
}

static bool want_of_memory_is_told(void) {
    nuz_tree *t;
    uint64_t txns[3];
    CHECK(opened(&t, 0, RING));
    long n = 0;
    for (uint32_t code = NUZ_MEMORY; code != 0; n++) {
        allocations_left = n;
        code = nuz_cycle_of(t, 1, txns, 3, &answer);
        allocations_left = -1;
        CHECK(code == answer.code && (code == 0 || (code == NUZ_MEMORY && answer.number == 0)));
    }
    CHECK(n > 5 && answer.number == 3);
    nuz_tree_close(t);
    return true;
}

static const test TESTS[] = {
    TEST(each_member_comes_first),
    TEST(others_have_none),
    TEST(deadlocks_are_told_apart),
    TEST(shortest_is_told),
    TEST(step_is_on_the_way),
    TEST(numbers_are_cut_to_the_room),
    TEST(want_of_memory_is_told),
};

int main(void) {
    return RUN_TESTS(TESTS, NULL);
}
