/* Memory that a tree takes, and that it does not: for bytes that are read or find no room, for
 * files that a checkpoint goes on with, and for transactions that have ended while another one goes
 * on.
 *
 * The last line is 'N passed, M failed', and the status is 0 if none failed. It needs glibc, which
 * reports how much of its memory is in use.
 */
#include <nuzolged.h>

#include <malloc.h>

#include "testing.h"

enum { MEGABYTE = 1 << 20 };

static uint8_t bytes[MEGABYTE];

static nuz_answer answer;

/* How many bytes are in use. */
static size_t used(void) {
    struct mallinfo2 told = mallinfo2();
    return told.uordblks + told.hblkhd;
}

/* Opens a tree with a transaction, 1, and a file of a megabyte, which it may not exceed, open. */
static bool opened(nuz_tree **tree, uint64_t *fd) {
    nuz_limits limits = NUZ_LIMITS_GREATEST;
    limits.file_size = MEGABYTE;
    CHECK(nuz_tree_open_with(tree, 0, &limits) == 0 && nuz_begin(*tree, &answer) == 0);
    CHECK(nuz_open(*tree, 1, NUZ_S("/f"), NUZ_O_RDWR | NUZ_O_CREAT, 0600, &answer) == 0);
    *fd = answer.number;
    CHECK(nuz_write(*tree, 1, *fd, bytes, MEGABYTE, &answer) == 0 && answer.number == MEGABYTE);
    return true;
}

static bool reads_take_none(void) {
    nuz_tree *t;
    uint64_t fd;
    CHECK(opened(&t, &fd) && nuz_pread(t, 1, fd, bytes, MEGABYTE, 0, &answer) == 0);
    size_t before = used();
    for (int i = 0; i < 1000; i++) {
        CHECK(nuz_pread(t, 1, fd, bytes, MEGABYTE, 0, &answer) == 0);
    }
    CHECK(used() <= before + MEGABYTE / 8);
    nuz_tree_close(t);
    return true;
}

/* Writes to no descriptor, after the greatest size of a file, and to a place for only 1 byte. */
static bool writes_that_fail_take_none(void) {
    nuz_tree *t;
    uint64_t fd;
    CHECK(opened(&t, &fd));
    size_t before = used();
    for (int i = 0; i < 200; i++) {
        CHECK(nuz_write(t, 1, 99, bytes, MEGABYTE, &answer) == 9);
        CHECK(nuz_pwrite(t, 1, fd, bytes, MEGABYTE, MEGABYTE, &answer) == 27);
        CHECK(nuz_pwrite(t, 1, fd, bytes, MEGABYTE, MEGABYTE - 1, &answer) == 0);
        CHECK(answer.number == 1);
    }
    CHECK(used() <= before + MEGABYTE);
    CHECK(nuz_abort(t, 1, &answer) == 0 && used() <= before - MEGABYTE / 2);
    nuz_tree_close(t);
    return true;
}

/* Makes files of 64 kilobytes. */
static bool make_files(nuz_tree *tree, int count) {
    for (int i = 0; i < count; i++) {
        char path[16];
        snprintf(path, sizeof path, "/%d", i);
        CHECK(nuz_open(tree, 1, NUZ_S(path), NUZ_O_WRONLY | NUZ_O_CREAT, 0600, &answer) == 0);
        uint64_t fd = answer.number;
        CHECK(nuz_write(tree, 1, fd, bytes, 1 << 16, &answer) == 0);
        CHECK(nuz_close(tree, 1, fd, &answer) == 0);
    }
    return true;
}

static bool files_take_their_bytes_once(void) {
    nuz_tree *t;
    const size_t size = (size_t)200 << 16;
    size_t before = used();
    CHECK(nuz_tree_open(&t, 0) == 0 && nuz_begin(t, &answer) == 0 && make_files(t, 200));
    CHECK(used() - before <= size + size / 8);
    CHECK(nuz_commit(t, 1, &answer) == 0 && nuz_checkpoint(t, &answer) == 0);
    CHECK(used() - before <= size + size / 8);
    nuz_tree_close(t);
    CHECK(used() <= before + MEGABYTE / 8); /* (with the caches of malloc) */
    return true;
}

/* Makes a directory and removes it, with a look at it between, in a transaction: 3 calls. */
static bool do_job(nuz_tree *tree) {
    CHECK(nuz_begin(tree, &answer) == 0);
    uint64_t txn = answer.number;
    CHECK(nuz_mkdir(tree, txn, NUZ_S("/d"), 0700, &answer) == 0);
    CHECK(nuz_stat(tree, txn, NUZ_S("/d"), &answer) == 0);
    CHECK(nuz_rmdir(tree, txn, NUZ_S("/d"), &answer) == 0);
    CHECK((txn % 5 == 0 ? nuz_abort : nuz_commit)(tree, txn, &answer) == 0);
    return true;
}

/* 400,000 transactions with 1,200,000 calls, and no checkpoint, since one is live all the time. */
static bool jobs_go_on_beside_a_live_one(void) {
    nuz_tree *t;
    const int jobs = 400000;
    CHECK(nuz_tree_open(&t, 0) == 0 && nuz_begin(t, &answer) == 0 && do_job(t));
    CHECK(nuz_checkpoint(t, &answer) == NUZ_LIVE);
    size_t before = used();
    for (int i = 0; i < jobs; i++) {
        CHECK(do_job(t));
    }
    CHECK(used() - before <= (size_t)jobs * 17); /* (8 each, in a list that has doubled) */
    CHECK(nuz_commit(t, 1, &answer) == 0 && nuz_checkpoint(t, &answer) == 0);
    CHECK(used() <= before + MEGABYTE / 8);
    nuz_tree_close(t);
    return true;
}

static const test TESTS[] = {
    TEST(reads_take_none),
    TEST(writes_that_fail_take_none),
    TEST(files_take_their_bytes_once),
    TEST(jobs_go_on_beside_a_live_one),
};

int main(void) {
    return RUN_TESTS(TESTS, NULL);
}
