/* Large things: a file of 3 GB, 5,000,000 calls in one transaction, and 4,096 transactions inside
 * each other, in the memory that the shell allows.
 *
 *     (ulimit -v 4194304; large)
 *
 * The last line is 'N passed, M failed', and the status is 0 if none failed.
 */
#include <nuzolged.h>

#include "testing.h"

/* The answer that a function fills in. */
static nuz_answer last_answer;

/* The answer of a function to these arguments. */
#define ASK(function, ...) (function(__VA_ARGS__, &last_answer), last_answer)

/* Makes a file, which is open then. */
static nuz_answer make_file(nuz_tree *t, uint64_t txn, const char *path) {
    const uint32_t flags = NUZ_O_RDWR | NUZ_O_CREAT | NUZ_O_EXCL;
    return ASK(nuz_open, t, txn, NUZ_S(path), flags, NUZ_DEFAULT_MODE);
}

/* ---- a large file */

enum { PIECE = 1 << 24, PIECES = 192 };

#define SIZE ((uint64_t)PIECE * PIECES)

static uint8_t piece[PIECE];

/* Writes pieces, each of its own bytes: how many were written. */
static int write_pieces(nuz_tree *t, uint64_t txn, uint64_t fd, int most) {
    for (int i = 0; i < most; i++) {
        memset(piece, i + 1, PIECE);
        if (ASK(nuz_write, t, txn, fd, piece, PIECE).number != PIECE) {
            return i;
        }
    }
    return most;
}

/* Whether the file has these two bytes around a place. */
static bool has_at(nuz_tree *t, uint64_t txn, uint64_t fd, uint64_t at, int before, int behind) {
    uint8_t got[2] = { 0, 0 };
    return ASK(nuz_pread, t, txn, fd, got, 2, (int64_t)at - 1).number == 2
        && got[0] == (uint8_t)before && got[1] == (uint8_t)behind;
}

/* Whether the file is the whole one. */
static bool is_whole(nuz_tree *t, uint64_t txn, uint64_t fd) {
    const uint64_t middle = PIECES / 2;
    uint8_t last[2] = { 0, 0 };
    CHECK(ASK(nuz_fstat, t, txn, fd).size == SIZE);
    CHECK(has_at(t, txn, fd, middle * PIECE, (int)middle, (int)middle + 1));
    CHECK(has_at(t, txn, fd, (uint64_t)PIECE * (PIECES - 1), PIECES - 1, PIECES));
    CHECK(ASK(nuz_pread, t, txn, fd, last, 2, (int64_t)SIZE - 1).number == 1 && last[0] == PIECES);
    return true;
}

/* Cuts the file in the middle of a page, and undoes that. */
static bool is_cut_and_undone(nuz_tree *t, uint64_t txn, uint64_t fd) {
    const uint64_t cut = SIZE / 3 + 5;
    uint8_t none[1];
    nuz_answer made = ASK(nuz_ftruncate, t, txn, fd, (int64_t)cut);
    CHECK(made.code == 0 && ASK(nuz_fstat, t, txn, fd).size == cut);
    CHECK(ASK(nuz_pread, t, txn, fd, none, 1, (int64_t)cut).number == 0);
    CHECK(ASK(nuz_undo, t, txn).code == 0 && ASK(nuz_undo, t, txn).code == 0);
    CHECK(ASK(nuz_undo, t, txn).stamp == made.stamp);
    return is_whole(t, txn, fd);
}

/* Writes in a step until there is no memory: then the file has what was written, and a cut is made
 * or refused. An abort takes all that back. */
static bool is_refused_without_memory(nuz_tree *t, uint64_t txn, uint64_t fd) {
    uint64_t size = SIZE, step = ASK(nuz_begin_sub, t, txn).number;
    nuz_answer written = { .code = 0 };
    memset(piece, 0xff, PIECE);
    while (written.code == 0 && size < 2 * SIZE) {
        written = ASK(nuz_write, t, step, fd, piece, PIECE);
        size += written.number;
    }
    CHECK(written.code == NUZ_MEMORY && ASK(nuz_fstat, t, step, fd).size == size);
    CHECK(size == SIZE || has_at(t, step, fd, SIZE, PIECES, 0xff));
    nuz_answer cut = ASK(nuz_ftruncate, t, step, fd, (int64_t)SIZE / 2);
    CHECK(cut.code == 0 || cut.code == NUZ_MEMORY);
    CHECK(ASK(nuz_fstat, t, step, fd).size == (cut.code == 0 ? SIZE / 2 : size));
    CHECK(ASK(nuz_abort, t, step).code == 0);
    return is_whole(t, txn, fd);
}

static bool file_of_3_gigabytes(void) {
    nuz_tree *t = NULL;
    CHECK(nuz_tree_open(&t, 0) == 0 && ASK(nuz_begin, t).number == 1);
    nuz_answer made = make_file(t, 1, "/f");
    CHECK(made.code == 0 && write_pieces(t, 1, made.number, PIECES) == PIECES);
    CHECK(is_whole(t, 1, made.number) && is_cut_and_undone(t, 1, made.number));
    CHECK(is_refused_without_memory(t, 1, made.number));
    CHECK(ASK(nuz_abort, t, 1).code == 0 && ASK(nuz_begin, t).number == 3);
    CHECK(ASK(nuz_list, t, 3, NUZ_S("/")).number == 0);
    nuz_tree_close(t);
    return true;
}

/* ---- many calls */

enum { CALLS = 5000000 };

/* Writes numbers into a file, at one place after another. */
static bool make_calls(nuz_tree *t, uint64_t txn, uint64_t fd) {
    for (uint32_t i = 0; i < CALLS; i++) {
        uint8_t number[4] = { (uint8_t)i, (uint8_t)(i >> 8), (uint8_t)(i >> 16), 1 };
        if (ASK(nuz_pwrite, t, txn, fd, number, 4, 4 * (i % 1000)).number != 4) {
            return false;
        }
    }
    return true;
}

static bool calls_by_the_million(void) {
    nuz_tree *t = NULL;
    CHECK(nuz_tree_open(&t, 0) == 0 && ASK(nuz_begin, t).number == 1);
    nuz_answer made = make_file(t, 1, "/f");
    CHECK(made.code == 0 && ASK(nuz_begin_sub, t, 1).number == 2 && make_calls(t, 2, made.number));
    CHECK(ASK(nuz_fstat, t, 2, made.number).stamp == made.stamp + CALLS + 1);
    CHECK(ASK(nuz_fstat, t, 2, made.number).size == 4000);
    CHECK(ASK(nuz_abort, t, 2).number == CALLS + 2);
    CHECK(ASK(nuz_fstat, t, 1, made.number).size == 0 && ASK(nuz_commit, t, 1).code == 0);
    CHECK(ASK(nuz_checkpoint, t).code == 0);
    nuz_tree_close(t);
    return true;
}

/* ---- many levels */

enum { LEVELS = 4096 };

static bool levels_by_the_thousand(void) {
    nuz_tree *t = NULL;
    CHECK(nuz_tree_open(&t, 0) == 0 && ASK(nuz_begin, t).number == 1);
    for (uint64_t txn = 1; txn < LEVELS; txn++) {
        CHECK(ASK(nuz_begin_sub, t, txn).number == txn + 1);
    }
    CHECK(ASK(nuz_begin_sub, t, LEVELS).code == NUZ_DEEP);
    CHECK(ASK(nuz_mkdir, t, LEVELS, NUZ_S("/deep"), NUZ_DEFAULT_MODE).code == 0);
    for (uint64_t txn = LEVELS; txn > 1; txn--) {
        CHECK(ASK(nuz_commit, t, txn).code == 0);
        CHECK(ASK(nuz_stat, t, txn - 1, NUZ_S("/deep")).code == 0);
    }
    CHECK(ASK(nuz_begin_sub, t, 1).number == LEVELS + 1 && ASK(nuz_abort, t, 1).number == LEVELS);
    CHECK(ASK(nuz_begin, t).number == LEVELS + 2);
    CHECK(ASK(nuz_list, t, LEVELS + 2, NUZ_S("/")).number == 0);
    nuz_tree_close(t);
    return true;
}

int main(void) {
    const test tests[] = { TEST(levels_by_the_thousand), TEST(calls_by_the_million),
                           TEST(file_of_3_gigabytes) };
    return RUN_TESTS(tests, NULL);
}
