/* longest: how long one call can take, and so how long it keeps the lock of a tree that threads
 * share: a commit and an abort of many calls, nested commits, a call that many transactions block,
 * calls while others wait in turn, and the waits-for report.
 *
 *     cc -O2 -I../c longest.c ../out/libnuzolged.a -o longest
 *     ./longest
 *
 * It prints the milliseconds of processor time of each, and the most memory that it has had up to
 * there. docs/COST.md has the figures.
 */
#define _POSIX_C_SOURCE 200809L

#include <nuzolged.h>

#include <stdio.h>
#include <stdlib.h>
#include <sys/resource.h>
#include <time.h>

enum { FILES = 100000, FOLDERS = 100, LEVELS = 64, READERS = 20000, WAITERS = 1000 };

static nuz_tree *tree;
static nuz_answer answer;

static void must(uint32_t code) {
    if (code != 0) {
        fprintf(stderr, "longest: %s\n", nuz_strerror(code));
        exit(EXIT_FAILURE);
    }
}

/* Milliseconds of processor time that the program has taken. */
static double milliseconds(void) {
    struct timespec now;
    clock_gettime(CLOCK_PROCESS_CPUTIME_ID, &now);
    return (double)now.tv_sec * 1e3 + (double)now.tv_nsec / 1e6;
}

static void print_since(const char *what, double begun) {
    double ended = milliseconds();
    struct rusage used;
    getrusage(RUSAGE_SELF, &used);
    printf("%-52s %10.3f ms %6ld MB\n", what, ended - begun, used.ru_maxrss / 1024);
}

static uint64_t begin(void) {
    must(nuz_begin(tree, &answer));
    return answer.number;
}

static uint64_t begin_sub(uint64_t txn) {
    must(nuz_begin_sub(tree, txn, &answer));
    return answer.number;
}

/* Makes 100,000 empty files in 100 directories. */
static void make_files(uint64_t txn) {
    const uint32_t flags = NUZ_O_WRONLY | NUZ_O_CREAT | NUZ_O_EXCL;
    char path[32];
    for (int i = 0; i < FOLDERS; i++) {
        snprintf(path, sizeof path, "/d%d", i);
        must(nuz_mkdir(tree, txn, NUZ_S(path), NUZ_DEFAULT_MODE, &answer));
    }
    for (int i = 0; i < FILES; i++) {
        snprintf(path, sizeof path, "/d%d/f%d", i % FOLDERS, i);
        must(nuz_open(tree, txn, NUZ_S(path), flags, NUZ_DEFAULT_MODE, &answer));
        must(nuz_close(tree, txn, answer.number, &answer));
    }
}

/* Has a function work in a tree of its own. */
static void in_a_tree(void (*work)(void)) {
    must(nuz_tree_open(&tree, 0));
    work();
    nuz_tree_close(tree);
}

static void commit_files(void) {
    uint64_t txn = begin();
    make_files(txn);
    double begun = milliseconds();
    must(nuz_commit(tree, txn, &answer));
    print_since("commit of 200,100 calls, nobody else live", begun);
}

static void commit_files_among_others(void) {
    uint64_t other = begin(), txn = begin();
    make_files(txn);
    double begun = milliseconds();
    must(nuz_commit(tree, txn, &answer));
    print_since("commit of 200,100 calls, another one live", begun);
    must(nuz_abort(tree, other, &answer));
}

static void abort_files(void) {
    uint64_t txn = begin();
    make_files(txn);
    double begun = milliseconds();
    must(nuz_abort(tree, txn, &answer));
    print_since("abort of 200,100 calls", begun);
}

static void commit_levels(void) {
    uint64_t txns[LEVELS];
    txns[0] = begin();
    for (int i = 1; i < LEVELS; i++) {
        txns[i] = begin_sub(txns[i - 1]);
    }
    make_files(txns[LEVELS - 1]);
    double begun = milliseconds();
    for (int i = LEVELS - 1; i > 0; i--) {
        must(nuz_commit(tree, txns[i], &answer));
    }
    print_since("63 nested commits of 200,100 calls, all together", begun);
}

/* Has many look at a name, and others ask to make it, which then wait. */
static void block(void) {
    for (int i = 0; i < READERS; i++) {
        nuz_stat(tree, begin(), NUZ_S("/name"), &answer);
    }
    for (int i = 0; i < WAITERS; i++) {
        double begun = milliseconds();
        nuz_mkdir(tree, begin(), NUZ_S("/name"), NUZ_DEFAULT_MODE, &answer);
        if (i == 0) {
            print_since("a call that 20,000 transactions block", begun);
        }
    }
}

/* Has many look at a name that one has made. */
static void wait_for_one(void) {
    must(nuz_mkdir(tree, begin(), NUZ_S("/name"), NUZ_DEFAULT_MODE, &answer));
    for (int i = 0; i < WAITERS; i++) {
        nuz_stat(tree, begin(), NUZ_S("/name"), &answer);
    }
    double begun = milliseconds();
    must(nuz_cycle(tree, NULL, 0, &answer));
    print_since("nuz_cycle of 1,000 calls that one transaction blocks", begun);
}

/* Makes a call that nobody blocks, of a transaction of its own, which is then gone. */
static void look(const char *what) {
    uint64_t txn = begin();
    double begun = milliseconds();
    must(nuz_stat(tree, txn, NUZ_S("/"), &answer));
    print_since(what, begun);
    must(nuz_abort(tree, txn, &answer));
}

/* Has many wait in turn, for one that waits for a lock. */
static void wait_in_turn(void) {
    nuz_tree_fair(tree, true);
    must(nuz_list(tree, begin(), NUZ_S("/"), &answer));
    look("a call while nobody waits");
    nuz_mkdir(tree, begin(), NUZ_S("/name"), NUZ_DEFAULT_MODE, &answer);
    for (int i = 1; i <= 100; i++) {
        nuz_list(tree, begin(), NUZ_S("/"), &answer);
        if (i == 10 || i == 100) {
            look(i == 10 ? "the same while 10 wait in turn" : "the same while 100 wait in turn");
        }
    }
}

/* Has many wait for a lock, in a tree in which calls wait in turn. */
static void wait_for_one_in_turn(void) {
    nuz_tree_fair(tree, true);
    must(nuz_mkdir(tree, begin(), NUZ_S("/name"), NUZ_DEFAULT_MODE, &answer));
    for (int i = 0; i < 100; i++) {
        nuz_stat(tree, begin(), NUZ_S("/name"), &answer);
    }
    look("the same while 100 wait for a lock");
}

static void report(void) {
    block();
    double begun = milliseconds();
    must(nuz_cycle(tree, NULL, 0, &answer));
    print_since("nuz_cycle of 1,000 such calls (20,000,000 edges)", begun);
    begun = milliseconds();
    must(nuz_request(tree, NUZ_S("waits"), NULL, 0, &answer));
    print_since("the report waits of these", begun);
}

int main(void) {
    in_a_tree(commit_files);
    in_a_tree(commit_files_among_others);
    in_a_tree(abort_files);
    in_a_tree(commit_levels);
    in_a_tree(wait_for_one);
    in_a_tree(wait_in_turn);
    in_a_tree(wait_for_one_in_turn);
    in_a_tree(report);
    return EXIT_SUCCESS;
}
