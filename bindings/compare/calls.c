/* calls: makes one kind of call of the library so many times, in one transaction and a small tree.
 *
 *     cc -O2 -I../c calls.c ../out/libnuzolged.a -o calls
 *     ./calls stat 1000
 *
 * It is run under a tool that counts instructions, with two counts: what the one takes more, for
 * each call more, is what a call takes. docs/COST.md has the figures.
 */
#include <nuzolged.h>

#include <stdio.h>
#include <stdlib.h>

enum { PAGE = 4096 };

static nuz_tree *tree;
static uint64_t txn;
static uint64_t fd;
static uint8_t bytes[PAGE];
static nuz_answer answer;

static void must(uint32_t code) {
    if (code != 0) {
        fprintf(stderr, "calls: %s\n", nuz_strerror(code));
        exit(EXIT_FAILURE);
    }
}

static void make_stat(void) { must(nuz_stat(tree, txn, NUZ_S("/a/b/c"), &answer)); }

static void make_line(void) { must(nuz_request(tree, NUZ_S("1 stat /a/b/c"), NULL, 0, &answer)); }

static void make_reply(void) {
    must(nuz_request(tree, NUZ_S("1 stat /a/b/c"), bytes, PAGE, &answer));
}

static void make_fstat(void) { must(nuz_fstat(tree, txn, fd, &answer)); }

static void make_mkdir(void) {
    static unsigned number;
    char path[32];
    snprintf(path, sizeof path, "/d/n%u", number++);
    must(nuz_mkdir(tree, txn, NUZ_S(path), NUZ_DEFAULT_MODE, &answer));
}

static void make_pread(void) { must(nuz_pread(tree, txn, fd, bytes, 64, 0, &answer)); }

static void make_pread_page(void) { must(nuz_pread(tree, txn, fd, bytes, PAGE, 0, &answer)); }

static void make_pwrite(void) { must(nuz_pwrite(tree, txn, fd, bytes, 64, 0, &answer)); }

static void make_pwrite_page(void) { must(nuz_pwrite(tree, txn, fd, bytes, PAGE, 0, &answer)); }

static void make_chmod(void) { must(nuz_chmod(tree, txn, NUZ_S("/a/b/c"), 0700, &answer)); }

static void make_futime(void) { must(nuz_futime(tree, txn, fd, 1, 0, &answer)); }

static void make_sub(void) {
    must(nuz_begin_sub(tree, txn, &answer));
    must(nuz_commit(tree, answer.number, &answer));
}

static const struct {
    const char *name;
    void (*make)(void);
} kinds[] = {
    { "stat", make_stat },           { "line", make_line },
    { "reply", make_reply },         { "fstat", make_fstat },
    { "mkdir", make_mkdir },         { "pread", make_pread },
    { "pread-page", make_pread_page }, { "pwrite", make_pwrite },
    { "pwrite-page", make_pwrite_page }, { "sub", make_sub },
    { "chmod", make_chmod },         { "futime", make_futime },
};

/* The transaction, which is 1, with four directories and a file of a page. */
static void begin(void) {
    memset(bytes, 'x', PAGE);
    if (nuz_tree_open(&tree, 0) != 0) {
        exit(EXIT_FAILURE);
    }
    must(nuz_begin(tree, &answer));
    txn = answer.number;
    static const char *const paths[] = { "/a", "/a/b", "/a/b/c", "/d" };
    for (size_t at = 0; at < sizeof paths / sizeof *paths; at++) {
        must(nuz_mkdir(tree, txn, NUZ_S(paths[at]), NUZ_DEFAULT_MODE, &answer));
    }
    const uint32_t flags = NUZ_O_RDWR | NUZ_O_CREAT;
    must(nuz_open(tree, txn, NUZ_S("/a/f"), flags, NUZ_DEFAULT_MODE, &answer));
    fd = answer.number;
    make_pwrite_page();
}

int main(int argc, char **argv) {
    for (size_t at = 0; argc == 3 && at < sizeof kinds / sizeof *kinds; at++) {
        if (strcmp(argv[1], kinds[at].name) == 0) {
            begin();
            for (long left = atol(argv[2]); left > 0; left--) {
                kinds[at].make();
            }
            nuz_tree_close(tree);
            return EXIT_SUCCESS;
        }
    }
    fprintf(stderr, "usage: calls KIND COUNT\n");
    return 2;
}
