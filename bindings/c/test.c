/* Calls every function of nuzolged.h, and compares its answer with the header.
 *
 *     test [TREES]
 *
 * TREES is how many trees are opened and closed one after another in flat memory, 100,000 if it is
 * not given. If it is, tests that take long are left out. The last line is 'N passed, M failed',
 * and the status is 0 if none failed.
 *
 * It is linked with --wrap=malloc and --wrap=realloc, so that memory runs out when a test says so.
 */
#define _DEFAULT_SOURCE /* for mmap and setrlimit */

#include <nuzolged.h>

#include <errno.h>
#include <fcntl.h>
#include <inttypes.h>
#include <stdio.h>
#include <stdlib.h>
#include <sys/mman.h>
#include <sys/resource.h>

#include "scarce.h"
#include "testing.h"

static uint64_t most_trees = 100000;
static bool is_short;

/* ---- what the tests begin with */

/* The answer that a function fills in. It begins as garbage. */
static nuz_answer last_answer;

/* The answer, if it has the code that was returned too, and 0 in its reserved members; else one
 * with a code that none has. */
static nuz_answer answer_with(uint32_t code) {
    nuz_answer answer = last_answer;
    for (size_t i = 0; i < sizeof answer.reserved / sizeof *answer.reserved; i++) {
        if (answer.code != code || answer.reserved[i] != 0) {
            answer.code = UINT32_MAX;
        }
    }
    memset(&last_answer, 0xa5, sizeof last_answer);
    return answer;
}

/* The answer of a function to these arguments. */
#define ASK(function, ...) answer_with(function(__VA_ARGS__, &last_answer))

/* Opens the tree of a test with limits. */
static bool opened_with(nuz_tree **tree, nuz_limits limits) {
    return nuz_tree_open_with(tree, NUZ_RELAXED, &limits) == 0;
}

/* The same without limits. */
static bool opened(nuz_tree **tree) {
    return nuz_tree_open(tree, NUZ_RELAXED) == 0;
}

static const nuz_limits GREATEST = NUZ_LIMITS_GREATEST, SCRIPT = NUZ_LIMITS_SCRIPT;

/* Makes a directory with the default mode. */
static nuz_answer make_dir(nuz_tree *tree, uint64_t txn, const char *path) {
    return ASK(nuz_mkdir, tree, txn, NUZ_S(path), NUZ_DEFAULT_MODE);
}

/* Opens a file by flags. One that is made has the default mode. */
static nuz_answer open_by(nuz_tree *tree, uint64_t txn, const char *path, uint32_t flags) {
    return ASK(nuz_open, tree, txn, NUZ_S(path), flags, NUZ_DEFAULT_MODE);
}

/* Carries out a line, whose reply is not asked for. */
static nuz_answer play(nuz_tree *tree, const char *line) {
    return ASK(nuz_request, tree, NUZ_S(line), NULL, 0);
}

/* Opens a file that may be there: its descriptor, or 0. */
static uint64_t open_file(nuz_tree *tree, uint64_t txn, const char *path) {
    nuz_answer answer = open_by(tree, txn, path, NUZ_O_RDWR | NUZ_O_CREAT);
    return answer.code == 0 ? answer.number : 0;
}

/* Makes a file of these bytes, closed. */
static bool make_file(nuz_tree *tree, uint64_t txn, const char *path, const char *bytes) {
    uint64_t fd = open_file(tree, txn, path);
    return ASK(nuz_write, tree, txn, fd, NUZ_S(bytes)).number == strlen(bytes)
        && ASK(nuz_close, tree, txn, fd).code == 0;
}

/* Whether the reply to the last request is this text. */
static bool replied(nuz_tree *tree, const char *text) {
    uint8_t buffer[1024];
    nuz_answer reply = ASK(nuz_reply, tree, buffer, sizeof buffer);
    return reply.code == 0 && reply.size == strlen(text)
        && memcmp(buffer, text, reply.size) == 0;
}

/* Whether a line is carried out with this reply. */
static bool says(nuz_tree *tree, const char *line, const char *text) {
    return play(tree, line).code != NUZ_BAD && replied(tree, text);
}

/* Whether the n-th name of the last list is this one, of this kind. */
static bool is_name(nuz_tree *tree, size_t index, const char *name, uint32_t kind) {
    uint8_t buffer[255];
    nuz_answer told = ASK(nuz_name, tree, index, buffer, sizeof buffer);
    return told.code == 0 && told.kind == kind && told.size == strlen(name)
        && memcmp(buffer, name, told.size) == 0;
}

/* ---- handles */

static bool no_tree_is_closed(void) {
    nuz_tree_close(NULL);
    return true;
}

static bool version_is_that_of_the_header(void) {
    char text[16];
    uint32_t version = nuz_version();
    snprintf(text, sizeof text, "%u.%u.%u", version / 1000000, version / 1000 % 1000,
             version % 1000);
    CHECK(version == NUZ_VERSION_NUMBER && strcmp(text, NUZ_VERSION) == 0);
    return true;
}

static bool seed_changes_no_answer(void) {
    nuz_tree *t;
    CHECK(opened(&t));
    nuz_tree_seed(t, UINT64_MAX);
    CHECK(ASK(nuz_begin, t).number == 1 && make_dir(t, 1, "/a").code == 0);
    nuz_tree_seed(t, 7);
    CHECK(make_dir(t, 1, "/a").code == EEXIST);
    CHECK(ASK(nuz_rmdir, t, 1, NUZ_S("/a")).code == 0);
    CHECK(ASK(nuz_stat, t, 1, NUZ_S("/a")).code == ENOENT);
    nuz_tree_close(t);
    return true;
}

/* Whether no tree is opened with these options, whatever the pointer was before. */
static bool are_no_options(uint32_t options) {
    int no_tree;
    nuz_tree *t = (nuz_tree *)&no_tree;
    CHECK(nuz_tree_open(&t, options) == NUZ_BAD && t == NULL);
    t = (nuz_tree *)&no_tree;
    CHECK(nuz_tree_open_with(&t, options, &SCRIPT) == NUZ_BAD && t == NULL);
    return true;
}

static bool bad_options_are_told(void) {
    CHECK(are_no_options(4) && are_no_options(5) && are_no_options(UINT32_MAX));
    return true;
}

static bool tree_is_opened_over_garbage(void) {
    int no_tree;
    nuz_tree *t = (nuz_tree *)&no_tree;
    CHECK(nuz_tree_open(&t, NUZ_MOSS) == 0 && ASK(nuz_begin, t).number == 1);
    nuz_tree_close(t);
    return true;
}

/* The memory that this process has now, in pages; -1 if that is not known. */
static long pages_of_memory(void) {
    long pages = -1;
    FILE *told = fopen("/proc/self/statm", "r");
    if (told != NULL) {
        if (fscanf(told, "%*d %ld", &pages) != 1) {
            pages = -1;
        }
        fclose(told);
    }
    return pages;
}

static bool open_and_close(uint64_t count) {
    for (uint64_t i = 0; i < count; i++) {
        nuz_tree *t;
        CHECK(opened(&t) && ASK(nuz_begin, t).number == 1);
        CHECK(make_file(t, 1, "/f", "some bytes"));
        nuz_tree_close(t);
    }
    return true;
}

static bool trees_are_closed_in_flat_memory(void) {
    CHECK(open_and_close(most_trees / 100));
    long before = pages_of_memory();
    CHECK(open_and_close(most_trees - most_trees / 100));
    /* (ten bytes of each tree would be as much) */
    CHECK(is_short || (before > 0 && pages_of_memory() - before < 250));
    return true;
}

static bool trees_are_apart(void) {
    nuz_tree *a, *b;
    CHECK(opened(&a) && opened(&b));
    CHECK(ASK(nuz_begin, a).number == 1 && ASK(nuz_begin, b).number == 1);
    CHECK(make_dir(a, 1, "/a").code == 0);
    CHECK(ASK(nuz_stat, b, 1, NUZ_S("/a")).code == ENOENT);
    nuz_tree_close(a);
    CHECK(ASK(nuz_commit, b, 1).code == 0);
    nuz_tree_close(b);
    return true;
}

/* ---- transactions */

static bool transactions_nest(void) {
    nuz_tree *t;
    CHECK(opened(&t));
    CHECK(ASK(nuz_begin, t).number == 1 && ASK(nuz_begin_sub, t, 1).number == 2);
    nuz_answer made = make_dir(t, 2, "/a");
    CHECK(made.code == 0 && made.stamp == 2 && made.number == 0 && made.kind == 0);
    CHECK(ASK(nuz_commit, t, 2).code == 0 && ASK(nuz_begin_sub, t, 1).number == 3);
    CHECK(make_dir(t, 3, "/a/b").stamp == 3);
    nuz_answer failed = make_dir(t, 3, "/a/b");
    CHECK(failed.code == EEXIST && failed.stamp == 4);
    nuz_answer aborted = ASK(nuz_abort, t, 3);
    CHECK(aborted.code == 0 && aborted.number == 2 && aborted.stamp == 0);
    CHECK(ASK(nuz_stat, t, 1, NUZ_S("/a/b")).code == ENOENT);
    CHECK(ASK(nuz_abort, t, 1).number == 2);
    CHECK(says(t, "tree", "tree 1\ndir 1\n"));
    nuz_tree_close(t);
    return true;
}

static bool calls_are_undone(void) {
    nuz_tree *t;
    CHECK(opened(&t) && ASK(nuz_begin, t).number == 1);
    CHECK(make_dir(t, 1, "/a").stamp == 2);
    CHECK(make_dir(t, 1, "/b").stamp == 3);
    nuz_answer undone = ASK(nuz_undo, t, 1);
    CHECK(undone.code == 0 && undone.stamp == 3 && undone.number == 0);
    CHECK(ASK(nuz_undo, t, 1).stamp == 2);
    CHECK(ASK(nuz_undo, t, 1).code == NUZ_NOTHING_TO_UNDO);
    CHECK(says(t, "tree", "tree 1\ndir 1\n"));
    nuz_tree_close(t);
    return true;
}

static bool refusals_are_told(void) {
    nuz_tree *t;
    CHECK(opened(&t) && ASK(nuz_begin, t).number == 1);
    CHECK(ASK(nuz_begin_sub, t, 9).code == NUZ_NO_TXN && ASK(nuz_commit, t, 9).code == NUZ_NO_TXN);
    CHECK(ASK(nuz_abort, t, 0).code == NUZ_NO_TXN && ASK(nuz_undo, t, 9).code == NUZ_NO_TXN);
    CHECK(make_dir(t, UINT64_MAX, "/a").code == NUZ_NO_TXN);
    CHECK(ASK(nuz_retry, t, 1, NULL, 0).code == NUZ_NO_ASK);
    CHECK(ASK(nuz_cancel, t, 1).code == NUZ_NO_ASK);
    CHECK(ASK(nuz_checkpoint, t).code == NUZ_LIVE);
    CHECK(ASK(nuz_begin_sub, t, 1).number == 2);
    CHECK(ASK(nuz_commit, t, 1).code == NUZ_CHILD_LIVE);
    CHECK(ASK(nuz_undo, t, 1).code == NUZ_CHILD_LIVE);
    CHECK(ASK(nuz_commit, t, 2).code == 0 && ASK(nuz_commit, t, 2).code == NUZ_ENDED);
    CHECK(ASK(nuz_undo, t, 1).code == NUZ_SUB_SINCE);
    nuz_answer refused = make_dir(t, 2, "/a");
    CHECK(refused.code == NUZ_ENDED && refused.stamp == 0 && refused.number == 0);
    nuz_tree_close(t);
    return true;
}

static bool checkpoint_forgets(void) {
    nuz_tree *t;
    CHECK(opened(&t) && ASK(nuz_begin, t).number == 1);
    CHECK(make_dir(t, 1, "/a").code == 0 && ASK(nuz_commit, t, 1).code == 0);
    CHECK(ASK(nuz_checkpoint, t).code == 0 && ASK(nuz_commit, t, 1).code == NUZ_NO_TXN);
    CHECK(ASK(nuz_begin, t).number == 2 && ASK(nuz_stat, t, 2, NUZ_S("/a")).stamp == 3);
    nuz_tree_close(t);
    return true;
}

/* ---- limits */

/* Begins transactions inside each other, to the greatest depth. Returns the deepest number. */
static uint64_t begin_deepest(nuz_tree *t) {
    uint64_t deepest = 0;
    nuz_answer below = ASK(nuz_begin, t);
    while (below.code == 0) {
        deepest = below.number;
        below = ASK(nuz_begin_sub, t, deepest);
    }
    return deepest;
}

static bool depth_is_limited(void) {
    nuz_tree *t;
    nuz_limits limits = GREATEST;
    limits.depth = 64;
    CHECK(opened_with(&t, limits) && begin_deepest(t) == 64);
    CHECK(ASK(nuz_begin_sub, t, 64).code == NUZ_DEEP);
    CHECK(ASK(nuz_begin_sub, t, 63).number == 65);
    CHECK(ASK(nuz_abort, t, 1).code == 0 && ASK(nuz_commit, t, 64).code == NUZ_ENDED);
    nuz_tree_close(t);
    limits.depth = 1;
    CHECK(opened_with(&t, limits) && begin_deepest(t) == 1);
    CHECK(ASK(nuz_begin_sub, t, 1).code == NUZ_DEEP);
    CHECK(ASK(nuz_begin, t).number == 2);
    nuz_tree_close(t);
    return true;
}

static bool transactions_are_limited(void) {
    nuz_tree *t;
    nuz_limits limits = GREATEST;
    limits.transactions = 3;
    CHECK(opened_with(&t, limits));
    for (uint64_t first = 1; first <= 4; first += 3) {
        CHECK(ASK(nuz_begin, t).number == first);
        CHECK(ASK(nuz_begin_sub, t, first).number == first + 1);
        CHECK(ASK(nuz_commit, t, first + 1).code == 0 && ASK(nuz_abort, t, first).code == 0);
        CHECK(ASK(nuz_begin, t).number == first + 2 && ASK(nuz_begin, t).code == NUZ_FULL);
        CHECK(ASK(nuz_begin_sub, t, first + 2).code == NUZ_FULL);
        CHECK(ASK(nuz_commit, t, first + 2).code == 0);
        CHECK(ASK(nuz_checkpoint, t).code == 0);
    }
    nuz_tree_close(t);
    return true;
}

static bool calls_are_limited(void) {
    nuz_tree *t;
    nuz_limits limits = GREATEST;
    limits.calls = 2;
    CHECK(opened_with(&t, limits));
    for (uint64_t txn = 1; txn <= 2; txn++) {
        CHECK(ASK(nuz_begin, t).number == txn && make_dir(t, txn, "/a").code == 0);
        CHECK(ASK(nuz_undo, t, txn).code == 0 && ASK(nuz_stat, t, txn, NUZ_S("/a")).code == ENOENT);
        CHECK(ASK(nuz_stat, t, txn, NUZ_S("/")).code == NUZ_FULL);
        CHECK(ASK(nuz_commit, t, txn).code == 0 && ASK(nuz_checkpoint, t).code == 0);
    }
    nuz_tree_close(t);
    return true;
}

/* Whether a file takes ten bytes, and no more. */
static bool takes_ten_bytes(nuz_tree *t, uint64_t txn, const char *path) {
    uint64_t fd = open_file(t, txn, path);
    CHECK(ASK(nuz_write, t, txn, fd, NUZ_S("twelve bytes")).number == 10);
    CHECK(ASK(nuz_write, t, txn, fd, NUZ_S("x")).code == EFBIG);
    CHECK(ASK(nuz_pwrite, t, txn, fd, NUZ_S("four"), 8).number == 2);
    CHECK(ASK(nuz_pwrite, t, txn, fd, NUZ_S("x"), 10).code == EFBIG);
    CHECK(ASK(nuz_ftruncate, t, txn, fd, 11).code == EFBIG);
    CHECK(ASK(nuz_ftruncate, t, txn, fd, 10).code == 0);
    CHECK(ASK(nuz_truncate, t, txn, NUZ_S(path), 11).code == EFBIG);
    return ASK(nuz_close, t, txn, fd).code == 0;
}

static bool files_are_limited(void) {
    nuz_tree *t;
    nuz_limits limits = GREATEST;
    limits.file_size = 10;
    CHECK(opened_with(&t, limits) && ASK(nuz_begin, t).number == 1);
    CHECK(takes_ten_bytes(t, 1, "/f") && ASK(nuz_commit, t, 1).code == 0);
    CHECK(ASK(nuz_checkpoint, t).code == 0 && ASK(nuz_begin, t).number == 2);
    CHECK(takes_ten_bytes(t, 2, "/g"));
    nuz_tree_close(t);
    limits.file_size = 0;
    CHECK(opened_with(&t, limits) && ASK(nuz_begin, t).number == 1);
    uint64_t fd = open_file(t, 1, "/f");
    CHECK(ASK(nuz_write, t, 1, fd, NUZ_S("x")).code == EFBIG);
    CHECK(ASK(nuz_write, t, 1, fd, NUZ_S("")).code == 0 && ASK(nuz_fstat, t, 1, fd).size == 0);
    nuz_tree_close(t);
    return true;
}

static bool links_are_limited(void) {
    nuz_tree *t;
    nuz_limits limits = GREATEST;
    limits.links = 2;
    CHECK(opened_with(&t, limits) && ASK(nuz_begin, t).number == 1 && make_file(t, 1, "/f", ""));
    CHECK(ASK(nuz_link, t, 1, NUZ_S("/f"), NUZ_S("/g")).code == 0);
    CHECK(ASK(nuz_link, t, 1, NUZ_S("/f"), NUZ_S("/h")).code == EMLINK);
    CHECK(ASK(nuz_commit, t, 1).code == 0 && ASK(nuz_checkpoint, t).code == 0);
    CHECK(ASK(nuz_begin, t).number == 2);
    CHECK(ASK(nuz_link, t, 2, NUZ_S("/g"), NUZ_S("/h")).code == EMLINK);
    CHECK(ASK(nuz_unlink, t, 2, NUZ_S("/f")).code == 0);
    CHECK(ASK(nuz_link, t, 2, NUZ_S("/g"), NUZ_S("/h")).code == 0);
    nuz_tree_close(t);
    return true;
}

/* Whether no tree is opened with these limits. */
static bool are_bad(nuz_limits limits) {
    int no_tree;
    nuz_tree *t = (nuz_tree *)&no_tree, *other = t;
    CHECK(nuz_tree_open_with(&t, NUZ_RELAXED, &limits) == NUZ_BAD_LIMITS && t == NULL);
    CHECK(nuz_tree_open_with(&other, NUZ_MOSS, &limits) == NUZ_BAD_LIMITS && other == NULL);
    return nuz_tree_open_with(&t, 4, &limits) == NUZ_BAD;
}

static bool limits_above_the_greatest_are_told(void) {
    nuz_limits size = GREATEST, links = GREATEST, depth = GREATEST, begun = GREATEST;
    nuz_limits calls = GREATEST;
    size.file_size++;
    links.links++;
    depth.depth = UINT64_MAX;
    begun.transactions++;
    calls.calls++;
    CHECK(are_bad(size) && are_bad(links) && are_bad(depth) && are_bad(begun) && are_bad(calls));
    return true;
}

static bool limits_to_come_are_none(void) {
    for (size_t i = 0; i < sizeof GREATEST.reserved / sizeof *GREATEST.reserved; i++) {
        nuz_limits limits = GREATEST;
        limits.reserved[i] = 1;
        CHECK(are_bad(limits));
    }
    return true;
}

/* A tree without options has the greatest limits. */
static bool limits_are_the_greatest(void) {
    nuz_tree *t;
    const int64_t largest = INT64_C(1) << 47;
    CHECK(opened(&t) && ASK(nuz_begin, t).number == 1);
    uint64_t fd = open_file(t, 1, "/f");
    CHECK(ASK(nuz_ftruncate, t, 1, fd, largest + 1).code == EFBIG);
    CHECK(ASK(nuz_pwrite, t, 1, fd, NUZ_S("x"), largest).code == EFBIG);
    CHECK(ASK(nuz_ftruncate, t, 1, fd, INT64_C(1) << 32).code == 0);
    CHECK(ASK(nuz_fstat, t, 1, fd).size == UINT64_C(1) << 32);
    CHECK(ASK(nuz_abort, t, 1).number == 5 && begin_deepest(t) == 4097);
    CHECK(ASK(nuz_begin_sub, t, 4097).code == NUZ_DEEP && ASK(nuz_abort, t, 2).number == 0);
    nuz_tree_close(t);
    return true;
}

/* ---- calls on paths */

static bool directories_are_made_and_removed(void) {
    nuz_tree *t;
    CHECK(opened(&t) && ASK(nuz_begin, t).number == 1);
    CHECK(make_dir(t, 1, "/b").code == 0 && make_dir(t, 1, "a").code == 0);
    CHECK(make_dir(t, 1, "/b/\xff").code == 0 && make_file(t, 1, "/c", ""));
    nuz_answer listed = ASK(nuz_list, t, 1, NUZ_S("/"));
    CHECK(listed.code == 0 && listed.number == 3);
    CHECK(is_name(t, 0, "a", NUZ_DIR) && is_name(t, 1, "b", NUZ_DIR));
    CHECK(is_name(t, 2, "c", NUZ_FILE));
    CHECK(ASK(nuz_name, t, 3, (uint8_t[1]){ 0 }, 1).code == NUZ_BAD);
    CHECK(ASK(nuz_list, t, 1, NUZ_S("/b")).number == 1 && is_name(t, 0, "\xff", NUZ_DIR));
    nuz_answer told = ASK(nuz_stat, t, 1, NUZ_S("/b"));
    CHECK(told.code == 0 && told.kind == NUZ_DIR && told.number == 2 && told.links == 1);
    CHECK(told.size == 0 && ASK(nuz_rmdir, t, 1, NUZ_S("/b")).code == ENOTEMPTY);
    CHECK(ASK(nuz_rmdir, t, 1, NUZ_S("/b/\xff")).code == 0);
    CHECK(ASK(nuz_rmdir, t, 1, NUZ_S("/b")).code == 0);
    CHECK(ASK(nuz_stat, t, 1, NUZ_S("/b")).code == ENOENT);
    nuz_tree_close(t);
    return true;
}

static bool names_of_files_change(void) {
    nuz_tree *t;
    CHECK(opened(&t) && ASK(nuz_begin, t).number == 1);
    CHECK(make_file(t, 1, "/f", "four"));
    CHECK(ASK(nuz_link, t, 1, NUZ_S("/f"), NUZ_S("/g")).code == 0);
    nuz_answer told = ASK(nuz_stat, t, 1, NUZ_S("/g"));
    CHECK(told.kind == NUZ_FILE && told.number == 2 && told.links == 2 && told.size == 4);
    CHECK(ASK(nuz_rename, t, 1, NUZ_S("/g"), NUZ_S("/h")).code == 0);
    CHECK(ASK(nuz_unlink, t, 1, NUZ_S("/f")).code == 0);
    CHECK(ASK(nuz_truncate, t, 1, NUZ_S("/h"), 2).code == 0);
    told = ASK(nuz_stat, t, 1, NUZ_S("/h"));
    CHECK(told.number == 2 && told.links == 1 && told.size == 2);
    CHECK(ASK(nuz_list, t, 1, NUZ_S("/")).number == 1 && is_name(t, 0, "h", NUZ_FILE));
    nuz_tree_close(t);
    return true;
}

static bool names_are_cut_to_the_room(void) {
    nuz_tree *t;
    uint8_t b[6] = "......";
    CHECK(opened(&t) && ASK(nuz_begin, t).number == 1 && make_file(t, 1, "/name", ""));
    CHECK(ASK(nuz_list, t, 1, NUZ_S("/")).number == 1);
    CHECK(ASK(nuz_name, t, 0, b, 0).size == 4 && memcmp(b, "......", 6) == 0);
    CHECK(ASK(nuz_name, t, 0, b, 2).size == 4 && memcmp(b, "na....", 6) == 0);
    CHECK(ASK(nuz_name, t, 0, b, 6).size == 4 && memcmp(b, "name..", 6) == 0);
    nuz_tree_close(t);
    return true;
}

/* Whether a directory is listed as these bytes, with so many names, if there is enough room. */
static bool lists(nuz_tree *t, const char *path, uint64_t number, const char *bytes, size_t size) {
    uint8_t b[64];
    memset(b, '.', sizeof b);
    nuz_answer listed = ASK(nuz_list_all, t, 1, NUZ_S(path), b, sizeof b);
    CHECK(listed.code == 0 && listed.number == number && listed.size == size);
    return memcmp(b, bytes, size) == 0 && b[size] == '.' && b[sizeof b - 1] == '.';
}

static bool directories_are_listed_whole(void) {
    nuz_tree *t;
    CHECK(opened(&t) && ASK(nuz_begin, t).number == 1 && lists(t, "/", 0, "", 0));
    CHECK(make_file(t, 1, "/file", "") && make_dir(t, 1, "/d").code == 0);
    CHECK(ASK(nuz_symlink, t, 1, NUZ_S("x"), NUZ_S("/l\xff")).code == 0);
    CHECK(lists(t, "/", 3, "\1d\0\2file\0\3l\xff\0", 13) && lists(t, "/d", 0, "", 0));
    nuz_answer counted = ASK(nuz_list, t, 1, NUZ_S("/"));
    CHECK(counted.number == 3 && counted.size == 13);
    nuz_tree_close(t);
    return true;
}

static bool lists_are_cut_to_the_room(void) {
    nuz_tree *t;
    CHECK(opened(&t) && ASK(nuz_begin, t).number == 1);
    CHECK(make_file(t, 1, "/ab", "") && make_dir(t, 1, "/c").code == 0);
    for (size_t room = 0; room <= 8; room++) {
        uint8_t b[9] = ".........", whole[9] = ".........";
        const size_t told = room < 7 ? room : 7;
        nuz_answer listed = ASK(nuz_list_all, t, 1, NUZ_S("/"), b, room);
        CHECK(listed.code == 0 && listed.number == 2 && listed.size == 7);
        CHECK(memcmp(b, "\2ab\0\1c\0", told) == 0 && memcmp(b + told, ".........", 9 - told) == 0);
        CHECK(ASK(nuz_bytes, t, whole, sizeof whole).size == 7);
        CHECK(memcmp(whole, "\2ab\0\1c\0..", 9) == 0);
    }
    nuz_tree_close(t);
    return true;
}

static bool what_is_no_directory_is_not_listed(void) {
    nuz_tree *t;
    uint8_t b[2] = "..";
    CHECK(opened(&t) && ASK(nuz_begin, t).number == 1 && make_file(t, 1, "/f", ""));
    CHECK(ASK(nuz_list_all, t, 1, NUZ_S("/f"), b, 2).code == ENOTDIR);
    CHECK(ASK(nuz_list_all, t, 1, NUZ_S("/none"), b, 2).code == ENOENT);
    CHECK(ASK(nuz_list_all, t, 9, NUZ_S("/"), b, 2).code == NUZ_NO_TXN);
    CHECK(ASK(nuz_bytes, t, b, 2).code == NUZ_BAD);
    CHECK(ASK(nuz_list, t, 1, NUZ_S("/")).number == 1);
    CHECK(ASK(nuz_list_all, t, 1, "/\0", 2, b, 2).code == NUZ_BAD && memcmp(b, "..", 2) == 0);
    CHECK(ASK(nuz_bytes, t, b, 2).size == 3 && memcmp(b, "\2f", 2) == 0);
    nuz_tree_close(t);
    return true;
}

static bool null_of_no_length_is_empty(void) {
    nuz_tree *t;
    CHECK(opened(&t) && ASK(nuz_begin, t).number == 1);
    CHECK(ASK(nuz_mkdir, t, 1, NULL, 0, 0755).code == ENOENT);
    CHECK(ASK(nuz_rename, t, 1, NULL, 0, NULL, 0).code == ENOENT);
    CHECK(ASK(nuz_symlink, t, 1, NULL, 0, NUZ_S("/l")).code == ENOENT);
    CHECK(ASK(nuz_list_all, t, 1, NUZ_S("/"), NULL, 0).code == 0);
    uint64_t fd = open_file(t, 1, "/f");
    CHECK(ASK(nuz_write, t, 1, fd, NULL, 0).code == 0);
    CHECK(ASK(nuz_pwrite, t, 1, fd, NULL, 0, 3).code == 0);
    CHECK(ASK(nuz_read, t, 1, fd, NULL, 0).code == 0);
    CHECK(ASK(nuz_pread, t, 1, fd, NULL, 0, 3).code == 0);
    CHECK(ASK(nuz_bytes, t, NULL, 0).size == 0 && ASK(nuz_fstat, t, 1, fd).size == 0);
    CHECK(ASK(nuz_request, t, NULL, 0, NULL, 0).code == 0 && ASK(nuz_reply, t, NULL, 0).size == 0);
    CHECK(ASK(nuz_cycle, t, NULL, 0).number == 0);
    CHECK(ASK(nuz_blockers, t, 1, NULL, 0).code == NUZ_NO_ASK);
    nuz_tree_close(t);
    return true;
}

static bool bad_arguments_are_told(void) {
    nuz_tree *t;
    const char *nul = "/a\0b", *p = "/a";
    CHECK(opened(&t) && ASK(nuz_begin, t).number == 1);
    CHECK(ASK(nuz_mkdir, t, 1, nul, 4, NUZ_DEFAULT_MODE).code == NUZ_BAD);
    CHECK(ASK(nuz_rmdir, t, 1, nul, 4).code == NUZ_BAD);
    CHECK(ASK(nuz_list, t, 1, nul, 4).code == NUZ_BAD);
    CHECK(ASK(nuz_stat, t, 1, nul, 4).code == NUZ_BAD);
    CHECK(ASK(nuz_unlink, t, 1, nul, 4).code == NUZ_BAD);
    CHECK(ASK(nuz_truncate, t, 1, nul, 4, 0).code == NUZ_BAD);
    CHECK(ASK(nuz_link, t, 1, nul, 4, p, 2).code == NUZ_BAD);
    CHECK(ASK(nuz_link, t, 1, p, 2, nul, 4).code == NUZ_BAD);
    CHECK(ASK(nuz_rename, t, 1, nul, 4, p, 2).code == NUZ_BAD);
    CHECK(ASK(nuz_rename, t, 1, p, 2, nul, 4).code == NUZ_BAD);
    CHECK(ASK(nuz_symlink, t, 1, nul, 4, p, 2).code == NUZ_BAD);
    CHECK(ASK(nuz_symlink, t, 1, p, 2, nul, 4).code == NUZ_BAD);
    CHECK(ASK(nuz_lstat, t, 1, nul, 4).code == NUZ_BAD);
    CHECK(ASK(nuz_open, t, 1, nul, 4, NUZ_O_RDONLY, NUZ_DEFAULT_MODE).code == NUZ_BAD);
    CHECK(ASK(nuz_open, t, 1, p, 2, 3 | NUZ_O_CREAT, NUZ_DEFAULT_MODE).code == NUZ_BAD);
    CHECK(ASK(nuz_mkdir, t, 1, nul, 4, 0755).code == NUZ_BAD);
    CHECK(ASK(nuz_open, t, 1, nul, 4, NUZ_O_RDONLY | NUZ_O_CREAT, 0644).code == NUZ_BAD);
    CHECK(ASK(nuz_open, t, 1, p, 2, 3 | NUZ_O_CREAT, 0644).code == NUZ_BAD);
    CHECK(ASK(nuz_chmod, t, 1, nul, 4, 0).code == NUZ_BAD);
    CHECK(ASK(nuz_chown, t, 1, nul, 4, 0, 0).code == NUZ_BAD);
    CHECK(ASK(nuz_lchown, t, 1, nul, 4, 0, 0).code == NUZ_BAD);
    CHECK(ASK(nuz_utime, t, 1, nul, 4, 0, 0).code == NUZ_BAD);
    CHECK(ASK(nuz_lutime, t, 1, nul, 4, 0, 0).code == NUZ_BAD);
    CHECK(ASK(nuz_lseek, t, 1, 1, 0, 3).code == NUZ_BAD);
    nuz_answer bad = ASK(nuz_mkdir, t, 9, nul, 4, NUZ_DEFAULT_MODE);
    CHECK(bad.code == NUZ_BAD && bad.stamp == 0 && bad.number == 0);
    CHECK(ASK(nuz_mkdir, t, 1, nul, 2, NUZ_DEFAULT_MODE).stamp == 2);
    CHECK(ASK(nuz_mkdir, t, 1, nul, 0, NUZ_DEFAULT_MODE).code == ENOENT);
    nuz_tree_close(t);
    return true;
}

/* ---- symbolic links */

/* Makes a symbolic link. */
static bool make_link(nuz_tree *tree, uint64_t txn, const char *target, const char *path) {
    return ASK(nuz_symlink, tree, txn, NUZ_S(target), NUZ_S(path)).code == 0;
}

/* Whether a path is a symbolic link with this target. */
static bool leads_to(nuz_tree *tree, uint64_t txn, const char *path, const char *target) {
    uint8_t buffer[64];
    nuz_answer got = ASK(nuz_readlink, tree, txn, NUZ_S(path), buffer, sizeof buffer);
    return got.code == 0 && got.number == strlen(target)
        && memcmp(buffer, target, got.number) == 0;
}

/* Opens the tree of a test: a directory, a file in it, and links to both and to nothing. */
static bool opened_with_links(nuz_tree **tree) {
    bool is_open = opened(tree);
    nuz_tree *t = *tree;
    return is_open && ASK(nuz_begin, t).number == 1 && make_dir(t, 1, "/d").code == 0
        && make_file(t, 1, "/d/f", "four") && make_link(t, 1, "/d", "/to_d")
        && make_link(t, 1, "d/f", "/to_f") && make_link(t, 1, "none", "/to_none");
}

static bool symbolic_links_are_made_and_read(void) {
    nuz_tree *t;
    CHECK(opened(&t) && ASK(nuz_begin, t).number == 1);
    nuz_answer made = ASK(nuz_symlink, t, 1, NUZ_S("any \xff bytes"), NUZ_S("/l"));
    CHECK(made.code == 0 && made.stamp == 2 && made.number == 0 && made.kind == 0);
    CHECK(leads_to(t, 1, "/l", "any \xff bytes"));
    nuz_answer told = ASK(nuz_lstat, t, 1, NUZ_S("/l"));
    CHECK(told.code == 0 && told.kind == NUZ_LINK && told.number == 2 && told.links == 1);
    CHECK(told.size == 11 && ASK(nuz_list, t, 1, NUZ_S("/")).number == 1);
    CHECK(is_name(t, 0, "l", NUZ_LINK));
    CHECK(ASK(nuz_symlink, t, 1, NUZ_S("x"), NUZ_S("/l")).code == EEXIST);
    CHECK(ASK(nuz_symlink, t, 1, NUZ_S("x"), NUZ_S("/")).code == EEXIST);
    CHECK(ASK(nuz_symlink, t, 1, NUZ_S(""), NUZ_S("/m")).code == ENOENT);
    CHECK(ASK(nuz_symlink, t, 1, NUZ_S("x"), NUZ_S("/none/m")).code == ENOENT);
    CHECK(ASK(nuz_undo, t, 1).code == 0 && leads_to(t, 1, "/l", "any \xff bytes"));
    CHECK(ASK(nuz_begin_sub, t, 1).number == 2 && make_link(t, 2, "x", "/m"));
    CHECK(ASK(nuz_unlink, t, 2, NUZ_S("/l")).code == 0 && ASK(nuz_abort, t, 2).number == 2);
    CHECK(leads_to(t, 1, "/l", "any \xff bytes"));
    CHECK(ASK(nuz_lstat, t, 1, NUZ_S("/m")).code == ENOENT);
    nuz_tree_close(t);
    return true;
}

static bool targets_are_cut_to_the_room(void) {
    nuz_tree *t;
    uint8_t b[8] = "........";
    CHECK(opened(&t) && ASK(nuz_begin, t).number == 1 && make_link(t, 1, "target", "/l"));
    CHECK(ASK(nuz_readlink, t, 1, NUZ_S("/l"), b, 0).number == 6 && memcmp(b, "........", 8) == 0);
    CHECK(ASK(nuz_readlink, t, 1, NUZ_S("/l"), b, 3).number == 6 && memcmp(b, "tar.....", 8) == 0);
    CHECK(ASK(nuz_bytes, t, b, sizeof b).size == 6 && memcmp(b, "target..", 8) == 0);
    b[0] = '.';
    CHECK(ASK(nuz_readlink, t, 1, NUZ_S("/l"), b, 8).number == 6 && memcmp(b, "target..", 8) == 0);
    nuz_tree_close(t);
    return true;
}

static bool only_symbolic_links_have_targets(void) {
    nuz_tree *t;
    uint8_t b[4] = "....";
    CHECK(opened_with_links(&t));
    CHECK(ASK(nuz_readlink, t, 1, NUZ_S("/"), b, 4).code == EINVAL);
    CHECK(ASK(nuz_readlink, t, 1, NUZ_S("/d/f"), b, 4).code == EINVAL);
    CHECK(ASK(nuz_readlink, t, 1, NUZ_S("/none"), b, 4).code == ENOENT);
    CHECK(ASK(nuz_readlink, t, 1, NUZ_S("/d/f/g"), b, 4).code == ENOTDIR);
    CHECK(ASK(nuz_readlink, t, 1, NUZ_S("/to_d/"), b, 4).code == EINVAL);
    CHECK(ASK(nuz_readlink, t, 1, NUZ_S(""), b, 4).code == ENOENT);
    CHECK(ASK(nuz_readlink, t, 9, NUZ_S("/to_d"), b, 4).code == NUZ_NO_TXN);
    CHECK(memcmp(b, "....", 4) == 0 && ASK(nuz_bytes, t, b, 4).code == NUZ_BAD);
    CHECK(leads_to(t, 1, "/to_f", "d/f"));
    CHECK(ASK(nuz_readlink, t, 1, "/\0", 2, b, 4).code == NUZ_BAD);
    CHECK(memcmp(b, "....", 4) == 0 && ASK(nuz_bytes, t, b, 4).size == 3);
    nuz_tree_close(t);
    return true;
}

static bool symbolic_links_lead_on(void) {
    nuz_tree *t;
    CHECK(opened_with_links(&t));
    nuz_answer dir = ASK(nuz_stat, t, 1, NUZ_S("/d")), file = ASK(nuz_stat, t, 1, NUZ_S("/d/f"));
    CHECK(ASK(nuz_stat, t, 1, NUZ_S("/to_d/f")).number == file.number);
    CHECK(ASK(nuz_stat, t, 1, NUZ_S("/to_d/../to_f")).number == file.number);
    CHECK(make_link(t, 1, "f", "/to_d/g") && leads_to(t, 1, "/d/g", "f"));
    CHECK(ASK(nuz_stat, t, 1, NUZ_S("/d/g")).number == file.number);
    CHECK(make_link(t, 1, "../to_d/", "/d/up"));
    CHECK(ASK(nuz_stat, t, 1, NUZ_S("/d/up")).number == dir.number);
    CHECK(ASK(nuz_stat, t, 1, NUZ_S("/d/up/up/up/f")).number == file.number);
    CHECK(make_dir(t, 1, "/to_d/e").code == 0);
    CHECK(ASK(nuz_stat, t, 1, NUZ_S("/d/e")).kind == NUZ_DIR);
    CHECK(ASK(nuz_stat, t, 1, NUZ_S("/to_none/x")).code == ENOENT);
    CHECK(ASK(nuz_stat, t, 1, NUZ_S("/to_f/x")).code == ENOTDIR);
    nuz_tree_close(t);
    return true;
}

static bool last_link_is_followed(void) {
    nuz_tree *t;
    CHECK(opened_with_links(&t));
    nuz_answer told = ASK(nuz_stat, t, 1, NUZ_S("/to_f"));
    CHECK(told.kind == NUZ_FILE && told.size == 4 && told.links == 1);
    CHECK(ASK(nuz_stat, t, 1, NUZ_S("/to_none")).code == ENOENT);
    CHECK(ASK(nuz_list, t, 1, NUZ_S("/to_d")).number == 1 && is_name(t, 0, "f", NUZ_FILE));
    CHECK(ASK(nuz_list, t, 1, NUZ_S("/to_f")).code == ENOTDIR);
    CHECK(ASK(nuz_truncate, t, 1, NUZ_S("/to_f"), 2).code == 0);
    CHECK(ASK(nuz_stat, t, 1, NUZ_S("/d/f")).size == 2 && leads_to(t, 1, "/to_f", "d/f"));
    CHECK(ASK(nuz_truncate, t, 1, NUZ_S("/to_d"), 2).code == EISDIR);
    nuz_answer fd = open_by(t, 1, "/to_f", NUZ_O_RDONLY | NUZ_O_CREAT);
    CHECK(fd.code == 0 && ASK(nuz_fstat, t, 1, fd.number).number == told.number);
    CHECK(open_by(t, 1, "/to_f", NUZ_O_RDONLY | NUZ_O_CREAT | NUZ_O_EXCL).code == EEXIST);
    CHECK(open_by(t, 1, "/to_none", NUZ_O_RDONLY | NUZ_O_CREAT | NUZ_O_EXCL).code == EEXIST);
    CHECK(open_by(t, 1, "/to_none", NUZ_O_RDONLY).code == ENOENT);
    CHECK(make_file(t, 1, "/to_none", "made") && ASK(nuz_stat, t, 1, NUZ_S("/none")).size == 4);
    CHECK(ASK(nuz_lstat, t, 1, NUZ_S("/none")).kind == NUZ_FILE);
    nuz_tree_close(t);
    return true;
}

static bool last_link_is_not_followed(void) {
    nuz_tree *t;
    CHECK(opened_with_links(&t));
    CHECK(ASK(nuz_lstat, t, 1, NUZ_S("/to_d")).kind == NUZ_LINK);
    CHECK(ASK(nuz_lstat, t, 1, NUZ_S("/to_d/")).kind == NUZ_DIR);
    CHECK(ASK(nuz_lstat, t, 1, NUZ_S("/to_f/")).code == ENOTDIR);
    CHECK(ASK(nuz_lstat, t, 1, NUZ_S("/d")).kind == NUZ_DIR);
    CHECK(make_dir(t, 1, "/to_none").code == EEXIST);
    CHECK(ASK(nuz_symlink, t, 1, NUZ_S("x"), NUZ_S("/to_none")).code == EEXIST);
    CHECK(ASK(nuz_rmdir, t, 1, NUZ_S("/to_d")).code == ENOTDIR);
    CHECK(ASK(nuz_link, t, 1, NUZ_S("/to_none"), NUZ_S("/other")).code == 0);
    CHECK(ASK(nuz_lstat, t, 1, NUZ_S("/other")).links == 2 && leads_to(t, 1, "/other", "none"));
    CHECK(ASK(nuz_link, t, 1, NUZ_S("/d/f"), NUZ_S("/to_none")).code == EEXIST);
    CHECK(ASK(nuz_rename, t, 1, NUZ_S("/to_f"), NUZ_S("/to_d")).code == 0);
    CHECK(leads_to(t, 1, "/to_d", "d/f") && ASK(nuz_lstat, t, 1, NUZ_S("/to_f")).code == ENOENT);
    CHECK(ASK(nuz_unlink, t, 1, NUZ_S("/to_d")).code == 0);
    CHECK(ASK(nuz_unlink, t, 1, NUZ_S("/other")).code == 0);
    CHECK(ASK(nuz_lstat, t, 1, NUZ_S("/to_none")).links == 1);
    CHECK(ASK(nuz_stat, t, 1, NUZ_S("/d/f")).size == 4);
    nuz_tree_close(t);
    return true;
}

/* Links of which each leads to the one before, the first to the root: how many there are. */
static int make_chain(nuz_tree *t, int most) {
    char target[16] = "/", path[16];
    for (int i = 1; i <= most; i++) {
        snprintf(path, sizeof path, "/%d", i);
        if (!make_link(t, 1, target, path)) {
            return i - 1;
        }
        memcpy(target, path, sizeof target);
    }
    return most;
}

static bool forty_links_are_followed(void) {
    nuz_tree *t;
    CHECK(opened(&t) && ASK(nuz_begin, t).number == 1 && make_chain(t, 41) == 41);
    CHECK(ASK(nuz_stat, t, 1, NUZ_S("/40")).number == 1);
    CHECK(ASK(nuz_stat, t, 1, NUZ_S("/41")).code == ELOOP);
    CHECK(ASK(nuz_lstat, t, 1, NUZ_S("/41")).kind == NUZ_LINK);
    CHECK(ASK(nuz_lstat, t, 1, NUZ_S("/41/")).code == ELOOP);
    CHECK(ASK(nuz_stat, t, 1, NUZ_S("/20/20")).number == 1);
    CHECK(ASK(nuz_stat, t, 1, NUZ_S("/20/21")).code == ELOOP);
    CHECK(make_dir(t, 1, "/40/d").code == 0);
    CHECK(make_dir(t, 1, "/41/e").code == ELOOP);
    CHECK(make_link(t, 1, "b", "/a") && make_link(t, 1, "a", "/b"));
    CHECK(open_by(t, 1, "/a", NUZ_O_RDONLY | NUZ_O_CREAT).code == ELOOP);
    CHECK(ASK(nuz_list, t, 1, NUZ_S("/a")).code == ELOOP);
    CHECK(ASK(nuz_truncate, t, 1, NUZ_S("/a"), 0).code == ELOOP);
    CHECK(ASK(nuz_unlink, t, 1, NUZ_S("/a")).code == 0 && leads_to(t, 1, "/b", "a"));
    nuz_tree_close(t);
    return true;
}

/* ---- modes, owners and times */

/* Whether an answer has these, and no time. */
static bool has(nuz_answer told, uint32_t mode, uint32_t owner, uint32_t group) {
    return told.code == 0 && told.mode == mode && told.owner == owner && told.group == group
        && !told.has_time && told.seconds == 0 && told.nanoseconds == 0;
}

/* Whether it has this time. */
static bool is_of(nuz_answer told, int64_t seconds, uint32_t nanoseconds) {
    return told.code == 0 && told.has_time && told.seconds == seconds
        && told.nanoseconds == nanoseconds;
}

static bool attributes_of_what_is_new_are_told(void) {
    nuz_tree *t;
    CHECK(opened_with_links(&t) && has(ASK(nuz_stat, t, 1, NUZ_S("/")), 0755, 0, 0));
    CHECK(has(ASK(nuz_stat, t, 1, NUZ_S("/d")), 0755, 0, 0));
    CHECK(has(ASK(nuz_stat, t, 1, NUZ_S("/to_f")), 0644, 0, 0));
    CHECK(has(ASK(nuz_lstat, t, 1, NUZ_S("/to_f")), 0777, 0, 0));
    uint64_t fd = open_file(t, 1, "/d/f");
    nuz_answer told = ASK(nuz_fstat, t, 1, fd);
    CHECK(has(told, 0644, 0, 0) && told.size == 4 && told.kind == NUZ_FILE && told.links == 1);
    CHECK(has(ASK(nuz_close, t, 1, fd), 0, 0, 0));
    nuz_tree_close(t);
    return true;
}

static bool modes_are_set(void) {
    nuz_tree *t;
    CHECK(opened_with_links(&t));
    nuz_answer set = ASK(nuz_chmod, t, 1, NUZ_S("/d"), 07421);
    CHECK(set.code == 0 && set.stamp == 9 && set.mode == 0 && set.number == 0);
    CHECK(ASK(nuz_chmod, t, 1, NUZ_S("/to_f"), 0).code == 0);
    CHECK(has(ASK(nuz_stat, t, 1, NUZ_S("/d")), 07421, 0, 0));
    CHECK(has(ASK(nuz_stat, t, 1, NUZ_S("/d/f")), 0, 0, 0));
    CHECK(has(ASK(nuz_lstat, t, 1, NUZ_S("/to_f")), 0777, 0, 0));
    uint64_t fd = open_file(t, 1, "/d/f");
    CHECK(ASK(nuz_fchmod, t, 1, fd, 04711).code == 0 && has(ASK(nuz_fstat, t, 1, fd), 04711, 0, 0));
    CHECK(ASK(nuz_fchmod, t, 1, 99, 010000).code == EBADF);
    CHECK(ASK(nuz_fchmod, t, 1, fd, 010000).code == EINVAL);
    CHECK(ASK(nuz_chmod, t, 1, NUZ_S("/none"), 010000).code == EINVAL);
    CHECK(ASK(nuz_chmod, t, 1, NUZ_S(""), 010000).code == ENOENT);
    CHECK(ASK(nuz_chmod, t, 1, NUZ_S("/d"), UINT32_C(0x10000)).code == EINVAL);
    CHECK(ASK(nuz_chmod, t, 1, NUZ_S("/d"), UINT32_MAX).code == EINVAL);
    CHECK(ASK(nuz_chmod, t, 1, NUZ_S("/to_none"), 0).code == ENOENT);
    CHECK(ASK(nuz_chmod, t, 1, NUZ_S("/d/f/"), 0).code == ENOTDIR);
    CHECK(ASK(nuz_chmod, t, 1, NUZ_S("/to_d/"), 01777).code == 0);
    CHECK(has(ASK(nuz_stat, t, 1, NUZ_S("/d")), 01777, 0, 0));
    nuz_tree_close(t);
    return true;
}

/* Opens /f with a mode, and closes it: the code of the open. */
static uint32_t open_with(nuz_tree *t, bool create, uint32_t mode) {
    uint32_t flags = NUZ_O_WRONLY | (create ? NUZ_O_CREAT : 0);
    nuz_answer got = ASK(nuz_open, t, 1, NUZ_S("/f"), flags, mode);
    ASK(nuz_close, t, 1, got.number);
    return got.code;
}

static bool modes_are_given_to_what_is_made(void) {
    nuz_tree *t;
    CHECK(opened(&t) && ASK(nuz_begin, t).number == 1);
    CHECK(ASK(nuz_mkdir, t, 1, NUZ_S("/a"), 02700).code == 0);
    CHECK(ASK(nuz_mkdir, t, 1, NUZ_S("/a"), 0777).code == EEXIST);
    CHECK(ASK(nuz_mkdir, t, 1, NUZ_S("/a"), 010000).code == EINVAL);
    CHECK(ASK(nuz_mkdir, t, 1, NUZ_S("/b"), 0x10000 | 0755).code == EINVAL);
    CHECK(ASK(nuz_mkdir, t, 1, NUZ_S("/b"), 0755).code == 0);
    CHECK(open_with(t, false, 0600) == ENOENT && open_with(t, true, 010000) == EINVAL);
    CHECK(open_with(t, true, 0600) == 0 && open_with(t, true, 0777) == 0);
    CHECK(open_with(t, false, 010000) == EINVAL);
    CHECK(has(ASK(nuz_stat, t, 1, NUZ_S("/a")), 02700, 0, 0));
    CHECK(has(ASK(nuz_stat, t, 1, NUZ_S("/b")), 0755, 0, 0));
    CHECK(has(ASK(nuz_stat, t, 1, NUZ_S("/f")), 0600, 0, 0));
    nuz_tree_close(t);
    return true;
}

static bool owners_are_set(void) {
    nuz_tree *t;
    CHECK(opened_with_links(&t) && ASK(nuz_chmod, t, 1, NUZ_S("/d/f"), 06755).code == 0);
    CHECK(ASK(nuz_chown, t, 1, NUZ_S("/to_d"), 1, UINT32_MAX - 1).code == 0);
    CHECK(has(ASK(nuz_stat, t, 1, NUZ_S("/d")), 0755, 1, UINT32_MAX - 1));
    CHECK(ASK(nuz_chown, t, 1, NUZ_S("/d"), NUZ_STAYS, 3).code == 0);
    CHECK(ASK(nuz_chown, t, 1, NUZ_S("/d"), 4, NUZ_STAYS).code == 0);
    CHECK(ASK(nuz_chown, t, 1, NUZ_S("/d"), NUZ_STAYS, NUZ_STAYS).code == 0);
    CHECK(has(ASK(nuz_stat, t, 1, NUZ_S("/d")), 0755, 4, 3));
    uint64_t fd = open_file(t, 1, "/d/f");
    CHECK(ASK(nuz_fchown, t, 1, fd, 5, 6).code == 0 && has(ASK(nuz_fstat, t, 1, fd), 06755, 5, 6));
    CHECK(ASK(nuz_fchown, t, 1, 99, 5, 6).code == EBADF);
    CHECK(ASK(nuz_chown, t, 1, NUZ_S("/none"), 0, 0).code == ENOENT);
    CHECK(ASK(nuz_lchown, t, 1, NUZ_S("/to_d"), 1, NUZ_STAYS).code == EINVAL);
    CHECK(ASK(nuz_lchown, t, 1, NUZ_S("/to_d"), NUZ_STAYS, 1).code == EINVAL);
    CHECK(ASK(nuz_lchown, t, 1, NUZ_S("/to_d"), 0, NUZ_STAYS).code == 0);
    CHECK(ASK(nuz_lchown, t, 1, NUZ_S("/to_d/"), 7, 8).code == 0);
    CHECK(has(ASK(nuz_stat, t, 1, NUZ_S("/d")), 0755, 7, 8));
    CHECK(ASK(nuz_lchown, t, 1, NUZ_S("/none"), 0, 0).code == ENOENT);
    nuz_tree_close(t);
    return true;
}

static bool times_are_set(void) {
    nuz_tree *t;
    CHECK(opened_with_links(&t) && ASK(nuz_utime, t, 1, NUZ_S("/to_f"), 12, 999999999).code == 0);
    CHECK(is_of(ASK(nuz_stat, t, 1, NUZ_S("/d/f")), 12, 999999999));
    CHECK(ASK(nuz_lutime, t, 1, NUZ_S("/d/f"), INT64_MIN, 0).code == 0);
    CHECK(is_of(ASK(nuz_stat, t, 1, NUZ_S("/d/f")), INT64_MIN, 0));
    uint64_t fd = open_file(t, 1, "/d/f");
    CHECK(ASK(nuz_futime, t, 1, fd, INT64_MAX, 1).code == 0);
    CHECK(is_of(ASK(nuz_fstat, t, 1, fd), INT64_MAX, 1));
    CHECK(ASK(nuz_futime, t, 1, 99, 0, 1000000000).code == EBADF);
    CHECK(ASK(nuz_futime, t, 1, fd, 0, 1000000000).code == EINVAL);
    CHECK(ASK(nuz_utime, t, 1, NUZ_S("/none"), 0, UINT32_MAX).code == EINVAL);
    CHECK(ASK(nuz_lutime, t, 1, NUZ_S("/none"), 0, UINT32_MAX).code == EINVAL);
    CHECK(ASK(nuz_utime, t, 1, NUZ_S("/none"), 0, 0).code == ENOENT);
    CHECK(ASK(nuz_utime, t, 1, NUZ_S("/d"), 0, 0).code == EINVAL);
    CHECK(ASK(nuz_utime, t, 1, NUZ_S("/"), 0, 0).code == EINVAL);
    CHECK(ASK(nuz_utime, t, 1, NUZ_S("/to_none"), 0, 0).code == ENOENT);
    CHECK(ASK(nuz_lutime, t, 1, NUZ_S("/to_none"), 0, 0).code == EINVAL);
    CHECK(is_of(ASK(nuz_stat, t, 1, NUZ_S("/d/f")), INT64_MAX, 1));
    nuz_tree_close(t);
    return true;
}

/* Whether the last call removed the time 7 of a descriptor's file, and an undo restores it. */
static bool was_taken_away(nuz_tree *t, uint64_t fd) {
    CHECK(!ASK(nuz_fstat, t, 1, fd).has_time && ASK(nuz_undo, t, 1).code == 0);
    CHECK(ASK(nuz_undo, t, 1).code == 0);
    return is_of(ASK(nuz_fstat, t, 1, fd), 7, 0);
}

static bool new_bytes_have_no_time(void) {
    nuz_tree *t;
    CHECK(opened(&t) && ASK(nuz_begin, t).number == 1 && make_file(t, 1, "/f", "four"));
    uint64_t fd = open_file(t, 1, "/f");
    CHECK(ASK(nuz_futime, t, 1, fd, 7, 0).code == 0);
    CHECK(ASK(nuz_write, t, 1, fd, NUZ_S("x")).number == 1 && was_taken_away(t, fd));
    CHECK(ASK(nuz_pwrite, t, 1, fd, NUZ_S("x"), 9).number == 1 && was_taken_away(t, fd));
    CHECK(ASK(nuz_ftruncate, t, 1, fd, 4).code == 0 && was_taken_away(t, fd));
    CHECK(ASK(nuz_truncate, t, 1, NUZ_S("/f"), 0).code == 0 && was_taken_away(t, fd));
    CHECK(open_by(t, 1, "/f", NUZ_O_WRONLY | NUZ_O_CREAT | NUZ_O_TRUNC).code == 0);
    CHECK(was_taken_away(t, fd));
    CHECK(ASK(nuz_write, t, 1, fd, NUZ_S("")).code == 0 && is_of(ASK(nuz_fstat, t, 1, fd), 7, 0));
    CHECK(ASK(nuz_link, t, 1, NUZ_S("/f"), NUZ_S("/g")).code == 0);
    CHECK(ASK(nuz_rename, t, 1, NUZ_S("/f"), NUZ_S("/h")).code == 0);
    CHECK(ASK(nuz_chmod, t, 1, NUZ_S("/h"), 0).code == 0);
    CHECK(is_of(ASK(nuz_stat, t, 1, NUZ_S("/g")), 7, 0));
    nuz_tree_close(t);
    return true;
}

static bool attributes_are_taken_back(void) {
    nuz_tree *t;
    CHECK(opened_with_links(&t) && ASK(nuz_chmod, t, 1, NUZ_S("/d"), 0700).code == 0);
    CHECK(ASK(nuz_chown, t, 1, NUZ_S("/d/f"), 1, 2).code == 0);
    CHECK(ASK(nuz_chmod, t, 1, NUZ_S("/d"), 0711).code == 0 && ASK(nuz_undo, t, 1).code == 0);
    CHECK(has(ASK(nuz_stat, t, 1, NUZ_S("/d")), 0700, 0, 0));
    CHECK(ASK(nuz_utime, t, 1, NUZ_S("/d/f"), 7, 0).code == 0 && ASK(nuz_undo, t, 1).code == 0);
    CHECK(has(ASK(nuz_stat, t, 1, NUZ_S("/d/f")), 0644, 1, 2));
    CHECK(ASK(nuz_begin_sub, t, 1).number == 2);
    CHECK(ASK(nuz_chown, t, 2, NUZ_S("/d"), 9, 9).code == 0);
    CHECK(ASK(nuz_utime, t, 2, NUZ_S("/d/f"), 7, 0).code == 0);
    CHECK(ASK(nuz_unlink, t, 2, NUZ_S("/d/f")).code == 0);
    CHECK(ASK(nuz_rmdir, t, 2, NUZ_S("/d")).code == 0);
    CHECK(ASK(nuz_mkdir, t, 2, NUZ_S("/d"), 01777).code == 0 && ASK(nuz_abort, t, 2).number == 5);
    CHECK(has(ASK(nuz_stat, t, 1, NUZ_S("/d")), 0700, 0, 0));
    CHECK(has(ASK(nuz_stat, t, 1, NUZ_S("/d/f")), 0644, 1, 2));
    nuz_tree_close(t);
    return true;
}

static bool directory_that_goes_takes_its_attributes_with_it(void) {
    nuz_tree *t;
    CHECK(opened(&t) && ASK(nuz_begin, t).number == 1);
    CHECK(ASK(nuz_mkdir, t, 1, NUZ_S("/a"), 0700).code == 0);
    CHECK(ASK(nuz_mkdir, t, 1, NUZ_S("/b"), 0711).code == 0);
    CHECK(ASK(nuz_chown, t, 1, NUZ_S("/b"), 1, 2).code == 0);
    CHECK(ASK(nuz_rename, t, 1, NUZ_S("/a"), NUZ_S("/b")).code == 0);
    CHECK(has(ASK(nuz_stat, t, 1, NUZ_S("/b")), 0700, 0, 0));
    CHECK(says(t, "tree", "tree 4\ndir 1\ndir 2\nedge 1 b 2\nattributes 2 0700 0 0\n"));
    CHECK(ASK(nuz_undo, t, 1).code == 0 && ASK(nuz_undo, t, 1).code == 0);
    CHECK(has(ASK(nuz_stat, t, 1, NUZ_S("/b")), 0711, 1, 2));
    CHECK(ASK(nuz_rmdir, t, 1, NUZ_S("/b")).code == 0 && make_dir(t, 1, "/b").code == 0);
    CHECK(has(ASK(nuz_stat, t, 1, NUZ_S("/b")), 0755, 0, 0));
    nuz_tree_close(t);
    return true;
}

static bool others_wait_for_attributes(void) {
    nuz_tree *t;
    CHECK(opened_with_links(&t) && ASK(nuz_commit, t, 1).code == 0);
    CHECK(ASK(nuz_begin, t).number == 2 && ASK(nuz_begin, t).number == 3);
    CHECK(ASK(nuz_chmod, t, 2, NUZ_S("/d/f"), 0600).code == 0);
    CHECK(ASK(nuz_chown, t, 2, NUZ_S("/d"), 1, 2).code == 0);
    CHECK(ASK(nuz_list, t, 3, NUZ_S("/d")).number == 1);
    CHECK(ASK(nuz_chown, t, 3, NUZ_S("/d"), 3, 3).code == NUZ_WAITS);
    CHECK(ASK(nuz_stat, t, 3, NUZ_S("/d/f")).code == NUZ_WAITS);
    CHECK(ASK(nuz_blocker, t, 0).number == 2);
    CHECK(ASK(nuz_commit, t, 2).code == 0 && has(ASK(nuz_retry, t, 3, NULL, 0), 0600, 0, 0));
    CHECK(has(ASK(nuz_stat, t, 3, NUZ_S("/d")), 0755, 1, 2));
    nuz_tree_close(t);
    return true;
}

/* ---- calls on descriptors */

static bool files_are_written_and_read(void) {
    nuz_tree *t;
    uint8_t b[12] = "............";
    CHECK(opened(&t) && ASK(nuz_begin, t).number == 1);
    uint64_t fd = open_file(t, 1, "/f");
    CHECK(fd == 2 && ASK(nuz_write, t, 1, fd, NUZ_S("two words")).number == 9);
    CHECK(ASK(nuz_lseek, t, 1, fd, 4, NUZ_SET).number == 4);
    nuz_answer got = ASK(nuz_read, t, 1, fd, b, 3);
    CHECK(got.code == 0 && got.number == 3 && memcmp(b, "wor.........", 12) == 0);
    CHECK(ASK(nuz_lseek, t, 1, fd, 0, NUZ_CUR).number == 7);
    CHECK(ASK(nuz_pread, t, 1, fd, b, sizeof b, 1).number == 8);
    CHECK(memcmp(b, "wo words....", 12) == 0 && ASK(nuz_lseek, t, 1, fd, 0, NUZ_CUR).number == 7);
    CHECK(ASK(nuz_pwrite, t, 1, fd, NUZ_S("T"), 0).number == 1);
    CHECK(ASK(nuz_lseek, t, 1, fd, -1, NUZ_END).number == 8);
    CHECK(ASK(nuz_read, t, 1, fd, b, 12).number == 1);
    CHECK(b[0] == 's' && ASK(nuz_read, t, 1, fd, b, 12).number == 0 && b[0] == 's');
    CHECK(ASK(nuz_ftruncate, t, 1, fd, 3).code == 0);
    nuz_answer told = ASK(nuz_fstat, t, 1, fd);
    CHECK(told.kind == NUZ_FILE && told.number == 2 && told.links == 1 && told.size == 3);
    CHECK(ASK(nuz_bytes, t, b, sizeof b).code == NUZ_BAD);
    CHECK(ASK(nuz_pread, t, 1, fd, b, sizeof b, 0).number == 3 && memcmp(b, "Two", 3) == 0);
    memset(b, '.', sizeof b);
    CHECK(ASK(nuz_bytes, t, b, 2).size == 3 && memcmp(b, "Tw..", 4) == 0);
    CHECK(ASK(nuz_close, t, 1, fd).code == 0 && ASK(nuz_close, t, 1, fd).code == EBADF);
    nuz_tree_close(t);
    return true;
}

/* Opens /f with flags, and writes to it: the size of the file, or else the code of the open. */
static uint64_t size_after(nuz_tree *t, uint32_t flags) {
    nuz_answer got = open_by(t, 1, "/f", NUZ_O_RDWR | flags);
    if (got.code != 0) {
        return got.code;
    }
    ASK(nuz_write, t, 1, got.number, NUZ_S("ab"));
    nuz_answer told = ASK(nuz_fstat, t, 1, got.number);
    ASK(nuz_close, t, 1, got.number);
    return told.size;
}

static bool flags_of_open_are_kept_apart(void) {
    nuz_tree *t;
    CHECK(opened(&t) && ASK(nuz_begin, t).number == 1);
    CHECK(size_after(t, 0) == ENOENT && size_after(t, NUZ_O_EXCL) == ENOENT);
    CHECK(make_file(t, 1, "/f", "four"));
    CHECK(size_after(t, NUZ_O_CREAT | NUZ_O_EXCL) == EEXIST);
    CHECK(size_after(t, 0) == 4 && size_after(t, NUZ_O_CREAT) == 4);
    CHECK(size_after(t, NUZ_O_APPEND) == 6 && size_after(t, NUZ_O_TRUNC) == 2);
    nuz_answer reads = open_by(t, 1, "/f", NUZ_O_RDONLY);
    CHECK(ASK(nuz_write, t, 1, reads.number, NUZ_S("x")).code == EBADF);
    nuz_answer writes = open_by(t, 1, "/f", NUZ_O_WRONLY);
    CHECK(ASK(nuz_read, t, 1, writes.number, (uint8_t[1]){ 0 }, 1).code == EBADF);
    nuz_tree_close(t);
    return true;
}

/* Each bit is a flag of Linux or none; and 3 is no access. */
static bool flags_that_are_none_are_told(void) {
    nuz_tree *t;
    const uint32_t all = O_ACCMODE | O_CREAT | O_EXCL | O_TRUNC | O_APPEND;
    CHECK(opened(&t) && ASK(nuz_begin, t).number == 1 && make_file(t, 1, "/f", ""));
    for (int bit = 0; bit < 32; bit++) {
        uint32_t flag = UINT32_C(1) << bit;
        CHECK((open_by(t, 1, "/f", flag).code == NUZ_BAD) == ((all & flag) == 0));
    }
    CHECK(open_by(t, 1, "/f", 3).code == NUZ_BAD);
    CHECK(open_by(t, 1, "/f", 3 | O_CREAT).code == NUZ_BAD);
    nuz_tree_close(t);
    return true;
}

/* ---- what no file has room for */

enum { LARGEST_FILE = 1048576 };

/* Writes more bytes than a file has room for, at its offset and at places. */
static bool fills_up(nuz_tree *t, const uint8_t *bytes, size_t len) {
    CHECK(ASK(nuz_begin, t).number == 1 && ASK(nuz_begin, t).number == 2);
    uint64_t fd = open_file(t, 1, "/f"), other = open_file(t, 2, "/g");
    CHECK(ASK(nuz_lseek, t, 1, fd, 1, NUZ_SET).code == 0);
    CHECK(ASK(nuz_write, t, 1, fd, bytes, len).number == LARGEST_FILE - 1);
    CHECK(ASK(nuz_write, t, 1, fd, bytes, len).code == EFBIG);
    CHECK(ASK(nuz_write, t, 1, fd, bytes, 0).code == 0);
    CHECK(ASK(nuz_pwrite, t, 1, fd, bytes, len, 0).number == LARGEST_FILE);
    CHECK(ASK(nuz_pwrite, t, 1, fd, bytes, len, LARGEST_FILE - 2).number == 2);
    CHECK(ASK(nuz_pwrite, t, 1, fd, bytes, len, LARGEST_FILE).code == EFBIG);
    CHECK(ASK(nuz_pwrite, t, 1, fd, bytes, 0, LARGEST_FILE).code == 0);
    CHECK(ASK(nuz_pwrite, t, 1, fd, bytes, len, -1).code == EINVAL);
    CHECK(ASK(nuz_fstat, t, 1, fd).size == LARGEST_FILE && ASK(nuz_fstat, t, 2, other).size == 0);
    CHECK(ASK(nuz_commit, t, 1).code == 0 && ASK(nuz_lseek, t, 2, fd, 9, NUZ_SET).number == 9);
    CHECK(ASK(nuz_begin, t).number == 3 && ASK(nuz_write, t, 3, fd, bytes, len).code == NUZ_WAITS);
    CHECK(ASK(nuz_commit, t, 2).code == 0);
    CHECK(ASK(nuz_retry, t, 3, NULL, 0).number == LARGEST_FILE - 9);
    return true;
}

/* Writes 4 GiB, if there is no memory for a copy of so much. */
static bool bytes_without_room_are_not_copied(void) {
    const size_t len = (size_t)4 << 30;
    struct rlimit was, less;
    nuz_tree *t;
    if (is_short) {
        return true;
    }
    void *bytes = mmap(NULL, len, PROT_READ, MAP_PRIVATE | MAP_ANONYMOUS | MAP_NORESERVE, -1, 0);
    CHECK(bytes != MAP_FAILED && getrlimit(RLIMIT_AS, &was) == 0);
    less = was;
    less.rlim_cur = len + len / 2;
    CHECK(opened_with(&t, SCRIPT) && setrlimit(RLIMIT_AS, &less) == 0);
    void *copy = __real_malloc(len);
    bool wrote = fills_up(t, bytes, len);
    CHECK(setrlimit(RLIMIT_AS, &was) == 0 && copy == NULL && wrote);
    nuz_tree_close(t);
    return munmap(bytes, len) == 0;
}

static bool paths_that_are_too_long_are_told(void) {
    static uint8_t path[1 << 20];
    nuz_tree *t;
    memset(path, '/', sizeof path);
    CHECK(opened(&t) && ASK(nuz_begin, t).number == 1);
    CHECK(ASK(nuz_mkdir, t, 1, path, 4095, NUZ_DEFAULT_MODE).code == EEXIST);
    CHECK(ASK(nuz_mkdir, t, 1, path, 4096, NUZ_DEFAULT_MODE).code == ENAMETOOLONG);
    CHECK(ASK(nuz_mkdir, t, 1, path, sizeof path, NUZ_DEFAULT_MODE).code == ENAMETOOLONG);
    CHECK(ASK(nuz_link, t, 1, NUZ_S("/no"), path, sizeof path).code == ENAMETOOLONG);
    CHECK(ASK(nuz_symlink, t, 1, path, 4095, NUZ_S("/longest")).code == 0);
    CHECK(ASK(nuz_lstat, t, 1, NUZ_S("/longest")).size == 4095);
    CHECK(ASK(nuz_symlink, t, 1, path, 4096, NUZ_S("/longer")).code == ENAMETOOLONG);
    CHECK(ASK(nuz_symlink, t, 1, path, sizeof path, NUZ_S("/longer")).code == ENAMETOOLONG);
    path[sizeof path - 1] = '\0';
    CHECK(ASK(nuz_mkdir, t, 1, path, sizeof path, NUZ_DEFAULT_MODE).code == NUZ_BAD);
    CHECK(ASK(nuz_rename, t, 1, path, sizeof path, path, 1).code == NUZ_BAD);
    CHECK(ASK(nuz_symlink, t, 1, path, sizeof path, NUZ_S("/longer")).code == NUZ_BAD);
    nuz_tree_close(t);
    return true;
}

static bool constants_are_those_of_the_system(void) {
    CHECK(NUZ_O_RDONLY == O_RDONLY && NUZ_O_WRONLY == O_WRONLY && NUZ_O_RDWR == O_RDWR);
    CHECK(NUZ_O_CREAT == O_CREAT && NUZ_O_EXCL == O_EXCL);
    CHECK(NUZ_O_TRUNC == O_TRUNC && NUZ_O_APPEND == O_APPEND);
    CHECK(NUZ_SET == SEEK_SET && NUZ_CUR == SEEK_CUR && NUZ_END == SEEK_END);
    CHECK(NUZ_STAYS == (uid_t)-1 && NUZ_STAYS == (gid_t)-1);
    return true;
}

/* The wrappers in Rust and Python have this layout of an answer. */
static bool answer_has_its_layout(void) {
    CHECK(offsetof(nuz_answer, size) == 32 && offsetof(nuz_answer, mode) == 40);
    CHECK(offsetof(nuz_answer, owner) == 44 && offsetof(nuz_answer, group) == 48);
    CHECK(offsetof(nuz_answer, has_time) == 52 && offsetof(nuz_answer, seconds) == 56);
    CHECK(offsetof(nuz_answer, nanoseconds) == 64 && offsetof(nuz_answer, reply) == 72);
    CHECK(offsetof(nuz_answer, blockers) == 80 && offsetof(nuz_answer, reserved) == 144);
    CHECK(sizeof(nuz_answer) == 192 && sizeof(nuz_limits) == 64);
    return true;
}

static bool error_numbers_are_those_of_the_system(void) {
    nuz_tree *t;
    char longest[300];
    memset(longest, 'n', sizeof longest - 1);
    longest[sizeof longest - 1] = '\0';
    CHECK(opened_with(&t, SCRIPT) && ASK(nuz_begin, t).number == 1);
    CHECK(make_dir(t, 1, "/d").code == 0 && make_file(t, 1, "/d/f", ""));
    uint64_t fd = open_file(t, 1, "/d/f");
    CHECK(ASK(nuz_unlink, t, 1, NUZ_S("/d")).code == EPERM);
    CHECK(ASK(nuz_stat, t, 1, NUZ_S("/e")).code == ENOENT);
    CHECK(ASK(nuz_fstat, t, 1, 99).code == EBADF);
    CHECK(ASK(nuz_rmdir, t, 1, NUZ_S("/")).code == EBUSY);
    CHECK(make_dir(t, 1, "/d").code == EEXIST);
    CHECK(ASK(nuz_stat, t, 1, NUZ_S("/d/f/g")).code == ENOTDIR);
    CHECK(ASK(nuz_truncate, t, 1, NUZ_S("/d"), 0).code == EISDIR);
    CHECK(ASK(nuz_ftruncate, t, 1, fd, -1).code == EINVAL);
    CHECK(ASK(nuz_ftruncate, t, 1, fd, 1048577).code == EFBIG);
    CHECK(make_dir(t, 1, longest).code == ENAMETOOLONG);
    CHECK(ASK(nuz_rmdir, t, 1, NUZ_S("/d")).code == ENOTEMPTY);
    CHECK(ASK(nuz_lseek, t, 1, fd, 1, NUZ_SET).code == 0);
    CHECK(ASK(nuz_lseek, t, 1, fd, INT64_MAX, NUZ_CUR).code == EOVERFLOW);
    CHECK(ASK(nuz_symlink, t, 1, NUZ_S("l"), NUZ_S("/l")).code == 0);
    CHECK(ASK(nuz_stat, t, 1, NUZ_S("/l")).code == ELOOP);
    uint32_t code = 0;
    for (unsigned i = 1; code == 0 && i <= 1000; i++) {
        char name[16];
        snprintf(name, sizeof name, "/%u", i);
        code = ASK(nuz_link, t, 1, NUZ_S("/d/f"), NUZ_S(name)).code;
    }
    CHECK(code == EMLINK);
    nuz_tree_close(t);
    return true;
}

/* ---- calls that wait */

static bool codes_have_texts(void) {
    const char *none = nuz_strerror(2000);
    CHECK(strcmp(nuz_strerror(ENOENT), strerror(ENOENT)) == 0);
    for (uint32_t code = NUZ_MEMORY; code <= NUZ_BAD_LIMITS; code++) {
        CHECK((nuz_strerror(code) != none) == (code != 1011)); /* which is none of the library's */
    }
    CHECK(nuz_strerror(NUZ_WAITS) != none && nuz_strerror(NUZ_BAD) != none);
    CHECK(strcmp(nuz_strerror(NUZ_BAD), "an argument is not valid") == 0);
    return true;
}

static bool blockers_are_told(void) {
    nuz_tree *t;
    CHECK(opened(&t) && ASK(nuz_begin, t).number == 1 && ASK(nuz_begin, t).number == 2);
    CHECK(ASK(nuz_begin, t).number == 3 && make_dir(t, 2, "/b").code == 0);
    CHECK(make_dir(t, 1, "/a").code == 0);
    nuz_answer waits = ASK(nuz_list, t, 3, NUZ_S("/"));
    CHECK(waits.code == NUZ_WAITS && waits.number == 2 && waits.stamp == 0);
    CHECK(waits.blockers[0] == 1 && waits.blockers[1] == 2 && waits.blockers[2] == 0);
    CHECK(ASK(nuz_blocker, t, 0).number == 1 && ASK(nuz_blocker, t, 1).number == 2);
    CHECK(ASK(nuz_blocker, t, 2).code == NUZ_BAD && ASK(nuz_blocker, t, SIZE_MAX).code == NUZ_BAD);
    CHECK(replied(t, "waits 1 2\n"));
    CHECK(ASK(nuz_commit, t, 1).code == 0 && ASK(nuz_blocker, t, 0).code == NUZ_BAD);
    CHECK(ASK(nuz_retry, t, 3, NULL, 0).code == NUZ_WAITS && ASK(nuz_blocker, t, 0).number == 2);
    CHECK(ASK(nuz_blocker, t, 1).code == NUZ_BAD && ASK(nuz_commit, t, 2).code == 0);
    nuz_answer listed = ASK(nuz_retry, t, 3, NULL, 0);
    CHECK(listed.code == 0 && listed.number == 2 && is_name(t, 1, "b", NUZ_DIR));
    CHECK(ASK(nuz_retry, t, 3, NULL, 0).code == NUZ_NO_ASK);
    nuz_tree_close(t);
    return true;
}

/* Whether a transaction waits now for so many others, of which the first are these. */
static bool waits_for(nuz_tree *t, uint64_t txn, uint64_t number, const uint64_t *first) {
    uint64_t txns[3] = { 77, 77, 77 };
    size_t room = number < 2 ? (size_t)number : 2;
    nuz_answer told = ASK(nuz_blockers, t, txn, txns, room);
    CHECK(told.code == 0 && told.number == number && told.blockers[0] == 0);
    return memcmp(txns, first, room * sizeof *txns) == 0 && txns[room] == 77;
}

static bool all_blockers_are_told(void) {
    nuz_tree *t;
    CHECK(opened(&t) && ASK(nuz_begin, t).number == 1 && make_dir(t, 1, "/d").code == 0);
    CHECK(ASK(nuz_commit, t, 1).code == 0);
    for (uint64_t txn = 2; txn <= 12; txn++) {
        CHECK(ASK(nuz_begin, t).number == txn);
        CHECK(txn == 12 || ASK(nuz_list, t, txn, NUZ_S("/d")).code == 0);
    }
    nuz_answer waits = make_dir(t, 12, "/d/e");
    CHECK(waits.code == NUZ_WAITS && waits.number == 10);
    for (uint64_t i = 0; i < NUZ_BLOCKERS; i++) {
        CHECK(waits.blockers[i] == 2 + i);
    }
    CHECK(ASK(nuz_stat, t, 11, NUZ_S("/d")).code == 0);
    CHECK(waits_for(t, 12, 10, (uint64_t[2]){ 2, 3 }));
    for (uint64_t txn = 2; txn <= 10; txn++) {
        CHECK(ASK(nuz_commit, t, txn).code == 0);
    }
    CHECK(waits_for(t, 12, 1, (uint64_t[1]){ 11 }));
    CHECK(ASK(nuz_abort, t, 11).code == 0 && waits_for(t, 12, 0, &(uint64_t){ 0 }));
    CHECK(ASK(nuz_blockers, t, 99, NULL, 0).code == NUZ_NO_TXN);
    CHECK(ASK(nuz_blockers, t, 2, NULL, 0).code == NUZ_ENDED);
    CHECK(ASK(nuz_retry, t, 12, NULL, 0).code == 0);
    CHECK(ASK(nuz_blockers, t, 12, NULL, 0).code == NUZ_NO_ASK);
    nuz_tree_close(t);
    return true;
}

/* Whether the reported deadlock is this one, of less than 4 transactions. */
static bool is_cycle(nuz_tree *t, uint64_t number, const uint64_t *members) {
    uint64_t txns[4] = { 77, 77, 77, 77 };
    nuz_answer told = ASK(nuz_cycle, t, txns, 4);
    CHECK(told.code == 0 && told.number == number && told.stamp == 0);
    return memcmp(txns, members, number * sizeof *txns) == 0 && txns[number] == 77;
}

static bool deadlocks_are_told(void) {
    nuz_tree *t;
    const uint64_t none = 0;
    uint64_t one[2] = { 77, 77 };
    CHECK(opened(&t) && ASK(nuz_begin, t).number == 1 && ASK(nuz_begin, t).number == 2);
    CHECK(make_dir(t, 1, "/a").code == 0 && make_dir(t, 2, "/b").code == 0);
    CHECK(is_cycle(t, 0, &none) && ASK(nuz_stat, t, 1, NUZ_S("/b")).code == NUZ_WAITS);
    CHECK(is_cycle(t, 0, &none) && ASK(nuz_stat, t, 2, NUZ_S("/a")).code == NUZ_WAITS);
    CHECK(is_cycle(t, 2, (uint64_t[2]){ 1, 2 }));
    CHECK(ASK(nuz_cycle, t, one, 1).number == 2 && one[0] == 1 && one[1] == 77);
    CHECK(replied(t, "waits 1\n") && ASK(nuz_cancel, t, 2).code == 0 && is_cycle(t, 0, &none));
    /* (a parent waits for its live child, which waits for the other, which waits for the parent) */
    CHECK(ASK(nuz_begin_sub, t, 1).number == 3);
    CHECK(ASK(nuz_stat, t, 3, NUZ_S("/b")).code == NUZ_WAITS);
    CHECK(ASK(nuz_cancel, t, 1).code == 0 && ASK(nuz_stat, t, 2, NUZ_S("/a")).code == NUZ_WAITS);
    CHECK(is_cycle(t, 3, (uint64_t[3]){ 1, 3, 2 }) && ASK(nuz_abort, t, 2).code == 0);
    CHECK(is_cycle(t, 0, &none));
    nuz_tree_close(t);
    return true;
}

static bool call_that_waits_is_cancelled(void) {
    nuz_tree *t;
    CHECK(opened(&t) && ASK(nuz_begin, t).number == 1 && ASK(nuz_begin, t).number == 2);
    CHECK(make_dir(t, 1, "/a").code == 0);
    CHECK(ASK(nuz_stat, t, 2, NUZ_S("/a")).code == NUZ_WAITS);
    CHECK(ASK(nuz_cancel, t, 2).code == 0 && ASK(nuz_cancel, t, 2).code == NUZ_NO_ASK);
    CHECK(ASK(nuz_commit, t, 2).code == 0);
    nuz_tree_close(t);
    return true;
}

static bool read_that_waits_gives_its_bytes(void) {
    nuz_tree *t;
    uint8_t b[8] = "........";
    CHECK(opened(&t) && ASK(nuz_begin, t).number == 1 && make_file(t, 1, "/f", "old"));
    CHECK(ASK(nuz_commit, t, 1).code == 0 && ASK(nuz_begin, t).number == 2);
    CHECK(ASK(nuz_begin, t).number == 3);
    uint64_t writes = open_file(t, 2, "/f");
    nuz_answer reads = open_by(t, 3, "/f", NUZ_O_RDONLY);
    CHECK(ASK(nuz_write, t, 2, writes, NUZ_S("newer")).number == 5);
    CHECK(ASK(nuz_read, t, 3, reads.number, b, sizeof b).code == NUZ_WAITS && b[0] == '.');
    CHECK(ASK(nuz_bytes, t, b, sizeof b).code == NUZ_BAD && b[0] == '.');
    CHECK(ASK(nuz_commit, t, 2).code == 0);
    CHECK(ASK(nuz_retry, t, 3, b, 3).number == 5 && memcmp(b, "new.....", 8) == 0);
    CHECK(ASK(nuz_bytes, t, b, sizeof b).size == 5 && memcmp(b, "newer...", 8) == 0);
    nuz_tree_close(t);
    return true;
}

static bool link_that_waits_gives_its_target(void) {
    nuz_tree *t;
    uint8_t b[8] = "........";
    CHECK(opened_with_links(&t) && ASK(nuz_commit, t, 1).code == 0);
    CHECK(ASK(nuz_begin, t).number == 2 && ASK(nuz_begin, t).number == 3);
    CHECK(ASK(nuz_unlink, t, 2, NUZ_S("/to_f")).code == 0 && make_link(t, 2, "other", "/to_f"));
    CHECK(ASK(nuz_readlink, t, 3, NUZ_S("/to_f"), b, sizeof b).code == NUZ_WAITS && b[0] == '.');
    CHECK(ASK(nuz_stat, t, 3, NUZ_S("/to_f")).code == NUZ_WAITS);
    CHECK(ASK(nuz_lstat, t, 3, NUZ_S("/to_d")).kind == NUZ_LINK);
    CHECK(ASK(nuz_readlink, t, 3, NUZ_S("/to_f"), b, sizeof b).code == NUZ_WAITS && b[0] == '.');
    CHECK(ASK(nuz_commit, t, 2).code == 0 && ASK(nuz_retry, t, 3, b, 8).number == 5);
    CHECK(memcmp(b, "other...", 8) == 0);
    CHECK(ASK(nuz_bytes, t, b, sizeof b).size == 5 && memcmp(b, "other...", 8) == 0);
    nuz_tree_close(t);
    return true;
}

static bool list_that_waits_gives_its_names(void) {
    nuz_tree *t;
    uint8_t b[8] = "........";
    CHECK(opened(&t) && ASK(nuz_begin, t).number == 1 && ASK(nuz_begin, t).number == 2);
    CHECK(make_dir(t, 1, "/a").code == 0);
    CHECK(ASK(nuz_list_all, t, 2, NUZ_S("/"), b, sizeof b).code == NUZ_WAITS && b[0] == '.');
    CHECK(ASK(nuz_retry, t, 2, b, sizeof b).code == NUZ_WAITS && b[0] == '.');
    CHECK(ASK(nuz_commit, t, 1).code == 0);
    nuz_answer listed = ASK(nuz_retry, t, 2, b, sizeof b);
    CHECK(listed.number == 1 && listed.size == 3 && memcmp(b, "\1a\0.....", 8) == 0);
    CHECK(ASK(nuz_list, t, 2, NUZ_S("/")).size == 3 && is_name(t, 0, "a", NUZ_DIR));
    nuz_tree_close(t);
    return true;
}

static bool parents_are_in_the_way_under_moss(void) {
    nuz_tree *t;
    CHECK(opened(&t) && ASK(nuz_begin, t).number == 1 && make_dir(t, 1, "/a").code == 0);
    CHECK(ASK(nuz_begin_sub, t, 1).number == 2 && ASK(nuz_stat, t, 2, NUZ_S("/a")).code == 0);
    nuz_tree_close(t);
    CHECK(nuz_tree_open(&t, NUZ_MOSS) == 0);
    CHECK(ASK(nuz_begin, t).number == 1 && make_dir(t, 1, "/a").code == 0);
    CHECK(ASK(nuz_begin_sub, t, 1).number == 2);
    CHECK(ASK(nuz_stat, t, 2, NUZ_S("/a")).code == NUZ_WAITS);
    CHECK(ASK(nuz_blocker, t, 0).number == 1);
    nuz_tree_close(t);
    return true;
}

/* ---- lines of a script */

static bool lines_are_carried_out(void) {
    nuz_tree *t;
    uint8_t b[8] = "........";
    CHECK(opened(&t) && replied(t, ""));
    nuz_answer begun = play(t, "begin");
    CHECK(begun.code == 0 && begun.number == 1 && replied(t, "txn 1\n"));
    CHECK(play(t, "1 open rwc /f").number == 2);
    CHECK(play(t, "1 write 2 two%20words").number == 9);
    CHECK(play(t, "1 pread 2 4 3").number == 3);
    CHECK(ASK(nuz_bytes, t, b, sizeof b).size == 3 && memcmp(b, "wor.....", 8) == 0);
    CHECK(play(t, "1 list /").number == 1 && is_name(t, 0, "f", NUZ_FILE));
    CHECK(play(t, "1 rmdir /f").code == ENOTDIR);
    CHECK(play(t, "commit 9").code == NUZ_NO_TXN);
    CHECK(replied(t, "refused NoTxn\n"));
    CHECK(play(t, "bigin").code == NUZ_BAD && replied(t, "refused NoTxn\n"));
    CHECK(make_dir(t, 1, "/d").stamp == 7 && replied(t, "7 ok\n"));
    CHECK(play(t, "# a comment").code == 0 && replied(t, ""));
    CHECK(play(t, "").code == 0 && replied(t, ""));
    nuz_tree_close(t);
    return true;
}

static bool lines_are_told_their_replies(void) {
    nuz_tree *t;
    uint8_t b[12] = "............";
    CHECK(opened(&t));
    nuz_answer begun = ASK(nuz_request, t, NUZ_S("begin"), b, sizeof b);
    CHECK(begun.number == 1 && begun.reply == 6 && memcmp(b, "txn 1\n......", 12) == 0);
    nuz_answer refused = ASK(nuz_request, t, NUZ_S("commit 9"), b, 4);
    CHECK(refused.code == NUZ_NO_TXN && refused.reply == 14);
    CHECK(memcmp(b, "refu1\n......", 12) == 0 && replied(t, "refused NoTxn\n"));
    CHECK(ASK(nuz_request, t, NUZ_S("bigin"), b, sizeof b).reply == 0);
    CHECK(ASK(nuz_request, t, NUZ_S("# none"), b, sizeof b).reply == 0);
    CHECK(memcmp(b, "refu1\n......", 12) == 0 && make_dir(t, 1, "/d").reply == 0);
    nuz_answer told = ASK(nuz_request, t, NUZ_S("attributes"), b, sizeof b);
    CHECK(told.size == 13 && told.reply == 13 && memcmp(b, "attributes 0", 12) == 0);
    nuz_tree_close(t);
    return true;
}

static bool lines_of_links_are_carried_out(void) {
    nuz_tree *t;
    uint8_t b[8] = "........";
    CHECK(opened(&t) && ASK(nuz_begin, t).number == 1);
    CHECK(says(t, "1 symlink two%20words /l", "2 ok\n"));
    CHECK(says(t, "1 readlink /l", "3 ok 9 two%20words\n"));
    CHECK(ASK(nuz_bytes, t, b, 3).size == 9 && memcmp(b, "two.....", 8) == 0);
    CHECK(says(t, "1 lstat /l", "4 ok link 2 1 9\n"));
    CHECK(says(t, "1 stat /l", "5 ENOENT\n") && says(t, "1 list /", "6 ok 1 l@\n"));
    CHECK(play(t, "1 lstat /l").kind == NUZ_LINK);
    CHECK(says(t, "tree", "tree 3\ndir 1\nedge 1 l 2\nlink 2 two%20words\n"));
    CHECK(make_link(t, 1, "loop", "/loop") && says(t, "1 stat /loop", "9 ELOOP\n"));
    nuz_tree_close(t);
    return true;
}

static bool lines_of_attributes_are_carried_out(void) {
    nuz_tree *t;
    CHECK(opened(&t) && ASK(nuz_begin, t).number == 1);
    CHECK(says(t, "1 mkdir 700 /d", "2 ok\n") && says(t, "1 open wc=4711 /f", "3 ok 3\n"));
    CHECK(says(t, "1 stat /d", "4 ok dir 2 1 0 attributes 0700 0 0\n"));
    CHECK(says(t, "1 chown 5 - /d", "5 ok\n") && says(t, "1 fchown 3 - 6", "6 ok\n"));
    CHECK(says(t, "1 futime 3 -1 5", "7 ok\n"));
    CHECK(says(t, "1 fstat 3", "8 ok file 3 1 0 attributes 4711 0 6 time -1 5\n"));
    CHECK(is_of(play(t, "1 stat /f"), -1, 5));
    CHECK(says(t, "1 fchmod 3 644", "10 ok\n") && says(t, "1 fchown 3 0 0", "11 ok\n"));
    CHECK(says(t, "1 stat /f", "12 ok file 3 1 0 time -1 5\n"));
    CHECK(says(t, "1 lchown 0 0 /f", "13 ok\n") && says(t, "1 lutime 0 1 /d", "14 EINVAL\n"));
    CHECK(says(t, "1 chmod 0755 /d", "15 ok\n") && says(t, "1 utime 1 2 /f", "16 ok\n"));
    CHECK(play(t, "1 chmod 010000 /d").code == NUZ_BAD);
    CHECK(play(t, "1 chown 4294967295 0 /d").code == NUZ_BAD);
    CHECK(says(t, "tree", "tree 8\ndir 1\ndir 2\nedge 1 d 2\nedge 1 f 3\nfile 3 0\n"
                           "attributes 2 0755 5 0\ntime 3 1 2\nfd 3 3 w 0\n"));
    nuz_tree_close(t);
    return true;
}

static bool reports_are_told(void) {
    nuz_tree *t;
    uint8_t b[12] = "............";
    CHECK(opened(&t) && ASK(nuz_begin, t).number == 1 && make_dir(t, 1, "/a").code == 0);
    CHECK(says(t, "tree", "tree 3\ndir 1\ndir 2\nedge 1 a 2\n"));
    CHECK(ASK(nuz_reply, t, b, 6).size == 30 && memcmp(b, "tree 3......", 12) == 0);
    CHECK(says(t, "locks",
               "locks 2\nlock entry 1 a write 1 held\nlock parent 2 write 1 held\n"));
    CHECK(says(t, "attributes", "attributes 0\n"));
    CHECK(ASK(nuz_chmod, t, 1, NUZ_S("/a"), 0).code == 0);
    CHECK(says(t, "attributes", "attributes 1\nlock attributes 2 write 1 held\n"));
    CHECK(ASK(nuz_undo, t, 1).code == 0);
    CHECK(ASK(nuz_begin, t).number == 2 && ASK(nuz_stat, t, 2, NUZ_S("/a")).code == NUZ_WAITS);
    CHECK(says(t, "waits", "edges 1\nedge 2 1 lock\nranks 1:0 2:1\n"));
    CHECK(ASK(nuz_blocker, t, 0).code == NUZ_BAD);
    nuz_tree_close(t);
    return true;
}

static bool locks_of_a_transaction_are_told(void) {
    nuz_tree *t;
    const char *const text = "locks 2\nlock entry 1 a write 1 held\nlock parent 2 write 1 held\n"
                             "attributes 0\n";
    char b[128];
    CHECK(opened(&t) && ASK(nuz_begin, t).number == 1 && ASK(nuz_begin, t).number == 2);
    CHECK(make_dir(t, 1, "/a").code == 0 && ASK(nuz_stat, t, 2, NUZ_S("/no")).code == ENOENT);
    memset(b, '.', sizeof b);
    CHECK(ASK(nuz_locks, t, 1, b, sizeof b).size == strlen(text));
    CHECK(memcmp(b, text, strlen(text)) == 0 && b[strlen(text)] == '.');
    CHECK(ASK(nuz_locks, t, 2, b, 5).size == 49 && memcmp(b, "locks 2", 7) == 0);
    CHECK(ASK(nuz_locks, t, 2, b, sizeof b).size == 49);
    CHECK(memcmp(b, "locks 1\nlock entry 1 no read 2 held\nattributes 0\n", 49) == 0);
    CHECK(replied(t, "3 ENOENT\n") && ASK(nuz_locks, t, 9, b, sizeof b).size == 21);
    CHECK(memcmp(b, "locks 0\nattributes 0\n", 21) == 0);
    nuz_tree_close(t);
    return true;
}

/* ---- out of memory */

/* Whether each request for which there may be none is refused as out of memory, which is the last
 * answer then; and one that is refused anyhow as with memory. */
static bool are_refused(nuz_tree *t, uint64_t fd) {
    CHECK(make_dir(t, 1, "/d").code == NUZ_MEMORY && ASK(nuz_blocker, t, 0).code == NUZ_BAD);
    CHECK(make_dir(t, 9, "/d").code == NUZ_NO_TXN);
    CHECK(ASK(nuz_rename, t, 1, NUZ_S("/f"), NUZ_S("/g")).code == NUZ_MEMORY);
    CHECK(ASK(nuz_symlink, t, 1, NUZ_S("f"), NUZ_S("/g")).code == NUZ_MEMORY);
    CHECK(ASK(nuz_readlink, t, 9, NUZ_S("/f"), (uint8_t[1]){ 0 }, 1).code == NUZ_NO_TXN);
    CHECK(ASK(nuz_pwrite, t, 1, fd, NUZ_S("new"), 0).code == NUZ_MEMORY);
    CHECK(ASK(nuz_mkdir, t, 1, NUZ_S("/d"), 0700).code == NUZ_MEMORY);
    CHECK(ASK(nuz_open, t, 1, NUZ_S("/g"), NUZ_O_WRONLY | NUZ_O_CREAT, 0).code == NUZ_MEMORY);
    CHECK(ASK(nuz_chmod, t, 1, NUZ_S("/f"), 0).code == NUZ_MEMORY);
    CHECK(ASK(nuz_fchmod, t, 1, fd, 0).code == NUZ_MEMORY);
    CHECK(ASK(nuz_chown, t, 1, NUZ_S("/f"), 1, 1).code == NUZ_MEMORY);
    CHECK(ASK(nuz_lchown, t, 1, NUZ_S("/f"), 1, 1).code == NUZ_MEMORY);
    CHECK(ASK(nuz_fchown, t, 1, fd, 1, 1).code == NUZ_MEMORY);
    CHECK(ASK(nuz_utime, t, 1, NUZ_S("/f"), 1, 1).code == NUZ_MEMORY);
    CHECK(ASK(nuz_lutime, t, 1, NUZ_S("/f"), 1, 1).code == NUZ_MEMORY);
    CHECK(ASK(nuz_futime, t, 1, fd, 1, 1).code == NUZ_MEMORY);
    CHECK(ASK(nuz_chmod, t, 9, NUZ_S("/f"), 0).code == NUZ_NO_TXN);
    CHECK(play(t, "tree").code == NUZ_MEMORY);
    CHECK(ASK(nuz_locks, t, 1, NULL, 0).code == NUZ_MEMORY);
    CHECK(ASK(nuz_cycle, t, NULL, 0).code == NUZ_MEMORY);
    CHECK(ASK(nuz_blockers, t, 1, NULL, 0).code == NUZ_MEMORY);
    CHECK(ASK(nuz_blockers, t, 9, NULL, 0).code == NUZ_NO_TXN);
    return true;
}

static bool want_of_memory_changes_nothing(void) {
    nuz_tree *t, *other = NULL;
    CHECK(opened(&t) && ASK(nuz_begin, t).number == 1 && make_file(t, 1, "/f", "old"));
    uint64_t fd = open_file(t, 1, "/f");
    CHECK(ASK(nuz_begin_sub, t, 1).number == 2 && make_dir(t, 2, "/two").code == 0);
    CHECK(ASK(nuz_begin_sub, t, 1).number == 3 && make_dir(t, 3, "/three").code == 0);
    CHECK(ASK(nuz_list, t, 1, NUZ_S("/")).code == NUZ_WAITS && ASK(nuz_blocker, t, 0).number == 2);
    allocations_left = 0;
    uint32_t no_tree = nuz_tree_open(&other, NUZ_RELAXED);
    uint32_t none_with = nuz_tree_open_with(&other, NUZ_RELAXED, &SCRIPT);
    bool refused = are_refused(t, fd);
    nuz_answer committed = ASK(nuz_commit, t, 2), ended = ASK(nuz_write, t, 2, fd, NUZ_S("new"));
    nuz_answer aborted = ASK(nuz_abort, t, 3), undone = ASK(nuz_undo, t, 1);
    allocations_left = -1;
    CHECK(no_tree == NUZ_MEMORY && none_with == NUZ_MEMORY && other == NULL && refused);
    CHECK(committed.code == 0 && ended.code == NUZ_ENDED);
    CHECK(aborted.code == 0 && undone.code == NUZ_SUB_SINCE);
    CHECK(says(t, "tree", "tree 6\ndir 1\ndir 6\nedge 1 f 2\nedge 1 two 6\nfile 2 3 old\n"
                           "fd 5 2 rw 0\n"));
    nuz_tree_close(t);
    return true;
}

/* Lines that take memory for all that there is: transactions, calls, locks, names and bytes. */
static const char *const LINES[] = {
    "begin",           "1 mkdir /d",        "1 open rwc /d/f", "1 write 3 some%20bytes",
    "sub 1",           "2 rename /d/f /g",  "2 list /",        "2 link /g /d/h",
    "begin",           "3 stat /g",         "1 pread 3 0 99",  "1 ftruncate 3 5000",
    "commit 2",        "1 symlink h /d/l",  "1 readlink /d/l", "1 pwrite 3 4096 x",
    "1 unlink /g",     "commit 1",          "retry 3",         "3 unlink /d/h",
    "undo 3",          "3 lstat /d/l",      "3 truncate 4 /d/l", "3 mkdir 0700 /e",
    "3 chmod 0711 /d", "3 chown 1 2 /d/h",  "3 utime 5 6 /d/h", "3 open wc=0600 /d/i",
    "3 rmdir /e",      "3 unlink /d/i",     "undo 3",           "undo 3",
    "undo 3",          "3 close 3",         "commit 3",
};

/* Carries out the lines, and makes again, with memory, the first for which there was none: whether
 * there was one. *sum tells all that they have answered. */
static bool has_run_out(nuz_tree *tree, uint64_t *sum) {
    bool has = false;
    for (size_t i = 0; i < sizeof LINES / sizeof *LINES; i++) {
        nuz_answer answer = play(tree, LINES[i]);
        if (answer.code == NUZ_MEMORY) {
            has = true;
            allocations_left = -1;
            answer = play(tree, LINES[i]);
        }
        *sum = *sum * 31 + answer.code + answer.stamp + answer.number + answer.size;
    }
    return has;
}

static bool checkpoint_takes_no_memory(void) {
    nuz_tree *t;
    CHECK(opened(&t) && ASK(nuz_begin, t).number == 1 && make_file(t, 1, "/f", "bytes"));
    allocations_left = 0;
    nuz_answer live = ASK(nuz_checkpoint, t), committed = ASK(nuz_commit, t, 1);
    nuz_answer cleared = ASK(nuz_checkpoint, t);
    allocations_left = -1;
    CHECK(live.code == NUZ_LIVE && committed.code == 0 && cleared.code == 0);
    CHECK(ASK(nuz_commit, t, 1).code == NUZ_NO_TXN && ASK(nuz_begin, t).number == 2);
    CHECK(ASK(nuz_stat, t, 2, NUZ_S("/f")).size == 5);
    nuz_tree_close(t);
    return true;
}

static bool request_is_made_again_after_want_of_memory(void) {
    uint64_t sum = 0, wanted = 0;
    long n = 0;
    for (bool has = true; has; n++) {
        nuz_tree *t;
        CHECK(opened(&t));
        wanted = sum;
        sum = 0;
        allocations_left = n;
        has = has_run_out(t, &sum);
        allocations_left = -1;
        CHECK(n == 0 || sum == wanted);
        CHECK(says(t, "tree",
                   "tree 13\ndir 1\ndir 2\ndir 18\nedge 1 d 2\nedge 1 e 18\nedge 2 h 3\n"
                   "edge 2 l 10\nfile 3 4 some\nlink 10 h\nattributes 2 0711 0 0\n"
                   "attributes 18 0700 0 0\nattributes 3 0644 1 2\ntime 3 5 6\n"));
        nuz_tree_close(t);
    }
    CHECK(n > 10);
    return true;
}

/* ---- all of them */

static const test TESTS[] = {
    TEST(no_tree_is_closed),
    TEST(version_is_that_of_the_header),
    TEST(seed_changes_no_answer),
    TEST(bad_options_are_told),
    TEST(tree_is_opened_over_garbage),
    TEST(trees_are_closed_in_flat_memory),
    TEST(trees_are_apart),
    TEST(transactions_nest),
    TEST(calls_are_undone),
    TEST(refusals_are_told),
    TEST(checkpoint_forgets),
    TEST(depth_is_limited),
    TEST(transactions_are_limited),
    TEST(calls_are_limited),
    TEST(files_are_limited),
    TEST(links_are_limited),
    TEST(limits_above_the_greatest_are_told),
    TEST(limits_to_come_are_none),
    TEST(limits_are_the_greatest),
    TEST(directories_are_made_and_removed),
    TEST(names_of_files_change),
    TEST(names_are_cut_to_the_room),
    TEST(directories_are_listed_whole),
    TEST(lists_are_cut_to_the_room),
    TEST(what_is_no_directory_is_not_listed),
    TEST(null_of_no_length_is_empty),
    TEST(bad_arguments_are_told),
    TEST(symbolic_links_are_made_and_read),
    TEST(targets_are_cut_to_the_room),
    TEST(only_symbolic_links_have_targets),
    TEST(symbolic_links_lead_on),
    TEST(last_link_is_followed),
    TEST(last_link_is_not_followed),
    TEST(forty_links_are_followed),
    TEST(attributes_of_what_is_new_are_told),
    TEST(modes_are_set),
    TEST(modes_are_given_to_what_is_made),
    TEST(owners_are_set),
    TEST(times_are_set),
    TEST(new_bytes_have_no_time),
    TEST(attributes_are_taken_back),
    TEST(directory_that_goes_takes_its_attributes_with_it),
    TEST(others_wait_for_attributes),
    TEST(files_are_written_and_read),
    TEST(flags_of_open_are_kept_apart),
    TEST(flags_that_are_none_are_told),
    TEST(bytes_without_room_are_not_copied),
    TEST(paths_that_are_too_long_are_told),
    TEST(constants_are_those_of_the_system),
    TEST(answer_has_its_layout),
    TEST(error_numbers_are_those_of_the_system),
    TEST(codes_have_texts),
    TEST(blockers_are_told),
    TEST(all_blockers_are_told),
    TEST(deadlocks_are_told),
    TEST(call_that_waits_is_cancelled),
    TEST(read_that_waits_gives_its_bytes),
    TEST(link_that_waits_gives_its_target),
    TEST(list_that_waits_gives_its_names),
    TEST(parents_are_in_the_way_under_moss),
    TEST(lines_are_carried_out),
    TEST(lines_are_told_their_replies),
    TEST(lines_of_links_are_carried_out),
    TEST(lines_of_attributes_are_carried_out),
    TEST(reports_are_told),
    TEST(locks_of_a_transaction_are_told),
    TEST(want_of_memory_changes_nothing),
    TEST(checkpoint_takes_no_memory),
    TEST(request_is_made_again_after_want_of_memory),
};

int main(int argc, char **argv) {
    if (argc > 1) {
        most_trees = strtoull(argv[1], NULL, 10);
        is_short = true;
    }
    return RUN_TESTS(TESTS, NULL);
}
