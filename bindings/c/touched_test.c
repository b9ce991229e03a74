/* Tries the functions of nuzolged_touched.h.
 *
 *     touched_test
 *
 * The last line is 'N passed, M failed', and the status is 0 if none failed. It is linked with
 * --wrap=malloc and --wrap=realloc, so that memory runs out when a test says so.
 *
 *     touched_test depfile TARGET TOP NAME..
 *
 * writes the depfile of a transaction that has read files of these names to standard output. The
 * status is 1 if there is no form for one of them.
 */
#include <nuzolged_touched.h>

#include "scarce.h"
#include "testing.h"

/* ---- what the tests begin with */

/* A tree, and a transaction of it in which lines are carried out. */
typedef struct job {
    nuz_tree *tree;
    uint64_t txn;
} job;

static nuz_answer answer;

static bool begins(job *job) {
    job->txn = nuz_begin(job->tree, &answer) == 0 ? answer.number : 0;
    return job->txn != 0;
}

/* Carries out requests of the transaction, each with a semicolon after it: all are granted, even if
 * they fail. */
static bool does(job *job, const char *requests) {
    bool is_good = true;
    for (const char *at = requests; is_good && *at != '\0';) {
        int len = (int)strcspn(at, ";");
        char line[8192];
        int size = snprintf(line, sizeof line, "%d %.*s", (int)job->txn, len, at);
        is_good = nuz_request(job->tree, line, (size_t)size, NULL, 0, &answer) < NUZ_MEMORY;
        at += len + 1;
    }
    return is_good;
}

/* Opens a tree, in which a transaction has carried out lines, and begins another one. */
static bool begun(job *job, const char *requests) {
    return nuz_tree_open(&job->tree, 0) == 0 && begins(job) && does(job, requests)
        && nuz_commit(job->tree, job->txn, &answer) == 0 && begins(job);
}

/* Whether it has touched exactly what is listed here. */
static bool has_touched(const job *job, const char *manifest) {
    char text[4096];
    uint32_t code = nuz_manifest(job->tree, job->txn, text, sizeof text, &answer);
    bool is_so = code == 0 && answer.code == 0 && answer.size == strlen(manifest)
              && memcmp(text, manifest, strlen(manifest)) == 0;
    if (!is_so) {
        fprintf(stderr, "code %d, has touched:\n%.*s", (int)code, (int)answer.size, text);
    }
    return is_so;
}

/* Whether this is its depfile. */
static bool has_depfile(const job *job, const char *target, const char *top, const char *depfile) {
    char text[4096];
    uint32_t code = nuz_depfile(job->tree, job->txn, target, top, text, sizeof text, &answer);
    bool is_so = code == 0 && answer.code == 0 && answer.size == strlen(depfile)
              && memcmp(text, depfile, strlen(depfile)) == 0;
    if (!is_so) {
        fprintf(stderr, "code %d, has the depfile:\n%.*s", (int)code, (int)answer.size, text);
    }
    return is_so;
}

/* Two directories and two files. */
static const char *const FOLDERS = "mkdir /d;mkdir /d/e;open wc /d/f;open wc /d/g%20h;";

/* ---- reports */

static bool nothing_is_told(void) {
    job job;
    CHECK(begun(&job, FOLDERS) && has_touched(&job, "") && answer.number == 0);
    CHECK(has_depfile(&job, NULL, NULL, "") && has_depfile(&job, "t", NULL, "t:\n"));
    CHECK(does(&job, "stat /d;") && nuz_commit(job.tree, job.txn, &answer) == 0);
    CHECK(has_touched(&job, ""));
    job.txn = 99;
    CHECK(has_touched(&job, ""));
    nuz_tree_close(job.tree);
    return true;
}

static bool reads_are_told(void) {
    job job;
    CHECK(begun(&job, FOLDERS) && does(&job, "stat /d/f;stat /d/none/x;list /d/e;stat /;"));
    CHECK(has_touched(&job, "/ read dir\n/d read dir\n/d/e read,listed dir\n/d/f read file\n"
                            "/d/none absent none\n"));
    CHECK(answer.number == 5);
    nuz_tree_close(job.tree);
    return true;
}

static bool writes_are_told(void) {
    job job;
    CHECK(begun(&job, FOLDERS));
    CHECK(does(&job, "truncate 3 /d/g%20h;unlink /d/f;mkdir /n;rmdir /n;symlink none /l;"));
    CHECK(does(&job, "list /;chmod 0700 /d/e;"));
    CHECK(has_touched(&job, "/ listed dir\n/d read dir\n/d/e read,written dir\n"
                            "/d/f written none\n/d/g%20h read,written file\n"
                            "/l written link\n/n written none\n"));
    nuz_tree_close(job.tree);
    return true;
}

static bool links_are_told(void) {
    job job;
    CHECK(begun(&job, "mkdir /d;open wc /d/f;symlink d /l;symlink none /m;"));
    CHECK(does(&job, "stat /l/f;stat /m;"));
    CHECK(has_touched(&job, "/d read dir\n/d/f read file\n/l read link\n/m read link\n"
                            "/none absent none\n"));
    CHECK(has_depfile(&job, "t", "", "t: \\\n  /d/f\n"));
    nuz_tree_close(job.tree);
    return true;
}

static bool renamed_directory_has_its_new_path(void) {
    job job;
    CHECK(begun(&job, "mkdir /d;mkdir /d/e;open wc /d/e/f;"));
    CHECK(does(&job, "stat /d/e/f;stat /d/none;rename /d /new;"));
    CHECK(has_touched(&job, "/d read,written none\n/new written dir\n/new/e read dir\n"
                            "/new/e/f read file\n/new/none absent none\n"));
    nuz_tree_close(job.tree);
    return true;
}

static bool name_in_a_directory_that_is_gone_is_not_told(void) {
    job job;
    CHECK(begun(&job, "mkdir /d;open wc /d/f;") && does(&job, "unlink /d/f;rmdir /d;"));
    CHECK(has_touched(&job, "/d read,written none\n"));
    nuz_tree_close(job.tree);
    return true;
}

/* A file of two names, /a and /b. */
static const char *const TWO_NAMES = "open rwc /a;link /a /b;";

static bool one_of_two_names_is_read(void) {
    job job;
    CHECK(begun(&job, TWO_NAMES) && does(&job, "stat /b;"));
    CHECK(has_touched(&job, "/b read file\n"));
    CHECK(does(&job, "truncate 1 /b;") && has_touched(&job, "/a written file\n"
                                                            "/b read,written file\n"));
    nuz_tree_close(job.tree);
    return true;
}

static bool file_of_a_descriptor_is_told_by_all_its_names(void) {
    job job;
    CHECK(begun(&job, TWO_NAMES) && does(&job, "pread 2 0 9;"));
    CHECK(has_touched(&job, "/a read file\n/b read file\n"));
    CHECK(does(&job, "pwrite 2 0 new;"));
    CHECK(has_touched(&job, "/a read,written file\n/b read,written file\n"));
    nuz_tree_close(job.tree);
    return true;
}

static bool steps_hand_up_what_they_touched(void) {
    job job, step;
    CHECK(begun(&job, FOLDERS) && nuz_begin_sub(job.tree, job.txn, &answer) == 0);
    step = (struct job){ job.tree, answer.number };
    CHECK(does(&step, "stat /d/f;") && has_touched(&job, ""));
    CHECK(has_touched(&step, "/d read dir\n/d/f read file\n"));
    CHECK(nuz_commit(job.tree, step.txn, &answer) == 0);
    CHECK(has_touched(&job, "/d read dir\n/d/f read file\n"));
    CHECK(nuz_begin_sub(job.tree, job.txn, &answer) == 0);
    step.txn = answer.number;
    CHECK(does(&step, "mkdir /gone;") && nuz_abort(job.tree, step.txn, &answer) == 0);
    CHECK(has_touched(&job, "/d read dir\n/d/f read file\n"));
    nuz_tree_close(job.tree);
    return true;
}

static bool others_are_left_out(void) {
    job job, other;
    CHECK(begun(&job, FOLDERS));
    other = job;
    CHECK(begins(&other) && does(&other, "mkdir /other;stat /d;") && does(&job, "stat /d/f;"));
    CHECK(has_touched(&job, "/d read dir\n/d/f read file\n"));
    CHECK(has_touched(&other, "/d read dir\n/other written dir\n"));
    nuz_tree_close(job.tree);
    return true;
}

static bool undone_calls_are_told(void) {
    job job;
    CHECK(begun(&job, "") && does(&job, "mkdir /a;") && nuz_undo(job.tree, job.txn, &answer) == 0);
    CHECK(has_touched(&job, "/a written none\n"));
    nuz_tree_close(job.tree);
    return true;
}

static bool names_are_bytes(void) {
    job job;
    CHECK(begun(&job, "open wc /%25%41%0a%ff;") && does(&job, "stat /%25%41%0a%ff;stat /%01;"));
    CHECK(has_touched(&job, "/%01 absent none\n/%25A%0A%FF read file\n"));
    nuz_tree_close(job.tree);
    return true;
}

/* ---- the callback */

/* The expected reports: the paths, with how and kind. */
typedef struct told {
    char text[256];
    uint32_t count, most;
} told;

static uint32_t tell(void *context, const nuz_touch *touch) {
    told *told = context;
    size_t len = strlen(told->text);
    snprintf(told->text + len, sizeof told->text - len, "%s %u %u;", touch->path,
             (unsigned)touch->how, (unsigned)touch->kind);
    bool is_whole = touch->path[touch->len] == '\0' && strlen(touch->path) == touch->len;
    return ++told->count == told->most ? 77 : is_whole ? 0 : 99;
}

static bool each_is_told(void) {
    job job;
    told told = { "", 0, 9 };
    CHECK(begun(&job, FOLDERS) && does(&job, "stat /none;list /d;unlink /d/f;symlink x /l;"));
    memset(&answer, 0xa5, sizeof answer);
    CHECK(nuz_touched(job.tree, job.txn, tell, &told, &answer) == 0);
    CHECK(answer.code == 0 && answer.number == 4 && answer.size == 0 && answer.stamp == 0);
    CHECK(strcmp(told.text, "/d 3 1;/d/f 4 0;/l 4 3;/none 9 0;") == 0);
    nuz_tree_close(job.tree);
    return true;
}

static bool each_may_end_it(void) {
    job job;
    told told = { "", 0, 2 };
    CHECK(begun(&job, FOLDERS) && does(&job, "stat /d/f;stat /none;"));
    CHECK(nuz_touched(job.tree, job.txn, tell, &told, &answer) == 77 && answer.code == 77);
    CHECK(told.count == 2 && strcmp(told.text, "/d 1 1;/d/f 1 2;") == 0);
    nuz_tree_close(job.tree);
    return true;
}

/* Makes a call by which a further path is touched. */
static uint32_t look_on(void *context, const nuz_touch *touch) {
    job *job = context;
    return touch->len == 1 || does(job, "stat /d/e;") ? 0 : 1;
}

static bool each_may_use_the_tree(void) {
    job job;
    CHECK(begun(&job, FOLDERS) && does(&job, "stat /d/f;"));
    CHECK(nuz_touched(job.tree, job.txn, look_on, &job, &answer) == 0 && answer.number == 2);
    CHECK(has_touched(&job, "/d read dir\n/d/e read dir\n/d/f read file\n"));
    nuz_tree_close(job.tree);
    return true;
}

static bool text_is_cut_to_the_room(void) {
    job job;
    char text[16] = "untouched";
    CHECK(begun(&job, FOLDERS) && does(&job, "stat /d;"));
    CHECK(nuz_manifest(job.tree, job.txn, text, 3, &answer) == 0 && answer.size == 12);
    CHECK(strcmp(text, "/d ouched") == 0 && answer.number == 1);
    CHECK(nuz_depfile(job.tree, job.txn, "t", NULL, text, 1, &answer) == 0 && answer.size == 3);
    CHECK(strcmp(text, "td ouched") == 0 && answer.number == 0);
    CHECK(nuz_manifest(job.tree, job.txn, NULL, 0, &answer) == 0 && answer.size == 12);
    nuz_tree_close(job.tree);
    return true;
}

/* ---- depfiles */

static bool depfile_has_what_was_read(void) {
    job job;
    CHECK(begun(&job, "mkdir /s;open wc /s/a.c;open wc /s/a.h;mkdir /out;"));
    CHECK(does(&job, "stat /s/a.c;stat /s/a.h;stat /s/none.h;open wc /out/a.o;"));
    CHECK(does(&job, "symlink a.o /out/b;"));
    CHECK(has_depfile(&job, "a.o", NULL, "a.o: \\\n  /s/a.c \\\n  /s/a.h\n") && answer.number == 2);
    CHECK(has_depfile(&job, NULL, "/top/", "/top/out/a.o /top/out/b: \\\n  /top/s/a.c \\\n"
                                           "  /top/s/a.h\n"));
    CHECK(does(&job, "list /s;unlink /s/a.h;"));
    CHECK(has_depfile(&job, "a.o", ".", "a.o: \\\n  ./s \\\n  ./s/a.c\n"));
    nuz_tree_close(job.tree);
    return true;
}

static bool depfile_has_escapes(void) {
    job job;
    CHECK(begun(&job, "open wc /a%20b;open wc /a\\%20b;open wc /$%23:x;"));
    CHECK(does(&job, "stat /a%20b;stat /a\\%20b;stat /$%23:x;"));
    CHECK(has_depfile(&job, "a$ t", "/c d",
                      "a$$\\ t: \\\n  /c\\ d/$$\\#\\:x \\\n  /c\\ d/a\\ b \\\n"
                      "  /c\\ d/a\\\\\\ b\n"));
    nuz_tree_close(job.tree);
    return true;
}

/* Whether there is no depfile for what has read a file of that name, or has that target. */
static bool has_no_form(const char *name, const char *target) {
    job job;
    char line[80];
    snprintf(line, sizeof line, "open wc /%s;", name);
    CHECK(begun(&job, line));
    snprintf(line, sizeof line, "stat /%s;", name);
    CHECK(does(&job, line));
    uint32_t code = nuz_depfile(job.tree, job.txn, target, NULL, NULL, 0, &answer);
    CHECK(code == NUZ_BAD && answer.code == NUZ_BAD && answer.size == 0 && answer.number == 0);
    nuz_tree_close(job.tree);
    return true;
}

static bool names_without_a_form_are_told(void) {
    static const char *const names[] = { "a%0ab", "a%09", "%7f", "a=b", "a%3bb", "a*", "a?b", "[a]",
                                         "a|b", "a%20", "a:", "a\\", "a\\%23b", "a\\:b", "a\\$b",
                                         "a(b)", "'", "%22" };
    for (size_t i = 0; i < sizeof names / sizeof *names; i++) {
        CHECK(has_no_form(names[i], "t"));
    }
    static const char *const targets[] = { "", "~/t", "a%b", "a=b", "a ", "a\nb" };
    for (size_t i = 0; i < sizeof targets / sizeof *targets; i++) {
        CHECK(has_no_form("good", targets[i]));
    }
    return true;
}

/* ---- memory */

static char told_text[4096];

static uint32_t ask_manifest(const job *job) {
    return nuz_manifest(job->tree, job->txn, told_text, sizeof told_text, &answer);
}

static uint32_t ask_depfile(const job *job) {
    return nuz_depfile(job->tree, job->txn, NULL, "/top", told_text, sizeof told_text, &answer);
}

/* Whether lack of memory is reported, at whichever allocation it comes. */
static bool tells_want_of_memory(const job *job, uint32_t (*ask)(const struct job *)) {
    long n = 0;
    for (uint32_t code = NUZ_MEMORY; code != 0; n++) {
        allocations_left = n;
        code = ask(job);
        allocations_left = -1;
        CHECK(code == answer.code && (code == 0 || (code == NUZ_MEMORY && answer.size == 0)));
    }
    return n > 10;
}

static bool want_of_memory_is_told(void) {
    job job;
    CHECK(begun(&job, FOLDERS) && does(&job, "stat /d/f;list /;stat /none;open wc /d/n;"));
    CHECK(tells_want_of_memory(&job, ask_manifest) && tells_want_of_memory(&job, ask_depfile));
    CHECK(has_depfile(&job, NULL, NULL, "/d/n: \\\n  / \\\n  /d/f\n"));
    nuz_tree_close(job.tree);
    return true;
}

/* ---- all of them */

static const test TESTS[] = {
    TEST(nothing_is_told),
    TEST(reads_are_told),
    TEST(writes_are_told),
    TEST(links_are_told),
    TEST(renamed_directory_has_its_new_path),
    TEST(name_in_a_directory_that_is_gone_is_not_told),
    TEST(one_of_two_names_is_read),
    TEST(file_of_a_descriptor_is_told_by_all_its_names),
    TEST(steps_hand_up_what_they_touched),
    TEST(others_are_left_out),
    TEST(undone_calls_are_told),
    TEST(names_are_bytes),
    TEST(each_is_told),
    TEST(each_may_end_it),
    TEST(each_may_use_the_tree),
    TEST(text_is_cut_to_the_room),
    TEST(depfile_has_what_was_read),
    TEST(depfile_has_escapes),
    TEST(names_without_a_form_are_told),
    TEST(want_of_memory_is_told),
};

/* Makes a file of each name, reads them in another transaction, and writes its depfile. */
static int write_depfile(const char *target, const char *top, char **names) {
    static char text[1 << 20];
    job job;
    if (!begun(&job, "")) {
        return EXIT_FAILURE;
    }
    for (char **name = names; *name != NULL; name++) {
        nuz_open(job.tree, job.txn, NUZ_S(*name), NUZ_O_CREAT, NUZ_DEFAULT_MODE, &answer);
    }
    nuz_commit(job.tree, job.txn, &answer);
    for (char **name = begins(&job) ? names : NULL; *name != NULL; name++) {
        nuz_stat(job.tree, job.txn, NUZ_S(*name), &answer);
    }
    uint32_t code = nuz_depfile(job.tree, job.txn, target, top, text, sizeof text, &answer);
    fwrite(text, 1, (size_t)answer.size, stdout);
    nuz_tree_close(job.tree);
    return code == 0 ? EXIT_SUCCESS : EXIT_FAILURE;
}

int main(int argc, char **argv) {
    bool writes = argc > 4 && strcmp(argv[1], "depfile") == 0;
    return writes ? write_depfile(argv[2], argv[3], argv + 4) : RUN_TESTS(TESTS, NULL);
}
