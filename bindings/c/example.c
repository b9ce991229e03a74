/* One job with two steps. The first step fails and leaves nothing. */
#include <nuzolged.h>

#include <inttypes.h>
#include <stdio.h>
#include <stdlib.h>

/* Makes a file with these bytes. Returns 0, or the code of an error. */
static uint32_t make_file(nuz_tree *tree, uint64_t txn, const char *path, const char *bytes) {
    const uint32_t flags = NUZ_O_WRONLY | NUZ_O_CREAT | NUZ_O_EXCL;
    nuz_answer opened, answer;
    uint32_t code = nuz_open(tree, txn, NUZ_S(path), flags, NUZ_DEFAULT_MODE, &opened);
    if (code == 0) code = nuz_write(tree, txn, opened.number, NUZ_S(bytes), &answer);
    if (code == 0) code = nuz_close(tree, txn, opened.number, &answer);
    return code;
}

/* A step that makes a file and then fails. */
static uint32_t fail_step(nuz_tree *tree, uint64_t job) {
    nuz_answer step, aborted;
    uint32_t code = nuz_begin_sub(tree, job, &step);
    if (code == 0) code = make_file(tree, step.number, "/half", "not all of it");
    if (code == 0) code = nuz_abort(tree, step.number, &aborted);
    if (code == 0) {
        printf("the first step failed, and %" PRIu64 " calls were taken back\n", aborted.number);
    }
    return code;
}

/* A step that makes a file. */
static uint32_t do_step(nuz_tree *tree, uint64_t job) {
    nuz_answer step, answer;
    uint32_t code = nuz_begin_sub(tree, job, &step);
    if (code == 0) code = make_file(tree, step.number, "/whole", "all of it");
    if (code == 0) code = nuz_commit(tree, step.number, &answer);
    return code;
}

/* Runs the job, and prints the tree that it leaves. */
static uint32_t run_job(nuz_tree *tree) {
    char text[256];
    nuz_answer job, answer;
    uint32_t code = nuz_begin(tree, &job);
    if (code == 0) code = fail_step(tree, job.number);
    if (code == 0) code = do_step(tree, job.number);
    if (code == 0) code = nuz_commit(tree, job.number, &answer);
    if (code == 0) code = nuz_request(tree, NUZ_S("tree"), text, sizeof text, &answer);
    if (code == 0) {
        fwrite(text, 1, answer.reply < sizeof text ? answer.reply : sizeof text, stdout);
    }
    return code;
}

int main(void) {
    nuz_tree *tree;
    uint32_t code = nuz_tree_open(&tree, 0);
    if (code == 0) {
        code = run_job(tree);
    }
    if (code != 0) {
        fprintf(stderr, "example: %s\n", nuz_strerror(code));
    }
    nuz_tree_close(tree);
    return code == 0 ? EXIT_SUCCESS : EXIT_FAILURE;
}
