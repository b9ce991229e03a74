/* copy [--set-id] [--replace] [--sync] FROM TO: copies a directory of the disk into a tree, in a
 * transaction, and copies what has committed out to another directory. */
#include <nuzolged_copy.h>

#include <stdio.h>
#include <stdlib.h>

/* Copies in, and commits; or undoes what has been copied. */
static uint32_t copied_in(nuz_tree *tree, const char *from, const nuz_copy_options *how,
                          nuz_copy_failure *failure) {
    nuz_answer job, ended;
    uint32_t code = nuz_begin(tree, &job);
    if (code != 0) {
        return code;
    }
    code = nuz_copy_in(tree, job.number, from, NUZ_S("/"), how, failure);
    if (code == 0) {
        return nuz_commit(tree, job.number, &ended);
    }
    nuz_abort(tree, job.number, &ended);
    return code;
}

static uint32_t copied_out(nuz_tree *tree, const char *to, const nuz_copy_options *how,
                           nuz_copy_failure *failure) {
    nuz_answer look, ended;
    uint32_t code = nuz_begin(tree, &look);
    if (code != 0) {
        return code;
    }
    code = nuz_copy_out(tree, look.number, NUZ_S("/"), to, how, failure);
    nuz_abort(tree, look.number, &ended);
    return code;
}

/* The flags in the words before the last two; UINT32_MAX if one is no flag. */
static uint32_t flags_of(int argc, char **argv) {
    uint32_t flags = 0;
    for (int i = 1; i < argc - 2; i++) {
        flags |= strcmp(argv[i], "--set-id") == 0  ? NUZ_COPY_SET_ID
               : strcmp(argv[i], "--replace") == 0 ? NUZ_COPY_REPLACE
               : strcmp(argv[i], "--sync") == 0    ? NUZ_COPY_SYNC
                                                   : UINT32_MAX;
    }
    return flags;
}

int main(int argc, char **argv) {
    nuz_copy_options how = { flags_of(argc, argv), NULL, NULL };
    if (argc < 3 || how.flags == UINT32_MAX) {
        fprintf(stderr, "usage: copy [--set-id] [--replace] [--sync] FROM TO\n");
        return 2;
    }
    nuz_copy_failure failure = { 0 };
    nuz_tree *tree;
    uint32_t code = nuz_tree_open(&tree, 0);
    if (code == 0) code = copied_in(tree, argv[argc - 2], &how, &failure);
    if (code == 0) code = copied_out(tree, argv[argc - 1], &how, &failure);
    nuz_tree_close(tree);
    if (code != 0) {
        const char *where = failure.on_disk || *failure.path == '\0' ? failure.disk : failure.path;
        fprintf(stderr, "copy: %s: %s\n", where, nuz_strerror(code));
    }
    return code == 0 ? EXIT_SUCCESS : EXIT_FAILURE;
}
