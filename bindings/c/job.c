/* job: carries out a job of steps on a tree in memory, and prints the tree that it leaves.
 *
 *     job < FILE
 *
 * A line of FILE is one of these; words are separated by spaces, and # begins a comment:
 *
 *     step NAME         the lines up to the next step belong to this one
 *     mkdir PATH        makes a directory
 *     put PATH TEXT     makes a file of the rest of the line
 *     add PATH TEXT     adds the rest of the line to a file
 *     copy FROM TO      copies a file
 *     move FROM TO      renames a file or a directory
 *     remove PATH       removes a file
 *     need PATH         fails if the path leads to nothing
 *
 * Each step is a transaction inside that of the job. A step that fails is rolled back, with all it
 * has done so far; the others stay. The status is 0 if no step has failed, 1 if one has, and 2 if
 * the job could not be carried out.
 */
#include <nuzolged.h>

#include <inttypes.h>
#include <stdio.h>
#include <stdlib.h>

enum { LONGEST_LINE = 4096, LONGEST_FILE = 1048576 };

/* A job: its tree, its transaction, and the step at which it is. */
typedef struct job {
    nuz_tree *tree;
    uint64_t txn;
    uint64_t step;  /* the transaction of the step; 0 before the first, and once it has failed */
    unsigned failures;
    char name[LONGEST_LINE];
} job;

/* Does what a line of a step says, given its two words. Returns 0, or the code of an error. */
typedef uint32_t (*action)(job *, const char *, const char *);

/* ---- actions */

static uint32_t do_mkdir(job *job, const char *path, const char *rest) {
    nuz_answer answer;
    (void)rest;
    return nuz_mkdir(job->tree, job->step, NUZ_S(path), NUZ_DEFAULT_MODE, &answer);
}

/* Writes bytes to an open file. */
static uint32_t write_all(job *job, uint64_t fd, const char *bytes, size_t len) {
    /* (a file that is full takes fewer bytes, and then none, which is EFBIG) */
    for (size_t done = 0; done < len;) {
        nuz_answer written;
        uint32_t code = nuz_write(job->tree, job->step, fd, bytes + done, len - done, &written);
        if (code != 0) {
            return code;
        }
        done += written.number;
    }
    return 0;
}

/* Opens a file, writes these bytes to it, and closes it. */
static uint32_t write_file(job *job, const char *path, const char *bytes, size_t len, bool add) {
    const uint32_t flags = NUZ_O_WRONLY | NUZ_O_CREAT | (add ? NUZ_O_APPEND : NUZ_O_EXCL);
    nuz_answer opened, closed;
    uint32_t code =
        nuz_open(job->tree, job->step, NUZ_S(path), flags, NUZ_DEFAULT_MODE, &opened);
    if (code == 0) code = write_all(job, opened.number, bytes, len);
    if (code == 0) code = nuz_close(job->tree, job->step, opened.number, &closed);
    return code;
}

/* Opens a file, reads all its bytes, and closes it: how many there are. */
static uint32_t read_file(job *job, uint64_t txn, const char *path, char *bytes, size_t *len) {
    nuz_answer opened, got, closed;
    uint32_t code =
        nuz_open(job->tree, txn, NUZ_S(path), NUZ_O_RDONLY, NUZ_DEFAULT_MODE, &opened);
    if (code == 0) code = nuz_read(job->tree, txn, opened.number, bytes, LONGEST_FILE, &got);
    if (code == 0) code = nuz_close(job->tree, txn, opened.number, &closed);
    *len = code == 0 ? got.number : 0;
    return code;
}

static uint32_t do_put(job *job, const char *path, const char *rest) {
    return write_file(job, path, NUZ_S(rest), false);
}

static uint32_t do_add(job *job, const char *path, const char *rest) {
    return write_file(job, path, NUZ_S(rest), true);
}

static uint32_t do_copy(job *job, const char *from, const char *to) {
    static char bytes[LONGEST_FILE];
    size_t len;
    uint32_t code = read_file(job, job->step, from, bytes, &len);
    return code != 0 ? code : write_file(job, to, bytes, len, false);
}

static uint32_t do_move(job *job, const char *from, const char *to) {
    nuz_answer answer;
    return nuz_rename(job->tree, job->step, NUZ_S(from), NUZ_S(to), &answer);
}

static uint32_t do_remove(job *job, const char *path, const char *rest) {
    nuz_answer answer;
    (void)rest;
    return nuz_unlink(job->tree, job->step, NUZ_S(path), &answer);
}

static uint32_t do_need(job *job, const char *path, const char *rest) {
    nuz_answer answer;
    (void)rest;
    return nuz_stat(job->tree, job->step, NUZ_S(path), &answer);
}

static const struct {
    const char *word;
    action act;
} ACTIONS[] = {
    { "mkdir", do_mkdir }, { "put", do_put },       { "add", do_add },   { "copy", do_copy },
    { "move", do_move },   { "remove", do_remove }, { "need", do_need },
};

/* The action of a word, or NULL. */
static action action_of(const char *word) {
    for (size_t i = 0; i < sizeof ACTIONS / sizeof *ACTIONS; i++) {
        if (strcmp(word, ACTIONS[i].word) == 0) {
            return ACTIONS[i].act;
        }
    }
    return NULL;
}

/* ---- steps */

/* Gives up: this job can't go on after such an answer. */
static void give_up(const char *what, uint32_t code) {
    fprintf(stderr, "job: %s: %s\n", what, nuz_strerror(code));
    exit(2);
}

/* Commits the step at which the job is, if there is one. */
static void end_step(job *job) {
    if (job->step == 0) {
        return;
    }
    nuz_answer answer;
    uint32_t code = nuz_commit(job->tree, job->step, &answer);
    if (code != 0) {
        give_up("commit", code);
    }
    printf("%s: done\n", job->name);
    job->step = 0;
}

/* Undoes the step at which the job is, and prints the line and the reason. */
static void fail_step(job *job, const char *word, const char *path, uint32_t code) {
    nuz_answer aborted;
    uint32_t refused = nuz_abort(job->tree, job->step, &aborted);
    if (refused != 0) {
        give_up("abort", refused);
    }
    printf("%s: failed at %s %s: %s; calls taken back: %" PRIu64 "\n", job->name, word, path,
           nuz_strerror(code), aborted.number);
    job->step = 0;
    job->failures++;
}

static void begin_step(job *job, const char *name) {
    end_step(job);
    nuz_answer begun;
    uint32_t code = nuz_begin_sub(job->tree, job->txn, &begun);
    if (code != 0) {
        give_up("step", code);
    }
    job->step = begun.number;
    snprintf(job->name, sizeof job->name, "%s", name);
}

/* Carries out a line. Lines after the failure of a step are passed over. */
static void do_line(job *job, char *line) {
    line[strcspn(line, "\n")] = '\0';
    char *word = strtok(line, " ");
    if (word == NULL || word[0] == '#') {
        return;
    }
    char *path = strtok(NULL, " ");
    char *rest = strtok(NULL, "");
    if (path == NULL) {
        give_up(word, NUZ_BAD);
    }
    if (strcmp(word, "step") == 0) {
        begin_step(job, path);
        return;
    }
    action act = action_of(word);
    if (act == NULL) {
        give_up(word, NUZ_BAD);
    }
    if (job->step != 0) {
        uint32_t code = act(job, path, rest != NULL ? rest : "");
        if (code != 0) {
            fail_step(job, word, path, code);
        }
    }
}

/* ---- the tree that is left */

/* Prints the bytes of a file after its name. */
static void print_file(job *job, const char *path) {
    static char bytes[LONGEST_FILE];
    size_t len;
    uint32_t code = read_file(job, job->txn, path, bytes, &len);
    if (code != 0) {
        give_up(path, code);
    }
    printf("%s: %.*s\n", path, (int)len, bytes);
}

static void print_below(job *job, const char *path);

/* Prints what a name of a directory leads to. The kind comes before the name. The path of the
 * directory ends with a slash. */
static void print_entry(job *job, const char *directory, const char *entry) {
    char path[LONGEST_LINE];
    bool is_dir = entry[0] == NUZ_DIR;
    int size = snprintf(path, sizeof path, "%s%s%s", directory, entry + 1, is_dir ? "/" : "");
    if (size < 0 || (size_t)size >= sizeof path) {
        give_up(directory, NUZ_BAD);
    }
    if (!is_dir) {
        print_file(job, path);
        return;
    }
    puts(path);
    print_below(job, path);
}

/* Prints what is below a directory. */
static void print_below(job *job, const char *path) {
    nuz_answer listed, told;
    uint32_t code = nuz_list_all(job->tree, job->txn, NUZ_S(path), NULL, 0, &listed);
    char *names = malloc(listed.size + 1);
    if (code != 0 || names == NULL) {
        give_up(path, code != 0 ? code : NUZ_MEMORY);
    }
    nuz_bytes(job->tree, names, listed.size, &told);
    for (size_t at = 0; at < listed.size; at += strlen(names + at) + 1) {
        print_entry(job, path, names + at);
    }
    free(names);
}

int main(void) {
    static job job;
    nuz_answer begun, answer;
    nuz_limits limits = NUZ_LIMITS_GREATEST;
    limits.file_size = LONGEST_FILE; /* so that each file has room in one buffer */
    uint32_t code = nuz_tree_open_with(&job.tree, 0, &limits);
    if (code == 0) code = nuz_begin(job.tree, &begun);
    if (code != 0) {
        give_up("open", code);
    }
    job.txn = begun.number;
    char line[LONGEST_LINE];
    while (fgets(line, sizeof line, stdin) != NULL) {
        do_line(&job, line);
    }
    end_step(&job);
    print_below(&job, "/");
    code = nuz_commit(job.tree, job.txn, &answer);
    nuz_tree_close(job.tree);
    if (code != 0) {
        give_up("commit", code);
    }
    return job.failures == 0 ? EXIT_SUCCESS : EXIT_FAILURE;
}
