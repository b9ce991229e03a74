/* The reports of nuz run about its step: a depfile and a manifest. */
#define _GNU_SOURCE
#include "commands.h"

#include <errno.h>
#include <fcntl.h>
#include <nuzolged_touched.h>
#include <signal.h>
#include <stdio.h>
#include <stdlib.h>
#include <string.h>
#include <sys/stat.h>
#include <unistd.h>

/* ---- files */

/* The file that a path leads to, also by a link; or is to lead to. */
static char *file_of(const char *path) {
    char *file = realpath(path, NULL);
    return file != NULL ? file : joined(path, "", "");
}

/* The stream of this process that a path names, as /dev/stdout and /dev/fd/3 do, or -1. */
static int stream_of(const char *path) {
    int number, size = 0;
    if (strcmp(path, "/dev/stdout") == 0 || strcmp(path, "/dev/stderr") == 0) {
        return path[8] == 'o' ? STDOUT_FILENO : STDERR_FILENO;
    }
    bool is_stream = sscanf(path, "/dev/fd/%9d%n", &number, &size) == 1
                  || sscanf(path, "/proc/self/fd/%9d%n", &number, &size) == 1;
    return is_stream && path[size] == '\0' ? number : -1;
}

/* Whether a path leads to neither a file nor a directory: what is a pipe, say, stays that. */
static bool is_special(const char *path) {
    struct stat status;
    return stat(path, &status) == 0 && !S_ISREG(status.st_mode) && !S_ISDIR(status.st_mode);
}

/* Whether files can be made in the directory of a path. */
static bool has_directory(const char *path) {
    struct place place;
    struct stat status;
    bool is_good = place_of(path, &place) && stat(place.dir, &status) == 0;
    if (is_good && !S_ISDIR(status.st_mode)) {
        errno = ENOTDIR;
        is_good = false;
    }
    is_good = is_good && access(place.dir, W_OK | X_OK) == 0;
    int number = errno;
    place_free(&place);
    errno = number;
    return is_good;
}

/* Whether a file can be written, as it looks now. */
static bool has_place(const char *what, const char *path) {
    struct stat status;
    if (stream_of(path) >= 0) {
        return fcntl(stream_of(path), F_GETFD) >= 0 || fails(what, path);
    }
    char *file = file_of(path);
    bool is_good = is_special(file) ? access(file, W_OK) == 0 : has_directory(file);
    if (is_good && stat(file, &status) == 0 && S_ISDIR(status.st_mode)) {
        errno = EISDIR;
        is_good = false;
    }
    free(file);
    return is_good || fails(what, path);
}

/* The path of a file as seen from the directory that is saved to. */
enum where { ELSEWHERE, ITSELF, BELOW };

/* Whether a path leads into the directory that is saved to, which is another one then. */
static enum where where_of(const struct run *run, const char *path) {
    char *to = run->to == NULL ? NULL : absolute(run->to), *file = absolute(path);
    size_t len = to == NULL ? 0 : strlen(to);
    while (len > 0 && to[len - 1] == '/') {
        len--;
    }
    bool is_there = len > 0 && file != NULL && strncmp(file, to, len) == 0;
    const char *rest = is_there ? file + len : "elsewhere";
    enum where where = rest[strspn(rest, "/")] == '\0' ? ITSELF
                     : rest[0] == '/'                  ? BELOW
                                                       : ELSEWHERE;
    free(to);
    free(file);
    return where;
}

/* The path of a file that is to be written, also when the current directory has been replaced. */
static char *path_then(const struct run *run, const char *path) {
    char *then = run->to == NULL ? NULL : absolute(path);
    return then == NULL ? joined(path, "", "") : then;
}

/* Whether a file can be written when the step has ended, as it looks now. */
static bool has_place_then(const struct run *run, const char *what, const char *path) {
    enum where where = where_of(run, path);
    if (where == ITSELF || path[0] == '\0') {
        errno = where == ITSELF ? EISDIR : ENOENT;
        return fails(what, path);
    }
    return where == BELOW || has_place(what, path);
}

bool can_tell(const struct run *run) {
    const char *depfile = run->depfile, *manifest = run->manifest;
    return (depfile == NULL || has_place_then(run, "depfile", depfile))
        && (manifest == NULL || has_place_then(run, "manifest", manifest));
}

/* Writes a text to an open file, and closes that. */
static bool put(int file, const char *text) {
    size_t size = strlen(text);
    FILE *to = file < 0 ? NULL : fdopen(file, "w");
    bool is_written = to != NULL && fwrite(text, 1, size, to) == size;
    return to != NULL && fclose(to) == 0 && is_written;
}

/* The mode of a file, or of a new one. */
static mode_t mode_of(const char *path) {
    struct stat status;
    mode_t mask = umask(0);
    umask(mask);
    return stat(path, &status) == 0 ? status.st_mode & 0777 : 0666 & ~mask;
}

/* Makes a file next to another one, which it replaces when it is whole. */
static bool put_beside(const char *path, const char *text) {
    struct place place;
    if (!place_of(path, &place)) {
        return false;
    }
    char *made = joined(place.dir, "/.nuz.XXXXXX", "");
    place_free(&place);
    int file = mkostemp(made, O_CLOEXEC);
    bool is_made = file >= 0;
    bool is_put = is_made && fchmod(file, mode_of(path)) == 0 && put(file, text)
               && rename(made, path) == 0;
    int number = errno;
    if (is_made && !is_put) {
        unlink(made);
    }
    free(made);
    errno = number;
    return is_put;
}

/* Writes a text to a file, whose path the command line has. */
static bool write_text(const char *said, const char *path, const char *text) {
    char *file = file_of(path);
    int stream = stream_of(path);
    bool is_written = stream >= 0      ? put(fcntl(stream, F_DUPFD_CLOEXEC, 0), text)
                    : is_special(file) ? put(open(file, O_WRONLY | O_CLOEXEC), text)
                                       : put_beside(file, text);
    free(file);
    return is_written || fails("write", said);
}

/* (That nobody reads a pipe any more is a failure like others.) */
bool write_texts(const struct run *run, const struct texts *texts) {
    signal(SIGPIPE, SIG_IGN);
    bool has_depfile = run->depfile == NULL
                    || write_text(run->depfile, texts->depfile_at, texts->depfile);
    bool has_manifest = run->manifest == NULL
                     || write_text(run->manifest, texts->manifest_at, texts->manifest);
    return has_depfile && has_manifest;
}

/* ---- texts */

/* The mount's report about the step, which is still live, or NULL. */
static char *asked_for(const struct job *job, const char *word, const char *rest) {
    size_t size = 0;
    int number = ask(job->control, word, job->name, rest);
    if (number != 0) {
        const char *file = word[0] == 'd' ? job->run->depfile : job->run->manifest;
        complain_of(job->control, number, word, file);
        return NULL;
    }
    char *text = reply_of(job->control, &size);
    if (text == NULL) {
        fails(word, job->path);
    }
    return text;
}

/* ---- the places of the files of a depfile */

/* The directory that has the tree when the step has committed. */
static char *top_of_mount(const struct job *job) {
    if (job->at != NULL) {
        return joined(job->at, "", "");
    }
    const char *dot = strrchr(job->name, '.');
    char *parent = dot == NULL ? joined("job", "", "")
                               : strndup(job->name, (size_t)(dot - job->name));
    char *top = joined(job->dir, "/", parent == NULL ? "job" : parent);
    free(parent);
    return top;
}

/* The text by which a depfile names the current directory, with a slash at its end, or NULL. */
static char *form_of_here(void) {
    nuz_tree *tree = NULL;
    nuz_answer answer = { 0 };
    char form[16384];
    char *here = getcwd(NULL, 0), *name = here == NULL ? NULL : joined(here, "/", ".");
    uint32_t code = name == NULL ? NUZ_BAD : nuz_tree_open(&tree, NUZ_RELAXED);
    if (code == 0) {
        code = nuz_depfile(tree, 0, name, NULL, form, sizeof form, &answer);
        nuz_tree_close(tree);
    }
    free(name);
    free(here);
    bool is_whole = code == 0 && answer.size > 0 && answer.size < sizeof form;
    form[is_whole ? answer.size : 0] = '\0';
    char *slash = strrchr(form, '/');
    return slash == NULL ? NULL : strndup(form, (size_t)(slash + 1 - form));
}

/* Leaves that text out of a depfile if the names in the current directory begin with it. A name
 * begins after a blank without a backslash. */
static void make_relative(char *text) {
    char *here = form_of_here(), *to = text, before = ' ';
    size_t len = here == NULL ? 0 : strlen(here);
    for (const char *from = text; *from != '\0'; from++) {
        bool is_first = before == ' ' || from == text;
        bool is_here = is_first && len > 0 && strncmp(from, here, len) == 0
                    && strchr("~ \n", from[len]) == NULL;
        from += is_here ? len : 0;
        before = *from == ' ' && from > text && from[-1] == '\\' ? '\\' : *from;
        *to++ = *from;
    }
    *to = '\0';
    free(here);
}

/* ---- depfiles */

/* A depfile whose paths are below a directory. */
static char *depfile_below(const struct job *job, const char *top) {
    const char *target = job->run->target;
    char *rest = joined(top, target == NULL ? "" : "\n", target == NULL ? "" : target);
    char *text = asked_for(job, "depfile", rest);
    free(rest);
    return text;
}

/* A depfile with the targets of one, which are its first line, and what another one has read. */
static char *depfile_of_both(const char *written, const char *read) {
    const char *end = strchr(written, '\n'), *behind = strchr(read, '\n');
    if (end == NULL || behind == NULL) {
        return joined("", "", "");
    }
    char *targets = strndup(written, (size_t)(end - written));
    char *text = joined(targets == NULL ? "" : targets, behind, "");
    free(targets);
    return text;
}

/* The depfile of a run with a mount of its own: what it has read is in the directory that was
 * loaded, and what it has written in the one that is saved to. */
static char *depfile_of_own(const struct job *job) {
    const char *from = job->run->from, *to = job->run->to;
    char *written = depfile_below(job, to == NULL ? from : to);
    char *read = written == NULL ? NULL : depfile_below(job, from == NULL ? to : from);
    char *text = read == NULL ? NULL : depfile_of_both(written, read);
    free(written);
    free(read);
    return text;
}

static char *depfile_of_mount(const struct job *job) {
    char *top = top_of_mount(job);
    char *text = depfile_below(job, top);
    free(top);
    if (text != NULL) {
        make_relative(text);
    }
    return text;
}

bool make_texts(const struct job *job, struct texts *texts) {
    const struct run *run = job->run;
    bool is_own = run->from != NULL || run->to != NULL;
    if (run->depfile != NULL) {
        texts->depfile = is_own ? depfile_of_own(job) : depfile_of_mount(job);
        texts->depfile_at = path_then(run, run->depfile);
    }
    if (run->manifest != NULL) {
        texts->manifest = asked_for(job, "manifest", NULL);
        texts->manifest_at = path_then(run, run->manifest);
    }
    return (run->depfile == NULL || texts->depfile != NULL)
        && (run->manifest == NULL || texts->manifest != NULL);
}
