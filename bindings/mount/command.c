/* Requests to a mount, by its control file. */
#define _GNU_SOURCE
#include "commands.h"

#include <errno.h>
#include <fcntl.h>
#include <stdarg.h>
#include <stdio.h>
#include <stdlib.h>
#include <string.h>
#include <sys/stat.h>
#include <unistd.h>

void complain(const char *format, ...) {
    va_list words;
    va_start(words, format);
    fputs("nuz: ", stderr);
    vfprintf(stderr, format, words);
    fputc('\n', stderr);
    va_end(words);
}

/* ---- the place of a transaction */

/* Takes a path apart: its last name, and the directory before it. If it has no name, as the root of
 * the disk, no mount has it: false, with errno. */
bool place_of(const char *path, struct place *place) {
    char *text = strdup(path);
    size_t len = text == NULL ? 0 : strlen(text);
    while (len > 1 && text[len - 1] == '/') {
        text[--len] = '\0';
    }
    char *slash = len == 0 ? NULL : strrchr(text, '/');
    const char *name = slash == NULL ? text : slash + 1;
    place->name = len == 0 ? NULL : strdup(name);
    size_t dir_len = slash == NULL ? 1 : slash == text ? 1 : (size_t)(slash - text);
    place->dir = strndup(slash == NULL ? "." : text, dir_len);
    free(text);
    bool has_name = place->name != NULL && place->dir != NULL && place->name[0] != '\0';
    errno = has_name ? errno : EMEDIUMTYPE;
    return has_name;
}

void place_free(struct place *place) {
    free(place->dir);
    free(place->name);
}

/* Whether a path ends with a name that every directory has. */
static bool ends_with_dots(const char *path) {
    const char *slash = strrchr(path, '/'), *last = slash == NULL ? path : slash + 1;
    return strcmp(last, ".") == 0 || strcmp(last, "..") == 0;
}

/* A path from the root, whether or not there is anything, with a last name; or NULL, with errno. */
char *absolute(const char *path) {
    if (path[0] == '\0') {
        errno = ENOENT;
        return NULL;
    }
    if (ends_with_dots(path)) {
        return realpath(path, NULL);
    }
    char *top = path[0] == '/' ? NULL : getcwd(NULL, 0), *text;
    if (path[0] == '/') {
        return strdup(path);
    }
    int len = top == NULL ? -1 : asprintf(&text, "%s/%s", top, path);
    free(top);
    return len < 0 ? NULL : text;
}

/* Opens the control file of a mount, or returns -1, with errno. */
int control_of_mount(const char *dir) {
    struct stat status;
    char *path;
    if (asprintf(&path, "%s/%s", dir, CONTROL_NAME) < 0) {
        return -1;
    }
    int control = open(path, O_RDWR | O_CLOEXEC | O_NOFOLLOW);
    free(path);
    if (control < 0) {
        errno = errno == ENOENT || errno == ENOTDIR ? EMEDIUMTYPE : errno;
        return -1;
    }
    if (fstat(control, &status) != 0 || status.st_ino != CONTROL_NUMBER) {
        close(control);
        errno = EMEDIUMTYPE;
        return -1;
    }
    return control;
}

/* Whether a directory is a mount's, which has a control file that is no file of the tree. */
bool is_mount(const char *dir) {
    int control = control_of_mount(dir);
    if (control >= 0) {
        close(control);
    }
    return control >= 0;
}

/* ---- requests */

/* Makes a request, of one to three words. Returns 0 or an errno. */
int ask(int control, const char *word, const char *name, const char *rest) {
    char *line;
    int len = asprintf(&line, "%s%s%s%s%s\n", word, name == NULL ? "" : " ",
                       name == NULL ? "" : name, rest == NULL ? "" : " ",
                       rest == NULL ? "" : rest);
    if (len < 0) {
        return ENOMEM;
    }
    ssize_t written = write(control, line, (size_t)len);
    int number = errno;
    free(line);
    return written == len ? 0 : written < 0 ? number : EIO;
}

/* The reply to the last request, with a null byte after it; or NULL. */
char *reply_of(int control, size_t *size) {
    size_t room = 0;
    char *text = NULL;
    FILE *to = open_memstream(&text, &room);
    char piece[65536];
    ssize_t count = to == NULL ? -1 : 1;
    while (count > 0) {
        count = read(control, piece, sizeof piece);
        if (count > 0) {
            fwrite(piece, 1, (size_t)count, to);
        }
    }
    if (to != NULL && (fclose(to) != 0 || count < 0)) {
        free(text);
        text = NULL;
    }
    *size = room;
    return text;
}

/* Says why a request has failed: in the words of the mount, if it has some. */
void complain_of(int control, int number, const char *word, const char *path) {
    size_t size = 0;
    char *text = control < 0 ? NULL : reply_of(control, &size);
    const char *said = number == EMEDIUMTYPE ? "not a nuz mount" : strerror(number);
    complain("%s %s: %s", word, path, size > 0 && text != NULL ? text : said);
    free(text);
}

/* Makes a request about the transaction DIR/NAME. */
int ask_about(const char *word, const char *path) {
    struct place place;
    int control = place_of(path, &place) ? control_of_mount(place.dir) : -1;
    int number = control < 0 ? errno : ask(control, word, place.name, NULL);
    if (number == EMEDIUMTYPE) {
        complain("%s %s: not DIR/NAME of a nuz mount", word, path);
    } else if (number != 0) {
        complain_of(control, number, word, path);
    }
    if (control >= 0) {
        close(control);
    }
    place_free(&place);
    return number == 0 ? DONE : NOT_DONE;
}

/* Prints the live transactions, or which one waits for which. */
int tell_steps(const char *dir, bool as_dot) {
    size_t size = 0;
    int control = control_of_mount(dir);
    int number = control < 0 ? errno : ask(control, as_dot ? "dot" : "steps", NULL, NULL);
    if (number != 0) {
        complain_of(control, number, "steps", dir);
    }
    char *text = number == 0 ? reply_of(control, &size) : NULL;
    bool is_told = text != NULL && fwrite(text, 1, size, stdout) == size && fflush(stdout) == 0;
    if (number == 0 && !is_told) {
        complain("steps %s: %s", dir, strerror(errno));
    }
    free(text);
    if (control >= 0) {
        close(control);
    }
    return is_told ? DONE : NOT_DONE;
}
