/* play: plays a script through nuz_request, as ft_run plays it (docs/SCRIPT.md).
 *
 *     play play [--moss] [--largest-file N] [--most-calls N] [--most-transactions N]
 *               [--deepest N] < SCRIPT
 *
 * It tries the case files on the library. The status is 0 if each line was carried out, and
 * otherwise 1.
 */
#define _GNU_SOURCE
#include <nuzolged.h>

#include <stdio.h>
#include <stdlib.h>
#include <unistd.h>

/* Carries out a line, and prints the reply to it. One that has no room in a buffer is asked for
 * again, in a buffer of its size. */
static bool play_line(nuz_tree *tree, const char *line, size_t len) {
    static char *text;
    static size_t room;
    nuz_answer answer, reply;
    uint32_t code = nuz_request(tree, line, len, text, room, &answer);
    if (code == NUZ_BAD) {
        return puts("bad line") != EOF;
    }
    if (code == NUZ_MEMORY || answer.reply == UINT64_MAX) {
        return false;
    }
    if (answer.reply > room) {
        free(text);
        room = answer.reply;
        text = malloc(room);
        if (text == NULL || nuz_reply(tree, text, room, &reply) != 0) {
            return false;
        }
    }
    return fwrite(text, 1, answer.reply, stdout) == answer.reply;
}

/* The number of a flag: so many, or by K, M and G so many times 2^10, 2^20 and 2^30; or none, which
 * stands for the greatest. */
static uint64_t limit_of(const char *word, uint64_t greatest) {
    char *end;
    if (strcmp(word, "none") == 0) {
        return greatest;
    }
    uint64_t number = strtoull(word, &end, 10);
    switch (*end) {
    case 'K':
        return number << 10;
    case 'M':
        return number << 20;
    case 'G':
        return number << 30;
    default:
        return number;
    }
}

/* Sets the limit of a flag, if there is one of this name. */
static bool set_limit(nuz_limits *limits, const char *flag, const char *word) {
    const nuz_limits greatest = NUZ_LIMITS_GREATEST;
    if (strcmp(flag, "--largest-file") == 0) {
        limits->file_size = limit_of(word, greatest.file_size);
    } else if (strcmp(flag, "--most-calls") == 0) {
        limits->calls = limit_of(word, greatest.calls);
    } else if (strcmp(flag, "--most-transactions") == 0) {
        limits->transactions = limit_of(word, greatest.transactions);
    } else if (strcmp(flag, "--deepest") == 0) {
        limits->depth = limit_of(word, greatest.depth);
    } else {
        return false;
    }
    return true;
}

/* Opens the tree that the words of the command request. */
static bool open_tree(nuz_tree **tree, char **words) {
    nuz_limits limits = NUZ_LIMITS_SCRIPT;
    uint32_t options = 0;
    while (*words != NULL) {
        if (strcmp(*words, "--moss") == 0) {
            options = NUZ_MOSS;
            words++;
        } else if (words[1] != NULL && set_limit(&limits, words[0], words[1])) {
            words += 2;
        } else {
            return false;
        }
    }
    if (nuz_tree_open_with(tree, options, &limits) != 0) {
        return false;
    }
    uint64_t seed = 0; /* (if the system gives none, it stays so) */
    (void)!getentropy(&seed, sizeof seed);
    nuz_tree_seed(*tree, seed);
    return true;
}

int main(int argc, char **argv) {
    nuz_tree *tree;
    if (argc < 2 || !open_tree(&tree, argv + 2)) {
        return EXIT_FAILURE;
    }
    char *line = NULL;
    size_t room = 0;
    bool is_well = true;
    for (ssize_t len; is_well && (len = getline(&line, &room, stdin)) > 0;) {
        bool has_end = line[len - 1] == '\n';
        is_well = play_line(tree, line, (size_t)len - has_end);
    }
    free(line);
    nuz_tree_close(tree);
    return is_well ? EXIT_SUCCESS : EXIT_FAILURE;
}
