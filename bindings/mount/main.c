/* nuz: a mount whose directories are transactions, and commands for it. */
#define _GNU_SOURCE
#include "commands.h"

#include <errno.h>
#include <fcntl.h>
#include <getopt.h>
#include <nuzolged.h>
#include <signal.h>
#include <stdio.h>
#include <stdlib.h>
#include <string.h>
#include <sys/stat.h>
#include <sys/wait.h>
#include <unistd.h>

/* A decimal number of seconds, as 10 or 0.5. */
bool seconds_of(const char *word, struct timespec *time) {
    char *end;
    errno = 0;
    double seconds = strtod(word, &end);
    bool is_good = errno == 0 && end != word && *end == '\0' && seconds >= 0 && seconds <= 1e9;
    if (is_good) {
        time->tv_sec = (time_t)seconds;
        time->tv_nsec = (long)((seconds - (double)time->tv_sec) * 1e9);
    }
    return is_good;
}

/* How often, in digits. */
static bool count_of(const char *word, long *count) {
    char *end;
    errno = 0;
    *count = strtol(word, &end, 10);
    return errno == 0 && word[0] >= '0' && word[0] <= '9' && *end == '\0';
}

/* ---- options */

/* The words after a command: options, of which it takes some, and others. */
struct said {
    const struct command *command;
    struct run run;
    bool has_dot, has_help, is_bad;
    char **words; /* that are no options */
    int count;
};

/* A command: its function, the options that it takes, how many other words it must have (run: at
 * least one), and its help text. */
struct command {
    const char *word;
    int (*act)(struct said *said);
    unsigned allowed;
    int count;
    const char *synopsis, *help;
};

/* Says what is wrong with the words of a command: the first that is. */
static void refuse(struct said *said, const char *what, const char *word) {
    if (!said->is_bad) {
        complain("%s: %s%s", said->command->word, what, word);
        fprintf(stderr, "usage: %s(nuz %s --help explains the options)\n", said->command->synopsis,
                said->command->word);
    }
    said->is_bad = true;
}

/* How many words `nuz run` must have. */
enum { AT_LEAST_ONE = -1 };

enum {
    IN, FROM, TO, AT, WAIT, MOSS, ALL, UNCACHED, FOREGROUND, DEPFILE, TARGET, MANIFEST, REPLACE,
    RETRIES, DOT, HELP
};

static const struct option all_options[] = {
    { "in", required_argument, NULL, IN },
    { "from", required_argument, NULL, FROM },
    { "to", required_argument, NULL, TO },
    { "at", required_argument, NULL, AT },
    { "wait", required_argument, NULL, WAIT },
    { "moss", no_argument, NULL, MOSS },
    { "allow-other", no_argument, NULL, ALL },
    { "no-cache", no_argument, NULL, UNCACHED },
    { "foreground", no_argument, NULL, FOREGROUND },
    { "depfile", required_argument, NULL, DEPFILE },
    { "target", required_argument, NULL, TARGET },
    { "manifest", required_argument, NULL, MANIFEST },
    { "replace", no_argument, NULL, REPLACE },
    { "retries", required_argument, NULL, RETRIES },
    { "dot", no_argument, NULL, DOT },
    { "help", no_argument, NULL, HELP },
    { NULL, 0, NULL, 0 },
};

static void take(struct said *said, int option) {
    struct run *run = &said->run;
    switch (option) {
    case IN: run->in = optarg; break;
    case FROM: run->from = optarg; break;
    case TO: run->to = optarg; break;
    case AT: run->at = optarg; break;
    case WAIT:
        if (!seconds_of(optarg, &run->own.limit)) {
            refuse(said, "not a number of seconds: ", optarg);
        }
        run->own.has_limit = true;
        break;
    case MOSS: run->own.is_moss = true; break;
    case ALL: run->own.is_for_all = true; break;
    case UNCACHED: run->own.is_uncached = true; break;
    case FOREGROUND: run->own.stays = true; break;
    case DEPFILE: run->depfile = optarg; break;
    case TARGET: run->target = optarg; break;
    case MANIFEST: run->manifest = optarg; break;
    case REPLACE: run->replaces = true; break;
    case RETRIES:
        if (!count_of(optarg, &run->retries)) {
            refuse(said, "not a number: ", optarg);
        }
        break;
    case DOT: said->has_dot = true; break;
    default: said->has_help = true;
    }
}

/* Reads the options of a command. Those of run end at the first other word. */
static void read_options(struct said *said, int count, char **words) {
    unsigned allowed = said->command->allowed | 1u << HELP;
    int option;
    opterr = 0;
    optind = 1;
    const char *order = said->command->count == AT_LEAST_ONE ? "+:h" : ":h";
    while ((option = getopt_long(count, words, order, all_options, NULL)) != -1) {
        if (option == ':') {
            refuse(said, "an argument is missing after ", words[optind - 1]);
        } else if (option == 'h') {
            said->has_help = true;
        } else if (option >= 32 || (allowed >> option & 1) == 0) {
            refuse(said, "there is no such option, or it takes no argument: ", words[optind - 1]);
        } else {
            take(said, option);
        }
    }
    said->words = words + optind;
    said->count = count - optind;
}

#define MAY(option) (1u << (option))

/* ---- commands */

/* The process that serves a mount which stays. */
static pid_t serving;

static void hand_on(int number) {
    kill(serving, number);
}

/* Waits until a mount has ended that stays, and hands on the signals that end it. */
static bool stays(pid_t process) {
    struct sigaction action = { .sa_handler = hand_on };
    int ended = 0;
    serving = process;
    sigaction(SIGTERM, &action, NULL);
    sigaction(SIGHUP, &action, NULL);
    sigaction(SIGINT, &action, NULL);
    while (waitpid(process, &ended, 0) < 0 && errno == EINTR) {
    }
    return ended == 0;
}

/* Mounts on a directory that is there, and is none of a mount itself. */
static int mount_on(const char *path, struct said *said) {
    struct serve_options *options = &said->run.own;
    struct stat status;
    if (stat(path, &status) != 0 || !S_ISDIR(status.st_mode)) {
        complain("mount %s: %s", path, strerror(ENOTDIR));
        return NOT_DONE;
    }
    if (is_mount(path)) {
        complain("mount %s: a nuz mount is already there", path);
        return NOT_DONE;
    }
    char *dir = realpath(path, NULL);
    options->dir = dir;
    options->from = said->run.from;
    pid_t process = dir == NULL ? -1 : serve_begin(options);
    free(dir);
    return process > 0 && (!options->stays || stays(process)) ? DONE : NOT_DONE;
}

static int act_mount(struct said *said) {
    const char *path = said->words[0];
    bool has_made = mkdir(path, 0755) == 0;
    if (!has_made && errno != EEXIST) {
        complain("mount %s: %s", path, strerror(errno));
        return NOT_DONE;
    }
    int status = mount_on(path, said);
    if (status != DONE && has_made) {
        rmdir(path);
    }
    return status;
}

static int act_run(struct said *said) {
    const struct run *asked = &said->run;
    bool is_own = asked->from != NULL || asked->to != NULL;
    if (is_own && asked->in != NULL) {
        refuse(said, "--in is for an existing mount, --from and --to are for a mount of its "
                     "own", "");
    } else if (!is_own && (asked->own.has_limit || asked->own.is_moss || asked->own.is_for_all)) {
        refuse(said, "--wait, --moss and --allow-other need a mount of its own, with --from or "
                     "--to", "");
    } else if (asked->replaces && asked->to == NULL) {
        refuse(said, "--replace needs --to", "");
    } else if (asked->target != NULL && asked->depfile == NULL) {
        refuse(said, "--target needs --depfile", "");
    }
    said->run.command = said->words;
    return said->is_bad ? RUN_FAILED : run(&said->run);
}

/* commit, abort and undo. */
static int act_about(struct said *said) {
    return ask_about(said->command->word, said->words[0]);
}

static int act_steps(struct said *said) {
    return tell_steps(said->words[0], said->has_dot);
}

static int act_save(struct said *said) {
    return save(said->words[0], said->words[1], said->run.replaces);
}

static const struct command commands[] = {
    { "mount", act_mount,
      MAY(FROM) | MAY(WAIT) | MAY(MOSS) | MAY(ALL) | MAY(UNCACHED) | MAY(FOREGROUND), 1,
      "nuz mount [--from FOLDER] [--wait SECONDS] [--moss] [--allow-other] [--no-cache]\n"
      "        [--foreground] DIR\n",
      "Mounts a tree on DIR, and makes DIR if it is missing. DIR/job shows the tree, and mkdir\n"
      "DIR/NAME begins the step NAME. The mount ends with umount DIR, or fusermount3 -u DIR.\n"
      "  --from FOLDER   the tree begins with what FOLDER holds; without it, empty\n"
      "  --wait SECONDS  a call that has waited that long for other steps fails with EDEADLK\n"
      "  --moss          a call also waits for the locks of the steps around its own\n"
      "  --allow-other   other users may use what is mounted\n"
      "  --no-cache      the kernel keeps nothing, and asks each time\n"
      "  --foreground    stays until the mount ends\n" },
    { "run", act_run,
      MAY(IN) | MAY(FROM) | MAY(TO) | MAY(AT) | MAY(WAIT) | MAY(MOSS) | MAY(ALL) | MAY(DEPFILE)
          | MAY(TARGET) | MAY(MANIFEST) | MAY(REPLACE) | MAY(RETRIES),
      AT_LEAST_ONE,
      "nuz run [--in DIR/STEP | [--from FOLDER] [--to FOLDER [--replace]]] [--at PATH]\n"
      "        [--retries N] [--wait SECONDS] [--moss] [--allow-other]\n"
      "        [--depfile F [--target T]] [--manifest F] -- COMMAND..\n",
      "Runs COMMAND in a new step. If COMMAND ends with status 0, the step is committed, and\n"
      "otherwise aborted. Without --in, --from and --to, it is a step of the step or job that the\n"
      "current directory is in.\n"
      "  --in DIR/STEP   a new step of the mount on DIR, whose name is STEP\n"
      "  --from FOLDER   a mount of its own, which begins with what FOLDER holds\n"
      "  --to FOLDER     saves the tree of such a mount there at the end; without it, nowhere\n"
      "  --replace       FOLDER of --to may have something in it, and is exchanged\n"
      "  --at PATH       the step takes the place of the directory PATH\n"
      "  --retries N     runs COMMAND again, up to N times, if a call has failed with EDEADLK\n"
      "  --wait SECONDS  as of nuz mount, with --from or --to\n"
      "  --moss          as of nuz mount, with --from or --to\n"
      "  --allow-other   as of nuz mount, with --from or --to\n"
      "  --depfile F     writes what was read and written to F, for make and Ninja\n"
      "  --target T      the target in F, instead of all files that were written\n"
      "  --manifest F    writes to F how each path was used\n" },
    { "commit", act_about, 0, 1, "nuz commit DIR/NAME\n",
      "Commits a step: its work then belongs to the step or job around it. DIR/job: makes the\n"
      "present tree the new beginning, to which nuz abort DIR/job goes back.\n" },
    { "abort", act_about, 0, 1, "nuz abort DIR/NAME\n",
      "Undoes all that a step has done, with the steps below it. DIR/job: with all steps.\n" },
    { "undo", act_about, 0, 1, "nuz undo DIR/NAME\n",
      "Undoes the last change of a step that is not undone yet.\n" },
    { "steps", act_steps, MAY(DOT), 1, "nuz steps [--dot] DIR\n",
      "Lists the live transactions, how many calls each has made, and which ones wait for\n"
      "which.\n"
      "  --dot  writes the waits-for graph, for Graphviz\n" },
    { "save", act_save, MAY(REPLACE), 2, "nuz save [--replace] DIR/NAME TO\n",
      "Copies what NAME (usually job) shows to the directory TO, all or nothing. TO must be\n"
      "missing or empty.\n"
      "  --replace  TO may have something in it, and is exchanged\n" },
};

enum { COMMANDS = sizeof commands / sizeof commands[0] };

/* ---- the command line */

static int told_well(void) {
    return fflush(stdout) == 0 && !ferror(stdout) ? DONE : NOT_DONE;
}

static void tell_synopses(FILE *to) {
    for (size_t i = 0; i < COMMANDS; i++) {
        fputs(commands[i].synopsis, to);
    }
    fputs("nuz COMMAND --help explains its options, and nuz --version prints the version\n", to);
}

/* Refuses too few or too many words. */
static void count_words(struct said *said) {
    int wanted = said->command->count;
    int least = wanted == AT_LEAST_ONE ? 1 : wanted;
    if (said->count < least) {
        refuse(said, "an argument is missing", "");
    } else if (wanted != AT_LEAST_ONE && said->count > wanted) {
        refuse(said, "unexpected argument: ", said->words[wanted]);
    }
}

static int do_command(const struct command *command, int count, char **words) {
    struct said said = { .command = command };
    read_options(&said, count, words);
    if (said.has_help) {
        printf("%s%s", command->synopsis, command->help);
        return told_well();
    }
    count_words(&said);
    if (said.is_bad) {
        return command->act == act_run ? RUN_FAILED : BAD_WORDS;
    }
    return command->act(&said);
}

/* Opens the streams that are closed, or other files would come in their place. */
static void have_streams(void) {
    int file;
    do {
        file = open("/dev/null", O_RDWR);
    } while (file >= 0 && file <= STDERR_FILENO);
    if (file >= 0) {
        close(file);
    }
}

int main(int count, char **words) {
    have_streams();
    const char *word = count > 1 ? words[1] : "";
    for (size_t i = 0; i < COMMANDS; i++) {
        if (strcmp(word, commands[i].word) == 0) {
            return do_command(&commands[i], count - 1, words + 1);
        }
    }
    bool is_help = strcmp(word, "-h") == 0 || strcmp(word, "help") == 0;
    if (is_help || strcmp(word, "--help") == 0) {
        tell_synopses(stdout);
        return told_well();
    } else if (strcmp(word, "--version") == 0) {
        puts("nuz " NUZ_VERSION);
        return told_well();
    }
    if (count > 1) {
        complain("there is no such command: %s", word);
    } else {
        complain("a command is missing");
    }
    tell_synopses(stderr);
    return BAD_WORDS;
}
