/* commands.h: what the commands of nuz share. They speak to a mount by its control file. */
#ifndef NUZ_COMMANDS_H
#define NUZ_COMMANDS_H

#include <stdbool.h>
#include <stddef.h>
#include <sys/types.h>
#include <time.h>

/* The control file of a mount, in its directory. */
#define CONTROL_NAME ".nuz"

/* The number by which stat shows the control file: no file of a step has it. */
enum { CONTROL_NUMBER = 2 };

/* The statuses of a command. (NOT_TOLD is EX_IOERR of sysexits.h, and TRY_AGAIN EX_TEMPFAIL.) */
enum { DONE = 0, NOT_DONE = 1, BAD_WORDS = 2, NOT_TOLD = 74, TRY_AGAIN = 75 };
enum { RUN_FAILED = 125, NOT_RUN = 126, NOT_FOUND = 127 };

/* Writes a line to standard error, with the program's name before it. */
void complain(const char *format, ...) __attribute__((format(printf, 1, 2)));

/* ---- the mount (serve.c) */

struct serve_options {
    const char *dir;  /* absolute */
    const char *from; /* or NULL, */
    const char *like; /* and then a directory whose mode and owner the tree has, or NULL */
    bool is_moss;
    bool is_uncached; /* whether the kernel asks each time */
    bool is_for_all; /* whether other users may use it too */
    bool has_limit;
    struct timespec limit;
    bool stays;  /* with the terminal */
    bool is_own; /* of the process that begins it: it ends with that, and removes its directory */
};

pid_t serve_begin(const struct serve_options *options);

/* ---- words of a command line (main.c) */

bool seconds_of(const char *word, struct timespec *time);

/* ---- requests to a mount (command.c) */

/* A transaction: its mount, and its name in that. */
struct place {
    char *dir;
    char *name;
};

bool place_of(const char *path, struct place *place);
void place_free(struct place *place);
int control_of_mount(const char *dir);
bool is_mount(const char *dir);
int ask(int control, const char *word, const char *name, const char *rest);
char *reply_of(int control, size_t *size);
char *absolute(const char *path);
void complain_of(int control, int number, const char *word, const char *path);
int ask_about(const char *word, const char *path);
int tell_steps(const char *dir, bool as_dot);

/* ---- the directory that is saved to (target.c) */

struct target {
    const char *said; /* how the command line has it */
    bool replaces;
    char *path; /* absolute */
    int above;  /* the directory that has its name, which is locked by that */
    int dir;    /* what has the name at first, or -1 */
};

struct target target_of(const char *said, bool replaces);
/* Takes a target, for the mount of a control file, or (-1) for one that has not begun. Or says why
 * not. */
bool target_take(struct target *target, int control);
/* Has a mount save a transaction there. */
bool target_save(const struct target *target, int control, const char *name);
void target_free(const struct target *target);
/* Whether a path leads to a directory or below it, if neither has links in it. */
bool is_at_or_below(const char *path, const char *top);
int save(const char *path, const char *to, bool replaces);

/* ---- nuz run (run.c) */

struct run {
    const char *in, *from, *to, *at, *depfile, *target, *manifest;
    bool replaces;
    long retries; /* how often the command may be run again */
    struct serve_options own; /* of a mount of its own */
    char **command;
};

int run(const struct run *run);

/* The step of a run. */
struct job {
    const struct run *run;
    char *dir;  /* of the mount, absolute */
    char *name; /* of the step */
    char *path; /* of both */
    char *at;   /* what the step is bound over, or NULL */
    char *below; /* where in the step the command begins, with a slash before it, or "" */
    char *parent; /* what it is a step of if its name is a number's, or NULL */
    char *in_way; /* the transactions that must end before it begins, or NULL */
    bool is_live; /* whether it has begun, and not been aborted */
    struct target target; /* of --to */
    int control;
};

bool fails(const char *what, const char *path);
char *joined(const char *one, const char *two, const char *three);

/* ---- its command (process.c) */

/* Runs the command in the step, and returns its status. */
int run_command(const struct job *job);
/* The last signal that this process was sent since it has begun a command, or 0. */
int was_sent(void);

/* ---- reports about its step (told.c) */

/* The texts that are wanted, and the paths of their files, for their reader to free. */
struct texts {
    char *depfile, *depfile_at;
    char *manifest, *manifest_at;
};

/* Whether each wanted report has a place. */
bool can_tell(const struct run *run);
/* Makes the texts, of a step that is live; and writes them, each whole or not at all. */
bool make_texts(const struct job *job, struct texts *texts);
bool write_texts(const struct run *run, const struct texts *texts);

#endif
