/* The command of nuz run: a process in the step, to which signals are handed on. */
#define _GNU_SOURCE
#include "commands.h"

#include <errno.h>
#include <fcntl.h>
#include <sched.h>
#include <signal.h>
#include <stdio.h>
#include <stdlib.h>
#include <string.h>
#include <sys/mount.h>
#include <sys/prctl.h>
#include <sys/wait.h>
#include <unistd.h>

/* A failure between fork and exec. */
struct report {
    int number;
    char what[12];
    int status;
};

static _Noreturn void give_up(int to, const char *what, int status) {
    struct report report = { errno, "", status };
    snprintf(report.what, sizeof report.what, "%s", what);
    if (write(to, &report, sizeof report) != sizeof report) {
        _exit(RUN_FAILED);
    }
    _exit(status);
}

static bool write_line(const char *path, const char *line) {
    int file = open(path, O_WRONLY | O_CLOEXEC);
    bool is_written = file >= 0 && write(file, line, strlen(line)) == (ssize_t)strlen(line);
    if (file >= 0) {
        close(file);
    }
    return is_written;
}

/* A mount namespace for only the process; for a user, inside a user namespace in which its user and
 * group stay the same. */
static bool have_namespace(void) {
    char users[64], groups[64];
    snprintf(users, sizeof users, "%u %u 1\n", geteuid(), geteuid());
    snprintf(groups, sizeof groups, "%u %u 1\n", getegid(), getegid());
    if (unshare(CLONE_NEWNS) == 0) {
        return true;
    }
    return errno == EPERM && unshare(CLONE_NEWUSER | CLONE_NEWNS) == 0
        && write_line("/proc/self/setgroups", "deny")
        && write_line("/proc/self/uid_map", users) && write_line("/proc/self/gid_map", groups);
}

/* Changes to the directory in which the command begins: to the top of the step, or the place in it
 * where `nuz run` was; or, if it is bound over a path, to the directory of `nuz run`, or to that
 * path. */
static bool go_there(const struct job *job, const char *here) {
    char *below = joined(job->path, job->below == NULL ? "" : job->below, "");
    bool is_there = job->at == NULL ? chdir(below) == 0 || chdir(job->path) == 0
                                    : (here != NULL && chdir(here) == 0) || chdir(job->at) == 0;
    free(below);
    return is_there;
}

static _Noreturn void be_command(const struct job *job, pid_t parent, int to) {
    char *here = getcwd(NULL, 0);
    if (prctl(PR_SET_PDEATHSIG, SIGTERM) != 0 || getppid() != parent) {
        _exit(RUN_FAILED);
    }
    if (job->at != NULL) {
        if (!have_namespace()
            || mount(NULL, "/", NULL, MS_REC | MS_PRIVATE, NULL) != 0
            || mount(job->path, job->at, NULL, MS_BIND, NULL) != 0) {
            give_up(to, "bind", RUN_FAILED);
        }
        setenv("NUZ_AT", job->at, 1);
    } else {
        unsetenv("NUZ_AT");
    }
    if (!go_there(job, here)) {
        give_up(to, "chdir", RUN_FAILED);
    }
    setenv("NUZ_STEP", job->path, 1);
    execvp(job->run->command[0], job->run->command);
    give_up(to, "run", errno == ENOENT ? NOT_FOUND : NOT_RUN);
}

static pid_t command_process;

static volatile sig_atomic_t last_sent;

int was_sent(void) {
    return last_sent;
}

/* Hands on a signal, unless the terminal has sent it, to the command too; which goes on if it has
 * been stopped, to end. */
static void hand_on(int number, siginfo_t *info, void *ignored) {
    (void)ignored;
    last_sent = number;
    if (info->si_code != SI_KERNEL && command_process > 0) {
        kill(command_process, number);
        kill(command_process, SIGCONT);
    }
}

/* Catches the signals that end a program, unless they are ignored; or no more. */
static void catch_signals(bool catches) {
    struct sigaction action = { .sa_flags = SA_SIGINFO };
    action.sa_sigaction = hand_on;
    const struct sigaction none = { .sa_handler = SIG_DFL };
    const int numbers[] = { SIGTERM, SIGHUP, SIGINT, SIGQUIT };
    for (size_t i = 0; i < sizeof numbers / sizeof numbers[0]; i++) {
        struct sigaction before;
        sigaction(numbers[i], NULL, &before);
        if (before.sa_handler != SIG_IGN) {
            sigaction(numbers[i], catches ? &action : &none, NULL);
        }
    }
}

static int status_of(int ended) {
    return WIFSIGNALED(ended) ? 128 + WTERMSIG(ended) : WEXITSTATUS(ended);
}

/* Begins the command, which reports through a pipe any failure before it. */
static void begin_command(const struct job *job, int to) {
    sigset_t all, before;
    sigfillset(&all);
    sigprocmask(SIG_BLOCK, &all, &before);
    pid_t parent = getpid();
    command_process = fork();
    if (command_process == 0) {
        catch_signals(false);
        sigprocmask(SIG_SETMASK, &before, NULL);
        be_command(job, parent, to);
    }
    catch_signals(true);
    sigprocmask(SIG_SETMASK, &before, NULL);
}

/* Waits until the command has ended, and returns its status. */
static int end_of_command(void) {
    int ended = 0;
    if (command_process < 0) {
        complain("fork: %s", strerror(errno));
        return RUN_FAILED;
    }
    while (waitpid(command_process, &ended, 0) < 0 && errno == EINTR) {
    }
    command_process = 0;
    return status_of(ended);
}

/* Says why there is no command. */
static void tell(const struct job *job, const struct report *report) {
    const char *command = job->run->command[0];
    if (report->status == RUN_FAILED) {
        complain("%s %s: %s", report->what, job->at == NULL ? job->path : job->at,
                 strerror(report->number));
    } else if (report->status == NOT_FOUND && strchr(command, '/') == NULL) {
        complain("%s %s: there is no such command", report->what, command);
    } else {
        complain("%s %s: %s", report->what, command, strerror(report->number));
    }
}

int run_command(const struct job *job) {
    int tube[2];
    struct report report;
    if (pipe2(tube, O_CLOEXEC) != 0) {
        complain("pipe: %s", strerror(errno));
        return RUN_FAILED;
    }
    begin_command(job, tube[1]);
    close(tube[1]);
    ssize_t size;
    do {
        size = read(tube[0], &report, sizeof report);
    } while (size < 0 && errno == EINTR);
    close(tube[0]);
    int status = end_of_command();
    if (size == sizeof report) {
        tell(job, &report);
    }
    return status;
}
