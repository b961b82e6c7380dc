#define _GNU_SOURCE
#include "fault_at.h"

#include <errno.h>
#include <fcntl.h>
#include <signal.h>
#include <stdio.h>
#include <stdlib.h>
#include <string.h>
#include <sys/ptrace.h>
#include <sys/types.h>
#include <sys/user.h>
#include <sys/wait.h>
#include <unistd.h>

/* With PTRACE_O_TRACESYSGOOD a system call stop is told from a signal by this bit. */
#define CALL_STOP (SIGTRAP | 0x80)

struct child {
    pid_t id;
    int standard_error;
};

_Noreturn void give_up(const char *what)
{
    fprintf(stderr, "faults: %s: %s\n", what, strerror(errno));
    exit(2);
}

static void become(char **command, int standard_error, int is_traced)
{
    int nowhere = open("/dev/null", O_WRONLY);
    if (dup2(nowhere, STDOUT_FILENO) == -1 || dup2(standard_error, STDERR_FILENO) == -1)
        _exit(126);
    close(nowhere);
    close(standard_error);
    /* Stopped until the parent has set its options, so that no call is missed. */
    if (!is_traced || (ptrace(PTRACE_TRACEME, 0, NULL, NULL) == 0 && raise(SIGSTOP) == 0))
        execv(command[0], command);
    _exit(127);
}

static struct child begin(char **command, int is_traced)
{
    struct child child;
    int ends[2];
    if (pipe2(ends, O_CLOEXEC) != 0)
        give_up("pipe");
    child.id = fork();
    if (child.id == -1)
        give_up("fork");
    if (child.id == 0)
        become(command, ends[1], is_traced);
    close(ends[1]);
    child.standard_error = ends[0];
    return child;
}

static int wait_for(struct child child)
{
    int status;
    pid_t got;
    do
        got = waitpid(child.id, &status, 0);
    while (got == -1 && errno == EINTR);
    if (got != child.id)
        give_up("wait");
    return status;
}

/* All that the command wrote: it has ended, so there is no more to come. A pipe holds more than the console ever says. */
static void hear(struct child child, struct message *message)
{
    size_t used = 0;
    ssize_t got;
    do {
        got = read(child.standard_error, message->text + used, sizeof message->text - 1 - used);
        if (got > 0)
            used += (size_t)got;
    } while (got > 0);
    message->text[used] = '\0';
    close(child.standard_error);
}

static void kill_now(struct child child)
{
    if (kill(child.id, SIGKILL) != 0)
        give_up("kill");
    int status = wait_for(child);
    if (!WIFSIGNALED(status) || WTERMSIG(status) != SIGKILL)
        give_up("the command was not killed");
}

/* Whatever the command asks for, it gets EIO: at the call's entry its number becomes that of no call. */
static void spoil(struct child child, int is_entry)
{
    struct user_regs_struct registers;
    if (ptrace(PTRACE_GETREGS, child.id, NULL, &registers) != 0)
        give_up("ptrace");
    if (is_entry)
        registers.orig_rax = (unsigned long long)-1;
    else
        registers.rax = (unsigned long long)-EIO;
    if (ptrace(PTRACE_SETREGS, child.id, NULL, &registers) != 0)
        give_up("ptrace");
}

static enum met follow(struct child child, enum fault fault, long at)
{
    int is_started = 0;
    int is_entry = 0;
    int signal_number = 0;
    long calls = 0;
    for (;;) {
        if (ptrace(PTRACE_SYSCALL, child.id, NULL, (void *)(long)signal_number) != 0)
            give_up("ptrace");
        int status = wait_for(child);
        if (!WIFSTOPPED(status)) {
            /* A command that was never run must not pass for one that ended. */
            if (!is_started)
                give_up("the command was not run");
            if (calls < at)
                return ENDED;
            return WIFEXITED(status) && WEXITSTATUS(status) == 0 ? MET_AND_DONE : MET;
        }
        signal_number = 0;
        if (status >> 8 == (SIGTRAP | PTRACE_EVENT_EXEC << 8)) {
            is_started = 1;
            is_entry = 1; /* the next stop is the exit from exec */
        } else if (WSTOPSIG(status) != CALL_STOP) {
            signal_number = WSTOPSIG(status);
        } else if (is_started) {
            is_entry = !is_entry;
            calls += is_entry;
            if (calls != at)
                continue;
            if (fault == FAILING) {
                spoil(child, is_entry);
            } else if (is_entry == (fault == KILLED_BEFORE)) {
                kill_now(child);
                return MET;
            }
        }
    }
}

enum met fault_at(enum fault fault, long at, char **command, struct message *message)
{
    struct child child = begin(command, 1);
    if (!WIFSTOPPED(wait_for(child)))
        give_up(command[0]);
    long options = PTRACE_O_TRACESYSGOOD | PTRACE_O_TRACEEXEC | PTRACE_O_EXITKILL;
    if (ptrace(PTRACE_SETOPTIONS, child.id, NULL, (void *)options) != 0)
        give_up("ptrace");
    enum met met = follow(child, fault, at);
    hear(child, message);
    return met;
}

int run(char **command, struct message *message)
{
    struct child child = begin(command, 0);
    int status = wait_for(child);
    hear(child, message);
    return WIFEXITED(status) ? WEXITSTATUS(status) : -1;
}
