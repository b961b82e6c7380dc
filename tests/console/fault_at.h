/* A command that meets a fault at one of its system calls. */
#ifndef FAULT_AT_H
#define FAULT_AT_H

#include <stddef.h>

enum fault { KILLED_BEFORE, KILLED_AFTER, FAILING, FAULTS };

/* The command ended before that call; it met the fault; it met it and ended with 0 all the same. */
enum met { ENDED, MET, MET_AND_DONE };

/* What a command wrote to standard error, as a text; what does not fit is left out. */
struct message {
    char text[4096];
};

/* Runs the command up to its at-th system call: kills it there, before or after the call is done, or lets that call fail. */
enum met fault_at(enum fault fault, long at, char **command, struct message *message);

/* Runs the whole command; answers its exit status, or -1 where it did not exit. */
int run(char **command, struct message *message);

/* Tells what went wrong and ends the program. */
_Noreturn void give_up(const char *what);

#endif
