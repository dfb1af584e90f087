/* A `book` that is traced, from one system call to the next (tracing.c). Only for x86-64, whose registers and numbers of calls are meant. */
#pragma once
#ifdef __x86_64__
#include "running.h"
#include <sys/user.h>

/* The number of a call that no run comes to. */
enum { TO_THE_END = 1 << 30 };

/* `calls` counts the calls that were entered, and `makes` is the first that opens FILE.busy; `inside` is 1 between the entry of a call and its end,
   and `call` has the registers there; `ended` is 1 when the program has read the end of its input, and `over` when it has ended itself. Of the
   script, `fed` commands were sent. */
struct traced {
    struct child child;
    const struct script *script;
    struct text heard;
    struct user_regs_struct call;
    int calls, makes, inside, over, ended, one_by_one, fed;
};

/* Starts a program that is traced, up to the end of the call that made it this program. It gets its commands all at once, or each when the one
   before was answered. */
int start_traced(struct traced *traced, const char *name, const char *told, const struct script *script, int one_by_one);

/* One stop further: to the entry of a call, or to its end; 0 where there is none because the program ended. */
int step(struct traced *traced);

/* Lets the program go on to the entry of this call, counted from its start, or to its end. */
void go_to(struct traced *traced, int call);

/* Kills the program if it still runs, and takes what it has answered. */
void kill_traced(struct traced *traced);

/* All is answered and the input was read to its end: FILE.busy may go. */
int is_done(const struct traced *traced);

/* A name among the program's words in memory, as the folder sees it. */
void name_at(const struct traced *traced, unsigned long long at, char *name, size_t room);

/* The name that a call opens, removes or looks at; 0 where it is no such call. */
int named(const struct traced *traced, char *name, size_t room);

/* The call removes a file. */
int removes(const struct traced *traced);
#endif
