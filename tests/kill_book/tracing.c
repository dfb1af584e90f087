/* Tracing: `book` is stopped by ptrace at the entry and at the end of each system call, and is fed and heard meanwhile. */
#include "tests.h"
#include "tracing.h"

#ifdef __x86_64__
#include <errno.h>
#include <fcntl.h>
#include <signal.h>
#include <stdio.h>
#include <string.h>
#include <sys/ptrace.h>
#include <sys/syscall.h>
#include <sys/wait.h>
#include <unistd.h>

/* Whether this machine lets a program be traced by the one that started it. */
int can_trace(void) {
    pid_t id = fork();
    int status = 1;
    if (id == 0) _exit(ptrace(PTRACE_TRACEME, 0, NULL, NULL) != 0);
    while (id > 0 && waitpid(id, &status, 0) < 0 && errno == EINTR) {}
    return id > 0 && WIFEXITED(status) && WEXITSTATUS(status) == 0;
}

static void be_traced(void) {
    if (ptrace(PTRACE_TRACEME, 0, NULL, NULL) == 0) raise(SIGSTOP);
}

/* Sends the commands up to this number, and ends the input behind the last. */
static void feed(struct traced *traced, int up_to) {
    const struct script *script = traced->script;
    size_t from = traced->fed == 0 ? 0 : script->command_end[traced->fed - 1];
    if (traced->child.in < 0) return;
    if (up_to > traced->fed) {
        size_t length = script->command_end[up_to - 1] - from;
        if (write(traced->child.in, script->commands.bytes + from, length) != (ssize_t)length) wrong("a pipe cannot be written");
        traced->fed = up_to;
    }
    if (traced->fed < script->count) return;
    close(traced->child.in);
    traced->child.in = -1;
}

/* Takes what the program has answered so far; its output does not wait. */
static void hear(struct traced *traced) {
    char some[4096];
    ssize_t got;
    int lines = 0;
    while ((got = read(traced->child.out, some, sizeof some)) > 0) put(&traced->heard, "%.*s", (int)got, some);
    for (size_t i = 0; i < traced->heard.length; i++) lines += traced->heard.bytes[i] == '\n';
    if (traced->one_by_one && lines >= traced->fed) feed(traced, lines < traced->script->count ? lines + 1 : traced->script->count);
}

/* Lets the program go on to its next stop; 0 where there is none because it ended. */
static int go_on(struct traced *traced, int how) {
    int status, signal = 0;
    for (;;) {
        if (ptrace(how, traced->child.id, NULL, signal) != 0) return wrong("the program cannot be traced: %s", strerror(errno));
        while (waitpid(traced->child.id, &status, 0) < 0 && errno == EINTR) {}
        if (!WIFSTOPPED(status)) return traced->over = 1, 0;
        if (WSTOPSIG(status) == (SIGTRAP | 0x80) || status >> 8 == (SIGTRAP | PTRACE_EVENT_EXEC << 8)) return 1;
        signal = WSTOPSIG(status);
    }
}

int start_traced(struct traced *traced, const char *name, const char *told, const struct script *script, int one_by_one) {
    struct text kept = traced->heard;
    int status;
    *traced = (struct traced){.script = script, .heard = kept, .one_by_one = one_by_one};
    traced->heard.length = 0;
    prepare(&traced->child, name, told, be_traced);
    fcntl(traced->child.out, F_SETFL, O_NONBLOCK);
    feed(traced, one_by_one ? 1 : script->count);
    if (waitpid(traced->child.id, &status, 0) < 0 || !WIFSTOPPED(status)) return wrong("the program cannot be traced");
    if (ptrace(PTRACE_SETOPTIONS, traced->child.id, NULL, PTRACE_O_TRACESYSGOOD | PTRACE_O_EXITKILL | PTRACE_O_TRACEEXEC) != 0)
        return wrong("the program cannot be traced: %s", strerror(errno));
    return go_on(traced, PTRACE_CONT) && go_on(traced, PTRACE_SYSCALL);
}

void name_at(const struct traced *traced, unsigned long long at, char *name, size_t room) {
    char place[64], word[4200];
    int from;
    ssize_t got;
    snprintf(place, sizeof place, "/proc/%d/mem", traced->child.id);
    from = open(place, O_RDONLY | O_CLOEXEC);
    got = from < 0 ? -1 : pread(from, word, sizeof word - 1, (off_t)at);
    if (from >= 0) close(from);
    word[got < 0 ? 0 : got] = 0;
    if (word[0] == '/') snprintf(name, room, "%s", word);
    else snprintf(name, room, "%s/%s", folder, word);
}

int named(const struct traced *traced, char *name, size_t room) {
    switch (traced->call.orig_rax) {
    case SYS_open: case SYS_creat: case SYS_unlink: case SYS_truncate: case SYS_access: case SYS_stat: case SYS_lstat: case SYS_readlink:
        name_at(traced, traced->call.rdi, name, room);
        return 1;
    case SYS_openat: case SYS_unlinkat: case SYS_faccessat: case SYS_faccessat2: case SYS_newfstatat: case SYS_statx: case SYS_readlinkat:
        name_at(traced, traced->call.rsi, name, room);
        return 1;
    default: return 0;
    }
}

int removes(const struct traced *traced) {
    return traced->call.orig_rax == SYS_unlink || traced->call.orig_rax == SYS_unlinkat;
}

static int opens(const struct traced *traced) {
    return traced->call.orig_rax == SYS_open || traced->call.orig_rax == SYS_openat || traced->call.orig_rax == SYS_creat;
}

static int makes_busy(const struct traced *traced) {
    char name[8500];
    return opens(traced) && named(traced, name, sizeof name) && strcmp(name, file_busy) == 0;
}

int step(struct traced *traced) {
    if (!go_on(traced, PTRACE_SYSCALL)) return 0;
    traced->inside = !traced->inside;
    traced->calls += traced->inside;
    if (ptrace(PTRACE_GETREGS, traced->child.id, NULL, &traced->call) != 0) return wrong("no registers: %s", strerror(errno));
    if (!traced->inside && traced->call.orig_rax == SYS_write && traced->call.rdi == 1) hear(traced);
    if (!traced->inside && traced->call.orig_rax == SYS_read && traced->call.rdi == 0 && traced->call.rax == 0) traced->ended = 1;
    if (traced->inside && traced->makes == 0 && makes_busy(traced)) traced->makes = traced->calls;
    return 1;
}

void go_to(struct traced *traced, int call) {
    while (!traced->over && !(traced->inside && traced->calls >= call) && step(traced)) {}
}

int is_done(const struct traced *traced) {
    return traced->ended && traced->heard.length == traced->script->answers.length;
}

/* What is left after the end; the process was waited for. */
static void close_traced(struct traced *traced) {
    hear(traced);
    if (traced->child.in >= 0) close(traced->child.in);
    close(traced->child.out);
}

void kill_traced(struct traced *traced) {
    if (!traced->over) {
        kill(traced->child.id, SIGKILL);
        while (waitpid(traced->child.id, NULL, 0) < 0 && errno == EINTR) {}
    }
    close_traced(traced);
}
#endif
