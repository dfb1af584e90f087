/* Starting `book`, and hearing it to its end. */
#define _GNU_SOURCE
#include "running.h"
#include <errno.h>
#include <fcntl.h>
#include <signal.h>
#include <stdio.h>
#include <stdlib.h>
#include <sys/prctl.h>
#include <sys/wait.h>
#include <unistd.h>

static char **command;
static int words;

void start_by(char **word, int count) {
    command = word;
    words = count;
}

void prepare(struct child *child, const char *name, const char *told, void (*first)(void)) {
    int in[2], out[2], err = open(told, O_WRONLY | O_CREAT | O_TRUNC | O_CLOEXEC, 0600);
    char *line[words + 2];
    for (int i = 0; i < words; i++) line[i] = command[i];
    line[words] = (char *)name;
    line[words + 1] = NULL;
    if (err < 0 || pipe2(in, O_CLOEXEC) || pipe2(out, O_CLOEXEC)) give_up("no pipe");
    child->id = fork();
    if (child->id < 0) give_up("no process");
    if (child->id == 0) {
        prctl(PR_SET_PDEATHSIG, SIGKILL);
        if (chdir(folder) || dup2(in[0], 0) < 0 || dup2(out[1], 1) < 0 || dup2(err, 2) < 0) _exit(127);
        if (first) first();
        execv(line[0], line);
        _exit(127);
    }
    close(in[0]), close(out[1]), close(err);
    child->in = in[1], child->out = out[0];
}

void close_input(struct child *child) {
    if (child->in >= 0) close(child->in);
    child->in = -1;
}

int listen_to(struct child *child, struct text *heard) {
    int status;
    close_input(child);
    if (!take_all(heard, child->out)) give_up("a pipe cannot be read");
    close(child->out);
    while (waitpid(child->id, &status, 0) < 0)
        if (errno != EINTR) give_up("no process to wait for");
    if (WIFEXITED(status) && WEXITSTATUS(status) != 0) {
        errno = 0;
        printf("FAILED: book ends with status %d, or cannot be started\n", WEXITSTATUS(status));
        exit(1);
    }
    return WIFEXITED(status);
}

void whole_run(const char *commands, size_t length, struct text *heard) {
    struct child child;
    heard->length = 0;
    prepare(&child, file, said, NULL);
    if (write(child.in, commands, length) != (ssize_t)length && errno != EPIPE) give_up("a pipe cannot be written");
    if (!listen_to(&child, heard)) give_up("book was stopped");
}
