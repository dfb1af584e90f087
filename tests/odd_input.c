/* Runs a program on an input or output of a kind that a shell cannot make.
     odd_input unready FD COMMAND..    the descriptor FD does not wait: a read or write that is not ready fails
     odd_input broken TEXT COMMAND..   standard input gives TEXT, and then every read fails */
#include <fcntl.h>
#include <stdio.h>
#include <stdlib.h>
#include <string.h>
#include <sys/socket.h>
#include <unistd.h>

static int unready(int fd) {
    int flags = fcntl(fd, F_GETFL);
    return flags >= 0 && fcntl(fd, F_SETFL, flags | O_NONBLOCK) == 0;
}

/* A socket whose other end is closed while it still holds something unread gives what was sent, and then fails. */
static int broken(const char *text) {
    int ends[2];
    size_t length = strlen(text);
    return socketpair(AF_UNIX, SOCK_STREAM, 0, ends) == 0 && write(ends[0], "x", 1) == 1 &&
           write(ends[1], text, length) == (ssize_t)length && close(ends[1]) == 0 && dup2(ends[0], 0) == 0;
}

int main(int count, char **words) {
    if (count >= 4 && ((strcmp(words[1], "unready") == 0 && unready(atoi(words[2]))) || (strcmp(words[1], "broken") == 0 && broken(words[2]))))
        execvp(words[3], words + 3);
    perror("odd_input");
    return 2;
}
