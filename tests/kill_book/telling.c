/* What the test tells: a line for each thing that is tested, what was wrong, and why it cannot go on. */
#include "small.h"
#include <errno.h>
#include <stdarg.h>
#include <stdio.h>
#include <string.h>
#include <unistd.h>

int wrong(const char *format, ...) {
    va_list rest;
    va_start(rest, format);
    vfprintf(stderr, format, rest);
    va_end(rest);
    fputc('\n', stderr);
    return 0;
}

int line(int good, const char *what) {
    if (good) printf("ok: %s\n", what);
    else printf("FAILED: %s (seed %llu)\n", what, the_seed());
    fflush(stdout);
    return good;
}

void give_up(const char *what) {
    printf("FAILED: %s: %s (seed %llu)\n", what, strerror(errno), the_seed());
    fflush(stdout);
    _exit(1);
}
