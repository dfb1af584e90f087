/* Texts that grow: words are put behind what they have, and files and pipes are read into them. */
#include "small.h"
#include <errno.h>
#include <fcntl.h>
#include <stdarg.h>
#include <stdio.h>
#include <stdlib.h>
#include <string.h>
#include <unistd.h>

void need(struct text *text, size_t more) {
    if (text->length + more <= text->room) return;
    text->room = 2 * (text->length + more);
    text->bytes = realloc(text->bytes, text->room);
    if (!text->bytes) give_up("no memory");
}

void put(struct text *text, const char *format, ...) {
    va_list rest, again;
    va_start(rest, format);
    va_copy(again, rest);
    need(text, (size_t)vsnprintf(NULL, 0, format, again) + 1);
    text->length += (size_t)vsprintf(text->bytes + text->length, format, rest);
    va_end(again);
    va_end(rest);
}

int take_all(struct text *text, int from) {
    ssize_t got;
    do {
        need(text, 65536);
        got = read(from, text->bytes + text->length, 65536);
        if (got > 0) text->length += (size_t)got;
    } while (got > 0 || (got < 0 && errno == EINTR));
    return got == 0;
}

int load(struct text *text, const char *name) {
    int from = open(name, O_RDONLY | O_CLOEXEC);
    text->length = 0;
    need(text, 1);
    if (from < 0 && errno == ENOENT) return 0;
    if (from < 0 || !take_all(text, from)) give_up("a file cannot be read");
    close(from);
    return 1;
}

int same(const struct text *one, const struct text *other) {
    return one->length == other->length && (one->length == 0 || memcmp(one->bytes, other->bytes, one->length) == 0);
}
