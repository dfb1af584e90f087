/* What a stopped `book` leaves, FILE.busy and FILE.new, and another one that is not let in because of it. */
#include "running.h"
#include <stdlib.h>
#include <string.h>
#include <unistd.h>

/* What it says on standard error, kept in the file `told`, begins with the reason. */
static int told_so(const char *told, const char *before, const char *name, const char *behind) {
    static struct text found;
    struct text wanted = {0, 0, 0};
    int good;
    load(&found, told);
    put(&wanted, "%s%s%s", before, name, behind);
    good = found.length >= wanted.length && memcmp(found.bytes, wanted.bytes, wanted.length) == 0;
    if (!good) wrong("told: %.*s\nwanted: %s ..", (int)found.length, found.bytes, wanted.bytes);
    free(wanted.bytes);
    return good;
}

int told_busy(const char *told) {
    return told_so(told, "the book is busy: there is a file ", file_busy, ".");
}

static int told_left(const char *told) {
    return told_so(told, "there is a file ", file_new, ", left by a program that was stopped.");
}

int silent(void) {
    static const char booking[] = "book 0 500 500 501 501\n";
    static struct text heard;
    whole_run(booking, sizeof booking - 1, &heard);
    return heard.length == 0 || wrong("a book that was not to be let in answered: %.*s", (int)heard.length, heard.bytes);
}

int not_let_in(int (*told)(const char *)) {
    static struct text before[3], after;
    const char *name[3] = {file, file_new, file_busy};
    int there[3];
    for (int i = 0; i < 3; i++) there[i] = load(&before[i], name[i]);
    if (!silent() || !told(said)) return 0;
    for (int i = 0; i < 3; i++)
        if (load(&after, name[i]) != there[i] || !same(&before[i], &after)) return wrong("a book that was not let in changed %s", name[i]);
    return 1;
}

int left_behind(int must, int tried, struct left *left) {
    left->busy = access(file_busy, F_OK) == 0;
    left->new = access(file_new, F_OK) == 0;
    if (!left->busy && must) return wrong("FILE.busy is not there, and the run was not over");
    if (!left->busy && left->new) return wrong("FILE.new is there without FILE.busy");
    if (left->busy && tried && !not_let_in(told_busy)) return 0;
    if (!gone(file_busy)) return wrong("FILE.busy cannot be removed");
    if (left->new && tried && !not_let_in(told_left)) return 0;
    return gone(file_new) || wrong("FILE.new cannot be removed");
}
