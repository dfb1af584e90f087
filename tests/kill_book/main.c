/* kills SEED FOLDER HOW COMMAND..: starts `book` (COMMAND and the name of a file) many times on a file in FOLDER, kills it at random moments, and
   holds the file to what was answered. HOW is `plain`, or `emulated` where an emulator runs it, whose system calls are not the program's own.
   A line for each thing that is tested, "ok: .." or "FAILED: .."; what was wrong is told on standard error. */
#include "tests.h"
#include <signal.h>
#include <stdio.h>
#include <stdlib.h>
#include <string.h>
#include <unistd.h>

/* The most that the whole may take: seconds. */
static const unsigned WHOLE = 120;

static void too_long(int signal) {
    static const char line[] = "FAILED: book does not answer or does not end\n";
    (void)signal;
    if (write(1, line, sizeof line - 1) < 0) _exit(2);
    _exit(1);
}

static int all_seconds(struct script *script, const struct pace *pace) {
    struct text what = {0, 0, 0};
    int seconds = 0, good = back_to_back(script, pace, &seconds);
    put(&what, "second books, back to back while a first has a long run, are all told that it is busy, and the first does all: %d of them", seconds);
    return line(good, what.bytes);
}

static int all_kills(struct script *script, struct pace *pace) {
    struct tally tally = {0, 0, 0, 0, 0, 0};
    struct text what = {0, 0, 0};
    int good = kills(script, pace, &tally);
    put(&what, "book is killed at any moment, and its file has what was answered: %d kills, %d changes answered, ", tally.kills, tally.changes);
    put(&what, "the file one change ahead of the answers %d times, ", tally.ahead);
    put(&what, "FILE.busy left %d times and FILE.new %d times, ", tally.busy, tally.new);
    put(&what, "a second book refused %d times", tally.tried);
    return line(good, what.bytes);
}

/* System calls are looked at where they are the program's own and may be traced. */
static int traced(int emulated) {
#ifdef __x86_64__
    if (!emulated && can_trace()) {
        struct text what = {0, 0, 0};
        int slipped, good = 1;
        good &= line(calls_in_order(), "FILE.busy is there from before FILE is read to the end of the input, and each answer comes after FILE.new "
                                       "is made, written, held by the disk and renamed, and the folder held");
        good &= line(killed_at_each_call(), "book is killed at each of its system calls, and its file has what was answered");
        put(&what, "a second book between the system calls of the first is told that it is busy");
        slipped = slipped_in(&what);
        return good & line(slipped, what.bytes);
    }
#endif
    (void)emulated;
    return line(1, "the order of book's system calls is skipped: the processor is not x86-64, or an emulator runs book, or nothing may be traced");
}

int main(int count, char **word) {
    static struct script script;
    struct pace pace = {0, 0};
    int good = 1;
    if (count < 5 || !name_files(word[2])) return fprintf(stderr, "usage: kills SEED FOLDER plain|emulated COMMAND..\n"), 2;
    set_seed(strtoull(word[1], NULL, 10));
    draw_for(-1);
    start_by(word + 4, count - 4);
    signal(SIGPIPE, SIG_IGN);
    signal(SIGALRM, too_long);
    alarm(WHOLE);
    good &= line(unstopped(&script, &pace), "book answers a run of commands as docs/BOOK.md says, and leaves the file that it says");
    /* What does not even answer is not worth a kill. */
    if (!good) return 1;
    good &= line(nothing_made(), "commands that change nothing make no file");
    good &= line(two_at_once(&script), "a second book on the same file is told that it is busy and changes nothing, and a third one works later");
    good &= all_seconds(&script, &pace);
    good &= all_kills(&script, &pace);
    good &= traced(strcmp(word[3], "emulated") == 0);
    return !good;
}
