/* Two at once: a second `book` is started beside a first that has the file. */
#include "tests.h"
#include <errno.h>
#include <fcntl.h>
#include <signal.h>
#include <unistd.h>

enum { ENOUGH_SECONDS = 3 };

/* How long second ones are started beside a first: nanoseconds. */
static const long long BESIDE = 1500000000LL;

/* While a first `book` waits for its next command, a second one is told that the book is busy. */
static int first_and_second(struct child *first, struct script *script, struct text *heard) {
    struct plan plan = {10000000000LL, 0, 1, 1, 0};
    struct pace ignored;
    int made;
    talk(first, script, &plan, heard, &ignored);
    if (access(file_busy, F_OK) != 0) return wrong("FILE.busy is not there when the first answer is read");
    if (!hold(script, heard, &made) || heard->length != script->answers.length) return wrong("the first was not answered, or its file is wrong");
    return not_let_in(told_busy);
}

/* When the first has ended, a third one works. */
int two_at_once(struct script *script) {
    static const struct book none;
    static struct text heard, found;
    struct child first;
    int made, good, itself;
    if (!clear()) return 0;
    begin(script, &none, 1);
    order(script, "book 0 0 0 20 10");
    heard.length = 0;
    prepare(&first, file, said_first, NULL);
    good = first_and_second(&first, script, &heard);
    itself = listen_to(&first, &heard);
    if (!good) return 0;
    if (!itself || !hold(script, &heard, &made) || !none_left()) return wrong("the first did not end well");
    order(script, "book 1 20 0 40 10");
    order(script, "release 0 0");
    order(script, "show");
    whole_run(script->commands.bytes + script->command_end[0], script->commands.length - script->command_end[0], &found);
    put(&heard, "%.*s", (int)found.length, found.bytes);
    return hold(script, &heard, &made) && (heard.length == script->answers.length || wrong("the third was not answered")) && none_left();
}

/* Takes what the first has answered so far; 0 where its output has ended, though its input has not. */
static int still_answers(struct child *first, struct text *heard) {
    ssize_t got;
    need(heard, 65536);
    got = read(first->out, heard->bytes + heard->length, 65536);
    if (got > 0) heard->length += (size_t)got;
    return got > 0 || (got < 0 && (errno == EAGAIN || errno == EINTR)) || wrong("the first was cut short");
}

/* From the first answer on until all was answered, and once after that, since the input is still open. */
static int seconds_beside(struct child *first, const struct script *script, struct text *heard, int *seconds) {
    int all;
    if (!still_answers(first, heard)) return 0;
    fcntl(first->out, F_SETFL, O_NONBLOCK);
    do {
        all = heard->length >= script->answers.length;
        if (access(file_busy, F_OK) != 0) return wrong("FILE.busy is not there while the first runs");
        if (!silent() || !told_busy(said)) return wrong("the first had answered %d commands", answered(script, heard->length));
        ++*seconds;
        if (!still_answers(first, heard)) return 0;
    } while (!all);
    return 1;
}

/* A first `book` with a long run. All its commands and answers find room in the pipes (65,536 bytes), so that nobody has to wait for another. */
static int first_beside(struct script *script, int count, int *seconds) {
    static const struct book none;
    static struct text heard;
    struct child first;
    int made, good, itself;
    if (!clear()) return 0;
    begin(script, &none, 1);
    while (script->count < count) order(script, script->count % 2 ? "release 0 0" : "book 0 0 0 20 10");
    heard.length = 0;
    prepare(&first, file, said_first, NULL);
    if (write(first.in, script->commands.bytes, script->commands.length) != (ssize_t)script->commands.length) give_up("a pipe cannot be written");
    good = seconds_beside(&first, script, &heard, seconds);
    if (!good) kill(first.id, SIGKILL);
    fcntl(first.out, F_SETFL, 0);
    itself = listen_to(&first, &heard);
    if (!good) return 0;
    if (!itself || heard.length != script->answers.length) return wrong("the first was cut short: %d answers", answered(script, heard.length));
    return hold(script, &heard, &made) && none_left();
}

int back_to_back(struct script *script, const struct pace *pace, int *seconds) {
    long long end = now() + BESIDE;
    while (now() < end)
        if (!first_beside(script, fill(BESIDE, pace), seconds)) return 0;
    return *seconds >= ENOUGH_SECONDS || wrong("there was time for %d second ones only", *seconds);
}
