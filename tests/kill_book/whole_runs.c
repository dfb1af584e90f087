/* Runs that nobody stops: what they answer, and the files that they leave. */
#include "tests.h"
#include <unistd.h>

int unstopped(struct script *script, struct pace *pace) {
    static const struct book none;
    static struct text heard;
    struct plan plan = {20000000000LL, 0, -1, 1, 1};
    struct child child;
    long long start;
    int made;
    if (!clear()) return 0;
    begin(script, &none, 1);
    while (script->count < 60) order_any(script);
    heard.length = 0;
    start = now();
    prepare(&child, file, said, NULL);
    talk(&child, script, &plan, &heard, pace);
    pace->each = (now() - start - pace->first) / script->count;
    if (!listen_to(&child, &heard)) return wrong("book was stopped");
    if (!hold(script, &heard, &made)) return 0;
    if (heard.length != script->answers.length) return wrong("%d commands of %d were answered", answered(script, heard.length), script->count);
    return none_left();
}

int nothing_made(void) {
    static const char looks[] = "show\nstrips 1\nrelease 0 0\n";
    static struct text heard;
    if (!clear()) return 0;
    whole_run(looks, sizeof looks - 1, &heard);
    return none_left() && (access(file, F_OK) != 0 || wrong("a file was made without a booking"));
}
