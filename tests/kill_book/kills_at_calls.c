/* A kill at each system call of `book`, one run for each. */
#include "tests.h"
#include "tracing.h"

#ifdef __x86_64__
/* FILE.busy must be there from the call on that makes it, until the run is done; every other time a second `book` is tried. */
static int killed_at(const struct script *script, int one_by_one, int call, int *over) {
    static struct traced traced;
    struct left still;
    int made, must;
    if (!lay(script) || !start_traced(&traced, file, said, script, one_by_one)) return 0;
    go_to(&traced, call);
    *over = traced.over;
    kill_traced(&traced);
    if (!hold(script, &traced.heard, &made) || !only_ours()) return wrong("at the entry of call %d", call);
    must = (traced.heard.length > 0 || made > 0 || (traced.makes > 0 && traced.calls > traced.makes)) && !is_done(&traced);
    if (!left_behind(must, call % 2, &still)) return wrong("at the entry of call %d", call);
    if (!*over) return 1;
    return (is_done(&traced) && !still.busy && !still.new) || wrong("book ended, and not all was answered, or FILE.busy or FILE.new was left");
}

int killed_at_each_call(void) {
    static struct script script;
    int over = 0;
    for (int one_by_one = 0; one_by_one < 2; one_by_one++, over = 0) {
        three_bookings(&script, one_by_one);
        for (int call = 1; !over; call++)
            if (!killed_at(&script, one_by_one, call, &over)) return 0;
    }
    return 1;
}
#endif
