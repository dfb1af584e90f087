/* Runs that are killed at random moments, each from the file that the one before left. */
#include "tests.h"
#include <signal.h>

enum { KILLS = 200, RUNS_OF_A_FILE = 20, NEARLY_FULL = 29, ENOUGH_KILLS = 20 };

/* The most that the kills may take, and a run of them: nanoseconds. */
static const long long ALL_KILLS = 8000000000LL, A_RUN = 30000000LL;

/* A plan for a run. A third of the kills come while the program starts, a third in the middle, and a third when some number of commands was
   answered, up to all of them, so that some come at the end. */
static struct plan some_plan(const struct pace *pace, int count) {
    struct plan plan = {0, 0, -1, (int)below(2), (int)below(2)};
    long long most = pace->first + pace->each * count;
    switch (below(3)) {
    case 0:
        plan.time = below(pace->first * 3 / 2 + 1);
        break;
    case 1:
        plan.time = pace->first / 2 + below(most);
        break;
    default:
        plan.time = 10000000000LL;
        plan.answers = below(4) == 0 ? count : (int)below(count + 1);
        plan.after = below(2 * pace->each + 1);
    }
    return plan;
}

/* How a killed run stands: whether it ended by itself, and whether its input was ended before the kill. */
struct ending { int itself, input; };

/* What is left fits how the run ended. FILE.busy must be there when something was answered or made, until the run is over; that it is when its input
   was ended and all was answered. */
static int fits(const struct script *script, size_t heard, int made, const struct ending *ending, int tried, struct left *left) {
    int all = heard == script->answers.length && ending->input;
    if (!left_behind((heard > 0 || made > 0) && !all, tried, left)) return 0;
    if (!ending->itself) return 1;
    if (!all) return wrong("book ended by itself, and %d commands of %d were answered", answered(script, heard), script->count);
    return (!left->busy && !left->new) || wrong("book ended by itself, and FILE.busy or FILE.new was left");
}

/* A run from the book as it is, killed; the book is then the one that the file has. */
static int one_kill(struct script *script, struct book *book, int *fresh, struct pace *pace, struct tally *tally) {
    static struct text heard;
    struct child child;
    struct pace ignored;
    struct ending ending;
    struct left left;
    int made, count = fill(A_RUN, pace), tried = below(2) == 0;
    struct plan plan = some_plan(pace, count);
    begin(script, book, *fresh);
    while (script->count < count) order_any(script);
    heard.length = 0;
    prepare(&child, file, said, NULL);
    talk(&child, script, &plan, &heard, &ignored);
    kill(child.id, SIGKILL);
    ending.input = child.in < 0;
    ending.itself = listen_to(&child, &heard);
    if (!hold(script, &heard, &made) || !only_ours() || !fits(script, heard.length, made, &ending, tried, &left)) return 0;
    tally->kills += !ending.itself;
    tally->changes += answered_changes(script, heard.length);
    tally->ahead += made > answered_changes(script, heard.length);
    tally->busy += left.busy;
    tally->new += left.new;
    tally->tried += left.busy && tried;
    *book = script->book[made];
    *fresh = script->fresh && made == 0;
    return 1;
}

static int nearly_full(const struct book *book) {
    return used_slots(book, 0) >= NEARLY_FULL || used_slots(book, 1) >= NEARLY_FULL;
}

int kills(struct script *script, struct pace *pace, struct tally *tally) {
    static const struct book none;
    struct book book = none;
    long long start = now();
    int fresh = 1;
    for (int run = 0; tally->kills < KILLS && now() - start < ALL_KILLS; run++) {
        if (run % RUNS_OF_A_FILE == 0 || nearly_full(&book)) {
            if (!clear()) return 0;
            book = none;
            fresh = 1;
        }
        draw_for(run);
        if (!one_kill(script, &book, &fresh, pace, tally)) return wrong("after %d kills, in run %d", tally->kills, run);
    }
    return tally->kills >= ENOUGH_KILLS || wrong("there was time for %d kills only", tally->kills);
}
