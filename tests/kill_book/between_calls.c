/* A second `book` that comes between the system calls of a first: both are held at calls, and one of them only is let in, or one after the other. */
#include "tests.h"
#include "tracing.h"

#ifdef __x86_64__
#include <string.h>
#include <unistd.h>

enum { MOST_PAIRS = 400 };

/* How long pairs of calls are tried: nanoseconds. */
static const long long PAIRS = 2500000000LL;

/* Whether a program that is held at a call has the book: from the making of FILE.busy until it is done, and then as long as FILE.busy is there. */
static int has_the_book(const struct traced *traced) {
    return !traced->over && traced->makes > 0 && traced->calls > traced->makes && (!is_done(traced) || access(file_busy, F_OK) == 0);
}

/* It has tried to make FILE.busy. */
static int has_tried(const struct traced *traced) {
    return traced->over || (traced->makes > 0 && traced->calls > traced->makes);
}

/* One that is let in answers all, as the model says; another answers nothing and is told that the book is busy. */
static int answers_if(int let_in, const struct traced *traced, const char *told) {
    static const struct text nothing;
    if (same(&traced->heard, let_in ? &traced->script->answers : &nothing)) return let_in || told_busy(told);
    return wrong("a book that was %s answered: %.*s", let_in ? "let in" : "not to be let in", (int)traced->heard.length, traced->heard.bytes);
}

/* The file has the bookings of those that were let in: of the first those for renter 0, of the second those for renter 1. */
static int has_bookings(const struct script *first, const struct script *second) {
    static struct text found, wanted;
    struct book both = {0};
    int there = load(&found, file);
    if (first) memcpy(both.slot[0], first->book[first->changes].slot[0], sizeof both.slot[0]);
    if (second) memcpy(both.slot[1], second->book[second->changes].slot[1], sizeof both.slot[1]);
    text_of(&wanted, &both);
    return (there && same(&found, &wanted)) || wrong("the file is:\n%.*s", (int)found.length, found.bytes);
}

/* The first is held at a call; the second is run up to a call of its own, or to its end; then the first to its end, and then the second. The second
   is not let in if it tried while the first had the book, nor the first if it tries while the second has it. */
static int slipped(struct traced *one, struct traced *two, int call, int of_second) {
    int first_has, first_tried, one_in, two_in, still;
    if (!lay(one->script) || !start_traced(one, file, said_first, one->script, 0)) return 0;
    go_to(one, call);
    first_has = has_the_book(one), first_tried = has_tried(one);
    if (!start_traced(two, file, said, two->script, 0)) return kill_traced(one), 0;
    go_to(two, of_second);
    two_in = !(first_has && has_tried(two));
    one_in = !(!first_tried && has_the_book(two));
    still = !first_has || access(file_busy, F_OK) == 0 || wrong("FILE.busy of the first is removed by the second");
    go_to(one, TO_THE_END);
    go_to(two, TO_THE_END);
    kill_traced(one), kill_traced(two);
    return (still && answers_if(one_in, one, said_first) && answers_if(two_in, two, said) &&
            has_bookings(one_in ? one->script : NULL, two_in ? two->script : NULL) && none_left()) ||
           wrong("the first was held at its call %d, and the second %s %d", call, of_second == TO_THE_END ? "not: calls" : "at its call",
                 of_second == TO_THE_END ? two->calls : of_second);
}

/* Two bookings for each, for another renter, so that the answers do not depend on who comes first. Both are held at calls from the one on that makes
   FILE.busy: first the second runs to its end, then pairs of calls are drawn as long as there is time, often that one. */
int slipped_in(struct text *what) {
    static const struct book none;
    static struct script first, second;
    static struct traced one, two;
    int calls = 0, pairs = 0, makes, ones, twos;
    long long end = now() + PAIRS;
    begin(&first, &none, 1), begin(&second, &none, 1);
    order(&first, "book 0 0 0 20 10"), order(&first, "book 0 0 10 20 20.5");
    order(&second, "book 1 100 0 120 10"), order(&second, "book 1 100 10 120 20");
    one.script = &first, two.script = &second;
    if (!slipped(&one, &two, TO_THE_END, TO_THE_END)) return 0;
    makes = one.makes, ones = one.calls, twos = two.calls;
    if (makes == 0) return wrong("FILE.busy is not made");
    for (int call = makes; call <= ones; call++, calls++)
        if (!slipped(&one, &two, call, TO_THE_END)) return 0;
    for (; now() < end && pairs < MOST_PAIRS; pairs++) {
        int call = makes + (below(3) == 0 ? 0 : (int)below(ones - makes + 1));
        int of_second = makes + (below(3) == 0 ? 0 : (int)below(twos - makes + 1));
        if (!slipped(&one, &two, call, of_second)) return 0;
    }
    put(what, ": at %d calls of the first, and at %d pairs of calls of both", calls, pairs);
    return 1;
}
#endif
