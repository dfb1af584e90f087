// A stroke against a rectangle by the Cohen-Sutherland rule, with the count of its shortenings.
#include "common.h"

enum { LEFT = 1, RIGHT = 2, BELOW = 4, ABOVE = 8 };

// A point of the stroke: at n/d of its way, its code, and where a shortening put it, which side's axis and line.
struct End { u32 n, d, code; i32 across, line; };

static inline u32 code_of(struct Window w, i32 x, i32 y) {
    return (x < w.left) * LEFT | (w.right < x) * RIGHT | (y < w.bottom) * BELOW | (w.top < y) * ABOVE;
}

// The end is put on the side of its lowest set bit, where only the bits of the other axis can be set. Products stay below 2^31.
static inline void shorten(struct Window w, struct Stroke s, struct End *e) {
    if (e->code & (LEFT | RIGHT)) {
        e->across = 0;
        e->line = e->code & LEFT ? w.left : w.right;
        i32 n = e->line - s.x1, d = s.x2 - s.x1;
        if (d < 0) { n = -n; d = -d; }
        i32 y = s.y1 * d + (s.y2 - s.y1) * n;
        e->code = (y < w.bottom * d) * BELOW | (w.top * d < y) * ABOVE;
        e->n = n; e->d = d;
    } else {
        e->across = 1;
        e->line = e->code & BELOW ? w.bottom : w.top;
        i32 n = e->line - s.y1, d = s.y2 - s.y1;
        if (d < 0) { n = -n; d = -d; }
        i32 x = s.x1 * d + (s.x2 - s.x1) * n;
        e->code = (x < w.left * d) * LEFT | (w.right * d < x) * RIGHT;
        e->n = n; e->d = d;
    }
}

static inline struct CountedAnswer blank(u8 number, usize place, u32 shortenings) {
    struct CountedAnswer r;
    r.shortenings = shortenings;
    fill_blank(&r.answer, number, place);
    return r;
}

static COLD struct CountedAnswer refused(struct Window w, struct Stroke s) {
    struct Refusal r = good_window(w) ? stroke_refusal(s) : window_refusal(w);
    return blank(r.number, r.place, 0);
}

// A shortened end, in lowest terms, with its rounded point, and its side: that of the last shortening.
static inline void put(struct Window w, struct Stroke s, const struct End *e, struct Fraction *t, i32 *x, i32 *y, u8 *side) {
    if (e->across) {
        *side = 2 + (e->line == w.top);
        *x = rounded(s.x1, s.x2, e->n, e->d);
        *y = e->line;
    } else {
        *side = e->line == w.right;
        *x = e->line;
        *y = rounded(s.y1, s.y2, e->n, e->d);
    }
    *t = lowest(e->n, e->d);
}

static __attribute__((noinline)) struct CountedAnswer crossing(struct Window w, struct Stroke s, u32 code_a, u32 code_b) {
    struct End a = { .code = code_a }, b = { .code = code_b };
    u32 count = 0;
    do {
        if (a.code) shorten(w, s, &a);
        else shorten(w, s, &b);
        count++;
        if (a.code & b.code) return blank(0, 0, count);
    } while (a.code | b.code);
    struct CountedAnswer r;
    r.shortenings = count;
    struct StrokeAnswer *k = &r.answer;
    k->number = 0; k->place = 0; k->kept = 1;
    if (code_a) put(w, s, &a, &k->t0, &k->ax, &k->ay, &k->side0);
    else { k->t0 = (struct Fraction){ 0, 1 }; k->ax = s.x1; k->ay = s.y1; k->side0 = NO_SIDE; }
    if (code_b) put(w, s, &b, &k->t1, &k->bx, &k->by, &k->side1);
    else { k->t1 = (struct Fraction){ 1, 1 }; k->bx = s.x2; k->by = s.y2; k->side1 = NO_SIDE; }
    return r;
}

struct CountedAnswer tuned_cohen_sutherland(struct Window w, struct Stroke s) {
    if (!good_window(w)) return refused(w, s);
    u32 a = code_of(w, s.x1, s.y1), b = code_of(w, s.x2, s.y2);
    // what is inside a window that is on the table is on the table
    if ((a | b) == 0) {
        struct CountedAnswer r;
        r.shortenings = 0;
        fill_whole(&r.answer, s);
        return r;
    }
    if (!good_stroke(s)) return refused(w, s);
    if (a & b) return blank(0, 0, 0);
    return crossing(w, s, a, b);
}
