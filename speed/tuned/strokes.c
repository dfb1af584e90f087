// A stroke against a rectangle by the Liang-Barsky rule, and many of them.
#include "cut.h"

static inline struct StrokeAnswer blank(u8 number, usize place) {
    struct StrokeAnswer a;
    fill_blank(&a, number, place);
    return a;
}

static inline struct StrokeAnswer whole(struct Stroke s) {
    struct StrokeAnswer a;
    fill_whole(&a, s);
    return a;
}

static COLD struct StrokeAnswer refused(struct Window w, struct Stroke s) {
    struct Refusal r = good_window(w) ? stroke_refusal(s) : window_refusal(w);
    return blank(r.number, r.place);
}

// Its own function, so that the plain cases save no register.
static __attribute__((noinline)) struct StrokeAnswer crossing(struct Window w, struct Stroke s) {
    struct Cut c;
    if (!cut(w, s, &c, 1)) return blank(0, 0);
    struct StrokeAnswer a;
    a.number = 0; a.place = 0; a.kept = 1;
    a.ax = c.ax; a.ay = c.ay; a.bx = c.bx; a.by = c.by;
    a.side0 = c.side0; a.side1 = c.side1;
    a.t0 = c.n0 != 0 ? lowest(c.n0, c.d0) : (struct Fraction){ 0, 1 };
    a.t1 = c.n1 != c.d1 ? lowest(c.n1, c.d1) : (struct Fraction){ 1, 1 };
    return a;
}

struct StrokeAnswer tuned_liang_barsky(struct Window w, struct Stroke s) {
    if (!good_window(w)) return refused(w, s);
    enum Place p = place(w, s);
    // what is inside a window that is on the table is on the table
    if (p == INSIDE) return whole(s);
    if (!good_stroke(s)) return refused(w, s);
    if (p == OUTSIDE) return blank(0, 0);
    return crossing(w, s);
}

static inline void put(i32 *out, i32 k, i32 ax, i32 ay, i32 bx, i32 by) {
    out[0] = k; out[1] = ax; out[2] = ay; out[3] = bx; out[4] = by;
}

static COLD usize count_rows(struct Window w, const i32 *s, usize n, i32 touches) {
    usize needed = 0;
    struct Cut c;
    for (usize i = 0; i < n; i += 4) {
        struct Stroke t = { s[i], s[i + 1], s[i + 2], s[i + 3] };
        enum Place p = place(w, t);
        if (p == INSIDE || (p == NEITHER && cut(w, t, &c, touches))) needed += 5;
    }
    return needed;
}

// Both calls; `touches` is a constant in each.
static inline __attribute__((always_inline)) struct Answer
batch(struct Window w, const i32 *s, usize n, i32 *restrict out, usize room, i32 touches) {
    if (!good_window(w)) {
        struct Refusal r = window_refusal(w);
        return (struct Answer){ r.number, r.place, 0 };
    }
    if (UNLIKELY(n % 4 != 0 || n > 4 * 4096)) return (struct Answer){ 5, 0, 0 };
    if (any_off(s, n)) return (struct Answer){ 6, first_off(s), 0 };
    if (UNLIKELY(room < n / 4 * 5)) {
        usize needed = count_rows(w, s, n, touches);
        if (room < needed) return (struct Answer){ 8, needed, 0 };
    }
    i32 *to = out;
    for (usize i = 0; i < n; i += 4) {
        struct Stroke t = { s[i], s[i + 1], s[i + 2], s[i + 3] };
        enum Place p = place(w, t);
        if (p == OUTSIDE) continue;
        struct Cut c;
        if (p == INSIDE) put(to, i / 4, t.x1, t.y1, t.x2, t.y2);
        else if (cut(w, t, &c, touches)) put(to, i / 4, c.ax, c.ay, c.bx, c.by);
        else continue;
        to += 5;
    }
    return (struct Answer){ 0, 0, to - out };
}

struct Answer tuned_batch(struct Window w, const i32 *s, usize n, i32 *restrict out, usize room) {
    return batch(w, s, n, out, room, 0);
}

struct Answer tuned_batch_with_touches(struct Window w, const i32 *s, usize n, i32 *restrict out, usize room) {
    return batch(w, s, n, out, room, 1);
}
