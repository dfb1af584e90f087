// A stroke against a rectangle and many of them once more, in a form that was found later and takes fewer instructions for what is cut. It is
// measured in rows of its own: all other rows keep the form of strokes.c, so that they can be compared with those of before.
#include "cut.h"

// Whether x is between two sides: one comparison, where their distance is known from the strokes before.
static inline i32 between(i32 lo, i32 hi, i32 x, i32 many) { return many ? (u32)(x - lo) <= (u32)(hi - lo) : lo <= x && x <= hi; }

// As `place`; `many` where the stroke is one of many.
static inline __attribute__((always_inline)) enum Place place_of(struct Window w, struct Stroke s, i32 many) {
    if (s.x1 < w.left) {
        if (s.x2 < w.left) return OUTSIDE;
    } else if (w.right < s.x1) {
        if (w.right < s.x2) return OUTSIDE;
    } else if (between(w.left, w.right, s.x2, many)) {
        if (s.y1 < w.bottom) return s.y2 < w.bottom ? OUTSIDE : NEITHER;
        if (w.top < s.y1) return w.top < s.y2 ? OUTSIDE : NEITHER;
        return between(w.bottom, w.top, s.y2, many) ? INSIDE : NEITHER;
    }
    if (s.y1 < w.bottom) return s.y2 < w.bottom ? OUTSIDE : NEITHER;
    if (w.top < s.y1) return w.top < s.y2 ? OUTSIDE : NEITHER;
    return NEITHER;
}

// As `cut`, but an end takes its side's number by the stroke's direction alone, whether it is cut there or not, and a way of no length is asked for
// where the direction is.
static inline __attribute__((always_inline)) i32 remains(struct Window w, struct Stroke s, struct Cut *c, i32 touches) {
    // where it comes in and goes out along each axis, as parts n of the way d, in 0 and out d where it does not; and at which sides
    u32 dx, dy, in_x = 0, in_y = 0, out_x, out_y;
    i32 at_x, at_y, to_x, to_y;
    if (s.y1 < s.y2) {
        at_y = w.bottom; to_y = w.top;
        dy = out_y = s.y2 - s.y1;
        if (s.y1 < w.bottom) in_y = w.bottom - s.y1;
        if (w.top < s.y2) out_y = w.top - s.y1;
    } else if (UNLIKELY(s.y1 == s.y2)) {
        // a way of no length is all between the two sides
        at_y = to_y = s.y1;
        dy = out_y = 1;
    } else {
        at_y = w.top; to_y = w.bottom;
        dy = out_y = s.y1 - s.y2;
        if (w.top < s.y1) in_y = s.y1 - w.top;
        if (s.y2 < w.bottom) out_y = s.y1 - w.bottom;
    }
    if (s.x1 < s.x2) {
        at_x = w.left; to_x = w.right;
        dx = out_x = s.x2 - s.x1;
        if (s.x1 < w.left) in_x = w.left - s.x1;
        if (w.right < s.x2) out_x = w.right - s.x1;
    } else if (UNLIKELY(s.x1 == s.x2)) {
        at_x = to_x = s.x1;
        dx = out_x = 1;
    } else {
        at_x = w.right; to_x = w.left;
        dx = out_x = s.x1 - s.x2;
        if (w.right < s.x1) in_x = s.x1 - w.right;
        if (s.x2 < w.left) out_x = s.x1 - w.left;
    }
    if ((in_x | in_y) == 0) {
        // what starts inside and goes out at once only touches
        if (!touches && (out_x == 0 || out_y == 0)) return 0;
        c->n0 = 0; c->d0 = 1; c->ax = s.x1; c->ay = s.y1; c->side0 = NO_SIDE;
    } else {
        // missed where it goes out along one axis before it comes in along the other, and a touch where both are at one place
        u32 x = in_x * dy, y = in_y * dx;
        if (touches ? x > out_y * dx || y > out_x * dy : x >= out_y * dx || y >= out_x * dy) return 0;
        if (x >= y) {
            c->n0 = in_x; c->d0 = dx; c->ax = at_x; c->side0 = s.x2 < s.x1;
            c->ay = rounded(s.y1, s.y2, in_x, dx);
        } else {
            c->n0 = in_y; c->d0 = dy; c->ay = at_y; c->side0 = 2 + (s.y2 < s.y1);
            c->ax = rounded(s.x1, s.x2, in_y, dy);
        }
    }
    if (out_y == dy && out_x == dx) {
        c->n1 = 1; c->d1 = 1; c->bx = s.x2; c->by = s.y2; c->side1 = NO_SIDE;
    } else if (out_x * dy <= out_y * dx) {
        c->n1 = out_x; c->d1 = dx; c->bx = to_x; c->side1 = s.x1 < s.x2;
        c->by = rounded(s.y1, s.y2, out_x, dx);
    } else {
        c->n1 = out_y; c->d1 = dy; c->by = to_y; c->side1 = 2 + (s.y1 < s.y2);
        c->bx = rounded(s.x1, s.x2, out_y, dy);
    }
    return 1;
}

static COLD struct StrokeAnswer refused(struct Window w, struct Stroke s) {
    struct Refusal r = good_window(w) ? stroke_refusal(s) : window_refusal(w);
    struct StrokeAnswer a;
    fill_blank(&a, r.number, r.place);
    return a;
}

// Its own function, so that the plain cases save no register.
static __attribute__((noinline)) struct StrokeAnswer crossing(struct Window w, struct Stroke s) {
    struct Cut c;
    struct StrokeAnswer a;
    if (!remains(w, s, &c, 1)) {
        fill_blank(&a, 0, 0);
        return a;
    }
    a.number = 0; a.place = 0; a.kept = 1;
    a.ax = c.ax; a.ay = c.ay; a.bx = c.bx; a.by = c.by;
    a.side0 = c.side0; a.side1 = c.side1;
    a.t0 = c.n0 != 0 ? lowest(c.n0, c.d0) : (struct Fraction){ 0, 1 };
    a.t1 = c.n1 != c.d1 ? lowest(c.n1, c.d1) : (struct Fraction){ 1, 1 };
    return a;
}

struct StrokeAnswer faster_liang_barsky(struct Window w, struct Stroke s) {
    if (!good_window(w)) return refused(w, s);
    struct StrokeAnswer a;
    enum Place p = place_of(w, s, 0);
    // what is inside a window that is on the table is on the table
    if (p == INSIDE) {
        fill_whole(&a, s);
        return a;
    }
    if (!good_stroke(s)) return refused(w, s);
    if (p == OUTSIDE) {
        fill_blank(&a, 0, 0);
        return a;
    }
    return crossing(w, s);
}

static inline void put(i32 *out, i32 k, i32 ax, i32 ay, i32 bx, i32 by) {
    out[0] = k; out[1] = ax; out[2] = ay; out[3] = bx; out[4] = by;
}

static COLD usize count_rows(struct Window w, const i32 *s, usize n, i32 touches) {
    usize needed = 0;
    struct Cut c;
    for (usize i = 0; i < n; i += 4) {
        struct Stroke t = { s[i], s[i + 1], s[i + 2], s[i + 3] };
        enum Place p = place_of(w, t, 1);
        if (p == INSIDE || (p == NEITHER && remains(w, t, &c, touches))) needed += 5;
    }
    return needed;
}

// Both calls; `touches` is a constant in each.
static inline __attribute__((always_inline)) struct Answer
batch(struct Window w, const i32 *s, usize n, i32 *restrict out, usize room, i32 touches) {
    if (!good_window(w)) {
        struct Refusal r = window_refusal(w);
        return (struct Answer){ r.number, r.place, 0 };
    }
    if (UNLIKELY(n % 4 != 0 || n > 4 * 4096)) return (struct Answer){ 5, 0, 0 };
    if (any_off(s, n)) return (struct Answer){ 6, first_off(s), 0 };
    if (UNLIKELY(room < n / 4 * 5)) {
        usize needed = count_rows(w, s, n, touches);
        if (room < needed) return (struct Answer){ 8, needed, 0 };
    }
    i32 *to = out;
    for (usize k = 0, many = n / 4; k < many; k++) {
        struct Stroke t = { s[4 * k], s[4 * k + 1], s[4 * k + 2], s[4 * k + 3] };
        enum Place p = place_of(w, t, 1);
        if (p == OUTSIDE) continue;
        struct Cut c;
        if (p == INSIDE) put(to, k, t.x1, t.y1, t.x2, t.y2);
        else if (remains(w, t, &c, touches)) put(to, k, c.ax, c.ay, c.bx, c.by);
        else continue;
        to += 5;
    }
    return (struct Answer){ 0, 0, to - out };
}

struct Answer faster_batch(struct Window w, const i32 *s, usize n, i32 *restrict out, usize room) {
    return batch(w, s, n, out, room, 0);
}

struct Answer faster_batch_with_touches(struct Window w, const i32 *s, usize n, i32 *restrict out, usize room) {
    return batch(w, s, n, out, room, 1);
}
