// A stroke against a rectangle by the cross-product method, after Skala: on which side of the stroke's line the corners of the rectangle are tells
// whether the line meets it, and at which sides it comes in and goes out.
#include "common.h"

// By the codes of both ends: kept whole, beyond one side with both, and else whether the start is inside.
enum Place { INSIDE, OUTSIDE, STARTS_INSIDE, STARTS_OUTSIDE };

static inline enum Place place(struct Window w, struct Stroke s) {
    if (s.x1 < w.left) {
        if (s.x2 < w.left) return OUTSIDE;
    } else if (w.right < s.x1) {
        if (w.right < s.x2) return OUTSIDE;
    } else {
        if (s.y1 < w.bottom) return s.y2 < w.bottom ? OUTSIDE : STARTS_OUTSIDE;
        if (w.top < s.y1) return w.top < s.y2 ? OUTSIDE : STARTS_OUTSIDE;
        return w.left <= s.x2 && s.x2 <= w.right && w.bottom <= s.y2 && s.y2 <= w.top ? INSIDE : STARTS_INSIDE;
    }
    if (s.y1 < w.bottom) return s.y2 < w.bottom ? OUTSIDE : STARTS_OUTSIDE;
    return w.top < s.y1 && w.top < s.y2 ? OUTSIDE : STARTS_OUTSIDE;
}

static COLD struct StrokeAnswer refused(struct Window w, struct Stroke s) {
    struct Refusal r = good_window(w) ? stroke_refusal(s) : window_refusal(w);
    struct StrokeAnswer a;
    fill_blank(&a, r.number, r.place);
    return a;
}

// How far a point is from a corner, f/d, so that its coordinate is the nearest whole number, and of two the even one.
static inline i32 far(u32 f, u32 d, i32 corner) {
    u32 quotient = f / d;
    return quotient + (d < 2 * (f % d) + ((corner + quotient) & 1));
}

// A stroke straight up or down that is not plainly outside: no corner decides anything, and a corner on its line would decide wrongly.
static COLD struct StrokeAnswer upright(struct Window w, struct Stroke s) {
    struct StrokeAnswer a;
    i32 up = s.y1 < s.y2, d = up ? s.y2 - s.y1 : s.y1 - s.y2;
    i32 in = up ? w.bottom - s.y1 : s.y1 - w.top, out = up ? w.top - s.y1 : s.y1 - w.bottom;
    fill_whole(&a, s);
    if (in > 0) { a.t0 = lowest(in, d); a.ay = up ? w.bottom : w.top; a.side0 = up ? 2 : 3; }
    if (out < d) { a.t1 = lowest(out, d); a.by = up ? w.top : w.bottom; a.side1 = up ? 3 : 2; }
    return a;
}

// What is left of any other stroke. The constants are its direction along each axis, 1 or -1, and whether it starts inside: then it cannot be missed,
// and ends outside. One that is level counts as downward: the comparisons give it the left and right sides, as they do where it goes by a corner.
static inline __attribute__((always_inline)) struct StrokeAnswer remains(struct Window w, struct Stroke s, i32 sx, i32 sy, i32 starts_inside) {
    // the sides that it crosses inward and outward, and how far they are from its start along its direction
    i32 at_x = sx > 0 ? w.left : w.right, to_x = sx > 0 ? w.right : w.left, at_y = sy > 0 ? w.bottom : w.top, to_y = sy > 0 ? w.top : w.bottom;
    i32 dx = sx * (s.x2 - s.x1), in_x = sx * (at_x - s.x1), out_x = sx * (to_x - s.x1);
    i32 dy = sy * (s.y2 - s.y1), in_y = sy * (at_y - s.y1), out_y = sy * (to_y - s.y1);
    // The cross product of a corner is the part of its y less that of its x, or that turned round, for all four alike. A part is at most 32766 times
    // 32766, and the product at most 2,147,221,512.
    i32 fx_in = in_x * dy, fx_out = out_x * dy, fy_in = in_y * dx, fy_out = out_y * dx;
    struct StrokeAnswer a;
    if (starts_inside) {
        a.t0 = (struct Fraction){ 0, 1 }; a.ax = s.x1; a.ay = s.y1; a.side0 = NO_SIDE;
    } else {
        // All four are on one side where the greatest is below 0 or the least above: the two between a side crossed inward and one crossed outward.
        if (UNLIKELY(fy_out < fx_in) || UNLIKELY(fx_out < fy_in)) {
            fill_blank(&a, 0, 0);
            return a;
        }
        // The corner between the two sides crossed inward tells at which of them it comes in, and how far from that corner: by the cross product over
        // the stroke's way across the side, so that the point takes no product of its own. What starts outside has some way to that side.
        if (fx_in < fy_in) {
            __builtin_assume(in_y > 0);
            a.ay = at_y; a.side0 = sy > 0 ? 2 : 3;
            a.ax = at_x + sx * far(fy_in - fx_in, dy, at_x);
            a.t0 = lowest(in_y, dy);
        } else {
            __builtin_assume(in_x > 0);
            a.ax = at_x; a.side0 = sx > 0 ? 0 : 1;
            a.ay = at_y + sy * far(fx_in - fy_in, dx, at_y);
            a.t0 = lowest(in_x, dx);
        }
    }
    a.number = 0; a.place = 0; a.kept = 1;
    // it goes out in the same manner, by the other two sides and the corner between them
    i32 across = fy_out < fx_out;
    if (!starts_inside && (across ? dy <= out_y : dx <= out_x)) {
        a.t1 = (struct Fraction){ 1, 1 }; a.bx = s.x2; a.by = s.y2; a.side1 = NO_SIDE;
    } else if (across) {
        if (!starts_inside) __builtin_assume(out_y > 0);
        a.by = to_y; a.side1 = sy > 0 ? 3 : 2;
        a.bx = to_x - sx * far(fx_out - fy_out, dy, to_x);
        a.t1 = lowest(out_y, dy);
    } else {
        if (!starts_inside) __builtin_assume(out_x > 0);
        a.bx = to_x; a.side1 = sx > 0 ? 1 : 0;
        a.by = to_y - sy * far(fy_out - fx_out, dx, to_y);
        a.t1 = lowest(out_x, dx);
    }
    return a;
}

// Compiled for each direction apart, so that no sign is asked for twice.
static inline __attribute__((always_inline)) struct StrokeAnswer either_way(struct Window w, struct Stroke s, i32 starts_inside) {
    if (s.x1 < s.x2) return s.y1 < s.y2 ? remains(w, s, 1, 1, starts_inside) : remains(w, s, 1, -1, starts_inside);
    if (UNLIKELY(s.x1 == s.x2)) return upright(w, s);
    return s.y1 < s.y2 ? remains(w, s, -1, 1, starts_inside) : remains(w, s, -1, -1, starts_inside);
}

// Functions of their own, so that the plain cases save no register.
static __attribute__((noinline)) struct StrokeAnswer from_inside(struct Window w, struct Stroke s) { return either_way(w, s, 1); }

static __attribute__((noinline)) struct StrokeAnswer from_outside(struct Window w, struct Stroke s) { return either_way(w, s, 0); }

struct StrokeAnswer tuned_cross_product(struct Window w, struct Stroke s) {
    if (!good_window(w)) return refused(w, s);
    struct StrokeAnswer a;
    enum Place p = place(w, s);
    // what is inside a window that is on the table is on the table
    if (p == INSIDE) {
        fill_whole(&a, s);
        return a;
    }
    // each number apart, which makes a jump of each: fewer instructions than `good_stroke` takes
    if (UNLIKELY(off(s.x1)) || UNLIKELY(off(s.y1)) || UNLIKELY(off(s.x2)) || UNLIKELY(off(s.y2))) return refused(w, s);
    if (p == OUTSIDE) {
        fill_blank(&a, 0, 0);
        return a;
    }
    return p == STARTS_INSIDE ? from_inside(w, s) : from_outside(w, s);
}
