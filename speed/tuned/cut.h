// What a rectangle leaves of a stroke that is not plainly inside: the Liang-Barsky rule, by the sides that it crosses.
#ifndef CUT_H
#define CUT_H
#include "common.h"

// From n0/d0 of its way to n1/d1, not in lowest terms, the two rounded points, and the sides that cut it there.
struct Cut { u32 n0, d0, n1, d1; i32 ax, ay, bx, by; u8 side0, side1; };

enum Place { INSIDE, OUTSIDE, NEITHER };

// Where a stroke plainly lies, by its two ends alone.
static inline enum Place place(struct Window w, struct Stroke s) {
    if (s.x1 < w.left) {
        if (s.x2 < w.left) return OUTSIDE;
    } else if (w.right < s.x1) {
        if (w.right < s.x2) return OUTSIDE;
    } else if (w.left <= s.x2 && s.x2 <= w.right) {
        if (s.y1 < w.bottom) return s.y2 < w.bottom ? OUTSIDE : NEITHER;
        if (w.top < s.y1) return w.top < s.y2 ? OUTSIDE : NEITHER;
        return w.bottom <= s.y2 && s.y2 <= w.top ? INSIDE : NEITHER;
    }
    if (s.y1 < w.bottom) return s.y2 < w.bottom ? OUTSIDE : NEITHER;
    return w.top < s.y1 && w.top < s.y2 ? OUTSIDE : NEITHER;
}

// Whether anything is left of a stroke that is neither; without touches a single point is nothing. Products stay below 2^31, as ways are at most
// 32766 long. A point on a side has that side's number, so a point costs one division.
static inline __attribute__((always_inline)) i32 cut(struct Window w, struct Stroke s, struct Cut *c, i32 touches) {
    // where it comes in and goes out along each axis, as parts n of the way d; in 0 and out d where it does not
    u32 dx, dy, in_x = 0, in_y = 0, out_x, out_y;
    i32 at_x = s.x1, at_y = s.y1, to_x = s.x2, to_y = s.y2;
    if (s.x1 < s.x2) {
        dx = s.x2 - s.x1;
        if (s.x1 < w.left) { at_x = w.left; in_x = w.left - s.x1; }
        if (w.right < s.x2) to_x = w.right;
        out_x = to_x - s.x1;
    } else {
        dx = s.x1 - s.x2;
        if (w.right < s.x1) { at_x = w.right; in_x = s.x1 - w.right; }
        if (s.x2 < w.left) to_x = w.left;
        out_x = s.x1 - to_x;
    }
    if (s.y1 < s.y2) {
        dy = s.y2 - s.y1;
        if (s.y1 < w.bottom) { at_y = w.bottom; in_y = w.bottom - s.y1; }
        if (w.top < s.y2) to_y = w.top;
        out_y = to_y - s.y1;
    } else {
        dy = s.y1 - s.y2;
        if (w.top < s.y1) { at_y = w.top; in_y = s.y1 - w.top; }
        if (s.y2 < w.bottom) to_y = w.bottom;
        out_y = s.y1 - to_y;
    }
    // a way of no length is all between the two sides
    if (dx == 0) dx = out_x = 1;
    if (dy == 0) dy = out_y = 1;
    if ((in_x | in_y) == 0) {
        // what starts inside and goes out at once only touches
        if (!touches && (out_x == 0 || out_y == 0)) return 0;
        c->n0 = 0; c->d0 = 1; c->ax = s.x1; c->ay = s.y1; c->side0 = NO_SIDE;
    } else {
        // missed where it goes out along one axis before it comes in along the other, and a touch where both are at one place
        u32 x = in_x * dy, y = in_y * dx;
        if (touches ? x > out_y * dx || y > out_x * dy : x >= out_y * dx || y >= out_x * dy) return 0;
        if (x >= y) {
            c->n0 = in_x; c->d0 = dx; c->ax = at_x; c->side0 = s.x2 < s.x1;
            c->ay = rounded(s.y1, s.y2, in_x, dx);
        } else {
            c->n0 = in_y; c->d0 = dy; c->ay = at_y; c->side0 = 2 + (s.y2 < s.y1);
            c->ax = rounded(s.x1, s.x2, in_y, dy);
        }
    }
    if (out_x == dx && out_y == dy) {
        c->n1 = 1; c->d1 = 1; c->bx = s.x2; c->by = s.y2; c->side1 = NO_SIDE;
    } else if (out_x * dy <= out_y * dx) {
        c->n1 = out_x; c->d1 = dx; c->bx = to_x; c->side1 = s.x1 < s.x2;
        c->by = rounded(s.y1, s.y2, out_x, dx);
    } else {
        c->n1 = out_y; c->d1 = dy; c->by = to_y; c->side1 = 2 + (s.y1 < s.y2);
        c->bx = rounded(s.x1, s.x2, out_y, dy);
    }
    return 1;
}

#endif
