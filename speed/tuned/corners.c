// A stroke against a corner window by the Cyrus-Beck rule.
#include "common.h"

static inline struct CornerAnswer blank(u8 number, usize place) {
    struct CornerAnswer a;
    __builtin_memset(&a, 0, __builtin_offsetof(struct CornerAnswer, t0.den));
    a.number = number; a.place = place;
    a.t0.den = 1; a.t1 = (struct Fraction){ 0, 1 };
    a.side0 = a.side1 = NO_SIDE;
    return a;
}

// Whether all corners turn left and the ways begin to go up once.
static COLD i32 strictly_convex(const i32 *c, usize n) {
    i32 ex = c[0] - c[n - 2], ey = c[1] - c[n - 1], rises = 0;
    for (usize i = 0; i < n; i += 2) {
        usize next = i + 2 < n ? i + 2 : 0;
        i32 fx = c[next] - c[i], fy = c[next + 1] - c[i + 1];
        if (ex * fy <= ey * fx) return 0;
        rises += ey < 0 && fy >= 0;
        ex = fx; ey = fy;
    }
    return rises == 1;
}

// The stroke is off the table, but the window's convexity comes first.
static COLD struct CornerAnswer stroke_off(const i32 *c, usize n, struct Stroke s) {
    if (!strictly_convex(c, n)) return blank(3, 0);
    struct Refusal r = stroke_refusal(s);
    return blank(r.number, r.place);
}

// One walk tests the convexity and cuts the stroke: both need the edges. Each p and q is below 2^31, so a comparison of fractions takes
// products of 64 bits.
struct CornerAnswer tuned_cyrus_beck(const i32 *c, usize n, struct Stroke s) {
    if (UNLIKELY(n % 2 != 0 || n < 6 || n > 32)) return blank(3, 0);
    if (any_off(c, n)) return blank(2, first_off(c));
    if (!good_stroke(s)) return stroke_off(c, n, s);
    i32 dx = s.x2 - s.x1, dy = s.y2 - s.y1;
    // down from the closing edge to edge 0: of edges with the same fraction the last one counts, which has the lowest number
    i32 x = c[0], y = c[1], ex = c[2] - x, ey = c[3] - y, rises = 0, missed = 0;
    i64 n0 = 0, d0 = 1, n1 = 1, d1 = 1;
    u32 i0 = 0, i1 = 0;
    for (usize i = n; i > 0; i -= 2) {
        i32 fx = x - c[i - 2], fy = y - c[i - 1];
        if (UNLIKELY(fx * ey <= fy * ex)) return blank(3, 0);
        rises += (fy & ~ey) < 0;
        // p t <= q on the edge's left
        i32 p = dx * fy - dy * fx, q = fx * (s.y1 - y) - fy * (s.x1 - x);
        if (q < 0) {
            if (p >= 0) missed = 1;
            else if (n0 * -(i64)p <= -(i64)q * d0) { n0 = -(i64)q; d0 = -(i64)p; i0 = i; }
        } else if (q < p && q * d1 <= n1 * p) { n1 = q; d1 = p; i1 = i; }
        x = c[i - 2]; y = c[i - 1]; ex = fx; ey = fy;
    }
    if (UNLIKELY(rises != 1)) return blank(3, 0);
    if (missed || n1 * d0 < n0 * d1) return blank(0, 0);
    struct CornerAnswer a;
    a.number = 0; a.place = 0; a.kept = 1;
    a.t0 = (struct Fraction){ 0, 1 }; a.t1 = (struct Fraction){ 1, 1 };
    a.side0 = a.side1 = NO_SIDE;
    if (n0 != 0) { a.t0 = lowest((u32)n0, (u32)d0); a.side0 = i0 / 2 - 1; }
    if (n1 != d1) { a.t1 = lowest((u32)n1, (u32)d1); a.side1 = i1 / 2 - 1; }
    return a;
}
