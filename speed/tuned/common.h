// What the tuned versions share: the refusal tests, lowest terms, rounding.
#ifndef COMMON_H
#define COMMON_H
#include "../calls.h"

#define FARTHEST 16383
// Where the stroke's own end remains; else sides are 0 left, 1 right, 2 bottom, 3 top, or the number of an edge's first corner.
#define NO_SIDE 255
#define LIKELY(x) __builtin_expect(!!(x), 1)
#define UNLIKELY(x) __builtin_expect(!!(x), 0)
#define COLD __attribute__((noinline, cold))

struct Refusal { u8 number; usize place; };

static inline i32 off(i32 x) { return (u32)(x + FARTHEST) > 2 * FARTHEST; }

// With left < right, the left one is the only one that can be too low and the right one the only one that can be too high.
static inline i32 good_window(struct Window w) {
    return LIKELY(w.left >= -FARTHEST && w.right <= FARTHEST && w.left < w.right
        && w.bottom >= -FARTHEST && w.top <= FARTHEST && w.bottom < w.top);
}

static inline i32 good_stroke(struct Stroke s) {
    return LIKELY(!off(s.x1) && !off(s.y1) && !off(s.x2) && !off(s.y2));
}

// Why a window is not good.
static COLD struct Refusal window_refusal(struct Window w) {
    i32 n[4] = { w.left, w.bottom, w.right, w.top };
    for (usize i = 0; i < 4; i++)
        if (off(n[i])) return (struct Refusal){ 2, i };
    return (struct Refusal){ 3, 0 };
}

// Why a stroke is not good.
static COLD struct Refusal stroke_refusal(struct Stroke s) {
    i32 n[4] = { s.x1, s.y1, s.x2, s.y2 };
    usize i = 0;
    while (!off(n[i])) i++;
    return (struct Refusal){ 6, i };
}

// Whether any of n numbers is off the table: eights of them have one way out for all, which the compiler turns into vectors.
static inline i32 any_off(const i32 *s, usize n) {
    i32 sign = 0;
    usize i = 0;
    for (usize eights = n & ~7ul; i < eights; i++) sign |= (i32)((u32)s[i] + FARTHEST) | (i32)(FARTHEST - (u32)s[i]);
    #pragma clang loop vectorize(disable) unroll(disable)
    for (; i < n; i++)
        if (UNLIKELY(off(s[i]))) return 1;
    return UNLIKELY(sign < 0);
}

static COLD usize first_off(const i32 *s) {
    usize i = 0;
    while (!off(s[i])) i++;
    return i;
}

// The greatest common divisor of d > 0 and n, by Euclid's rule.
static inline u32 common(u32 d, u32 n) {
    for (;;) {
        if (n == 0) return d;
        d %= n;
        if (d == 0) return n;
        n %= d;
    }
}

// n/d in lowest terms.
static inline struct Fraction lowest(u32 n, u32 d) {
    u32 g = common(d, n);
    if (g != 1) { n /= g; d /= g; }
    return (struct Fraction){ n, d };
}

// The coordinate at n/d of the way from a to b, to the nearest, a half to the even one. Lifted by an even number it is not negative.
static inline i32 rounded(i32 a, i32 b, u32 n, u32 d) {
    u32 lifted = (u32)(a + 16384) * d + (u32)(b - a) * n, quotient = lifted / d;
    return (i32)(quotient + (d < 2 * (lifted % d) + (quotient & 1))) - 16384;
}

// Answers of a missed or refused stroke, and of one that is kept whole: field by field, so that the bytes behind the last are not written.
static inline void fill_blank(struct StrokeAnswer *a, u8 number, usize place) {
    __builtin_memset(a, 0, __builtin_offsetof(struct StrokeAnswer, t0.den));
    a->number = number; a->place = place;
    a->t0.den = 1; a->t1 = (struct Fraction){ 0, 1 };
    a->ax = a->ay = a->bx = a->by = 0;
    a->side0 = a->side1 = NO_SIDE;
}

static inline void fill_whole(struct StrokeAnswer *a, struct Stroke s) {
    a->number = 0; a->place = 0; a->kept = 1;
    a->t0 = (struct Fraction){ 0, 1 }; a->t1 = (struct Fraction){ 1, 1 };
    a->ax = s.x1; a->ay = s.y1; a->bx = s.x2; a->by = s.y2;
    a->side0 = a->side1 = NO_SIDE;
}

#endif
