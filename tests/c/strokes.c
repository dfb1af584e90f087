/* Strokes against a rectangle, by all three rules. */
#include "check.h"

#define STROKE_ANSWER(a, n, p, k, n0, d0, n1, d1, px, py, qx, qy, s0, s1) \
    do { \
        SAME((a).number, n); \
        SAME((a).place, p); \
        SAME((a).kept, k); \
        SAME((a).t0.num, n0); \
        SAME((a).t0.den, d0); \
        SAME((a).t1.num, n1); \
        SAME((a).t1.den, d1); \
        SAME((a).ax, px); \
        SAME((a).ay, py); \
        SAME((a).bx, qx); \
        SAME((a).by, qy); \
        SAME((a).side0, s0); \
        SAME((a).side1, s1); \
    } while (0)

/* All three calls give the same answer; one gives the count of shortenings too. */
#define EACH(window, stroke, n, p, k, n0, d0, n1, d1, px, py, qx, qy, s0, s1, count) \
    do { \
        gerlyantu_stroke_answer plain = gerlyantu_liang_barsky(window, stroke); \
        gerlyantu_counted_answer counted = gerlyantu_cohen_sutherland(window, stroke); \
        gerlyantu_stroke_answer crossed = gerlyantu_cross_product(window, stroke); \
        STROKE_ANSWER(plain, n, p, k, n0, d0, n1, d1, px, py, qx, qy, s0, s1); \
        STROKE_ANSWER(counted.answer, n, p, k, n0, d0, n1, d1, px, py, qx, qy, s0, s1); \
        STROKE_ANSWER(crossed, n, p, k, n0, d0, n1, d1, px, py, qx, qy, s0, s1); \
        SAME(counted.shortenings, count); \
    } while (0)

/* The number of an end that no side cut; the sides are 0 left, 1 right, 2 bottom, 3 top. */
#define OWN 255

#define KEPT(window, stroke, n0, d0, n1, d1, px, py, qx, qy, s0, s1, count) \
    EACH(window, stroke, 0, 0, 1, n0, d0, n1, d1, px, py, qx, qy, s0, s1, count)
#define MISSED(window, stroke, count) EACH(window, stroke, 0, 0, 0, 0, 1, 0, 1, 0, 0, 0, 0, OWN, OWN, count)
#define REFUSED(window, stroke, n, p) EACH(window, stroke, n, p, 0, 0, 1, 0, 1, 0, 0, 0, 0, OWN, OWN, 0)

#define W(l, b, r, t) ((gerlyantu_window){l, b, r, t})
#define S(x1, y1, x2, y2) ((gerlyantu_stroke){x1, y1, x2, y2})

/* A to G of the rules. */
static void check_examples(void) {
    KEPT(ten, S(-5, 5, 15, 5), 1, 4, 3, 4, 0, 5, 10, 5, 0, 1, 2);
    KEPT(ten, S(-5, 5, 5, -5), 1, 2, 1, 2, 0, 0, 0, 0, 0, 2, 2);
    MISSED(ten, S(-5, 4, 4, -5), 1);
    KEPT(ten, S(-1, 24, 11, -14), 7, 19, 12, 19, 3, 10, 7, 0, 3, 2, 4);
    KEPT(ten, S(-1, 0, 1, 1), 1, 2, 1, 1, 0, 0, 1, 1, 0, OWN, 1);
    KEPT(ten, S(10, 10, 10, 10), 0, 1, 1, 1, 10, 10, 10, 10, OWN, OWN, 0);
    MISSED(ten, S(11, 10, 11, 10), 0);
}

/* A stroke cut at a half, and the same line drawn the other way round: 0.5, 1.5, 2.5 up the left side, -0.5 and -1.5, and both ends at once. */
static void check_halves(void) {
    const gerlyantu_window below = W(0, -10, 10, 10);
    KEPT(ten, S(1, 1, -1, 0), 0, 1, 1, 2, 1, 1, 0, 0, OWN, 0, 1);
    KEPT(ten, S(-1, 1, 1, 2), 1, 2, 1, 1, 0, 2, 1, 2, 0, OWN, 1);
    KEPT(ten, S(1, 2, -1, 1), 0, 1, 1, 2, 1, 2, 0, 2, OWN, 0, 1);
    KEPT(ten, S(-1, 2, 1, 3), 1, 2, 1, 1, 0, 2, 1, 3, 0, OWN, 1);
    KEPT(ten, S(1, 3, -1, 2), 0, 1, 1, 2, 1, 3, 0, 2, OWN, 0, 1);
    KEPT(below, S(-1, 0, 1, -1), 1, 2, 1, 1, 0, 0, 1, -1, 0, OWN, 1);
    KEPT(below, S(1, -1, -1, 0), 0, 1, 1, 2, 1, -1, 0, 0, OWN, 0, 1);
    KEPT(below, S(-1, -1, 1, -2), 1, 2, 1, 1, 0, -2, 1, -2, 0, OWN, 1);
    KEPT(below, S(1, -2, -1, -1), 0, 1, 1, 2, 1, -2, 0, -2, OWN, 0, 1);
    KEPT(ten, S(-1, 0, 11, 6), 1, 12, 11, 12, 0, 0, 10, 6, 0, 1, 2);
    KEPT(ten, S(11, 6, -1, 0), 1, 12, 11, 12, 10, 6, 0, 0, 1, 0, 2);
}

/* Missed after one shortening, though the shortened start has as many set bits as before. */
static void check_same_bits(void) {
    MISSED(ten, S(5, 20, 40, 5), 1);
}

/* The largest numbers: the table's diagonal in the whole table, and in its lower half. */
static void check_largest(void) {
    const gerlyantu_stroke diagonal = {-16383, -16383, 16383, 16383};
    KEPT(W(-16383, -16383, 16383, 16383), diagonal, 0, 1, 1, 1, -16383, -16383, 16383, 16383, OWN, OWN, 0);
    KEPT(W(-16383, -16383, 16383, 0), diagonal, 0, 1, 1, 2, -16383, -16383, 0, 0, OWN, 3, 1);
    MISSED(W(-16383, 0, -1, 16383), diagonal, 1);
}

/* Through a corner of the window: two sides give the same fraction, and the lower number is given, for an end that comes in and for one that
 * goes out. */
static void check_two_sides(void) {
    KEPT(ten, S(-5, -5, 5, 5), 1, 2, 1, 1, 0, 0, 5, 5, 0, OWN, 1);
    KEPT(ten, S(-5, 15, 5, 5), 1, 2, 1, 1, 0, 10, 5, 5, 0, OWN, 1);
    KEPT(ten, S(15, -5, 5, 5), 1, 2, 1, 1, 10, 0, 5, 5, 1, OWN, 1);
    KEPT(ten, S(15, 15, 5, 5), 1, 2, 1, 1, 10, 10, 5, 5, 1, OWN, 1);
    KEPT(ten, S(5, 5, -5, -5), 0, 1, 1, 2, 5, 5, 0, 0, OWN, 0, 1);
    KEPT(ten, S(5, 5, -5, 15), 0, 1, 1, 2, 5, 5, 0, 10, OWN, 0, 1);
    KEPT(ten, S(5, 5, 15, -5), 0, 1, 1, 2, 5, 5, 10, 0, OWN, 1, 1);
    KEPT(ten, S(5, 5, 15, 15), 0, 1, 1, 2, 5, 5, 10, 10, OWN, 1, 1);
    KEPT(ten, S(-5, -5, 15, 15), 1, 4, 3, 4, 0, 0, 10, 10, 0, 1, 2);
    KEPT(ten, S(15, -5, -5, 15), 1, 4, 3, 4, 10, 0, 0, 10, 1, 0, 2);
}

/* Past a corner that it only touches: one side is crossed inward there and the other outward, so there is no choice. */
static void check_touched(void) {
    KEPT(ten, S(5, -5, -5, 5), 1, 2, 1, 2, 0, 0, 0, 0, 2, 0, 2);
    KEPT(ten, S(15, 5, 5, 15), 1, 2, 1, 2, 10, 10, 10, 10, 1, 3, 2);
    KEPT(ten, S(5, 15, 15, 5), 1, 2, 1, 2, 10, 10, 10, 10, 3, 1, 2);
}

/* An end that is shortened twice has the side of the second time. */
static void check_last_side(void) {
    KEPT(ten, S(-6, -5, 5, 6), 6, 11, 1, 1, 0, 1, 5, 6, 0, OWN, 1);
    KEPT(ten, S(-5, -6, 6, 5), 6, 11, 1, 1, 1, 0, 6, 5, 2, OWN, 2);
    KEPT(ten, S(6, 5, -5, -6), 0, 1, 5, 11, 6, 5, 1, 0, OWN, 2, 2);
    KEPT(ten, S(4, 5, 15, 16), 0, 1, 5, 11, 4, 5, 9, 10, OWN, 3, 2);
}

/* Along a side, which is then not crossed; and with its own ends on sides, which cut nothing off. */
static void check_along(void) {
    KEPT(ten, S(0, -5, 0, 15), 1, 4, 3, 4, 0, 0, 0, 10, 2, 3, 2);
    KEPT(ten, S(15, 10, -5, 10), 1, 4, 3, 4, 10, 10, 0, 10, 1, 0, 2);
    KEPT(ten, S(0, 5, 10, 5), 0, 1, 1, 1, 0, 5, 10, 5, OWN, OWN, 0);
    KEPT(ten, S(10, 10, 0, 0), 0, 1, 1, 1, 10, 10, 0, 0, OWN, OWN, 0);
}

/* It ends where it comes in: t0 is 1/1 and has its side, t1 has none. */
static void check_only_the_end(void) {
    KEPT(ten, S(-5, 5, 0, 5), 1, 1, 1, 1, 0, 5, 0, 5, 0, OWN, 1);
    KEPT(ten, S(15, 5, 10, 5), 1, 1, 1, 1, 10, 5, 10, 5, 1, OWN, 1);
    KEPT(ten, S(5, -5, 5, 0), 1, 1, 1, 1, 5, 0, 5, 0, 2, OWN, 1);
    KEPT(ten, S(5, 15, 5, 10), 1, 1, 1, 1, 5, 10, 5, 10, 3, OWN, 1);
    KEPT(ten, S(-5, -5, 0, 0), 1, 1, 1, 1, 0, 0, 0, 0, 0, OWN, 1);
    KEPT(ten, S(15, 15, 10, 10), 1, 1, 1, 1, 10, 10, 10, 10, 1, OWN, 1);
    KEPT(ten, S(5, -5, 10, 0), 1, 1, 1, 1, 10, 0, 10, 0, 2, OWN, 1);
}

/* It starts where it goes out: t1 is 0/1 and has its side, t0 has none. */
static void check_only_the_start(void) {
    KEPT(ten, S(0, 5, -5, 5), 0, 1, 0, 1, 0, 5, 0, 5, OWN, 0, 1);
    KEPT(ten, S(10, 5, 15, 5), 0, 1, 0, 1, 10, 5, 10, 5, OWN, 1, 1);
    KEPT(ten, S(5, 0, 5, -5), 0, 1, 0, 1, 5, 0, 5, 0, OWN, 2, 1);
    KEPT(ten, S(5, 10, 5, 15), 0, 1, 0, 1, 5, 10, 5, 10, OWN, 3, 1);
    KEPT(ten, S(0, 0, -5, -5), 0, 1, 0, 1, 0, 0, 0, 0, OWN, 0, 1);
    KEPT(ten, S(10, 10, 15, 15), 0, 1, 0, 1, 10, 10, 10, 10, OWN, 1, 1);
    KEPT(ten, S(10, 0, 5, -5), 0, 1, 0, 1, 10, 0, 10, 0, OWN, 2, 1);
}

static void check_refusals(void) {
    const gerlyantu_stroke inside = {1, 1, 2, 2};
    REFUSED(W(-16384, 0, 10, 10), inside, 2, 0);
    REFUSED(W(0, 16384, 10, 10), inside, 2, 1);
    REFUSED(W(0, 0, INT32_MAX, 10), inside, 2, 2);
    REFUSED(W(0, 0, 10, INT32_MIN), inside, 2, 3);
    REFUSED(W(10, 0, 10, 10), inside, 3, 0);
    REFUSED(W(0, 10, 10, 10), inside, 3, 0);
    REFUSED(W(11, 0, 10, 10), inside, 3, 0);
    REFUSED(ten, S(16384, 0, 0, 0), 6, 0);
    REFUSED(ten, S(0, -16384, 0, 0), 6, 1);
    REFUSED(ten, S(0, 0, INT32_MIN, 0), 6, 2);
    REFUSED(ten, S(0, 0, 0, INT32_MAX), 6, 3);
}

/* Several at once: the lowest number, and of its places the first. */
static void check_several(void) {
    REFUSED(W(16384, 16384, 10, 10), S(16384, 0, 0, 0), 2, 0);
    REFUSED(W(0, 0, 0, 10), S(16384, 0, 0, 0), 3, 0);
    REFUSED(ten, S(0, 20000, 20000, 0), 6, 1);
}

/* Every stroke whose four numbers are among eight: the other two calls answer each as gerlyantu_liang_barsky does. */
static void check_among(gerlyantu_window w, const int32_t among[8]) {
    for (size_t k = 0; k < 8 * 8 * 8 * 8; k++) {
        const gerlyantu_stroke s = {among[k % 8], among[k / 8 % 8], among[k / 64 % 8], among[k / 512]};
        const gerlyantu_stroke_answer a = gerlyantu_liang_barsky(w, s);
        const gerlyantu_stroke_answer counted = gerlyantu_cohen_sutherland(w, s).answer;
        const gerlyantu_stroke_answer crossed = gerlyantu_cross_product(w, s);
        STROKE_ANSWER(counted, a.number, a.place, a.kept, a.t0.num, a.t0.den, a.t1.num, a.t1.den, a.ax, a.ay, a.bx, a.by, a.side0, a.side1);
        STROKE_ANSWER(crossed, a.number, a.place, a.kept, a.t0.num, a.t0.den, a.t1.num, a.t1.den, a.ax, a.ay, a.bx, a.by, a.side0, a.side1);
    }
}

/* In and round a small window, so that many go through its corners or along its sides; and up to the table's rim and a step beyond it, which is
 * refused. The last two windows are refused themselves. */
static void check_alike(void) {
    const int32_t near[8] = {-2, -1, 0, 1, 2, 3, 4, 5};
    const int32_t far[8] = {-16384, -16383, -8191, 0, 1, 8192, 16382, 16383};
    check_among(W(0, 0, 3, 2), near);
    check_among(W(-8191, 0, 8192, 16382), far);
    check_among(W(-16383, -16383, 16383, 16383), far);
    check_among(W(0, 3, 3, 3), far);
    check_among(W(0, 0, 16384, 3), far);
}

void check_strokes(void) {
    check_examples();
    check_halves();
    check_same_bits();
    check_largest();
    check_two_sides();
    check_touched();
    check_last_side();
    check_along();
    check_only_the_end();
    check_only_the_start();
    check_refusals();
    check_several();
    check_alike();
}
