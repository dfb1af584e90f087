/* A stroke against a corner window. */
#include "check.h"

#define CORNERS(list, length, stroke, n, p, k, n0, d0, n1, d1, s0, s1) \
    do { \
        gerlyantu_corner_answer corner = gerlyantu_cyrus_beck(list, length, stroke); \
        SAME(corner.number, n); \
        SAME(corner.place, p); \
        SAME(corner.kept, k); \
        SAME(corner.t0.num, n0); \
        SAME(corner.t0.den, d0); \
        SAME(corner.t1.num, n1); \
        SAME(corner.t1.den, d1); \
        SAME(corner.side0, s0); \
        SAME(corner.side1, s1); \
    } while (0)

/* The number of an end that no edge cut. */
#define OWN 255

#define KEPT(list, length, stroke, n0, d0, n1, d1, s0, s1) CORNERS(list, length, stroke, 0, 0, 1, n0, d0, n1, d1, s0, s1)
#define MISSED(list, length, stroke) CORNERS(list, length, stroke, 0, 0, 0, 0, 1, 0, 1, OWN, OWN)
#define REFUSED(list, length, stroke, n, p) CORNERS(list, length, stroke, n, p, 0, 0, 1, 0, 1, OWN, OWN)

#define S(x1, y1, x2, y2) ((gerlyantu_stroke){x1, y1, x2, y2})

/* A to G of the rules, the window given as its four corners; its edges are bottom, right, top and left. */
static void check_examples(void) {
    const int32_t square[8] = {0, 0, 10, 0, 10, 10, 0, 10};
    KEPT(square, 8, S(-5, 5, 15, 5), 1, 4, 3, 4, 3, 1);
    KEPT(square, 8, S(-5, 5, 5, -5), 1, 2, 1, 2, 3, 0);
    MISSED(square, 8, S(-5, 4, 4, -5));
    KEPT(square, 8, S(-1, 24, 11, -14), 7, 19, 12, 19, 2, 0);
    KEPT(square, 8, S(-1, 0, 1, 1), 1, 2, 1, 1, 3, OWN);
    KEPT(square, 8, S(10, 10, 10, 10), 0, 1, 1, 1, OWN, OWN);
    MISSED(square, 8, S(11, 10, 11, 10));
}

/* A triangle, the fewest corners, with the side x + y = 10: met in its middle, gone along, touched, and passed by. */
static void check_triangle(void) {
    const int32_t triangle[6] = {0, 0, 10, 0, 0, 10};
    KEPT(triangle, 6, S(-5, 5, 15, 5), 1, 4, 1, 2, 2, 1);
    KEPT(triangle, 6, S(20, -10, -10, 20), 1, 3, 2, 3, 0, 2);
    KEPT(triangle, 6, S(20, 10, 10, 0), 1, 1, 1, 1, 1, OWN);
    MISSED(triangle, 6, S(10, 1, 1, 10));
}

/* The most corners, on the parabola y = x * x: a stroke along x = 5 from 25 to 75, which comes in at corner 5, by edges 4 and 5; one that touches the
 * last corner, by the closing edge and the one before; and one that comes in at corner 0, by the closing edge and edge 0. */
static void check_longest(void) {
    int32_t corners[2 * GERLYANTU_WINDOW_CORNERS + 2];
    parabola(corners, GERLYANTU_WINDOW_CORNERS + 1);
    KEPT(corners, 32, S(5, 0, 5, 100), 1, 4, 3, 4, 4, 15);
    KEPT(corners, 32, S(0, 225, 30, 225), 1, 2, 1, 2, 15, 14);
    KEPT(corners, 32, S(-1, -2, 1, 2), 1, 2, 1, 1, 0, OWN);
    KEPT(corners, 32, S(1, 2, -1, -2), 0, 1, 1, 2, OWN, 0);
    MISSED(corners, 32, S(0, 226, 30, 226));
    REFUSED(corners, 34, S(5, 0, 5, 100), 3, 0);
    REFUSED(corners, 33, S(5, 0, 5, 100), 3, 0);
}

/* Through corners: of the two edges the lower number is given. At corner 0 they are the closing edge and edge 0, so it is 0, wherever the list
 * begins. */
static void check_two_edges(void) {
    const int32_t square[8] = {0, 0, 10, 0, 10, 10, 0, 10};
    const int32_t turned[8] = {10, 0, 10, 10, 0, 10, 0, 0};
    const int32_t triangle[6] = {0, 0, 10, 0, 0, 10};
    KEPT(square, 8, S(-5, -5, 15, 15), 1, 4, 3, 4, 0, 1);
    KEPT(square, 8, S(15, 15, -5, -5), 1, 4, 3, 4, 1, 0);
    KEPT(square, 8, S(15, -5, -5, 15), 1, 4, 3, 4, 0, 2);
    KEPT(square, 8, S(-5, 15, 15, -5), 1, 4, 3, 4, 2, 0);
    KEPT(turned, 8, S(-5, -5, 15, 15), 1, 4, 3, 4, 2, 0);
    KEPT(turned, 8, S(15, -5, -5, 15), 1, 4, 3, 4, 0, 1);
    KEPT(triangle, 6, S(-5, -5, 15, 15), 1, 4, 1, 2, 0, 1);
    KEPT(triangle, 6, S(15, 15, -5, -5), 1, 2, 3, 4, 1, 0);
}

/* It ends where it comes in, starts where it goes out, or has its ends on edges; and along an edge, which is then not crossed. */
static void check_ends_on_edges(void) {
    const int32_t square[8] = {0, 0, 10, 0, 10, 10, 0, 10};
    KEPT(square, 8, S(-5, 5, 0, 5), 1, 1, 1, 1, 3, OWN);
    KEPT(square, 8, S(-5, -5, 0, 0), 1, 1, 1, 1, 0, OWN);
    KEPT(square, 8, S(0, 5, -5, 5), 0, 1, 0, 1, OWN, 3);
    KEPT(square, 8, S(0, 0, -5, -5), 0, 1, 0, 1, OWN, 0);
    KEPT(square, 8, S(0, 5, 10, 5), 0, 1, 1, 1, OWN, OWN);
    KEPT(square, 8, S(-5, 0, 15, 0), 1, 4, 3, 4, 3, 1);
}

static void check_lengths(void) {
    const int32_t square[8] = {0, 0, 10, 0, 10, 10, 0, 10};
    REFUSED(NULL, 0, S(0, 0, 1, 1), 3, 0);
    REFUSED(square, 0, S(0, 0, 1, 1), 3, 0);
    REFUSED(square, 1, S(0, 0, 1, 1), 3, 0);
    REFUSED(square, 4, S(0, 0, 1, 1), 3, 0);
    REFUSED(square, 7, S(0, 0, 1, 1), 3, 0);
}

/* Not strictly convex counterclockwise: clockwise, a straight corner, a repeated point, and the star, which turns left everywhere. */
static void check_shapes(void) {
    const int32_t clockwise[6] = {0, 0, 0, 10, 10, 0};
    const int32_t straight[8] = {0, 0, 5, 0, 10, 0, 0, 10};
    const int32_t repeated[8] = {0, 0, 10, 0, 10, 0, 0, 10};
    const int32_t star[10] = {0, 3, -2, -3, 3, 1, -3, 1, 2, -3};
    REFUSED(clockwise, 6, S(0, 0, 1, 1), 3, 0);
    REFUSED(straight, 8, S(0, 0, 1, 1), 3, 0);
    REFUSED(repeated, 8, S(0, 0, 1, 1), 3, 0);
    REFUSED(star, 10, S(0, 0, 1, 1), 3, 0);
}

/* Which comes first: length (3), range (2), convexity (3), the stroke (6). */
static void check_order(void) {
    const int32_t off[8] = {0, 0, 10, 0, 10, 16384, 0, INT32_MIN};
    const int32_t clockwise[6] = {0, 0, 0, 10, 10, 0};
    const int32_t square[8] = {0, 0, 10, 0, 10, 10, 0, 10};
    REFUSED(off, 7, S(16384, 0, 1, 1), 3, 0);
    REFUSED(off, 8, S(16384, 0, 1, 1), 2, 5);
    REFUSED(clockwise, 6, S(16384, 0, 1, 1), 3, 0);
    REFUSED(square, 8, S(16384, 0, 1, 1), 6, 0);
    REFUSED(square, 8, S(0, 0, 1, INT32_MIN), 6, 3);
}

void check_corners(void) {
    check_examples();
    check_triangle();
    check_longest();
    check_two_edges();
    check_ends_on_edges();
    check_lengths();
    check_shapes();
    check_order();
}
