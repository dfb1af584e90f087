/* An outline against a rectangle. */
#include "check.h"

enum { MOST = 2 * GERLYANTU_OUTLINE_CORNERS, ROOM = 2 * MOST + 16, GUARD = 8, ORDERS = GERLYANTU_LAST_ORDER + 1 };

static int32_t out[ROOM + GUARD], want[ROOM];

/* What the passes left where there is no area, and where the call is refused. */
static const uint8_t nothing[4] = {0, 0, 0, 0};

#define ANSWERED(ring, n, p, written, counts) \
    do { \
        SAME(ring.number, n); \
        SAME(ring.place, p); \
        SAME(ring.count, written); \
        SAME(in_one(ring.passes), in_one(counts)); \
    } while (0)

/* Lends `room` numbers of out, and holds the answer and all that was not to be written. */
#define OUTLINE(window, order, list, length, room, n, p, written, counts) \
    do { \
        lend(out, ROOM + GUARD); \
        gerlyantu_outline_answer ring = gerlyantu_clip_outline(window, order, list, length, out, room); \
        ANSWERED(ring, n, p, written, counts); \
        LEFT(out, written, ROOM + GUARD); \
    } while (0)

/* In one order the ring that is wanted, into an output of just its length; one number less is refused. */
#define RING_IN(window, order, list, length, written, counts) \
    do { \
        OUTLINE(window, order, list, length, written, 0, 0, written, counts); \
        WROTE(out, want, written); \
        OUTLINE(window, order, list, length, (written)-1, 8, written, 0, nothing); \
    } while (0)

/* In every order the same ring, by passes that leave as many corners in each. */
#define RING(window, list, length, written, counts) \
    do { \
        for (uint32_t order = 0; order < ORDERS; order++) RING_IN(window, order, list, length, written, counts); \
    } while (0)

#define NO_AREA(window, list, length, room) \
    do { \
        for (uint32_t order = 0; order < ORDERS; order++) \
            OUTLINE(window, order, list, length, room, 0, 0, 0, nothing); \
    } while (0)

#define REFUSED(window, order, list, length, room, n, p) OUTLINE(window, order, list, length, room, n, p, 0, nothing)

/* Puts one corner of the ring that is to be written, in whole numbers. */
static void put_corner(size_t i, int32_t x, int32_t y) {
    const int32_t numbers[4] = {x, 1, y, 1};
    for (size_t k = 0; k < 4; k++) want[4 * i + k] = numbers[k];
}

static void put_corners(const int32_t *corners, size_t count) {
    for (size_t i = 0; i < count; i++) put_corner(i, corners[2 * i], corners[2 * i + 1]);
}

/* H of the rules: a diamond loses its four tips, one a side. */
static void check_diamond(void) {
    const int32_t diamond[8] = {5, -2, 12, 5, 5, 12, -2, 5};
    const int32_t ring[16] = {3, 0, 7, 0, 10, 3, 10, 7, 7, 10, 3, 10, 0, 7, 0, 3};
    const uint8_t counts[4] = {5, 6, 7, 8};
    put_corners(ring, 8);
    RING(ten, diamond, 8, 32, counts);
    gerlyantu_outline_answer no_room = gerlyantu_clip_outline(ten, 0, diamond, 8, NULL, 0);
    ANSWERED(no_room, 8, 32, 0, nothing);
}

/* I of the rules: a ring with thirds. */
static void check_thirds(void) {
    const int32_t triangle[6] = {-1, 0, 2, 1, -1, 2};
    const int32_t ring[12] = {0, 1, 1, 3, 2, 1, 1, 1, 0, 1, 5, 3};
    const uint8_t counts[4] = {3, 3, 3, 3};
    for (size_t i = 0; i < 12; i++) want[i] = ring[i];
    RING(ten, triangle, 6, 12, counts);
}

/* J of the rules: sides through the window's corners add none. Each order's counts are worked out from the rules. */
static void check_through_corners(void) {
    const int32_t triangle[6] = {-5, 0, 15, 0, 5, 20};
    const int32_t ring[8] = {0, 0, 10, 0, 10, 10, 0, 10};
    static const uint8_t counts[ORDERS][4] = {
        {4, 5, 5, 4}, {4, 5, 4, 4}, {4, 4, 5, 4}, {4, 4, 4, 4}, {4, 4, 4, 4}, {4, 4, 4, 4},
        {4, 5, 5, 4}, {4, 5, 4, 4}, {4, 4, 5, 4}, {4, 4, 4, 4}, {4, 4, 4, 4}, {4, 4, 4, 4},
        {3, 4, 5, 4}, {3, 4, 4, 4}, {3, 4, 5, 4}, {3, 4, 4, 4}, {3, 4, 4, 4}, {3, 4, 4, 4},
        {4, 4, 4, 4}, {4, 4, 4, 4}, {4, 4, 4, 4}, {4, 4, 4, 4}, {4, 4, 4, 4}, {4, 4, 4, 4},
    };
    put_corners(ring, 4);
    for (uint32_t order = 0; order < ORDERS; order++) RING_IN(ten, order, triangle, 6, 16, counts[order]);
}

/* A hexagon whose counts differ in all 24 orders; they are worked out from the rules, too. */
static void check_every_order(void) {
    const int32_t hexagon[12] = {1, -3, 2, -4, 6, -4, 11, -1, 12, 4, 10, 12};
    const int32_t ring[16] = {14, 5, 0, 1, 10, 1, 0, 1, 10, 1, 10, 1, 44, 5, 10, 1};
    static const uint8_t counts[ORDERS][4] = {
        {6, 5, 3, 4}, {6, 5, 6, 4}, {6, 4, 3, 4}, {6, 4, 5, 4}, {6, 7, 6, 4}, {6, 7, 5, 4},
        {5, 5, 3, 4}, {5, 5, 6, 4}, {5, 3, 3, 4}, {5, 3, 4, 4}, {5, 6, 6, 4}, {5, 6, 4, 4},
        {4, 4, 3, 4}, {4, 4, 5, 4}, {4, 3, 3, 4}, {4, 3, 4, 4}, {4, 5, 5, 4}, {4, 5, 4, 4},
        {7, 7, 6, 4}, {7, 7, 5, 4}, {7, 6, 6, 4}, {7, 6, 4, 4}, {7, 5, 5, 4}, {7, 5, 4, 4},
    };
    for (size_t i = 0; i < 16; i++) want[i] = ring[i];
    int alike = 0;
    for (uint32_t order = 0; order < ORDERS; order++) {
        RING_IN(ten, order, hexagon, 12, 16, counts[order]);
        for (uint32_t other = 0; other < order; other++) alike += in_one(counts[order]) == in_one(counts[other]);
    }
    SAME(alike, 0);
}

/* K of the rules, which only touches a side; one that only touches a corner and one that goes past it, of both of
 * which the first pass leaves a ring; one that is far off; and none needs an output. */
static void check_no_area(void) {
    const int32_t touching[6] = {-4, 0, 0, 2, -4, 4};
    const int32_t at_corner[6] = {-4, -4, 4, -4, -4, 4};
    const int32_t past_corner[6] = {-4, -4, 1, -4, -4, 1};
    const int32_t far[6] = {100, 100, 110, 100, 100, 110};
    NO_AREA(ten, touching, 6, ROOM);
    NO_AREA(ten, at_corner, 6, ROOM);
    NO_AREA(ten, past_corner, 6, ROOM);
    NO_AREA(ten, far, 6, ROOM);
    gerlyantu_outline_answer none = gerlyantu_clip_outline(ten, 0, touching, 6, NULL, 0);
    ANSWERED(none, 0, 0, 0, nothing);
}

/* The most corners, all inside: 64 points of the parabola y = x * x. A 65th is refused. */
static void check_longest(void) {
    int32_t corners[MOST + 2];
    const gerlyantu_window around = {0, 0, 63, 3969};
    const uint8_t counts[4] = {64, 64, 64, 64};
    parabola(corners, GERLYANTU_OUTLINE_CORNERS + 1);
    put_corners(corners, GERLYANTU_OUTLINE_CORNERS);
    RING(around, corners, MOST, 2 * MOST, counts);
    REFUSED(around, 0, corners, MOST + 2, ROOM, 5, 0);
    REFUSED(around, 0, corners, MOST + 1, ROOM, 5, 0);
}

/* The longest ring: each side of the window cuts one tip of the round outline in the middle of the two edges that meet
 * there. */
static void check_longest_ring(void) {
    int32_t corners[MOST];
    size_t ring = 0;
    round_outline(corners);
    for (size_t i = 0; i < GERLYANTU_OUTLINE_CORNERS; i++) {
        const int32_t *tip = corners + 2 * i;
        const int32_t *before = corners + (2 * i + MOST - 2) % MOST, *after = corners + (2 * i + 2) % MOST;
        if (i % 16 == 0) {
            put_corner(ring++, (before[0] + tip[0]) / 2, (before[1] + tip[1]) / 2);
            put_corner(ring++, (tip[0] + after[0]) / 2, (tip[1] + after[1]) / 2);
        } else {
            put_corner(ring++, tip[0], tip[1]);
        }
    }
    const gerlyantu_window cut = {-87, 1, 87, 175};
    const uint8_t counts[4] = {65, 66, 67, 68};
    RING(cut, corners, MOST, ROOM, counts);
}

static void check_lengths(void) {
    const int32_t diamond[8] = {5, -2, 12, 5, 5, 12, -2, 5};
    REFUSED(ten, 0, NULL, 0, ROOM, 5, 0);
    REFUSED(ten, 0, diamond, 0, ROOM, 5, 0);
    REFUSED(ten, 0, diamond, 4, ROOM, 5, 0);
    REFUSED(ten, 0, diamond, 7, ROOM, 5, 0);
    gerlyantu_outline_answer none = gerlyantu_clip_outline(ten, 0, NULL, 0, NULL, 0);
    ANSWERED(none, 5, 0, 0, nothing);
}

/* L of the rules, the star that turns left at all five corners; and what is not strictly convex counterclockwise otherwise. */
static void check_shapes(void) {
    const int32_t star[10] = {0, 3, -2, -3, 3, 1, -3, 1, 2, -3};
    const int32_t clockwise[6] = {0, 0, 0, 10, 10, 0};
    const int32_t straight[8] = {0, 0, 5, 0, 10, 0, 0, 10};
    REFUSED(ten, 0, star, 10, ROOM, 7, 0);
    REFUSED(ten, 0, clockwise, 6, ROOM, 7, 0);
    REFUSED(ten, 0, straight, 8, ROOM, 7, 0);
}

/* Which comes first where all apply: 2, 3, 4, 5, 6, 7, 8. */
static void check_order(void) {
    const gerlyantu_window off = {0, 0, 16384, 0}, flat = {0, 0, 10, 0};
    const int32_t faulty[7] = {0, 0, 0, 0, 0, INT32_MAX, 0};
    const int32_t clockwise[6] = {0, 0, 0, 10, 10, 0};
    const int32_t triangle[6] = {0, 0, 10, 0, 0, 10};
    REFUSED(off, 24, faulty, 7, 0, 2, 2);
    REFUSED(flat, 24, faulty, 7, 0, 3, 0);
    REFUSED(ten, 24, faulty, 7, 0, 4, 0);
    REFUSED(ten, UINT32_MAX, faulty, 7, 0, 4, 0);
    REFUSED(ten, 23, faulty, 7, 0, 5, 0);
    REFUSED(ten, 23, faulty, 6, 0, 6, 5);
    REFUSED(ten, 23, clockwise, 6, 0, 7, 0);
    REFUSED(ten, 23, triangle, 6, 11, 8, 12);
}

void check_outlines(void) {
    check_diamond();
    check_thirds();
    check_through_corners();
    check_every_order();
    check_no_area();
    check_longest();
    check_longest_ring();
    check_lengths();
    check_shapes();
    check_order();
}
