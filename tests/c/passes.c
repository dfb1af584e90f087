/* How many corners each pass leaves: the passes made one by one as the rules have them, in exact fractions, beside the
 * call, for thousands of outlines in every order. */
#include "check.h"

enum { OUTLINES = 2000, CORNERS = GERLYANTU_OUTLINE_CORNERS, MOST = CORNERS + 4, ROOM = 4 * MOST };

/* The point (x / w, y / w), w above 0. */
typedef struct {
    int64_t x;
    int64_t y;
    int64_t w;
} point;

typedef struct {
    size_t count;
    point corners[MOST];
} ring;

/* ---- the rules */

/* Above 0 inside a side, 0 on its line, below 0 outside. Sides are 0 left, 1 right, 2 bottom, 3 top. */
static int64_t inside(gerlyantu_window w, int side, point p) {
    switch (side) {
    case 0: return p.x - w.left * p.w;
    case 1: return w.right * p.w - p.x;
    case 2: return p.y - w.bottom * p.w;
    default: return w.top * p.w - p.y;
    }
}

static int64_t common_factor(int64_t a, int64_t b) {
    while (b != 0) {
        const int64_t rest = a % b;
        a = b, b = rest;
    }
    return a < 0 ? -a : a;
}

/* Where the way from p, which lies a inside, to q, which lies b outside, meets the side's line; a and b are above 0.
 * In lowest terms, so that numbers stay small: a corner lies on an edge of the outline or is one of the window's. */
static point crossing(point p, int64_t a, point q, int64_t b) {
    const point c = {b * p.x + a * q.x, b * p.y + a * q.y, b * p.w + a * q.w};
    const int64_t f = common_factor(common_factor(c.x, c.y), c.w);
    return (point){c.x / f, c.y / f, c.w / f};
}

/* One pass: a corner on the line is inside, and a crossing is added only between one corner strictly inside and one
 * strictly outside. */
static ring pass(gerlyantu_window w, int side, const ring *before) {
    ring after = {0};
    for (size_t i = 0; i < before->count; i++) {
        const point p = before->corners[i], q = before->corners[(i + 1) % before->count];
        const int64_t a = inside(w, side, p), b = inside(w, side, q);
        if (a >= 0) after.corners[after.count++] = p;
        if (a > 0 && b < 0) after.corners[after.count++] = crossing(p, a, q, -b);
        if (a < 0 && b > 0) after.corners[after.count++] = crossing(q, b, p, -a);
    }
    return after;
}

/* What each pass leaves, all 0 where one leaves fewer than 3 corners. */
static void passes_of(gerlyantu_window w, const int sides[4], ring r, uint8_t counts[4]) {
    for (size_t k = 0; k < 4; k++) {
        r = pass(w, sides[k], &r);
        if (r.count < 3) {
            for (size_t j = 0; j < 4; j++) counts[j] = 0;
            return;
        }
        counts[k] = (uint8_t)r.count;
    }
}

/* ---- outlines and windows */

static int32_t random_from(int32_t least, int32_t most) {
    static uint64_t state = 1;
    state = state * 6364136223846793005u + 1442695040888963407u;
    return least + (int32_t)((state >> 33) % (uint64_t)(most - least + 1));
}

/* Some corners of the round outline, in their order, from any of them on; returns how many. */
static size_t some_corners(int32_t *out) {
    int32_t all[2 * CORNERS];
    round_outline(all);
    const int32_t start = random_from(0, CORNERS - 1), wanted = random_from(3, random_from(0, 1) ? 8 : CORNERS);
    int32_t count = 0;
    for (int32_t i = 0; count < wanted; i++) {
        if (random_from(1, CORNERS - i) > wanted - count) continue;
        const int32_t k = (start + i) % CORNERS;
        out[2 * count] = all[2 * k];
        out[2 * count + 1] = all[2 * k + 1];
        count++;
    }
    return (size_t)count;
}

/* A corner of an outline or the middle of an edge, often moved a little. As a corner of a window it makes the window's
 * sides go through the outline's corners, and the outline's edges through the window's. */
static void some_place(const int32_t *outline, size_t count, int32_t *x, int32_t *y) {
    const size_t i = (size_t)random_from(0, (int32_t)count - 1), j = (i + (size_t)random_from(0, 1)) % count;
    *x = (outline[2 * i] + outline[2 * j]) / 2 + random_from(0, 1) * random_from(-40, 40);
    *y = (outline[2 * i + 1] + outline[2 * j + 1]) / 2 + random_from(0, 1) * random_from(-40, 40);
}

static gerlyantu_window some_window(const int32_t *outline, size_t count) {
    gerlyantu_window w;
    do {
        some_place(outline, count, &w.left, &w.bottom);
        some_place(outline, count, &w.right, &w.top);
    } while (w.left >= w.right || w.bottom >= w.top);
    return w;
}

/* ---- the call beside the rules */

static ring ring_of(const int32_t *outline, size_t count) {
    ring r = {.count = count};
    for (size_t i = 0; i < count; i++) r.corners[i] = (point){outline[2 * i], outline[2 * i + 1], 1};
    return r;
}

/* Whether both say the same of one outline in every order; the loops make the orders as a dictionary has them. */
static bool agree(void) {
    int32_t outline[2 * CORNERS], out[ROOM];
    const size_t count = some_corners(outline);
    const gerlyantu_window w = some_window(outline, count);
    uint32_t order = 0;
    for (int a = 0; a < 4; a++)
        for (int b = 0; b < 4; b++)
            for (int c = 0; c < 4; c++) {
                if (a == b || a == c || b == c) continue;
                const int sides[4] = {a, b, c, 6 - a - b - c};
                uint8_t want[4];
                passes_of(w, sides, ring_of(outline, count), want);
                const gerlyantu_outline_answer got = gerlyantu_clip_outline(w, order, outline, 2 * count, out, ROOM);
                SAME(got.number, 0);
                SAME(got.count, 4 * want[3]);
                SAME(in_one(got.passes), in_one(want));
                if (in_one(got.passes) != in_one(want)) return false;
                order++;
            }
    return true;
}

void check_passes(void) {
    /* the first that differs tells enough */
    for (size_t i = 0; i < OUTLINES; i++)
        if (!agree()) return;
}
