/* A list of strokes against a rectangle, by both calls: without the strokes that only touch, and with them. */
#include "check.h"

enum { MOST = 4 * GERLYANTU_STROKES, ROOM = 5 * GERLYANTU_STROKES, GUARD = 8 };

static int32_t strokes[MOST + 4], out[ROOM + GUARD], want[ROOM];

/* Lends `room` numbers of out to gerlyantu_CALL, and holds the answer and all that was not to be written. */
#define ONE(call, window, list, length, room, n, p, written) \
    do { \
        lend(out, ROOM + GUARD); \
        gerlyantu_answer call = gerlyantu_##call(window, list, length, out, room); \
        SAME(call.number, n); \
        SAME(call.place, p); \
        SAME(call.count, written); \
        LEFT(out, written, ROOM + GUARD); \
    } while (0)

#define ONE_DONE(call, window, list, length, room, written) \
    do { \
        ONE(call, window, list, length, room, 0, 0, written); \
        WROTE(out, want, written); \
    } while (0)

#define ONE_REFUSED(call, window, list, length, room, n, p) ONE(call, window, list, length, room, n, p, 0)

/* Both calls give the same answer, where nothing only touches. */
#define DONE(window, list, length, room, written) \
    do { \
        ONE_DONE(batch, window, list, length, room, written); \
        ONE_DONE(batch_with_touches, window, list, length, room, written); \
    } while (0)

#define REFUSED(window, list, length, room, n, p) \
    do { \
        ONE_REFUSED(batch, window, list, length, room, n, p); \
        ONE_REFUSED(batch_with_touches, window, list, length, room, n, p); \
    } while (0)

#define NOTHING_GIVEN(window, list, length, room) DONE(window, list, length, room, 0)

/* Lends no output at all. */
#define NO_OUTPUT(call, list, length, n, p) \
    do { \
        gerlyantu_answer call = gerlyantu_##call(ten, list, length, NULL, 0); \
        SAME(call.number, n); \
        SAME(call.place, p); \
        SAME(call.count, 0); \
    } while (0)

/* Puts one stroke in the list. */
static void put_stroke(size_t i, int32_t x1, int32_t y1, int32_t x2, int32_t y2) {
    strokes[4 * i] = x1;
    strokes[4 * i + 1] = y1;
    strokes[4 * i + 2] = x2;
    strokes[4 * i + 3] = y2;
}

/* Puts one row in what is to be written. */
static void put_row(size_t row, int32_t index, int32_t ax, int32_t ay, int32_t bx, int32_t by) {
    const int32_t numbers[5] = {index, ax, ay, bx, by};
    for (size_t k = 0; k < 5; k++) want[5 * row + k] = numbers[k];
}

/* A, C, D and E of the rules in one list; C is missed. */
static void check_examples(void) {
    put_stroke(0, -5, 5, 15, 5);
    put_stroke(1, -5, 4, 4, -5);
    put_stroke(2, -1, 24, 11, -14);
    put_stroke(3, -1, 0, 1, 1);
    put_row(0, 0, 0, 5, 10, 5);
    put_row(1, 2, 3, 10, 7, 0);
    put_row(2, 3, 0, 0, 1, 1);
    DONE(ten, strokes, 16, ROOM, 15);
    DONE(ten, strokes, 16, 15, 15);
    REFUSED(ten, strokes, 16, 14, 8, 15);
    REFUSED(ten, strokes, 16, 0, 8, 15);
}

/* An empty list, an empty output, and no pointer at all for either. */
static void check_empty(void) {
    NOTHING_GIVEN(ten, strokes, 0, ROOM);
    NOTHING_GIVEN(ten, NULL, 0, ROOM);
    NOTHING_GIVEN(ten, strokes + 4, 4, ROOM);
    NO_OUTPUT(batch, NULL, 0, 0, 0);
    NO_OUTPUT(batch_with_touches, NULL, 0, 0, 0);
    NO_OUTPUT(batch, strokes + 4, 4, 0, 0);
    NO_OUTPUT(batch_with_touches, strokes + 4, 4, 0, 0);
    NO_OUTPUT(batch, strokes, 8, 8, 5);
    NO_OUTPUT(batch_with_touches, strokes, 8, 8, 5);
}

/* Strokes that only touch, and where: B of the rules, which touches a corner in passing; O, which ends on the left side, and O turned round; one that
 * ends on the bottom, one that starts on the top, and one that starts at a corner. */
enum { TOUCHES = 6 };
static const int32_t touches[TOUCHES][6] = {{-5, 5, 5, -5, 0, 0}, {-5, 5, 0, 5, 0, 5}, {0, 5, -5, 5, 0, 5},
                                            {3, -4, 5, 0, 5, 0}, {5, 10, 5, 15, 5, 10}, {10, 0, 12, 1, 10, 0}};

/* Puts them in the list, the first as stroke i. */
static void put_touches(size_t i) {
    for (size_t k = 0; k < TOUCHES; k++) put_stroke(i + k, touches[k][0], touches[k][1], touches[k][2], touches[k][3]);
}

/* Puts their rows in what is to be written. */
static void put_touch_rows(size_t row, int32_t i) {
    for (size_t k = 0; k < TOUCHES; k++) {
        const int32_t x = touches[k][4], y = touches[k][5];
        put_row(row + k, i + (int32_t)k, x, y, x, y);
    }
}

/* Nothing but touches: without them there is nothing to give, and no room is needed. */
static void check_touches_alone(void) {
    put_touches(0);
    put_touch_rows(0, 0);
    ONE_DONE(batch, ten, strokes, 24, ROOM, 0);
    ONE_DONE(batch, ten, strokes, 24, 30, 0);
    ONE_DONE(batch, ten, strokes, 24, 29, 0);
    ONE_DONE(batch, ten, strokes, 24, 0, 0);
    ONE_DONE(batch_with_touches, ten, strokes, 24, ROOM, 30);
    ONE_DONE(batch_with_touches, ten, strokes, 24, 30, 30);
    ONE_REFUSED(batch_with_touches, ten, strokes, 24, 29, 8, 30);
    ONE_REFUSED(batch_with_touches, ten, strokes, 24, 0, 8, 30);
    NO_OUTPUT(batch, strokes, 24, 0, 0);
    NO_OUTPUT(batch_with_touches, strokes, 24, 8, 30);
}

/* No touches, though the two rounded points of each are the same: strokes of no length inside and at a corner (F of the rules), and one that is kept
 * from 1/4 to 1/3 of its way, between (0, 1/4) and (1/3, 0). */
static void check_dots(void) {
    put_stroke(0, 3, 4, 3, 4);
    put_stroke(1, 10, 10, 10, 10);
    put_stroke(2, -1, 1, 3, -2);
    put_row(0, 0, 3, 4, 3, 4);
    put_row(1, 1, 10, 10, 10, 10);
    put_row(2, 2, 0, 0, 0, 0);
    DONE(ten, strokes, 12, ROOM, 15);
    DONE(ten, strokes, 12, 15, 15);
    REFUSED(ten, strokes, 12, 14, 8, 15);
    REFUSED(ten, strokes, 12, 0, 8, 15);
}

/* Touches before and among A, C, F and S of the rules and the dot by rounding; C is missed. Each call has its own need, and a room that is enough for
 * the one may not be for the other. */
static void check_two_needs(void) {
    put_touches(0);
    put_stroke(6, -5, 5, 15, 5);
    put_stroke(7, -5, 4, 4, -5);
    put_stroke(8, 10, 10, 10, 10);
    put_touches(9);
    put_stroke(15, 0, -5, 0, 5);
    put_stroke(16, -1, 1, 3, -2);
    put_row(0, 6, 0, 5, 10, 5);
    put_row(1, 8, 10, 10, 10, 10);
    put_row(2, 15, 0, 0, 0, 5);
    put_row(3, 16, 0, 0, 0, 0);
    ONE_DONE(batch, ten, strokes, 68, ROOM, 20);
    ONE_DONE(batch, ten, strokes, 68, 79, 20);
    ONE_DONE(batch, ten, strokes, 68, 20, 20);
    ONE_REFUSED(batch, ten, strokes, 68, 19, 8, 20);
    ONE_REFUSED(batch, ten, strokes, 68, 0, 8, 20);
    put_touch_rows(0, 0);
    put_row(6, 6, 0, 5, 10, 5);
    put_row(7, 8, 10, 10, 10, 10);
    put_touch_rows(8, 9);
    put_row(14, 15, 0, 0, 0, 5);
    put_row(15, 16, 0, 0, 0, 0);
    ONE_DONE(batch_with_touches, ten, strokes, 68, ROOM, 80);
    ONE_DONE(batch_with_touches, ten, strokes, 68, 80, 80);
    ONE_REFUSED(batch_with_touches, ten, strokes, 68, 79, 8, 80);
    ONE_REFUSED(batch_with_touches, ten, strokes, 68, 20, 8, 80);
    ONE_REFUSED(batch_with_touches, ten, strokes, 68, 19, 8, 80);
    ONE_REFUSED(batch_with_touches, ten, strokes, 68, 0, 8, 80);
}

/* The longest list, every stroke kept; one stroke more is refused, and so is one number more. */
static void check_longest(void) {
    for (size_t i = 0; i <= GERLYANTU_STROKES; i++) put_stroke(i, -5, (int32_t)(i % 11), 15, (int32_t)(i % 11));
    for (size_t i = 0; i < GERLYANTU_STROKES; i++) put_row(i, (int32_t)i, 0, (int32_t)(i % 11), 10, (int32_t)(i % 11));
    DONE(ten, strokes, MOST, ROOM, ROOM);
    REFUSED(ten, strokes, MOST, ROOM - 1, 8, ROOM);
    REFUSED(ten, strokes, MOST + 4, ROOM, 5, 0);
    REFUSED(ten, strokes, MOST + 1, ROOM, 5, 0);
}

/* The longest list, every other stroke missed: the index is the stroke's and not the row's. */
static void check_every_other(void) {
    for (size_t i = 0; i < GERLYANTU_STROKES; i++) {
        if (i % 2 == 0) put_stroke(i, 11, 0, 20, 10);
        else put_row(i / 2, (int32_t)i, 0, (int32_t)(i % 11), 10, (int32_t)(i % 11));
    }
    DONE(ten, strokes, MOST, ROOM / 2, ROOM / 2);
    REFUSED(ten, strokes, MOST, ROOM / 2 - 1, 8, ROOM / 2);
}

/* The longest list, every other stroke a touch, on the right side; with touches every stroke has its row. */
static void check_every_other_touches(void) {
    for (size_t i = 0; i < GERLYANTU_STROKES; i += 2) put_stroke(i, 20, 0, 10, (int32_t)(i % 11));
    ONE_DONE(batch, ten, strokes, MOST, ROOM / 2, ROOM / 2);
    ONE_REFUSED(batch, ten, strokes, MOST, ROOM / 2 - 1, 8, ROOM / 2);
    ONE_REFUSED(batch_with_touches, ten, strokes, MOST, ROOM / 2, 8, ROOM);
    ONE_REFUSED(batch_with_touches, ten, strokes, MOST, ROOM - 1, 8, ROOM);
    for (size_t i = 0; i < GERLYANTU_STROKES; i++) put_row(i, (int32_t)i, i % 2 == 0 ? 10 : 0, (int32_t)(i % 11), 10, (int32_t)(i % 11));
    ONE_DONE(batch_with_touches, ten, strokes, MOST, ROOM, ROOM);
}

/* Each refusal, and which comes first where several apply; the last number of the longest list is looked at too. */
static void check_refusals(void) {
    const gerlyantu_window off = {0, 0, 10, 16384}, flat = {0, 10, 10, 10};
    REFUSED(off, strokes, 3, 0, 2, 3);
    REFUSED(flat, strokes, 3, 0, 3, 0);
    strokes[MOST - 1] = 16384;
    REFUSED(ten, strokes, MOST, 0, 6, MOST - 1);
    strokes[5] = INT32_MIN;
    REFUSED(ten, strokes, MOST, ROOM, 6, 5);
    REFUSED(ten, strokes, 6, ROOM, 5, 0);
    REFUSED(ten, strokes, 1, ROOM, 5, 0);
    REFUSED(ten, strokes, 8, ROOM, 6, 5);
}

void check_batches(void) {
    check_examples();
    check_empty();
    check_touches_alone();
    check_dots();
    check_two_needs();
    check_longest();
    check_every_other();
    check_every_other_touches();
    check_refusals();
}
