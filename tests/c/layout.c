/* Where each field stands and how many bytes it has, as the compiled code has them, by C's rules; and the numbers that have names. Held while this
 * file is compiled. */
#include <gerlyantu.h>

#define SIZE(type, bytes) _Static_assert(sizeof(type) == bytes, #type " has another size")
#define FIELD(type, field, place, bytes) \
    _Static_assert(offsetof(type, field) == place, #type "." #field " stands elsewhere"); \
    _Static_assert(sizeof(((type *)0)->field) == bytes, #type "." #field " has another size")
#define NAMED(name, number) _Static_assert(GERLYANTU_##name == number, #name " is another number")

/* ---- what goes in */

SIZE(gerlyantu_point_mm, 8);
FIELD(gerlyantu_point_mm, x, 0, 4);
FIELD(gerlyantu_point_mm, y, 4, 4);

SIZE(gerlyantu_window_mm, 16);
FIELD(gerlyantu_window_mm, left, 0, 4);
FIELD(gerlyantu_window_mm, bottom, 4, 4);
FIELD(gerlyantu_window_mm, right, 8, 4);
FIELD(gerlyantu_window_mm, top, 12, 4);

SIZE(gerlyantu_window, 16);
FIELD(gerlyantu_window, left, 0, 4);
FIELD(gerlyantu_window, bottom, 4, 4);
FIELD(gerlyantu_window, right, 8, 4);
FIELD(gerlyantu_window, top, 12, 4);

SIZE(gerlyantu_stroke, 16);
FIELD(gerlyantu_stroke, x1, 0, 4);
FIELD(gerlyantu_stroke, y1, 4, 4);
FIELD(gerlyantu_stroke, x2, 8, 4);
FIELD(gerlyantu_stroke, y2, 12, 4);

/* ---- what comes back */

SIZE(gerlyantu_fraction, 16);
FIELD(gerlyantu_fraction, num, 0, 8);
FIELD(gerlyantu_fraction, den, 8, 8);

SIZE(gerlyantu_refusal, 1);

SIZE(gerlyantu_point_answer, 24);
FIELD(gerlyantu_point_answer, number, 0, 1);
FIELD(gerlyantu_point_answer, place, 8, 8);
FIELD(gerlyantu_point_answer, x, 16, 4);
FIELD(gerlyantu_point_answer, y, 20, 4);

SIZE(gerlyantu_window_answer, 32);
FIELD(gerlyantu_window_answer, number, 0, 1);
FIELD(gerlyantu_window_answer, place, 8, 8);
FIELD(gerlyantu_window_answer, window, 16, 16);

SIZE(gerlyantu_back_answer, 24);
FIELD(gerlyantu_back_answer, number, 0, 1);
FIELD(gerlyantu_back_answer, place, 8, 8);
FIELD(gerlyantu_back_answer, mm, 16, 4);

SIZE(gerlyantu_stroke_answer, 80);
FIELD(gerlyantu_stroke_answer, number, 0, 1);
FIELD(gerlyantu_stroke_answer, place, 8, 8);
FIELD(gerlyantu_stroke_answer, kept, 16, 1);
FIELD(gerlyantu_stroke_answer, t0, 24, 16);
FIELD(gerlyantu_stroke_answer, t1, 40, 16);
FIELD(gerlyantu_stroke_answer, ax, 56, 4);
FIELD(gerlyantu_stroke_answer, ay, 60, 4);
FIELD(gerlyantu_stroke_answer, bx, 64, 4);
FIELD(gerlyantu_stroke_answer, by, 68, 4);
FIELD(gerlyantu_stroke_answer, side0, 72, 1);
FIELD(gerlyantu_stroke_answer, side1, 73, 1);

SIZE(gerlyantu_counted_answer, 88);
FIELD(gerlyantu_counted_answer, shortenings, 0, 4);
FIELD(gerlyantu_counted_answer, answer, 8, 80);
FIELD(gerlyantu_counted_answer, answer.side1, 81, 1);

SIZE(gerlyantu_corner_answer, 64);
FIELD(gerlyantu_corner_answer, number, 0, 1);
FIELD(gerlyantu_corner_answer, place, 8, 8);
FIELD(gerlyantu_corner_answer, kept, 16, 1);
FIELD(gerlyantu_corner_answer, t0, 24, 16);
FIELD(gerlyantu_corner_answer, t1, 40, 16);
FIELD(gerlyantu_corner_answer, side0, 56, 1);
FIELD(gerlyantu_corner_answer, side1, 57, 1);

SIZE(gerlyantu_answer, 24);
FIELD(gerlyantu_answer, number, 0, 1);
FIELD(gerlyantu_answer, place, 8, 8);
FIELD(gerlyantu_answer, count, 16, 8);

SIZE(gerlyantu_outline_answer, 32);
FIELD(gerlyantu_outline_answer, number, 0, 1);
FIELD(gerlyantu_outline_answer, place, 8, 8);
FIELD(gerlyantu_outline_answer, count, 16, 8);
FIELD(gerlyantu_outline_answer, passes, 24, 4);
FIELD(gerlyantu_outline_answer, passes[3], 27, 1);

SIZE(gerlyantu_drawing_answer, 40);
FIELD(gerlyantu_drawing_answer, number, 0, 1);
FIELD(gerlyantu_drawing_answer, place, 8, 8);
FIELD(gerlyantu_drawing_answer, window, 16, 16);
FIELD(gerlyantu_drawing_answer, count, 32, 8);

SIZE(gerlyantu_booking_answer, 24);
FIELD(gerlyantu_booking_answer, number, 0, 1);
FIELD(gerlyantu_booking_answer, place, 8, 8);
FIELD(gerlyantu_booking_answer, slot, 16, 4);

SIZE(gerlyantu_release_answer, 16);
FIELD(gerlyantu_release_answer, number, 0, 1);
FIELD(gerlyantu_release_answer, place, 8, 8);

/* ---- sides, limits and refusals */

NAMED(LEFT, 0);
NAMED(RIGHT, 1);
NAMED(BOTTOM, 2);
NAMED(TOP, 3);
NAMED(NO_SIDE, 255);

NAMED(LARGEST, 16383);
NAMED(STROKES, 4096);
NAMED(WINDOW_CORNERS, 16);
NAMED(OUTLINE_CORNERS, 64);
NAMED(DRAWING_BYTES, 65536);
NAMED(LAST_ORDER, 23);
NAMED(RENTERS, 2);
NAMED(SLOTS, 64);
NAMED(HALF_SLOTS, 32);
NAMED(BOOK_NUMBERS, 320);

NAMED(BATCH_PER_STROKE, 5);
NAMED(BATCH_ROOM, 20480);
NAMED(RING_ROOM, 272);
NAMED(DRAWING_PER_STROKE, 4);
NAMED(DRAWING_ROOM, 16384);
NAMED(LISTING_ROOM, 160);

NAMED(DONE, 0);
NAMED(WINDOW_OFF, 2);
NAMED(NO_WINDOW, 3);
NAMED(NO_ORDER, 4);
NAMED(WRONG_LENGTH, 5);
NAMED(NUMBER_OFF, 6);
NAMED(NOT_CONVEX, 7);
NAMED(NO_ROOM, 8);
NAMED(NOT_A_NUMBER, 9);
NAMED(TOO_FAR, 10);
NAMED(BAD_DRAWING, 11);
NAMED(STRIP_TAKEN, 16);
NAMED(HALF_FULL, 17);
NAMED(SLOT_NOT_IN_USE, 18);
NAMED(UNKNOWN_RENTER, 19);
NAMED(NO_BOOK, 23);
