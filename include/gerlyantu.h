/* Gerlyantu: exact clipping of strokes and outlines to strips of a glass table, and the book of the strips that are rented out.
 *
 * Coordinates are whole grid numbers, 1/32 mm each, from -16,383 to 16,383. A stroke is x1 y1 x2 y2, a rectangle is left bottom right top, a corner
 * is x y.
 *
 * Any numbers may be passed to any call: what it does not take it refuses. Every answer has the refusal's number, 0 where the call was done, and its
 * place. A refused call sets every other field to 0, fractions to 0/1 and sides to 255, and writes nothing. Where several refusals apply, the first
 * in the list that stands beside the call is given.
 *
 * A list is a pointer to its first number and the count of its numbers (of a drawing, its bytes). The pointer is aligned for its type, and nothing
 * else changes what it points to during the call. For a list of length 0 any pointer will do, also a null pointer: nothing is read or written
 * through it.
 *
 * An output is lent: a done call writes its numbers from the front, and the rest stays as it was. An output has no byte in common with an input.
 * No call keeps a pointer, allocates memory or has a state, so calls may run at the same time. */
#ifndef GERLYANTU_H
#define GERLYANTU_H

#include <stdbool.h>
#include <stddef.h>
#include <stdint.h>

#ifdef __cplusplus
extern "C" {
#endif

/* ---- version */

/* As one number, major * 10000 + minor * 100 + patch, and as text. A change of a struct or of an answer raises it. */
#define GERLYANTU_VERSION 50100
#define GERLYANTU_VERSION_TEXT "5.1.0"

/* ---- limits */

enum {
    GERLYANTU_LARGEST = 16383,        /* the largest grid number; the least is its negative */
    GERLYANTU_STROKES = 4096,         /* strokes in a list or a drawing, at most */
    GERLYANTU_WINDOW_CORNERS = 16,    /* corners of a corner window, at most; at least 3 */
    GERLYANTU_OUTLINE_CORNERS = 64,   /* corners of an outline, at most; at least 3 */
    GERLYANTU_DRAWING_BYTES = 65536,  /* bytes of a drawing, at most, its four count bytes included */
    GERLYANTU_LAST_ORDER = 23,        /* the side orders are 0 to 23 */
    GERLYANTU_RENTERS = 2,            /* renters of a strip book, numbered from 0 */
    GERLYANTU_SLOTS = 64,             /* slots of a strip book, a half of them for each renter */
    GERLYANTU_HALF_SLOTS = 32,        /* slots of one renter, numbered from 0 */
    GERLYANTU_BOOK_NUMBERS = 320      /* numbers of a strip book, five a slot */
};

/* ---- how many numbers an output has that is always long enough */

enum {
    GERLYANTU_BATCH_PER_STROKE = 5,                                                /* of both batches, for each stroke of the list */
    GERLYANTU_BATCH_ROOM = GERLYANTU_BATCH_PER_STROKE * GERLYANTU_STROKES,         /* 20480: for any list */
    GERLYANTU_RING_ROOM = 4 * (GERLYANTU_OUTLINE_CORNERS + 4),                     /* 272: of gerlyantu_clip_outline, for any outline */
    GERLYANTU_DRAWING_PER_STROKE = 4,                                              /* of gerlyantu_read_drawing, for each stroke drawn */
    GERLYANTU_DRAWING_ROOM = GERLYANTU_DRAWING_PER_STROKE * GERLYANTU_STROKES,     /* 16384: for any drawing */
    GERLYANTU_LISTING_ROOM = 5 * GERLYANTU_HALF_SLOTS                              /* 160: of gerlyantu_list_strips, for any book */
};

/* ---- refusals */

/* R(name, number, words). Each is given exactly when what stands above it holds; its place follows the semicolon. */
#define GERLYANTU_REFUSALS(R) \
    /* the call was done; 0 */ \
    R(GERLYANTU_DONE, 0, "done") \
    /* a window number is off the grid range; index of the first */ \
    R(GERLYANTU_WINDOW_OFF, 2, "a number of the window is off the table") \
    /* left >= right or bottom >= top; a corner window of odd length, of wrong count, or not strictly convex; 0 */ \
    R(GERLYANTU_NO_WINDOW, 3, "the window has no area, or its corners are not a strictly convex ring") \
    /* side order above 23; 0 */ \
    R(GERLYANTU_NO_ORDER, 4, "there is no such side order: they are 0 to 23") \
    /* stroke list not a multiple of four or too long; outline of odd length or wrong count; 0 */ \
    R(GERLYANTU_WRONG_LENGTH, 5, "the list has a wrong length") \
    /* a stroke or outline number is off the grid range; index of the first */ \
    R(GERLYANTU_NUMBER_OFF, 6, "a grid number is off the table") \
    /* outline not strictly convex counterclockwise; 0 */ \
    R(GERLYANTU_NOT_CONVEX, 7, "the outline is not strictly convex counterclockwise") \
    /* output shorter than needed; numbers needed */ \
    R(GERLYANTU_NO_ROOM, 8, "the output is too short: the place says how many numbers it needs") \
    /* a millimetre number is NaN; its index */ \
    R(GERLYANTU_NOT_A_NUMBER, 9, "a number of millimetres is not a number") \
    /* a millimetre number is infinite or falls off the grid range; its index */ \
    R(GERLYANTU_TOO_FAR, 10, "a number of millimetres is infinite or off the table") \
    /* any fault in a drawing file; 0 */ \
    R(GERLYANTU_BAD_DRAWING, 11, "not a drawing file, or damaged") \
    /* an entered strip shares area with the new one; 0 */ \
    R(GERLYANTU_STRIP_TAKEN, 16, "the strip shares area with one in the book") \
    /* all 32 slots of the renter are in use; 0 */ \
    R(GERLYANTU_HALF_FULL, 17, "none of the renter's slots is free for the strip") \
    /* the renter's slot to release is not in use, or not in 0 to 31; 0 */ \
    R(GERLYANTU_SLOT_NOT_IN_USE, 18, "the slot to release is not one of the renter's slots in use") \
    /* the renter is neither 0 nor 1; 0 */ \
    R(GERLYANTU_UNKNOWN_RENTER, 19, "there is no such renter: they are 0 and 1") \
    /* the table has not 320 numbers, a mark is neither 0 nor 1, a slot in use has numbers that 2 or 3 would refuse, or two in use share area; 0 */ \
    R(GERLYANTU_NO_BOOK, 23, "not a strip book, or damaged")

/* The numbers by their names. */
#define GERLYANTU_NUMBERED(name, number, words) name = number,
enum { GERLYANTU_REFUSALS(GERLYANTU_NUMBERED) };
#undef GERLYANTU_NUMBERED

/* The number of a refusal. */
typedef uint8_t gerlyantu_refusal;

/* A refusal in words, for a person; never a null pointer. */
static inline const char *gerlyantu_words(gerlyantu_refusal refusal) {
#define GERLYANTU_WORDED(name, number, words) \
    case name: \
        return words;
    switch (refusal) {
        GERLYANTU_REFUSALS(GERLYANTU_WORDED)
    default:
        return "unknown refusal";
    }
#undef GERLYANTU_WORDED
}

/* ---- what goes in */

/* A point in millimetres. */
typedef struct {
    float x;
    float y;
} gerlyantu_point_mm;

/* A rectangle in millimetres. */
typedef struct {
    float left;
    float bottom;
    float right;
    float top;
} gerlyantu_window_mm;

/* A rectangle of the grid, its border included. */
typedef struct {
    int32_t left;
    int32_t bottom;
    int32_t right;
    int32_t top;
} gerlyantu_window;

/* A stroke from (x1, y1) to (x2, y2). */
typedef struct {
    int32_t x1;
    int32_t y1;
    int32_t x2;
    int32_t y2;
} gerlyantu_stroke;

/* ---- what comes back */

/* A fraction num/den in lowest terms; den is above 0, and 0 is 0/1. */
typedef struct {
    int64_t num;
    int64_t den;
} gerlyantu_fraction;

typedef struct {
    gerlyantu_refusal number;
    size_t place;
    int32_t x;
    int32_t y;
} gerlyantu_point_answer;

typedef struct {
    gerlyantu_refusal number;
    size_t place;
    gerlyantu_window window;
} gerlyantu_window_answer;

typedef struct {
    gerlyantu_refusal number;
    size_t place;
    float mm;
} gerlyantu_back_answer;

/* The sides of a rectangle by their numbers. An edge of a corner window has the number of its first corner, 0 to 15. */
enum {
    GERLYANTU_LEFT = 0,
    GERLYANTU_RIGHT = 1,
    GERLYANTU_BOTTOM = 2,
    GERLYANTU_TOP = 3,
    GERLYANTU_NO_SIDE = 255 /* the stroke's own end remains; also where it is missed or refused */
};

/* The kept part goes from t0 to t1 of the stroke's way; (ax, ay) and (bx, by) are its two ends, rounded to the grid, halves
 * to the even number; so the stroke turned round has the same two, exchanged. A missed stroke is done with kept false, both fractions 0/1, the
 * points 0 and both sides 255.
 *
 * side0 is the side that fixed t0, of those that the stroke crosses inward; side1 the one that fixed t1, of those that it crosses outward. Where two
 * such sides give the same fraction, as at a corner of the window, it is the one with the lower number. With t0 = 0/1 side0 is 255, and with t1 = 1/1
 * side1 is; a t0 of 1/1 and a t1 of 0/1 have their side. */
typedef struct {
    gerlyantu_refusal number;
    size_t place;
    bool kept;
    gerlyantu_fraction t0;
    gerlyantu_fraction t1;
    int32_t ax;
    int32_t ay;
    int32_t bx;
    int32_t by;
    uint8_t side0;
    uint8_t side1;
} gerlyantu_stroke_answer;

typedef struct {
    uint32_t shortenings; /* 0 to 4; counted for missed strokes too */
    gerlyantu_stroke_answer answer;
} gerlyantu_counted_answer;

/* As for a rectangle, without points: rounded points may lie outside a slanted side. The sides are the window's edges, by their first corners. */
typedef struct {
    gerlyantu_refusal number;
    size_t place;
    bool kept;
    gerlyantu_fraction t0;
    gerlyantu_fraction t1;
    uint8_t side0;
    uint8_t side1;
} gerlyantu_corner_answer;

typedef struct {
    gerlyantu_refusal number;
    size_t place;
    size_t count; /* how many numbers were written */
} gerlyantu_answer;

/* passes[k] is how many corners the k-th pass left, in the order asked for; without area all four are 0. */
typedef struct {
    gerlyantu_refusal number;
    size_t place;
    size_t count; /* how many numbers were written */
    uint8_t passes[4];
} gerlyantu_outline_answer;

typedef struct {
    gerlyantu_refusal number;
    size_t place;
    gerlyantu_window window;
    size_t count; /* how many strokes; four numbers each were written */
} gerlyantu_drawing_answer;

typedef struct {
    gerlyantu_refusal number;
    size_t place;
    int32_t slot; /* the renter's slot that the strip was entered in, 0 to 31 */
} gerlyantu_booking_answer;

typedef struct {
    gerlyantu_refusal number;
    size_t place;
} gerlyantu_release_answer;

/* ---- millimetres */

/* The grid point of a point in millimetres: the whole numbers nearest to 32x and 32y, halves to the even one. As every call that takes millimetres it
 * needs the processor to round to nearest, as it does when a C program starts.
 * Refusals: 9 or 10, whichever number comes first; the place is its index, 0 or 1. */
gerlyantu_point_answer gerlyantu_point_to_grid(gerlyantu_point_mm p);

/* The same for the four numbers of a rectangle. It need not have area: the clipping calls test that.
 * Refusals: 9 or 10, whichever number comes first; the place is its index, 0 to 3. */
gerlyantu_window_answer gerlyantu_window_to_grid(gerlyantu_window_mm w);

/* A grid number in millimetres: g / 32, which a float holds exactly.
 * Refusals: 6 where g is off the range, place 0. */
gerlyantu_back_answer gerlyantu_to_millimetres(int32_t g);

/* ---- strokes */

/* What a rectangle keeps of a stroke, by the Liang-Barsky rule.
 * Refusals: 2 (index in the window, 0 to 3), 3 (0), 6 (index in the stroke, 0 to 3). */
gerlyantu_stroke_answer gerlyantu_liang_barsky(gerlyantu_window w, gerlyantu_stroke s);

/* The same by the Cohen-Sutherland rule, with the count of its shortenings; fractions, points and sides are those of gerlyantu_liang_barsky.
 * Refusals: 2 (index in the window, 0 to 3), 3 (0), 6 (index in the stroke, 0 to 3). */
gerlyantu_counted_answer gerlyantu_cohen_sutherland(gerlyantu_window w, gerlyantu_stroke s);

/* The same by the cross-product rule, after Skala; every field is that of gerlyantu_liang_barsky.
 * Refusals: 2 (index in the window, 0 to 3), 3 (0), 6 (index in the stroke, 0 to 3). */
gerlyantu_stroke_answer gerlyantu_cross_product(gerlyantu_window w, gerlyantu_stroke s);

/* A list of strokes, four numbers each, against a rectangle. Gives the kept strokes but for those that only touch it, t0 = t1 in the answer of
 * gerlyantu_liang_barsky: for each in order, writes its index and its four rounded numbers. These are five numbers a stroke given, so
 * GERLYANTU_BATCH_PER_STROKE for each stroke of the list are always enough. A stroke of no length is no touch, nor is one with t0 < t1 whose two
 * rounded points are the same.
 * Refusals: 2 (index in the window), 3 (0), 5 where length is not a multiple of four or there are more than 4,096 strokes (0), 6 (index in the
 * list), 8 (numbers needed for what is given). */
gerlyantu_answer gerlyantu_batch(gerlyantu_window w, const int32_t *strokes, size_t length, int32_t *out, size_t room);

/* The same with the strokes that only touch: gives every kept stroke.
 * Refusals: 2 (index in the window), 3 (0), 5 where length is not a multiple of four or there are more than 4,096 strokes (0), 6 (index in the
 * list), 8 (numbers needed for what is given, touches too). */
gerlyantu_answer gerlyantu_batch_with_touches(gerlyantu_window w, const int32_t *strokes, size_t length, int32_t *out, size_t room);

/* What a convex corner window keeps of a stroke, by the Cyrus-Beck rule: 3 to 16 corners, two numbers each, counterclockwise.
 * Refusals: 3 for a length that is odd or not of 3 to 16 corners (0), 2 (index in the list of corners), 3 where they are not strictly convex
 * counterclockwise (0), 6 (index in the stroke). */
gerlyantu_corner_answer gerlyantu_cyrus_beck(const int32_t *corners, size_t length, gerlyantu_stroke s);

/* ---- outlines */

/* What a rectangle keeps of a strictly convex outline of 3 to 64 corners, two numbers each, counterclockwise: one pass a side, in the order asked
 * for. Sides are left, right, bottom, top; orders 0 to 23 are their arrangements in dictionary order, and all give the same ring. Writes the ring
 * counterclockwise from its lowest corner, of those the leftmost, four numbers a corner: x and y as fractions in lowest terms, numerator before
 * denominator. A ring has at most four corners more than its outline, so GERLYANTU_RING_ROOM numbers are always enough. Without area the call is
 * done and writes 0 numbers.
 * passes tells how many corners each pass left, which may differ from order to order, as the ring does not. A side
 * that cuts nothing off leaves as many corners as there were, so an outline that lies inside whole has its own count
 * four times.
 * Refusals: 2 (index in the window), 3 (0), 4 (0), 5 for a length that is odd or not of 3 to 64 corners (0), 6 (index in the outline), 7 (0),
 * 8 (numbers needed). */
gerlyantu_outline_answer gerlyantu_clip_outline(
    gerlyantu_window w, uint32_t order, const int32_t *outline, size_t length, int32_t *out, size_t room);

/* ---- drawings */

/* Reads a drawing file's bytes: the window's grid numbers and the count of strokes come back, and the strokes are written in order, four numbers
 * each; GERLYANTU_DRAWING_ROOM numbers are always enough. It takes millimetres.
 * Refusals: 11 for any fault (0), 3 where the window has no area (0), 8 (numbers needed). */
gerlyantu_drawing_answer gerlyantu_read_drawing(const uint8_t *bytes, size_t length, int32_t *out, size_t room);

/* ---- the strip book */

/* The book says which strips are rented out. It is an array of GERLYANTU_BOOK_NUMBERS numbers, 320, that the caller keeps and lends to each call:
 * 64 slots of five numbers, a mark, 1 in use or 0 free, then the strip's left, bottom, right and top. An array of 320 zeros is an empty book.
 *
 * Its renters are 0 and 1, and one of them is named in each call. Renter 0 has the first 32 slots of the array and renter 1 the last 32; in calls and
 * answers a renter's own slots are 0 to 31. A done booking or release changes the five numbers of one slot, which is the renter's; a refused call
 * and a listing change none.
 *
 * Each call tests the renter first and then the whole book: what is no book it refuses by 23. The other four numbers of a free slot do not matter.
 * Strips that only touch share no area. */

/* Tests a strip and enters it in the renter's lowest free slot, which is answered.
 * Refusals: 19 where the renter is neither 0 nor 1 (0), 23 (0), 2 (index in the window), 3 (0), 17 where all 32 slots of the renter are in use (0),
 * 16 where an entered strip, of either renter, shares area with it (0). */
gerlyantu_booking_answer gerlyantu_book_strip(int32_t *book, size_t length, int32_t renter, gerlyantu_window w);

/* Frees a slot of the renter: it then has five zeros, and a later booking of that renter may take it.
 * Refusals: 19 (0), 23 (0), 18 where the renter's slot is not in use or not in 0 to 31 (0). */
gerlyantu_release_answer gerlyantu_release_slot(int32_t *book, size_t length, int32_t renter, int32_t slot);

/* The strips of one renter. For each in slot order, writes its slot and its left, bottom, right and top: five numbers a strip, so
 * GERLYANTU_LISTING_ROOM numbers are always enough. Nothing of the other renter's strips is written.
 * Refusals: 19 (0), 23 (0), 8 (numbers needed). */
gerlyantu_answer gerlyantu_list_strips(const int32_t *book, size_t length, int32_t renter, int32_t *out, size_t room);

#ifdef __cplusplus
}
#endif

#endif
