/* Drawing files: made here byte by byte, and read. */
#include "check.h"

enum { HEAD = 21, STEP = 9, MOST = 4 * GERLYANTU_STROKES, GUARD = 8 };

static uint8_t bytes[GERLYANTU_DRAWING_BYTES + 1];
static size_t length;
static int32_t out[MOST + GUARD], want[MOST];

/* ---- making */

static void put_word(size_t at, uint32_t word) {
    for (size_t i = 0; i < 4; i++) bytes[at + i] = (uint8_t)(word >> (24 - 8 * i));
}

static void add_float(float x) {
    put_word(length, bits_of(x));
    length += 4;
}

/* The version byte and the window, with room for the count before them. */
static void start(float left, float bottom, float right, float top) {
    bytes[4] = 1;
    length = 5;
    add_float(left);
    add_float(bottom);
    add_float(right);
    add_float(top);
}

static void add_step(uint8_t letter, float x, float y) {
    bytes[length++] = letter;
    add_float(x);
    add_float(y);
}

static void add_move(float x, float y) { add_step(0x4D, x, y); }
static void add_line(float x, float y) { add_step(0x4C, x, y); }
static void add_close(void) { bytes[length++] = 0x5A; }

/* The count of the bytes that follow it. */
static void finish(void) { put_word(0, (uint32_t)(length - 4)); }

/* The 40 bytes of the rules: one line over a window of 10 by 10, closed. */
static void make_small(void) {
    start(0.0f, 0.0f, 0.3125f, 0.3125f);
    add_move(-0.15625f, 0.15625f);
    add_line(0.46875f, 0.15625f);
    add_close();
    finish();
}

/* ---- reading */

/* Lends `room` numbers of out, and holds the answer and all that was not to be written. */
#define READ(bytes, length, room, n, p, l, b, r, t, strokes) \
    do { \
        lend(out, MOST + GUARD); \
        gerlyantu_drawing_answer read = gerlyantu_read_drawing(bytes, length, out, room); \
        SAME(read.number, n); \
        SAME(read.place, p); \
        SAME(read.window.left, l); \
        SAME(read.window.bottom, b); \
        SAME(read.window.right, r); \
        SAME(read.window.top, t); \
        SAME(read.count, strokes); \
        LEFT(out, 4 * (strokes), MOST + GUARD); \
    } while (0)

#define REFUSED(bytes, length, room, n, p) READ(bytes, length, room, n, p, 0, 0, 0, 0, 0)
#define FAULT() REFUSED(bytes, length, MOST, 11, 0)

static void check_small(void) {
    const int32_t strokes[8] = {-5, 5, 15, 5, 15, 5, -5, 5};
    make_small();
    SAME(length, 40);
    READ(bytes, length, MOST, 0, 0, 0, 0, 10, 10, 2);
    WROTE(out, strokes, 8);
    READ(bytes, length, 8, 0, 0, 0, 0, 10, 10, 2);
    WROTE(out, strokes, 8);
    REFUSED(bytes, length, 7, 8, 8);
    gerlyantu_drawing_answer no_room = gerlyantu_read_drawing(bytes, length, NULL, 0);
    SAME(no_room.number, 8);
    SAME(no_room.place, 8);
    SAME(no_room.count, 0);
}

/* No bytes at all, and a drawing with a window and no stroke, which needs no output. */
static void check_empty(void) {
    REFUSED(bytes, 0, MOST, 11, 0);
    REFUSED(NULL, 0, MOST, 11, 0);
    gerlyantu_drawing_answer nothing = gerlyantu_read_drawing(NULL, 0, NULL, 0);
    SAME(nothing.number, 11);
    SAME(nothing.place, 0);
    start(-1.0f, -2.0f, 3.0f, 4.0f);
    finish();
    SAME(length, HEAD);
    gerlyantu_drawing_answer window = gerlyantu_read_drawing(bytes, length, NULL, 0);
    SAME(window.number, 0);
    SAME(window.place, 0);
    SAME(window.window.left, -32);
    SAME(window.window.bottom, -64);
    SAME(window.window.right, 96);
    SAME(window.window.top, 128);
    SAME(window.count, 0);
}

/* A close draws nothing where the pen is at the figure's start; a line may follow it; a line to the pen's own point is a stroke. */
static void check_closes(void) {
    const int32_t strokes[12] = {32, 32, 64, 32, 64, 32, 32, 32, 32, 32, 32, 32};
    start(0.0f, 0.0f, 1.0f, 1.0f);
    add_move(1.0f, 1.0f);
    add_close();
    add_line(2.0f, 1.0f);
    add_close();
    add_close();
    add_line(1.0f, 1.0f);
    finish();
    READ(bytes, length, MOST, 0, 0, 0, 0, 32, 32, 3);
    WROTE(out, strokes, 12);
}

/* Strokes 0 to 4095 of a drawing go up and down between (i, 0) and (i + 1, 1) mm / 32. */
static void add_zigzag(size_t lines) {
    add_move(0.0f, 0.0f);
    for (size_t i = 1; i <= lines; i++) add_line((float)i / 32.0f, (float)(i % 2) / 32.0f);
}

static void want_zigzag(void) {
    for (size_t i = 0; i < GERLYANTU_STROKES; i++) {
        want[4 * i] = (int32_t)i;
        want[4 * i + 1] = (int32_t)(i % 2);
        want[4 * i + 2] = (int32_t)(i + 1);
        want[4 * i + 3] = (int32_t)((i + 1) % 2);
    }
}

/* The longest drawing: 65,536 bytes with 4,096 strokes, then moves, and closes that draw nothing. A byte more is a fault. */
static void check_longest(void) {
    start(0.0f, 0.0f, 1.0f, 1.0f);
    add_zigzag(GERLYANTU_STROKES);
    while (length + STEP <= GERLYANTU_DRAWING_BYTES) add_move(0.0f, 0.0f);
    while (length < GERLYANTU_DRAWING_BYTES) add_close();
    finish();
    want_zigzag();
    READ(bytes, length, MOST, 0, 0, 0, 0, 32, 32, GERLYANTU_STROKES);
    WROTE(out, want, MOST);
    REFUSED(bytes, length, MOST - 1, 8, MOST);
    add_close();
    finish();
    SAME(length, 65537);
    FAULT();
}

/* One stroke too many. */
static void check_most_strokes(void) {
    start(0.0f, 0.0f, 1.0f, 1.0f);
    add_zigzag(GERLYANTU_STROKES + 1);
    finish();
    FAULT();
}

/* Each byte of the small drawing's head wrong, each length short of it, and one byte left over. */
static void check_cut(void) {
    make_small();
    for (size_t i = 0; i < 5; i++) {
        bytes[i] ^= 2;
        FAULT();
        bytes[i] ^= 2;
    }
    for (size_t cut = 0; cut < length; cut++) REFUSED(bytes, cut, MOST, 11, 0);
    bytes[length] = 0x5A;
    REFUSED(bytes, length + 1, MOST, 11, 0);
}

/* The small drawing, cut short inside a record, with its count right: the cut record is the fault. */
static void check_cut_records(void) {
    make_small();
    for (length = HEAD + 1; length < HEAD + 2 * STEP; length++) {
        finish();
        if (length != HEAD + STEP) FAULT();
    }
}

/* An unknown record, a line or a close before any move, and numbers that the intake refuses. */
static void check_records(void) {
    start(0.0f, 0.0f, 1.0f, 1.0f);
    add_step(0x4E, 0.0f, 0.0f);
    finish();
    FAULT();
    start(0.0f, 0.0f, 1.0f, 1.0f);
    add_line(0.0f, 0.0f);
    finish();
    FAULT();
    start(0.0f, 0.0f, 1.0f, 1.0f);
    add_close();
    finish();
    FAULT();
    start(0.0f, 0.0f, 1.0f, 1.0f);
    add_move(0.0f, 512.0f);
    finish();
    FAULT();
    start(float_of(0x7FC00000u), 0.0f, 1.0f, 1.0f);
    finish();
    FAULT();
}

/* 11 comes first, then 3, then 8. */
static void check_order(void) {
    start(1.0f, 0.0f, 1.0f, 1.0f);
    add_move(0.0f, 0.0f);
    add_line(1.0f, 0.0f);
    finish();
    REFUSED(bytes, length, 0, 3, 0);
    add_step(0x4E, 0.0f, 0.0f);
    finish();
    REFUSED(bytes, length, 0, 11, 0);
}

void check_drawings(void) {
    check_small();
    check_empty();
    check_closes();
    check_longest();
    check_most_strokes();
    check_cut();
    check_cut_records();
    check_records();
    check_order();
}
