// The header in a C++ program: structs by value in and out, lists, lent outputs and the words. The answers are those of the rules' worked examples.
#include <gerlyantu.h>
#include <stdio.h>

static int checks, failed;

static void same(int line, long long got, long long want) {
    checks++;
    if (got == want) return;
    failed++;
    printf("tests/c/from_cpp.cpp:%d: %lld, not %lld\n", line, got, want);
}
#define SAME(got, want) same(__LINE__, static_cast<long long>(got), static_cast<long long>(want))

static bool alike(const char *a, const char *b) {
    while (*a != 0 && *a == *b) a++, b++;
    return *a == *b;
}

static_assert(sizeof(gerlyantu_stroke_answer) == 80, "C++ lays the answers out as C does");
static_assert(sizeof(gerlyantu_counted_answer) == 88, "C++ lays the answers out as C does");
static_assert(sizeof(gerlyantu_corner_answer) == 64, "C++ lays the answers out as C does");
static_assert(GERLYANTU_VERSION >= 10000, "the version is a constant");

static const gerlyantu_window ten = {0, 0, 10, 10};

static void check_stroke() {
    const gerlyantu_stroke_answer a = gerlyantu_liang_barsky(ten, gerlyantu_stroke{-5, 5, 15, 5});
    SAME(a.number, GERLYANTU_DONE);
    SAME(a.kept, true);
    SAME(a.t0.num, 1);
    SAME(a.t0.den, 4);
    SAME(a.t1.num, 3);
    SAME(a.t1.den, 4);
    SAME(a.bx, 10);
    SAME(a.by, 5);
    SAME(a.side0, GERLYANTU_LEFT);
    SAME(a.side1, GERLYANTU_RIGHT);
    const gerlyantu_counted_answer c = gerlyantu_cohen_sutherland(ten, gerlyantu_stroke{-1, 24, 11, -14});
    SAME(c.shortenings, 4);
    SAME(c.answer.t1.num, 12);
    SAME(c.answer.t1.den, 19);
    SAME(c.answer.side0, GERLYANTU_TOP);
    SAME(c.answer.side1, GERLYANTU_BOTTOM);
    const gerlyantu_stroke_answer x = gerlyantu_cross_product(ten, gerlyantu_stroke{-5, 5, 5, -5});
    SAME(x.number, GERLYANTU_DONE);
    SAME(x.kept, true);
    SAME(x.t0.num, 1);
    SAME(x.t0.den, 2);
    SAME(x.side0, GERLYANTU_LEFT);
    SAME(x.side1, GERLYANTU_BOTTOM);
}

static void check_corner_window() {
    const int32_t square[8] = {0, 0, 10, 0, 10, 10, 0, 10};
    const gerlyantu_corner_answer a = gerlyantu_cyrus_beck(square, 8, gerlyantu_stroke{-1, 0, 1, 1});
    SAME(a.number, GERLYANTU_DONE);
    SAME(a.t0.num, 1);
    SAME(a.t0.den, 2);
    SAME(a.side0, 3);
    SAME(a.side1, GERLYANTU_NO_SIDE);
}

static void check_outline() {
    const int32_t triangle[6] = {-1, 0, 2, 1, -1, 2};
    const int32_t want[12] = {0, 1, 1, 3, 2, 1, 1, 1, 0, 1, 5, 3};
    int32_t ring[GERLYANTU_RING_ROOM];
    const gerlyantu_outline_answer a = gerlyantu_clip_outline(ten, GERLYANTU_LAST_ORDER, triangle, 6, ring, GERLYANTU_RING_ROOM);
    SAME(a.number, GERLYANTU_DONE);
    SAME(a.count, 12);
    for (int i = 0; i < 12; i++) SAME(ring[i], want[i]);
}

// B of the rules only touches: the batch leaves it out unless it is asked for by name. F is a dot that is meant.
static void check_touches() {
    const int32_t strokes[8] = {-5, 5, 5, -5, 10, 10, 10, 10};
    const int32_t want[10] = {0, 0, 0, 0, 0, 1, 10, 10, 10, 10};
    int32_t rows[2 * GERLYANTU_BATCH_PER_STROKE] = {};
    const gerlyantu_answer a = gerlyantu_batch(ten, strokes, 8, rows, GERLYANTU_BATCH_PER_STROKE);
    SAME(a.number, GERLYANTU_DONE);
    SAME(a.count, 5);
    for (int i = 0; i < 5; i++) SAME(rows[i], want[5 + i]);
    const gerlyantu_answer short_of = gerlyantu_batch_with_touches(ten, strokes, 8, rows, GERLYANTU_BATCH_PER_STROKE);
    SAME(short_of.number, GERLYANTU_NO_ROOM);
    SAME(short_of.place, 10);
    const gerlyantu_answer b = gerlyantu_batch_with_touches(ten, strokes, 8, rows, 2 * GERLYANTU_BATCH_PER_STROKE);
    SAME(b.number, GERLYANTU_DONE);
    SAME(b.count, 10);
    for (int i = 0; i < 10; i++) SAME(rows[i], want[i]);
}

static void check_refused() {
    int32_t rows[2 * GERLYANTU_BATCH_PER_STROKE] = {};
    const int32_t strokes[8] = {1, 1, 2, 2, 3, 3, 4, 4};
    const gerlyantu_answer a = gerlyantu_batch(ten, strokes, 8, rows, 7);
    const gerlyantu_refusal number = a.number;
    SAME(number, GERLYANTU_NO_ROOM);
    SAME(a.place, 2 * GERLYANTU_BATCH_PER_STROKE);
    SAME(alike(gerlyantu_words(number), "the output is too short: the place says how many numbers it needs"), true);
    SAME(alike(gerlyantu_words(1), "unknown refusal"), true);
    const gerlyantu_drawing_answer none = gerlyantu_read_drawing(nullptr, 0, nullptr, 0);
    SAME(none.number, GERLYANTU_BAD_DRAWING);
}

static void check_book() {
    int32_t book[GERLYANTU_BOOK_NUMBERS] = {};
    int32_t rows[GERLYANTU_LISTING_ROOM] = {};
    const int32_t renter = GERLYANTU_RENTERS - 1, want[5] = {0, 0, 0, 10, 10};
    const int mark = GERLYANTU_SLOTS / GERLYANTU_RENTERS * 5;
    const gerlyantu_booking_answer booked = gerlyantu_book_strip(book, GERLYANTU_BOOK_NUMBERS, renter, ten);
    SAME(booked.number, GERLYANTU_DONE);
    SAME(booked.slot, 0);
    SAME(book[mark], 1);
    SAME(book[mark + 4], 10);
    SAME(gerlyantu_book_strip(book, GERLYANTU_BOOK_NUMBERS, 0, ten).number, GERLYANTU_STRIP_TAKEN);
    const gerlyantu_answer listed = gerlyantu_list_strips(book, GERLYANTU_BOOK_NUMBERS, renter, rows, GERLYANTU_LISTING_ROOM);
    SAME(listed.number, GERLYANTU_DONE);
    SAME(listed.count, 5);
    for (int i = 0; i < 5; i++) SAME(rows[i], want[i]);
    const gerlyantu_release_answer released = gerlyantu_release_slot(book, GERLYANTU_BOOK_NUMBERS, renter, booked.slot);
    SAME(released.number, GERLYANTU_DONE);
    for (int i = 0; i < GERLYANTU_BOOK_NUMBERS; i++) SAME(book[i], 0);
}

int main() {
    check_stroke();
    check_corner_window();
    check_outline();
    check_touches();
    check_refused();
    check_book();
    printf("linked: %d checks from C++, %d failed\n", checks, failed);
    return failed == 0 ? 0 : 1;
}
