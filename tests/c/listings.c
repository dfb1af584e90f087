/* A renter's own strips listed: slot and four numbers of each, in slot order. */
#include "table.h"

static int32_t rows[ROOM];

/* Puts one strip in what is to be written. */
static void want_row(size_t row, int32_t slot, gerlyantu_window w) {
    const int32_t numbers[SLOT] = {slot, w.left, w.bottom, w.right, w.top};
    for (size_t i = 0; i < SLOT; i++) rows[SLOT * row + i] = numbers[i];
}

/* So many rows are written wherever there is room for them, and elsewhere none: the place then says how many numbers they have. */
static void lists(int32_t renter, size_t count) {
    const size_t needed = SLOT * count;
    LIST(renter, NUMBERS, ROOM, 0, 0, needed);
    WROTE(listed, rows, needed);
    LIST(renter, NUMBERS, needed, 0, 0, needed);
    WROTE(listed, rows, needed);
    if (count == 0) return;
    LIST(renter, NUMBERS, needed - 1, 8, needed, 0);
    LIST(renter, NUMBERS, 1, 8, needed, 0);
    LIST(renter, NUMBERS, 0, 8, needed, 0);
}

/* A half without strips needs no room and no pointer, whatever the other has. */
static void check_empty(int32_t renter) {
    start();
    lists(renter, 0);
    SAME(gerlyantu_list_strips(book, NUMBERS, renter, NULL, 0).number, 0);
    for (int32_t s = 0; s < HALF; s++) put_slot(place_of(1 - renter, s), 1, square((size_t)s));
    lists(renter, 0);
    SAME(gerlyantu_list_strips(book, NUMBERS, renter, NULL, 0).number, 0);
    SAME(gerlyantu_list_strips(book, NUMBERS, 1 - renter, NULL, 0).place, ROOM);
}

/* One strip in any slot: the slot is the renter's, and the other has nothing to list. */
static void check_one(int32_t renter) {
    for (int32_t s = 0; s < HALF; s++) {
        start();
        put_slot(place_of(renter, s), 1, STRIP(-16383, -s - 1, s, 16383));
        want_row(0, s, STRIP(-16383, -s - 1, s, 16383));
        lists(renter, 1);
        lists(1 - renter, 0);
    }
}

/* Slots in use with free ones between, in which numbers stand that do not matter, in a book whose other half is full. */
static void check_gaps(int32_t renter) {
    size_t count = 0;
    start_full();
    for (int32_t s = 0; s < HALF; s++) {
        const size_t k = place_of(renter, s);
        if (s % 3 == 1) want_row(count++, s, square(k));
        else put_slot(k, 0, STRIP(s, INT32_MIN, INT32_MAX, 1));
    }
    lists(renter, count);
}

/* A full half, and a full book: each renter lists its own 32. */
static void check_full(int32_t renter) {
    for (int32_t s = 0; s < HALF; s++) want_row((size_t)s, s, square(place_of(renter, s)));
    start();
    for (int32_t s = 0; s < HALF; s++) put_slot(place_of(renter, s), 1, square(place_of(renter, s)));
    lists(renter, HALF);
    start_full();
    lists(renter, HALF);
}

/* What was booked is listed, and what was released is not. */
static void check_run(int32_t renter) {
    start();
    BOOKED(renter, STRIP(0, 0, 10, 10), 0);
    BOOKED(1 - renter, STRIP(10, 0, 20, 10), 0);
    BOOKED(renter, STRIP(20, 0, 30, 10), 1);
    want_row(0, 0, STRIP(0, 0, 10, 10));
    want_row(1, 1, STRIP(20, 0, 30, 10));
    lists(renter, 2);
    RELEASED(renter, 0);
    want_row(0, 1, STRIP(20, 0, 30, 10));
    lists(renter, 1);
    want_row(0, 0, STRIP(10, 0, 20, 10));
    lists(1 - renter, 1);
}

void check_listings(void) {
    for (int32_t renter = 0; renter < GERLYANTU_RENTERS; renter++) {
        check_empty(renter);
        check_one(renter);
        check_gaps(renter);
        check_full(renter);
        check_run(renter);
    }
}
