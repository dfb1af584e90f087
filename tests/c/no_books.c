/* Renters that there are not, and tables that are no book: no call takes them, whatever else is wrong, and none writes in a table or an output. */
#include "table.h"

/* Every call is refused by this number. */
static void refused(int32_t renter, size_t length, int32_t number) {
    BOOK(renter, ten, length, number, 0, 0);
    BOOK(renter, STRIP(0, 0, 0, 16384), length, number, 0, 0);
    RELEASE(renter, 0, length, number);
    RELEASE(renter, -1, length, number);
    LIST(renter, length, ROOM, number, 0, 0);
    LIST(renter, length, 0, number, 0, 0);
}

/* No book for either renter, in whose half the fault may be or not; for no renter it is not looked at. */
static void no_book(size_t length) {
    refused(0, length, 23);
    refused(1, length, 23);
    refused(2, length, 19);
}

/* There is no renter but 0 and 1: on an empty book, a full one and none. */
static void check_renters(void) {
    const int32_t renters[9] = {-1, 2, 31, 32, 256, 65536, -2147483647, INT32_MIN, INT32_MAX};
    for (size_t i = 0; i < 9; i++) {
        start();
        refused(renters[i], NUMBERS, 19);
        start_full();
        refused(renters[i], NUMBERS, 19);
        refused(renters[i], 0, 19);
        refused(renters[i], NUMBERS - 1, 19);
    }
    SAME(gerlyantu_book_strip(NULL, 0, -1, ten).number, 19);
    SAME(gerlyantu_release_slot(NULL, 0, 2, 0).number, 19);
    SAME(gerlyantu_list_strips(NULL, 0, 2, NULL, 0).number, 19);
}

/* A table of any other length, and no pointer at all where it has none. */
static void check_lengths(void) {
    const size_t lengths[9] = {0, 1, 5, 160, 315, 319, 321, 325, NUMBERS + GUARD};
    for (size_t i = 0; i < 9; i++) {
        start_full();
        no_book(lengths[i]);
    }
    SAME(gerlyantu_book_strip(NULL, 0, 0, ten).number, 23);
    SAME(gerlyantu_release_slot(NULL, 0, 0, 0).number, 23);
    SAME(gerlyantu_list_strips(NULL, 0, 0, NULL, 0).number, 23);
}

/* A mark that is neither 0 nor 1, in the first slot and in the last. */
static void check_marks(void) {
    const int32_t marks[5] = {2, -1, 257, INT32_MIN, INT32_MAX};
    for (size_t i = 0; i < 10; i++) {
        start();
        put_number(i % 2 * SLOT * (SLOTS - 1), marks[i / 2]);
        no_book(NUMBERS);
    }
}

/* A slot in use whose strip is off the table or has no area; of a free slot the same numbers do not matter, and its renter may book it. */
static void check_strips(void) {
    const gerlyantu_window bad[8] = {{-16384, 0, 10, 10}, {0, INT32_MIN, 10, 10}, {0, 0, 16384, 10}, {0, 0, 10, INT32_MAX},
                                     {10, 0, 10, 10}, {0, 10, 10, 10}, {65536, 0, 65546, 10}, {0, 0, 0, 0}};
    for (size_t i = 0; i < 32; i++) {
        const int32_t renter = (int32_t)(i % 2), slot = (int32_t)(i / 2 % 2) * (HALF - 1);
        start();
        put_slot(place_of(renter, slot), 1, bad[i / 4]);
        no_book(NUMBERS);
        put_slot(place_of(renter, slot), 0, bad[i / 4]);
        NOT_RELEASED(renter, slot);
        LIST(renter, NUMBERS, 0, 0, 0, 0);
        BOOKED(renter, ten, 0);
    }
}

/* Any two slots that share area, in one half or in both; they are free to do so where one of them is not in use. */
static void check_two_alike(void) {
    for (size_t i = 0; i < SLOTS; i++) {
        const size_t k = (i + 1 + i % 62) % SLOTS;
        start_full();
        put_slot(i, 1, STRIP(100, 100, 102, 102));
        put_slot(k, 1, STRIP(101, 101, 103, 103));
        no_book(NUMBERS);
        put_slot(k, 0, STRIP(101, 101, 103, 103));
        BOOKED((int32_t)(k / HALF), square(k), (int32_t)(k % HALF));
    }
}

void check_no_books(void) {
    check_renters();
    check_lengths();
    check_marks();
    check_strips();
    check_two_alike();
}
