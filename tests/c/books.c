/* The strip book: strips booked and released, by either renter. */
#include "table.h"

enum { LAST = HALF - 1 };

/* The renter's lowest free slot is taken, one that was freed too; a strip that was released can be booked again. */
static void check_lowest(int32_t renter) {
    start();
    BOOKED(renter, STRIP(0, 0, 10, 10), 0);
    BOOKED(renter, STRIP(10, 0, 20, 10), 1);
    BOOKED(renter, STRIP(0, 10, 20, 20), 2);
    NOT_BOOKED(renter, STRIP(10, 0, 20, 10), 16, 0);
    RELEASED(renter, 1);
    NOT_RELEASED(renter, 1);
    RELEASED(renter, 0);
    BOOKED(renter, STRIP(10, 0, 20, 10), 0);
    BOOKED(renter, STRIP(9, 0, 10, 10), 1);
    BOOKED(renter, STRIP(-5, -5, 0, 0), 3);
}

/* Each renter has slots of its own, and releases none of the other's; their strips share no area either, but may touch. */
static void check_halves(int32_t renter) {
    const int32_t other = 1 - renter;
    start();
    BOOKED(renter, STRIP(0, 0, 10, 10), 0);
    BOOKED(renter, STRIP(20, 0, 30, 10), 1);
    BOOKED(other, STRIP(10, 0, 20, 10), 0);
    NOT_BOOKED(other, STRIP(0, 0, 10, 10), 16, 0);
    NOT_BOOKED(other, STRIP(9, 5, 11, 20), 16, 0);
    NOT_BOOKED(renter, STRIP(15, 5, 16, 6), 16, 0);
    NOT_RELEASED(other, 1);
    NOT_RELEASED(renter, 2);
    RELEASED(renter, 0);
    NOT_RELEASED(renter, 0);
    BOOKED(other, STRIP(0, 0, 10, 10), 1);
    NOT_BOOKED(renter, STRIP(0, 0, 10, 10), 16, 0);
    RELEASED(other, 0);
    RELEASED(other, 1);
    BOOKED(renter, STRIP(0, 0, 10, 10), 0);
}

/* Strips that touch along a side or in a corner share no area; one that reaches one grid number further does. The one that is there is either
 * renter's. */
static void check_touching(int32_t renter) {
    const gerlyantu_window touching[8] = {{-5, 2, 0, 8}, {10, 0, 20, 10}, {2, -5, 8, 0}, {0, 10, 10, 20},
                                          {-5, -5, 0, 0}, {10, 10, 20, 20}, {10, -5, 20, 0}, {-5, 10, 0, 20}};
    const gerlyantu_window sharing[8] = {{-5, 2, 1, 8}, {9, 0, 20, 10}, {2, -5, 8, 1}, {0, 9, 10, 20},
                                         {-5, -5, 1, 1}, {9, 9, 20, 20}, {9, -5, 20, 1}, {-5, 9, 1, 20}};
    for (size_t i = 0; i < 16; i++) {
        start();
        put_slot(place_of((int32_t)(i / 8), LAST), 1, ten);
        NOT_BOOKED(renter, sharing[i % 8], 16, 0);
        BOOKED(renter, touching[i % 8], 0);
    }
}

/* The same strip, one inside, one round it, and two that cross without a corner in each other. */
static void check_sharing(int32_t renter) {
    for (int32_t whose = 0; whose < GERLYANTU_RENTERS; whose++) {
        start();
        put_slot(place_of(whose, 17), 1, ten);
        NOT_BOOKED(renter, ten, 16, 0);
        NOT_BOOKED(renter, STRIP(4, 4, 5, 5), 16, 0);
        NOT_BOOKED(renter, STRIP(-1, -1, 11, 11), 16, 0);
        NOT_BOOKED(renter, STRIP(-1, 4, 11, 6), 16, 0);
        NOT_BOOKED(renter, STRIP(4, -1, 6, 11), 16, 0);
    }
}

/* The whole table is a strip, and no other then has room beside it; the least strips at its ends. */
static void check_extremes(int32_t renter) {
    const int32_t far = GERLYANTU_LARGEST;
    start();
    BOOKED(renter, STRIP(-far, -far, far, far), 0);
    NOT_BOOKED(renter, STRIP(far - 1, far - 1, far, far), 16, 0);
    NOT_BOOKED(1 - renter, STRIP(-far, -far, 1 - far, 1 - far), 16, 0);
    RELEASED(renter, 0);
    BOOKED(renter, STRIP(far - 1, far - 1, far, far), 0);
    BOOKED(1 - renter, STRIP(-far, -far, 1 - far, 1 - far), 0);
    BOOKED(renter, STRIP(-far, 1 - far, far, far - 1), 1);
}

/* A renter's 32 slots one after another; then there is none, also for a strip that shares area. The other still has all of its own. */
static void check_full(int32_t renter) {
    const int32_t other = 1 - renter;
    start();
    for (size_t k = 0; k < HALF; k++) BOOKED(renter, square(k), (int32_t)k);
    NOT_BOOKED(renter, STRIP(80, 0, 90, 10), 17, 0);
    NOT_BOOKED(renter, square(0), 17, 0);
    NOT_BOOKED(other, square(0), 16, 0);
    for (size_t k = 0; k < HALF; k++) BOOKED(other, square(HALF + k), (int32_t)k);
    NOT_BOOKED(other, STRIP(80, 0, 90, 10), 17, 0);
    NOT_BOOKED(other, square(0), 17, 0);
    RELEASED(renter, LAST);
    RELEASED(renter, 15);
    NOT_BOOKED(other, square(15), 17, 0);
    BOOKED(renter, STRIP(80, 0, 90, 10), 15);
    NOT_BOOKED(renter, square(HALF), 16, 0);
    BOOKED(renter, square(15), LAST);
    NOT_BOOKED(renter, square(LAST), 17, 0);
    for (int32_t s = 0; s < HALF; s++) RELEASED(renter, s);
    for (int32_t s = 0; s < HALF; s++) RELEASED(other, s);
    WROTE(book, (const int32_t[NUMBERS]){0}, NUMBERS);
}

/* The window's own refusals, and which comes first where several apply. */
static void check_windows(int32_t renter) {
    start_full();
    NOT_BOOKED(renter, STRIP(16384, 0, 10, 10), 2, 0);
    NOT_BOOKED(renter, STRIP(0, -16384, 10, 10), 2, 1);
    NOT_BOOKED(renter, STRIP(0, 0, INT32_MAX, INT32_MIN), 2, 2);
    NOT_BOOKED(renter, STRIP(10, 10, 0, INT32_MIN), 2, 3);
    NOT_BOOKED(renter, STRIP(10, 0, 10, 10), 3, 0);
    NOT_BOOKED(renter, STRIP(0, 11, 10, 10), 3, 0);
    NOT_BOOKED(renter, STRIP(90, 90, 90, 90), 3, 0);
}

/* Slots that are free, and numbers that are no slot's of a renter: the table's other slots have them neither. */
static void check_slots(int32_t renter) {
    start();
    NOT_RELEASED(renter, 0);
    NOT_RELEASED(renter, LAST);
    start_full();
    NOT_RELEASED(renter, -1);
    NOT_RELEASED(renter, -HALF);
    NOT_RELEASED(renter, HALF);
    NOT_RELEASED(renter, SLOTS - 1);
    NOT_RELEASED(renter, SLOTS);
    NOT_RELEASED(renter, INT32_MIN);
    NOT_RELEASED(renter, INT32_MAX);
    RELEASED(renter, LAST);
    NOT_RELEASED(renter, LAST);
    RELEASED(renter, 0);
}

void check_books(void) {
    for (int32_t renter = 0; renter < GERLYANTU_RENTERS; renter++) {
        check_lowest(renter);
        check_halves(renter);
        check_touching(renter);
        check_sharing(renter);
        check_extremes(renter);
        check_full(renter);
        check_windows(renter);
        check_slots(renter);
    }
}
