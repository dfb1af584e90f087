/* The table of the strip book's checks. After every call all of it is looked at, what stands before it and behind too. */
#include "check.h"

enum {
    SLOT = 5,
    NUMBERS = GERLYANTU_BOOK_NUMBERS,
    SLOTS = GERLYANTU_SLOTS,
    HALF = GERLYANTU_HALF_SLOTS,
    ROOM = GERLYANTU_LISTING_ROOM,
    GUARD = 8,
    ALL = GUARD + NUMBERS + GUARD
};

/* What is lent, and what it is to be after a call; `book` is the table inside, and `listed` the output of listings. */
extern int32_t memory[ALL], want[ALL], listed[ROOM + GUARD];
extern int32_t *const book;

#define STRIP(l, b, r, t) ((gerlyantu_window){l, b, r, t})

/* The table's slot that is this one of a renter. */
size_t place_of(int32_t renter, int32_t slot);

/* Puts one slot of the table in what it is to be after a call. */
void want_slot(size_t k, int32_t mark, gerlyantu_window w);

/* Puts one slot, or one number, in the table, as a caller who keeps it could. */
void put_slot(size_t k, int32_t mark, gerlyantu_window w);
void put_number(size_t i, int32_t number);

/* An empty book; what stands before it and behind has the mark of a slot in use everywhere. */
void start(void);

/* The k-th of 64 strips that touch each other: eight rows of eight squares. */
gerlyantu_window square(size_t k);

/* A book with all 64 slots in use. */
void start_full(void);

/* ---- calls: number, place and what else is answered, and the whole memory */

#define BOOK(renter, window, length, n, p, s) \
    do { \
        gerlyantu_booking_answer booking = gerlyantu_book_strip(book, length, renter, window); \
        SAME(booking.number, n); \
        SAME(booking.place, p); \
        SAME(booking.slot, s); \
        WROTE(memory, want, ALL); \
    } while (0)

#define RELEASE(renter, s, length, n) \
    do { \
        gerlyantu_release_answer release = gerlyantu_release_slot(book, length, renter, s); \
        SAME(release.number, n); \
        SAME(release.place, 0); \
        WROTE(memory, want, ALL); \
    } while (0)

/* Lends `room` numbers of the output, and holds all that was not to be written. */
#define LIST(renter, length, room, n, p, written) \
    do { \
        lend(listed, ROOM + GUARD); \
        gerlyantu_answer listing = gerlyantu_list_strips(book, length, renter, listed, room); \
        SAME(listing.number, n); \
        SAME(listing.place, p); \
        SAME(listing.count, written); \
        LEFT(listed, written, ROOM + GUARD); \
        WROTE(memory, want, ALL); \
    } while (0)

/* ---- calls that are done, and calls on a book that are refused */

#define BOOKED(renter, window, s) \
    do { \
        want_slot(place_of(renter, s), 1, window); \
        BOOK(renter, window, NUMBERS, 0, 0, s); \
    } while (0)

#define RELEASED(renter, s) \
    do { \
        want_slot(place_of(renter, s), 0, STRIP(0, 0, 0, 0)); \
        RELEASE(renter, s, NUMBERS, 0); \
    } while (0)

#define NOT_BOOKED(renter, window, n, p) BOOK(renter, window, NUMBERS, n, p, 0)
#define NOT_RELEASED(renter, s) RELEASE(renter, s, NUMBERS, 18)
