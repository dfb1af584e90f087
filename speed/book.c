// The strip book: strips booked in books with none, some and all but one of the slots in use, slots released, and a renter's strips listed.
#include "harness.h"

typedef struct BookingAnswer BookCall(i32 *, usize, i32, struct Window);
typedef struct ReleaseAnswer ReleaseCall(i32 *, usize, i32, i32);
typedef struct Answer ListCall(const i32 *, usize, i32, i32 *, usize);

enum { SLOTS = 64, HALF = 32, FIVE = 5, NUMBERS = FIVE * SLOTS, LISTED = FIVE * HALF, BEHIND = 8, BOOKS = 1024 };

// A book, who calls, what is booked and released in it, and the one slot of the table that a done call changes, as it was before.
struct Book { i32 numbers[NUMBERS]; i32 renter; struct Window w; i32 released, changed, before[FIVE]; };

// Puts the slot back that a done call has changed, so that the next round finds the same book.
static inline void put_back(struct Book *b) {
    for (int i = 0; i < FIVE; i++) b->numbers[FIVE * b->changed + i] = b->before[i];
}

static void run_bookings(const void *inputs, Call *call) {
    struct Book *in = (struct Book *)inputs;
    for (usize i = 0; i < few(BOOKS); i++) {
        struct BookingAnswer a = ((BookCall *)call)(in[i].numbers, NUMBERS, in[i].renter, in[i].w);
        USED(a);
        put_back(in + i);
    }
}

static void run_releases(const void *inputs, Call *call) {
    struct Book *in = (struct Book *)inputs;
    for (usize i = 0; i < few(BOOKS); i++) {
        struct ReleaseAnswer a = ((ReleaseCall *)call)(in[i].numbers, NUMBERS, in[i].renter, in[i].released);
        USED(a);
        put_back(in + i);
    }
}

static void run_listings(const void *inputs, Call *call) {
    const struct Book *in = inputs;
    i32 out[LISTED];
    for (usize i = 0; i < few(BOOKS); i++) {
        struct Answer a = ((ListCall *)call)(in[i].numbers, NUMBERS, in[i].renter, out, LISTED);
        USED(a);
    }
}

// ---- both versions on the same book

static i32 tables[2][2 * NUMBERS + BEHIND], outs[2][2 * LISTED + BEHIND];

static i32 lent_number(usize i) { return 7000000 + (i32)i; }

static void lend_both(const i32 *numbers, usize count) {
    for (usize i = 0; i < 2 * NUMBERS + BEHIND; i++) tables[0][i] = tables[1][i] = i < count ? numbers[i] : lent_number(i);
    for (usize i = 0; i < 2 * LISTED + BEHIND; i++) outs[0][i] = outs[1][i] = lent_number(i);
}

static int alike(void) { return !memcmp(tables[0], tables[1], sizeof tables[0]) && !memcmp(outs[0], outs[1], sizeof outs[0]); }

static struct BookingAnswer check_booking(const i32 *numbers, usize count, i32 renter, struct Window w) {
    lend_both(numbers, count);
    struct BookingAnswer a = gerlyantu_book_strip(tables[0], count, renter, w), b = tuned_book_strip(tables[1], count, renter, w);
    check(a.number == b.number && a.place == b.place && a.slot == b.slot && alike(), "a booking");
    return a;
}

static struct ReleaseAnswer check_release(const i32 *numbers, usize count, i32 renter, i32 slot) {
    lend_both(numbers, count);
    struct ReleaseAnswer a = gerlyantu_release_slot(tables[0], count, renter, slot), b = tuned_release_slot(tables[1], count, renter, slot);
    check(a.number == b.number && a.place == b.place && alike(), "a release");
    return a;
}

static struct Answer check_listing(const i32 *numbers, usize count, i32 renter, usize room) {
    lend_both(numbers, count);
    struct Answer a = gerlyantu_list_strips(tables[0], count, renter, outs[0], room);
    struct Answer b = tuned_list_strips(tables[1], count, renter, outs[1], room);
    check(a.number == b.number && a.place == b.place && a.count == b.count && alike(), "a listing");
    return a;
}

// ---- small tables, most of which are some kind of damaged

static void put_slot(i32 *numbers, int k, i32 mark, struct Window w) {
    i32 *to = numbers + FIVE * k;
    to[0] = mark; to[1] = w.left; to[2] = w.bottom; to[3] = w.right; to[4] = w.top;
}

static struct Window small_strip(void) {
    struct Window w = { from(-20, 20), from(-20, 20), 0, 0 };
    w.right = w.left + from(1, 6);
    w.top = w.bottom + from(1, 6);
    return w;
}

// What may stand where it should not: a number near the table's end, one that looks small in its low bits, or any.
static i32 odd_number(void) {
    switch (from(0, 3)) {
    case 0: return from(16382, 16385) * (from(0, 1) ? 1 : -1);
    case 1: return from(-3, 3) * 65536 + from(-20, 20);
    case 2: return from(-2, 2);
    default: return (i32)next();
    }
}

// A few strips anywhere, which often share area, or many side by side, from the first slot of either renter on, of which at times one lies where
// another does. There are numbers in some free slots, and at times a number or the length is spoilt.
static usize small_table(i32 *numbers) {
    int few_strips = from(0, 1), used = few_strips ? from(0, 8) : from(9, SLOTS), first = HALF * from(0, 1);
    for (usize i = 0; i < 2 * NUMBERS; i++) numbers[i] = 0;
    for (int k = 0; k < SLOTS; k++)
        if (!from(0, 3)) put_slot(numbers, k, 0, (struct Window){ odd_number(), odd_number(), odd_number(), odd_number() });
    for (int k = 0; k < used; k++) {
        if (few_strips) put_slot(numbers, from(0, SLOTS - 1), 1, small_strip());
        else put_slot(numbers, (first + k) % SLOTS, 1, (struct Window){ k - 32, from(-9, -1), k - 31, from(0, 9) });
    }
    if (!few_strips && !from(0, 2)) {
        i32 *to = numbers + FIVE * ((first + from(0, used - 1)) % SLOTS), *one = numbers + FIVE * ((first + from(0, used - 1)) % SLOTS);
        for (int i = 0; i < FIVE; i++) to[i] = one[i];
    }
    for (int k = from(0, 11) - 9; k > 0; k--) numbers[from(0, NUMBERS - 1)] = odd_number();
    if (from(0, 19)) return NUMBERS;
    return from(0, 1) ? (usize)from(NUMBERS - 6, NUMBERS + 6) : (usize)from(0, 2 * NUMBERS);
}

// One of the two renters, as a rule.
static i32 small_renter(void) {
    return from(0, 9) ? from(0, 1) : from(0, 1) ? from(-1, 2) : (i32)next();
}

// Any slot of a renter as a rule; a slot of the table that is none of his, or any number.
static i32 small_slot(void) {
    return from(0, 3) ? from(-2, HALF + 2) : from(0, 1) ? from(HALF, SLOTS + 2) : (i32)next();
}

// Any room, or just that of so many strips, or one less.
static usize small_room(void) {
    return (usize)(from(0, 1) ? from(0, 2 * LISTED) : FIVE * from(1, from(0, 1) ? 6 : HALF) - from(0, 1));
}

static void check_small(void) {
    i32 numbers[2 * NUMBERS];
    for (int i = 0; i < 100000; i++) {
        usize count = small_table(numbers);
        i32 renter = small_renter();
        struct Window w = small_strip();
        if (!from(0, 4)) ((i32 *)&w)[from(0, 3)] = odd_number();
        check_booking(numbers, count, renter, w);
        check_release(numbers, count, renter, small_slot());
        check_listing(numbers, count, renter, small_room());
    }
}

// ---- the rows

enum { PARTS = SLOTS + 1 };

// Cuts the table along straight lines into parts, and takes something off each, so that there is room between most of them.
static void some_parts(struct Window *parts) {
    parts[0] = (struct Window){ -16000, -16000, 16000, 16000 };
    for (int n = 1; n < PARTS; n++) {
        struct Window *cut = parts, *rest = parts + n;
        for (struct Window *p = parts; p < rest; p++)
            if ((i64)(p->right - p->left) * (p->top - p->bottom) > (i64)(cut->right - cut->left) * (cut->top - cut->bottom)) cut = p;
        *rest = *cut;
        if (cut->right - cut->left > cut->top - cut->bottom) rest->left = cut->right = cut->left + (cut->right - cut->left) / 8 * from(2, 6);
        else rest->bottom = cut->top = cut->bottom + (cut->top - cut->bottom) / 8 * from(2, 6);
    }
    for (int k = 0; k < PARTS; k++) {
        parts[k].left += from(0, 100);
        parts[k].top -= from(0, 100);
    }
}

static void exchange(struct Window *a, struct Window *b) {
    struct Window w = *a;
    *a = *b;
    *b = w;
}

// A strip that lies over a corner of w.
static struct Window over(struct Window w) {
    i32 x = from(0, 1) ? w.left : w.right, y = from(0, 1) ? w.bottom : w.top;
    return (struct Window){ x - from(1, 300), y - from(1, 300), x + from(1, 300), y + from(1, 300) };
}

// Brings the slots from one up to another in any order.
static void in_any_order(i32 *slots, int first, int end) {
    for (int k = first; k < end; k++) {
        int other = from(k, end - 1);
        i32 slot = slots[other];
        slots[other] = slots[k];
        slots[k] = slot;
    }
}

// Any slots, or those of one renter before those of the other.
static void some_slots(i32 *slots, int own_first) {
    int first = own_first ? HALF * from(0, 1) : 0;
    for (int k = 0; k < SLOTS; k++) slots[k] = (first + k) % SLOTS;
    in_any_order(slots, 0, own_first ? HALF : SLOTS);
    if (own_first) in_any_order(slots, HALF, SLOTS);
}

// What a row's calls are.
enum Kind { BOOKED, RELEASED, LISTINGS };

// A book with so many strips in the first of some slots. Who books is a renter with the last of them, which is free unless all are in use; who
// releases or lists has the first. Every other strip to be booked shares area with one of the book, where there is one.
static void some_book(struct Book *b, int strips, enum Kind kind, int shares) {
    struct Window parts[PARTS];
    i32 slots[SLOTS];
    some_parts(parts);
    for (int k = 0; k < PARTS; k++) exchange(parts + k, parts + from(0, PARTS - 1));
    some_slots(slots, kind == LISTINGS);
    for (int k = 0; k < strips; k++) put_slot(b->numbers, slots[k], 1, parts[k]);
    b->renter = slots[kind == BOOKED ? SLOTS - 1 : 0] / HALF;
    b->w = shares && strips ? over(parts[from(0, strips - 1)]) : parts[SLOTS];
    b->released = slots[0] % HALF;
}

// The slot of the table that a booking takes, for which there is one.
static i32 lowest_free(const struct Book *b) {
    i32 k = HALF * b->renter;
    while (b->numbers[FIVE * k]) k++;
    return k;
}

// Notes the slot of the table that a call may change, and what it has now.
static void may_change(struct Book *b, i32 slot) {
    b->changed = slot;
    for (int i = 0; i < FIVE; i++) b->before[i] = b->numbers[FIVE * slot + i];
}

static const struct Book *bookings_of(int strips) {
    struct Book *in = lent(few(BOOKS), sizeof *in);
    for (usize i = 0; i < few(BOOKS); i++) {
        some_book(in + i, strips, BOOKED, i % 2);
        may_change(in + i, lowest_free(in + i));
        if (traced) continue;
        struct BookingAnswer a = check_booking(in[i].numbers, NUMBERS, in[i].renter, in[i].w);
        check(a.number == (i % 2 && strips ? 16 : 0), "a booking that is right");
    }
    return in;
}

static const struct Book *releases_of(int strips) {
    struct Book *in = lent(few(BOOKS), sizeof *in);
    for (usize i = 0; i < few(BOOKS); i++) {
        some_book(in + i, strips, RELEASED, 0);
        may_change(in + i, HALF * in[i].renter + in[i].released);
        if (traced) continue;
        check(!check_release(in[i].numbers, NUMBERS, in[i].renter, in[i].released).number, "a release that is right");
        struct BookingAnswer a = check_booking(in[i].numbers, NUMBERS, in[i].renter, in[i].w);
        check(a.number == (strips == SLOTS ? 17 : 0), "a booking beside it that is right");
    }
    return in;
}

static const struct Book *listings_of(int strips) {
    struct Book *in = lent(few(BOOKS), sizeof *in);
    for (usize i = 0; i < few(BOOKS); i++) {
        some_book(in + i, strips, LISTINGS, 0);
        if (traced) continue;
        struct Answer a = check_listing(in[i].numbers, NUMBERS, in[i].renter, LISTED);
        check(!a.number && a.count == (usize)(FIVE * (strips < HALF ? strips : HALF)), "a listing that is right");
        check(check_listing(in[i].numbers, NUMBERS, in[i].renter, a.count - 1).place == a.count, "a listing without room");
    }
    return in;
}

static void add_book_row(const char *name, void (*run)(const void *, Call *), const struct Book *books, Call *ours, Call *tuned) {
    add_row((struct Row){ name, run, books, few(BOOKS), ours, tuned, few(BOOKS) });
}

void book_rows(void) {
    static const int booked[] = { 0, 16, 63 }, released[] = { 16, 64 }, listed[] = { 16, 32, 64 };
    static const char *books[] = { "book 0", "book 16", "book 63" }, *releases[] = { "release 16", "release 64" };
    static const char *lists[] = { "list 16 of 16", "list 32 of 32", "list 32 of 64" };
    seed(6);
    if (!traced) check_small();
    for (int k = 0; k < 3; k++)
        add_book_row(books[k], run_bookings, bookings_of(booked[k]), (Call *)gerlyantu_book_strip, (Call *)tuned_book_strip);
    for (int k = 0; k < 2; k++)
        add_book_row(releases[k], run_releases, releases_of(released[k]), (Call *)gerlyantu_release_slot, (Call *)tuned_release_slot);
    for (int k = 0; k < 3; k++)
        add_book_row(lists[k], run_listings, listings_of(listed[k]), (Call *)gerlyantu_list_strips, (Call *)tuned_list_strips);
}
