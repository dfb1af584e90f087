// The strip book. Its strips are put side by side in rows of 16-bit numbers, so that the compiler compares eight pairs of them at a time.
#include "common.h"

typedef short i16;

enum { SLOTS = 64, RENTERS = 2, HALF = SLOTS / RENTERS, FIVE = 5, NUMBERS = FIVE * SLOTS };
enum { EIGHT = 8, PLACES = SLOTS + EIGHT, NO_BOOK = SLOTS + 1 };
// All four numbers of a place without a strip: one past the table's end, so that no strip has anything in common with it.
enum { VACANT = FARTHEST + 1 };

// The strips of a book; the eight places behind the last are vacant.
struct Rack { i16 left[PLACES], bottom[PLACES], right[PLACES], top[PLACES]; };

static inline i16 lesser(i16 a, i16 b) { return a < b ? a : b; }
static inline i16 greater(i16 a, i16 b) { return a < b ? b : a; }

// The lesser of the width and the height that two strips have in common: above 0 where they share area.
static inline i16 shared(i16 l1, i16 b1, i16 r1, i16 t1, i16 l2, i16 b2, i16 r2, i16 t2) {
    return lesser(lesser(r1, r2) - greater(l1, l2), lesser(t1, t2) - greater(b1, b2));
}

// Puts the strips in use on the rack, and tells how many; NO_BOOK where a mark or a strip is wrong. What is wrong is gathered in sign bits and asked
// once.
static inline usize gather(const i32 *book, struct Rack *r) {
    usize n = 0;
    u32 marks = 0, off[4] = { 0 }, area = ~0u;
    #pragma clang loop unroll_count(8)
    for (int k = SLOTS - 1; k >= 0; k--) {
        const i32 *s = book + FIVE * k;
        if (s[0] == 0) continue;
        marks |= s[0];
        for (int i = 0; i < 4; i++) off[i] |= ((u32)s[1 + i] + FARTHEST) | (FARTHEST - (u32)s[1 + i]);
        area &= ((u32)s[1] - (u32)s[3]) & ((u32)s[2] - (u32)s[4]);
        r->left[n] = s[1]; r->bottom[n] = s[2]; r->right[n] = s[3]; r->top[n] = s[4];
        n++;
    }
    if (UNLIKELY(marks > 1 || (i32)(off[0] | off[1] | off[2] | off[3] | ~area) < 0)) return NO_BOOK;
    for (int i = 0; i < EIGHT; i++) r->left[n + i] = r->bottom[n + i] = r->right[n + i] = r->top[n + i] = VACANT;
    return n;
}

// Whether two of n strips share area. Eight strips are compared with the eight that begin one place behind, two places and so on, so that no number
// has to be spread over eight places. The loop over e becomes vectors; the compiler would take the one over j, which is dearer.
static inline i32 crowded(const struct Rack *r, usize n) {
    i16 most[EIGHT] = { 0 }, all = 0;
    for (usize i = 0; i < n; i += EIGHT)
        #pragma clang loop vectorize(disable)
        for (usize j = i + 1; j < n; j++)
            for (int e = 0; e < EIGHT; e++)
                most[e] = greater(most[e], shared(r->left[i + e], r->bottom[i + e], r->right[i + e], r->top[i + e],
                    r->left[j + e], r->bottom[j + e], r->right[j + e], r->top[j + e]));
    for (int e = 0; e < EIGHT; e++) all = greater(all, most[e]);
    return all > 0;
}

// Whether w shares area with one of n strips.
static inline i32 taken(const struct Rack *r, usize n, struct Window w) {
    i16 most = 0;
    usize end = (n + EIGHT - 1) / EIGHT * EIGHT;
    #pragma clang loop vectorize_width(8) interleave_count(1)
    for (usize j = 0; j < end; j++)
        most = greater(most, shared(w.left, w.bottom, w.right, w.top, r->left[j], r->bottom[j], r->right[j], r->top[j]));
    return most > 0;
}

// How many strips a book has, which are then on the rack, or NO_BOOK.
static inline usize strips_of(const i32 *book, usize count, struct Rack *r) {
    if (UNLIKELY(count != NUMBERS)) return NO_BOOK;
    usize n = gather(book, r);
    return n == NO_BOOK || UNLIKELY(crowded(r, n)) ? NO_BOOK : n;
}

static inline struct BookingAnswer refused(u8 number, usize place) { return (struct BookingAnswer){ number, place, 0 }; }

struct BookingAnswer tuned_book_strip(i32 *book, usize count, i32 renter, struct Window w) {
    if (UNLIKELY((u32)renter >= RENTERS)) return refused(19, 0);
    struct Rack rack;
    usize n = strips_of(book, count, &rack);
    if (UNLIKELY(n == NO_BOOK)) return refused(23, 0);
    if (!good_window(w)) {
        struct Refusal r = window_refusal(w);
        return refused(r.number, r.place);
    }
    i32 *s = book + FIVE * HALF * renter, k = 0;
    for (; k < HALF && s[0]; s += FIVE) k++;
    if (k == HALF) return refused(17, 0);
    if (taken(&rack, n, w)) return refused(16, 0);
    s[0] = 1; s[1] = w.left; s[2] = w.bottom; s[3] = w.right; s[4] = w.top;
    return (struct BookingAnswer){ 0, 0, k };
}

struct ReleaseAnswer tuned_release_slot(i32 *book, usize count, i32 renter, i32 slot) {
    if (UNLIKELY((u32)renter >= RENTERS)) return (struct ReleaseAnswer){ 19, 0 };
    struct Rack rack;
    if (UNLIKELY(strips_of(book, count, &rack) == NO_BOOK)) return (struct ReleaseAnswer){ 23, 0 };
    i32 *half = book + FIVE * HALF * renter;
    if (UNLIKELY((u32)slot >= HALF || !half[FIVE * slot])) return (struct ReleaseAnswer){ 18, 0 };
    for (int i = 0; i < FIVE; i++) half[FIVE * slot + i] = 0;
    return (struct ReleaseAnswer){ 0, 0 };
}

// How many numbers the listing of a half has.
static usize numbers_of(const i32 *half) {
    usize strips = 0;
    for (int k = 0; k < HALF; k++) strips += half[FIVE * k];
    return FIVE * strips;
}

// The half's strips are counted only where there might be no room for them.
struct Answer tuned_list_strips(const i32 *book, usize count, i32 renter, i32 *out, usize room) {
    if (UNLIKELY((u32)renter >= RENTERS)) return (struct Answer){ 19, 0, 0 };
    struct Rack rack;
    usize n = strips_of(book, count, &rack);
    if (UNLIKELY(n == NO_BOOK)) return (struct Answer){ 23, 0, 0 };
    const i32 *half = book + FIVE * HALF * renter;
    if (UNLIKELY(room < FIVE * HALF && room < FIVE * n)) {
        usize needed = numbers_of(half);
        if (needed > room) return (struct Answer){ 8, needed, 0 };
    }
    i32 *to = out;
    #pragma clang loop unroll(full)
    for (int k = 0; k < HALF; k++) {
        if (!half[FIVE * k]) continue;
        to[0] = k;
        __builtin_memcpy(to + 1, half + FIVE * k + 1, 4 * sizeof *to);
        to += FIVE;
    }
    return (struct Answer){ 0, 0, to - out };
}
