/* The model: the book as docs/BOOK.md tells it, its file, its commands and their answers. */
#include "model.h"
#include <stdio.h>
#include <stdlib.h>

/* Grid lines as millimetres, exactly and without a digit too many: 1/32 is 0.03125. */
static void put_millimetres(struct text *text, int grid) {
    int whole = abs(grid) / 32, part = abs(grid) % 32 * 3125, digits = 5;
    put(text, grid < 0 ? " -%d" : " %d", whole);
    if (part == 0) return;
    while (part % 10 == 0) part /= 10, digits--;
    put(text, ".%0*d", digits, part);
}

/* " l b r t = l b r t mm" */
static void put_sides(struct text *text, const int *side) {
    for (int i = 0; i < 4; i++) put(text, " %d", side[i]);
    put(text, " =");
    for (int i = 0; i < 4; i++) put_millimetres(text, side[i]);
    put(text, " mm");
}

static void put_strip(struct text *text, const struct book *book, int renter, int slot) {
    put(text, "%d %d", renter, slot);
    put_sides(text, book->slot[renter][slot].side);
    put(text, "\n");
}

static int put_strips(struct text *text, const struct book *book, int renter) {
    int count = 0;
    for (int slot = 0; slot < SLOTS; slot++)
        if (book->slot[renter][slot].used) put_strip(text, book, renter, slot), count++;
    return count;
}

void text_of(struct text *text, const struct book *book) {
    text->length = 0;
    put(text, "strip book 1: renter, slot, left bottom right top in 1/32 mm = in mm\n");
    for (int renter = 0; renter < RENTERS; renter++) put_strips(text, book, renter);
    put(text, "end\n");
}

static int share_area(const int *one, const int *other) {
    return one[0] < other[2] && other[0] < one[2] && one[1] < other[3] && other[1] < one[3];
}

static int taken(const struct book *book, const int *side) {
    for (int i = 0; i < RENTERS * SLOTS; i++) {
        const struct strip *strip = &book->slot[i / SLOTS][i % SLOTS];
        if (strip->used && share_area(strip->side, side)) return 1;
    }
    return 0;
}

int used_slots(const struct book *book, int renter) {
    int count = 0;
    for (int slot = 0; slot < SLOTS; slot++) count += book->slot[renter][slot].used;
    return count;
}

/* A decimal number of millimetres, to the grid: the nearest line, a half to the even one. */
static int grid_of(const char *word) {
    long long millionths = 0, scale = 1000000, twice, down;
    const char *at = word + (*word == '-');
    int behind = 0;
    for (; *at; at++) {
        if (*at == '.') behind = 1;
        else millionths = millionths * 10 + (*at - '0'), scale /= behind ? 10 : 1;
    }
    millionths *= scale;
    down = millionths * 32 / 1000000, twice = millionths * 32 % 1000000 * 2;
    down += twice > 1000000 || (twice == 1000000 && down % 2 == 1);
    return (int)(*word == '-' ? -down : down);
}

/* The model knows those refusals whose words docs/BOOK.md tells: 10, 16 and 18. The scripts come to no other. */
static int model_book(struct book *book, struct text *answer, int renter, char side[4][16]) {
    struct strip strip = {1, {0, 0, 0, 0}};
    int slot = 0;
    for (int i = 0; i < 4; i++) {
        strip.side[i] = grid_of(side[i]);
        if (abs(strip.side[i]) > 16383) return put(answer, "10 %d: a number of millimetres is infinite or off the table\n", i), 0;
    }
    while (slot < SLOTS && book->slot[renter][slot].used) slot++;
    if (slot == SLOTS || strip.side[0] >= strip.side[2] || strip.side[1] >= strip.side[3]) give_up("the script has a booking that the model lacks");
    if (taken(book, strip.side)) {
        put(answer, "16 0");
        put_sides(answer, strip.side);
        put(answer, ": the strip shares area with one in the book\n");
        return 0;
    }
    book->slot[renter][slot] = strip;
    put_strip(answer, book, renter, slot);
    return 1;
}

static int model_release(struct book *book, struct text *answer, int renter, int slot) {
    if (slot < 0 || slot >= SLOTS || !book->slot[renter][slot].used)
        return put(answer, "18 0: the slot to release is not one of the renter's slots in use\n"), 0;
    put_strip(answer, book, renter, slot);
    book->slot[renter][slot].used = 0;
    return 1;
}

int model(struct book *book, struct text *answer, const char *line) {
    char side[4][16];
    int renter, slot;
    if (sscanf(line, "book %d %15s %15s %15s %15s", &renter, side[0], side[1], side[2], side[3]) == 5)
        return model_book(book, answer, renter, side);
    if (sscanf(line, "release %d %d", &renter, &slot) == 2) return model_release(book, answer, renter, slot);
    if (sscanf(line, "strips %d", &renter) == 1) {
        if (put_strips(answer, book, renter) == 0) put(answer, "none\n");
    } else if (put_strips(answer, book, 0) + put_strips(answer, book, 1) == 0)
        put(answer, "none\n");
    return 0;
}
