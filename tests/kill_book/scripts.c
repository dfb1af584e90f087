/* Scripts: commands that are ordered one by one or drawn by chance, with the answers, the books and the files that the model has for them. */
#include "model.h"
#include <stdarg.h>
#include <stdio.h>
#include <stdlib.h>

void begin(struct script *script, const struct book *book, int fresh) {
    script->count = script->changes = 0;
    script->commands.length = script->answers.length = 0;
    script->fresh = fresh;
    script->book[0] = *book;
    text_of(&script->file[0], book);
}

void order(struct script *script, const char *format, ...) {
    struct book book = script->book[script->changes];
    size_t start = script->commands.length;
    int i = script->count++;
    va_list rest;
    va_start(rest, format);
    need(&script->commands, 256);
    script->commands.length += (size_t)vsnprintf(script->commands.bytes + start, 256, format, rest);
    va_end(rest);
    script->changed[i] = model(&book, &script->answers, script->commands.bytes + start);
    put(&script->commands, "\n");
    script->command_end[i] = script->commands.length;
    script->answer_end[i] = script->answers.length;
    if (!script->changed[i]) return;
    script->book[++script->changes] = book;
    text_of(&script->file[script->changes], &book);
}

/* A number of millionths of a millimetre as a decimal number, sometimes with zeros that mean nothing. Nine digits at the most. */
static void put_decimal(struct text *text, long long millionths) {
    long long size = llabs(millionths), whole = size / 1000000, part = size % 1000000;
    int digits = 6;
    while (digits > 0 && part % 10 == 0) part /= 10, digits--;
    put(text, millionths < 0 ? " -%lld" : " %lld", whole);
    if (digits > 0) put(text, ".%0*lld%s", digits, part, digits < 5 && below(4) == 0 ? "0" : "");
}

/* A side near a line of the raster, which is 16 mm wide: on it, or up to half a grid line away, so that it goes there (the raster is even). */
static void put_side(struct text *text, int line) {
    static const int away[] = {0, 0, 0, 0, 15625, -15625, 10000, -10000};
    put_decimal(text, line * 16000000LL + away[below(8)]);
}

static void order_booking(struct script *script, int renter) {
    int left = (int)below(56) - 31, bottom = (int)below(56) - 31, wide = 1 + (int)below(6), high = 1 + (int)below(6);
    struct text line = {0, 0, 0};
    put(&line, "book %d", renter);
    put_side(&line, left), put_side(&line, bottom), put_side(&line, left + wide);
    if (below(25) == 0) put(&line, " %lld", 512 + below(1000));
    else put_side(&line, bottom + high);
    if (below(10) == 0) put(&line, " # a comment");
    order(script, "%s", line.bytes);
    free(line.bytes);
}

static void order_release(struct script *script, int renter) {
    const struct book *book = &script->book[script->changes];
    int slot = (int)below(SLOTS + 4);
    if (below(5) > 0)
        for (int tries = 0; tries < SLOTS && !(slot < SLOTS && book->slot[renter][slot].used); tries++) slot = (slot + 1) % SLOTS;
    order(script, "release %d %d", renter, slot);
}

void order_any(struct script *script) {
    int renter = (int)below(2), what = (int)below(100);
    int full = used_slots(&script->book[script->changes], renter) >= SLOTS - 1;
    if (what < 4) order(script, "strips %d", renter);
    else if (what < 6) order(script, "show");
    else if (what < 62 && !full) order_booking(script, renter);
    else order_release(script, renter);
}

void three_bookings(struct script *script, int onto_a_book) {
    static const struct book none;
    struct book book = none;
    if (onto_a_book) {
        book.slot[0][0] = (struct strip){1, {-640, -320, 0, 0}};
        book.slot[1][2] = (struct strip){1, {-640, 0, -1, 321}};
    }
    begin(script, &book, !onto_a_book);
    order(script, "strips 1");
    order(script, "book 0 0 0 20 10");
    order(script, "book 1 20 0 40.03125 10");
    order(script, "book 1 10 0 30 10");
    order(script, "book 0 0 10 20 20.5");
    order(script, "release 1 20");
}

int answered(const struct script *script, size_t heard) {
    int count = 0;
    while (count < script->count && script->answer_end[count] <= heard) count++;
    return count;
}

int answered_changes(const struct script *script, size_t heard) {
    int changes = 0;
    for (int i = 0; i < script->count && (i == 0 ? 0 : script->answer_end[i - 1]) < heard; i++) changes += script->changed[i];
    return changes;
}
