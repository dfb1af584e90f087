// What every subject of the bench uses: the C library, numbers from fixed seeds, and rows.
#ifndef HARNESS_H
#define HARNESS_H
#include "calls.h"

int printf(const char *, ...);
void *calloc(usize, usize);
int memcmp(const void *, const void *, usize);
int strcmp(const char *, const char *);
_Noreturn void exit(int);

// The next number of the seed that all inputs are made from.
u64 next(void);
void seed(u64 s);
// A whole number from lo to hi.
i32 from(i32 lo, i32 hi);
void *lent(usize count, usize size);

// The answer counts as used, and memory as changed.
#define USED(a) __asm__ volatile("" : : "r"(&(a)) : "memory")

// A row runs one of two calls over its inputs, in one and the same loop.
typedef void Call(void);
struct Row {
    const char *name;
    void (*run)(const void *inputs, Call *call);
    const void *inputs;
    usize calls;
    Call *ours, *tuned;
    // The row's numbers are given for one of so many: calls, or what one call takes many of.
    usize parts;
};
void add_row(struct Row r);

// An emulator writes down every instruction: then nothing is compared, since that was done before.
extern int traced;
// So many of a row's inputs; a trace takes a part of them.
static inline usize few(usize all) { return traced ? all / 16 : all; }

// Counts a comparison, and ends the bench where the two answers differ.
void check(int equal, const char *what);

// Fills n corners with a strictly convex ring.
void some_outline(i32 *corners, usize n);

// The inputs of the mixed rows, for the programs under peers/.
void print_strokes(void);
void print_outlines(void);

void stroke_rows(void);
void corner_rows(void);
void outline_rows(void);
void intake_rows(void);
void drawing_rows(void);
void book_rows(void);

#endif
