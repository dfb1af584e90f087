/* Small things that all of the test uses: texts that grow (texts.c), random numbers and the time (chance.c), and what is told (telling.c). */
#pragma once
#include <stddef.h>

/* ---- texts.c */

struct text { char *bytes; size_t length, room; };

/* Makes room for so many bytes more. */
void need(struct text *text, size_t more);

/* Puts words behind what the text has already. */
void put(struct text *text, const char *format, ...) __attribute__((format(printf, 2, 3)));

/* What is to be read up to the end, behind what the text has already; 0 where it cannot be read. */
int take_all(struct text *text, int from);

/* A whole file; 0 where there is none. */
int load(struct text *text, const char *name);

int same(const struct text *one, const struct text *other);

/* ---- chance.c */

/* Sets the seed of all random numbers, and tells it. */
void set_seed(unsigned long long number);
unsigned long long the_seed(void);

/* Each run draws from the seed and its own number, so that how fast another run was does not matter. */
void draw_for(int run);

/* A number from 0 to limit - 1. */
long long below(long long limit);

/* The time, in nanoseconds. */
long long now(void);

/* ---- telling.c */

/* Tells on standard error what was wrong; it is 0 always. */
int wrong(const char *format, ...) __attribute__((format(printf, 1, 2)));

/* The line of a thing that was tested, "ok: .." or "FAILED: .."; it is `good` again. */
int line(int good, const char *what);

/* Ends the test where it cannot go on: a line "FAILED: .." with the reason in errno. */
void give_up(const char *what) __attribute__((noreturn));
