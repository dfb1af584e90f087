/* A plain book, as docs/BOOK.md tells it (model.c), and scripts of commands with all that the model says of them (scripts.c). */
#pragma once
#include "small.h"

/* ---- model.c */

enum { RENTERS = 2, SLOTS = 32 };

struct strip { int used, side[4]; };
struct book { struct strip slot[RENTERS][SLOTS]; };

/* The text of the file that has this book. */
void text_of(struct text *text, const struct book *book);

/* How many slots a renter uses. */
int used_slots(const struct book *book, int renter);

/* Does a command on the book and puts its answer; 1 where the book was changed. */
int model(struct book *book, struct text *answer, const char *line);

/* ---- scripts.c */

enum { MOST = 400 };

/* A run of commands, MOST of them at the most. The book and its text are kept after each change, the first of them before any; where there was no
   file before, `fresh` is 1 and the first text stands for no file. */
struct script {
    int count, changes, fresh;
    struct text commands, answers;
    size_t command_end[MOST], answer_end[MOST];
    int changed[MOST];
    struct book book[MOST + 1];
    struct text file[MOST + 1];
};

/* A script without a command, from this book on. */
void begin(struct script *script, const struct book *book, int fresh);

/* One command more, and one that is drawn by chance. */
void order(struct script *script, const char *format, ...) __attribute__((format(printf, 2, 3)));
void order_any(struct script *script);

/* A whole script: three bookings, and between them commands that change nothing. It starts without a file, or from one with two strips. */
void three_bookings(struct script *script, int onto_a_book);

/* The commands that are answered by so many bytes, and the changes of which at least a byte was answered. */
int answered(const struct script *script, size_t heard);
int answered_changes(const struct script *script, size_t heard);
