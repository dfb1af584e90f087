/* What is tested. Each is 1 where all was well; what was wrong is told on standard error. */
#pragma once
#include "running.h"

/* ---- whole_runs.c: runs that nobody stops */

/* All is answered, the file has all changes, nothing is left. It also shows how fast the program is. */
int unstopped(struct script *script, struct pace *pace);

/* Commands that change nothing make no file that stays. */
int nothing_made(void);

/* ---- two_at_once.c: a second `book` beside a first */

/* While a first waits for its next command, a second one is told that the book is busy. When the first has ended, a third one works. */
int two_at_once(struct script *script);

/* Second ones are started, one behind the other, while a first has a long run; `seconds` counts them. */
int back_to_back(struct script *script, const struct pace *pace, int *seconds);

/* ---- random_kills.c: kills at random moments */

/* The kills, the changes that were answered, the files that are one change ahead of the answers, FILE.busy and FILE.new that were left, and second
   books that were refused. */
struct tally { int kills, changes, ahead, busy, new, tried; };

int kills(struct script *script, struct pace *pace, struct tally *tally);

#ifdef __x86_64__
/* ---- order_of_calls.c, kills_at_calls.c and between_calls.c: the system calls of `book`, one by one, where can_trace of tracing.c says so */

int can_trace(void);
int calls_in_order(void);
int killed_at_each_call(void);

/* A second `book` between the calls of a first; at how many is put behind the text. */
int slipped_in(struct text *what);
#endif
