/* How `book` is run on a file: the files (files.c), starting and hearing it (running.c), talking with it up to a time (talking.c), holding its file
   to its answers (holding.c), and what it is told and leaves when another has the file (left.c). */
#pragma once
#include "model.h"
#include <sys/types.h>

/* ---- files.c */

/* The folder, FILE, FILE.new and FILE.busy; and where standard error goes to, of a `book` and of the first of two. */
extern char folder[], file[], file_new[], file_busy[], said[], said_first[];

/* Names them all; 0 where there is no such folder. */
int name_files(const char *in);

/* Removes a file; 1 where it is not there then. */
int gone(const char *name);

/* Nobody runs: the file and what a stopped program left are taken away. */
int clear(void);

/* Puts the file there that a script starts from, and nothing else. */
int lay(const struct script *script);

/* After a run that nobody stopped: FILE.new and FILE.busy are not there. */
int none_left(void);

/* There is nothing in the folder but the file, FILE.new and FILE.busy. */
int only_ours(void);

/* ---- running.c */

/* A `book` that was started, with the ends of its pipes that are ours. What it says on standard error goes to a file. */
struct child { pid_t id; int in, out; };

/* The words that start `book`; the name of the file comes behind them. */
void start_by(char **word, int count);

/* Starts `book` in the folder; what it says on standard error goes to the file `told`. What `first` does is done by the new process before anything
   else. */
void prepare(struct child *child, const char *name, const char *told, void (*first)(void));

/* Ends its input. */
void close_input(struct child *child);

/* Waits for the end, and hears what is left; 1 where the program ended by itself. */
int listen_to(struct child *child, struct text *heard);

/* Runs `book` on commands to its end. */
void whole_run(const char *commands, size_t length, struct text *heard);

/* ---- talking.c */

/* When a run is killed: at a time from its start, or when so many commands were answered and a while after that; whether a command is sent only when
   the one before was answered, and whether the input is ended behind the last. */
struct plan { long long time, after; int answers, one_by_one, ends; };

/* How long a program takes to its first answer, and to each further one. */
struct pace { long long first, each; };

/* Talks with the program until its time has come, or until its output ends; the pace is told its first answer. */
void talk(struct child *child, const struct script *script, const struct plan *plan, struct text *heard, struct pace *pace);

/* How many commands fill a time. */
int fill(long long time, const struct pace *pace);

/* ---- holding.c */

/* What was heard is the beginning of the model's answers, and the file is the model's after the changes that were answered, or after one more.
   `made` is set to the changes that it has. */
int hold(const struct script *script, const struct text *heard, int *made);

/* ---- left.c */

/* What a program left that was stopped: FILE.busy and FILE.new, 1 where it is there. */
struct left { int busy, new; };

/* What a `book` said, kept in the file `told`, is that the book is busy. */
int told_busy(const char *told);

/* One more `book`, with a booking that the book has room for, answers nothing. */
int silent(void);

/* It also says why, by `told`, and leaves the three files as they were, where nobody else is at them. */
int not_let_in(int (*told)(const char *));

/* After a kill: FILE.busy is there if it must be, and FILE.new only beside it. If this kill is `tried`, a second `book` is told that the book is
   busy, and when FILE.busy is removed, one is told of FILE.new. Both are removed. */
int left_behind(int must, int tried, struct left *left);
