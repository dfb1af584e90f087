/* The order of the system calls of `book`: FILE.busy is made first and removed last, and the disk holds what was found, and each change, before it is
   answered. */
#include "tests.h"
#include "tracing.h"

#ifdef __x86_64__
#include <fcntl.h>
#include <stdio.h>
#include <string.h>
#include <sys/syscall.h>
#include <unistd.h>

/* Where a change stands: what was done to FILE.new since it was made, and to the folder since the last renaming; FILE.busy; and what was done to FILE
   and to the folder since FILE was found at the start. */
enum making { NOT_MADE, MADE, WRITTEN, HELD };
enum naming { NOT_NAMED, NAMED, FOLDER_OPEN, FOLDER_HELD };
enum locking { NOT_YET, BUSY, NO_MORE };
enum finding { NOT_FOUND, FOUND, FOUND_HELD, FOUND_IN_FOLDER, ALL_HELD };

/* What was seen of a program that is traced: the descriptors of FILE, of FILE.new and of the folder, or -1, and the changes that were named. */
struct seen {
    const struct traced *traced;
    int file_open, new_open, folder_open, changes;
    enum making making;
    enum naming naming;
    enum locking locking;
    enum finding finding;
};

/* The file that a descriptor of the program stands for. */
static void file_of(const struct traced *traced, unsigned long long descriptor, char *name, size_t room) {
    char place[64];
    ssize_t got;
    snprintf(place, sizeof place, "/proc/%d/fd/%llu", traced->child.id, descriptor);
    got = readlink(place, name, room - 1);
    name[got < 0 ? 0 : got] = 0;
}

static void folder_opened(struct seen *seen, int descriptor) {
    seen->folder_open = descriptor;
    if (seen->naming == NAMED) seen->naming = FOLDER_OPEN;
    if (seen->finding == FOUND_HELD) seen->finding = FOUND_IN_FOLDER;
}

static int opened(struct seen *seen, unsigned long long flags) {
    const struct traced *traced = seen->traced;
    char name[8500];
    int descriptor = (int)traced->call.rax, to_write = (flags & O_ACCMODE) != O_RDONLY || (flags & O_TRUNC);
    int alone = (flags & (O_CREAT | O_EXCL)) == (O_CREAT | O_EXCL);
    file_of(traced, traced->call.rax, name, sizeof name);
    if (strcmp(name, file_busy) == 0) {
        if (!alone) return wrong("FILE.busy is opened without O_CREAT and O_EXCL");
        if (seen->locking != NOT_YET) return wrong("FILE.busy is made twice");
        seen->locking = BUSY;
    }
    if (strcmp(name, file_new) == 0 && to_write) {
        if (!alone) return wrong("FILE.new is opened without O_CREAT and O_EXCL");
        if (seen->making != NOT_MADE) return wrong("FILE.new is made twice without a renaming");
        seen->making = MADE;
        seen->new_open = descriptor;
    }
    if (strcmp(name, file) == 0 && to_write) return wrong("FILE itself is opened to be written");
    if (strcmp(name, file) == 0) seen->finding = FOUND, seen->file_open = descriptor;
    if (strcmp(name, folder) == 0) folder_opened(seen, descriptor);
    return 1;
}

static int written(struct seen *seen) {
    const struct traced *traced = seen->traced;
    char name[8500];
    if (traced->call.rdi == 1) return 1;
    file_of(traced, traced->call.rdi, name, sizeof name);
    if (strcmp(name, file) == 0) return wrong("FILE itself is written");
    if ((int)traced->call.rdi == seen->new_open && seen->making != NOT_MADE) seen->making = WRITTEN;
    return 1;
}

static void held(struct seen *seen) {
    int descriptor = (int)seen->traced->call.rdi;
    if (descriptor == seen->new_open && seen->making == WRITTEN) seen->making = HELD;
    if (descriptor == seen->file_open && seen->finding == FOUND) seen->finding = FOUND_HELD;
    if (descriptor != seen->folder_open) return;
    if (seen->naming == FOLDER_OPEN) seen->naming = FOLDER_HELD;
    if (seen->finding == FOUND_IN_FOLDER) seen->finding = ALL_HELD;
}

/* At the entry of a call that names a file: FILE and FILE.new are touched, or looked at, only while FILE.busy is there, and it is removed last. */
static int about_to_touch(struct seen *seen) {
    const struct traced *traced = seen->traced;
    static const char *const when[] = {"before FILE.busy is made", "", "after FILE.busy is removed"};
    char name[8500];
    if (!named(traced, name, sizeof name)) return 1;
    if (strcmp(name, file_busy) == 0 && removes(traced)) {
        if (!is_done(traced)) return wrong("FILE.busy is removed before the input is read to its end and answered");
        return (seen->making == NOT_MADE && seen->naming == NOT_NAMED) || wrong("FILE.busy is removed in the middle of a change");
    }
    if (strcmp(name, file) != 0 && strcmp(name, file_new) != 0) return 1;
    if (seen->locking != BUSY) return wrong("%s is opened or looked at %s", name, when[seen->locking]);
    return !removes(traced) || wrong("%s is removed", name);
}

/* At the entry of a renaming: what gets the name is the book after the change, and the disk holds it. */
static int about_to_rename(struct seen *seen, unsigned long long from, unsigned long long to) {
    const struct traced *traced = seen->traced;
    static struct text found;
    char old[8500], new[8500];
    name_at(traced, from, old, sizeof old);
    name_at(traced, to, new, sizeof new);
    if (strcmp(old, file_new) != 0 || strcmp(new, file) != 0) return wrong("%s is renamed to %s", old, new);
    if (seen->locking != BUSY) return wrong("FILE.new is renamed without FILE.busy");
    if (seen->making != HELD) return wrong("FILE.new is renamed before it is %s", seen->making == WRITTEN ? "held by the disk" : "written");
    if (seen->naming != NOT_NAMED) return wrong("a second change before the answer to the first");
    load(&found, file_new);
    seen->changes++;
    return (seen->changes <= traced->script->changes && same(&found, &traced->script->file[seen->changes])) ||
           wrong("FILE.new is renamed, and it is not the book after %d changes", seen->changes);
}

/* At the entry of an answer's first write: the change is made where there is one, and otherwise nothing is begun. */
static int about_to_answer(struct seen *seen) {
    const struct traced *traced = seen->traced;
    static const char *const lacking[] = {"FILE.new is renamed", "the folder is opened", "the disk holds the folder"};
    const struct script *script = traced->script;
    int i = 0;
    while (i < script->count && (i == 0 ? 0 : script->answer_end[i - 1]) < traced->heard.length) i++;
    if (i == script->count || (i == 0 ? 0 : script->answer_end[i - 1]) != traced->heard.length) return 1;
    if (seen->locking != BUSY) return wrong("command %d is answered without FILE.busy", i + 1);
    if (seen->finding != NOT_FOUND && seen->finding != ALL_HELD) return wrong("command %d is answered before the disk holds what was found", i + 1);
    if (seen->making != NOT_MADE) return wrong("FILE.new is made before command %d is answered, and not renamed", i + 1);
    if (!script->changed[i]) return seen->naming == NOT_NAMED || wrong("a change is made for command %d, which is none", i + 1);
    if (seen->naming != FOLDER_HELD) return wrong("the answer to command %d comes before %s", i + 1, lacking[seen->naming]);
    seen->naming = NOT_NAMED;
    return 1;
}

static int entered(struct seen *seen) {
    const struct user_regs_struct *call = &seen->traced->call;
    switch (call->orig_rax) {
    case SYS_rename: return about_to_rename(seen, call->rdi, call->rsi);
    case SYS_renameat: case SYS_renameat2: return about_to_rename(seen, call->rsi, call->r10);
    case SYS_write: case SYS_writev: return call->rdi != 1 || about_to_answer(seen);
    case SYS_clone: case SYS_fork: case SYS_vfork: case SYS_clone3: return wrong("a second process or thread is started, which is not traced");
    default: return about_to_touch(seen);
    }
}

static int left(struct seen *seen) {
    const struct traced *traced = seen->traced;
    const struct user_regs_struct *call = &traced->call;
    char name[8500];
    if ((long long)call->rax < 0) return 1;
    if (removes(traced) && named(traced, name, sizeof name) && strcmp(name, file_busy) == 0) seen->locking = NO_MORE;
    switch (call->orig_rax) {
    case SYS_open: return opened(seen, call->rsi);
    case SYS_creat: return opened(seen, O_CREAT | O_WRONLY | O_TRUNC);
    case SYS_openat: return opened(seen, call->rdx);
    case SYS_write: case SYS_writev: case SYS_pwrite64: return written(seen);
    case SYS_fsync: case SYS_fdatasync: return held(seen), 1;
    case SYS_rename: case SYS_renameat: case SYS_renameat2: return seen->making = NOT_MADE, seen->new_open = -1, seen->naming = NAMED, 1;
    default: return 1;
    }
}

/* One run: with the file's whole name or with its name in the folder, the commands all at once or each when the one before was answered. */
static int in_order(const char *name, int one_by_one) {
    static struct script script;
    static struct traced traced;
    struct seen seen = {.traced = &traced, .file_open = -1, .new_open = -1, .folder_open = -1};
    int good = 1, made;
    three_bookings(&script, one_by_one);
    if (!lay(&script) || !start_traced(&traced, name, said, &script, one_by_one)) return 0;
    while (good && step(&traced)) good = traced.inside ? entered(&seen) : left(&seen);
    kill_traced(&traced);
    if (!good || !hold(&script, &traced.heard, &made)) return 0;
    if (seen.changes != 3 || traced.heard.length != script.answers.length) return wrong("%d bookings of 3 were made", seen.changes);
    if (seen.locking != NO_MORE) return wrong("FILE.busy was not made, or not removed");
    return none_left();
}

int calls_in_order(void) {
    const char *name = file + strlen(folder) + 1;
    return in_order(file, 0) && in_order(file, 1) && in_order(name, 0) && in_order(name, 1);
}
#endif
