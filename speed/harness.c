// The bench: our calls and the tuned C versions on the same inputs, checked equal first, then timed and counted.
#include "harness.h"

struct timespec { i64 seconds, nanoseconds; };
int clock_gettime(int, struct timespec *);
long syscall(long, ...);
long read(int, void *, usize);

enum { MOST_ROWS = 110, ROUNDS = 15 };
static struct Row rows[MOST_ROWS];
static usize row_count, checked;
static u64 state;
int traced;

void seed(u64 s) { state = s; }

// splitmix64
u64 next(void) {
    u64 z = state += 0x9e3779b97f4a7c15;
    z = (z ^ z >> 30) * 0xbf58476d1ce4e5b9;
    z = (z ^ z >> 27) * 0x94d049bb133111eb;
    return z ^ z >> 31;
}

i32 from(i32 lo, i32 hi) { return lo + (i32)(next() % (u64)((i64)hi - lo + 1)); }

void *lent(usize count, usize size) {
    void *p = calloc(count, size);
    if (!p) exit(1);
    return p;
}

void add_row(struct Row r) {
    if (row_count == MOST_ROWS) exit(1);
    rows[row_count++] = r;
}

void check(int equal, const char *what) {
    checked++;
    if (equal) return;
    printf("bench: DIFFERENT answers for %s, comparison %lu\n", what, checked);
    exit(1);
}

static double now(void) {
    struct timespec t;
    clock_gettime(1, &t);
    return (double)t.seconds * 1e9 + (double)t.nanoseconds;
}

static double timed(const struct Row *r, Call *call) {
    double start = now();
    r->run(r->inputs, call);
    return now() - start;
}

// The processor's own counter of the instructions of this process, or -1 where there is none.
static int counter(void) {
    struct { u32 type, size; u64 config, period, sampled, format, flags, wakeup, more; } wanted = { 0, 64, 1, 0, 0, 0, 0x60, 0, 0 };
    return (int)syscall(298, &wanted, 0, -1, -1, 0ul);
}

static u64 reading(int fd) {
    u64 n = 0;
    return read(fd, &n, sizeof n) == sizeof n ? n : 0;
}

// Stands for a call that does nothing: two instructions. Most calls return their answer through a pointer, and so does this one.
static void *nothing(void *answer) { return answer; }

static u64 instructions(int fd, const struct Row *r, Call *call) {
    u64 start = reading(fd);
    r->run(r->inputs, call);
    return reading(fd) - start;
}

// Without what the loop around the calls takes.
static double counted(int fd, const struct Row *r, Call *call) {
    u64 all = instructions(fd, r, call), loop = instructions(fd, r, (Call *)nothing);
    return ((double)all - (double)loop + 2.0 * (double)r->calls) / (double)r->parts;
}

// A request to valgrind, by an instruction sequence that does nothing elsewhere.
static void request(u64 code, const char *name) {
    volatile u64 words[6] = { code, (u64)name, 0, 0, 0, 0 };
    u64 answer = 0;
    __asm__ volatile("rolq $3, %%rdi; rolq $13, %%rdi; rolq $61, %%rdi; rolq $51, %%rdi; xchgq %%rbx, %%rbx"
                     : "=d"(answer) : "a"(&words[0]), "0"(answer) : "cc", "memory");
}

enum { ZERO_COUNTS = 0x43540001, WRITE_COUNTS = 0x43540003, START_COUNTING = 0x43540004 };

static void written(const struct Row *r, Call *call, const char *whose) {
    static char name[100];
    usize n = 0;
    for (const char *p = whose; *p; p++) name[n++] = *p;
    for (const char *p = r->name; *p; p++) name[n++] = *p;
    name[n] = 0;
    request(ZERO_COUNTS, 0);
    r->run(r->inputs, call);
    request(WRITE_COUNTS, name);
}

// A system call that does nothing parts the rows in what an emulator writes down.
static void part(void) { syscall(110); }

// A line NAME|PARTS|NS OF OURS|NS OF C, and where they can be had |INSTRUCTIONS OF OURS|INSTRUCTIONS OF C, all for one part.
static void print_row(const struct Row *r, int fd) {
    double ours = 1e18, tuned = 1e18, parts = (double)r->parts;
    for (int k = 0; k < ROUNDS; k++) {
        double a = timed(r, r->ours), b = timed(r, r->tuned);
        if (a < ours) ours = a;
        if (b < tuned) tuned = b;
    }
    printf("%s|%lu|%.1f|%.1f", r->name, r->parts, ours / parts, tuned / parts);
    if (fd >= 0) printf("|%.1f|%.1f", counted(fd, r, r->ours), counted(fd, r, r->tuned));
    printf("\n");
}

int main(int argc, char **argv) {
    traced = argc > 1 && !strcmp(argv[1], "trace");
    stroke_rows();
    corner_rows();
    outline_rows();
    intake_rows();
    drawing_rows();
    book_rows();
    if (argc > 1 && !strcmp(argv[1], "inputs")) {
        print_strokes();
        print_outlines();
        return 0;
    }
    if (!traced) printf("%lu answers compared, all alike\n", checked);
    if (argc > 1 && !strcmp(argv[1], "count")) {
        request(START_COUNTING, 0);
        for (usize i = 0; i < row_count; i++) {
            written(rows + i, rows[i].ours, "ours|");
            written(rows + i, rows[i].tuned, "tuned|");
        }
        return 0;
    }
    if (traced) {
        for (usize i = 0; i < row_count; i++) {
            printf("%s|%lu\n", rows[i].name, rows[i].parts);
            part();
            rows[i].run(rows[i].inputs, rows[i].ours);
            part();
            rows[i].run(rows[i].inputs, rows[i].tuned);
        }
        part();
        return 0;
    }
    int fd = counter();
    for (usize i = 0; i < row_count; i++) print_row(rows + i, fd);
    return 0;
}
