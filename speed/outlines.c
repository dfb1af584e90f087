// Outlines against a rectangle.
#include "harness.h"

double cos(double), sin(double);

typedef struct OutlineAnswer OutlineCall(struct Window, u32, const i32 *, usize, i32 *, usize);

enum { OUTLINES = 2048, ROOM = 4 * 68 };
enum Kind { WHOLE, CUT, OUTSIDE, KINDS };

struct Outlines { usize many, count; struct Window w[OUTLINES]; u32 order[OUTLINES]; i32 c[OUTLINES][128]; };

static i32 out[2][ROOM + 8];

// By the definition: for every edge, each other corner is strictly to its left.
static int strictly_convex(const i32 *c, usize n) {
    for (usize i = 0; i < n; i++)
        for (usize j = 0; j < n; j++) {
            usize k = (i + 1) % n;
            if (j == i || j == k) continue;
            i64 x = c[2 * k] - c[2 * i], y = c[2 * k + 1] - c[2 * i + 1];
            if (x * (c[2 * j + 1] - c[2 * i + 1]) - y * (c[2 * j] - c[2 * i]) <= 0) return 0;
        }
    return 1;
}

// Corners on an ellipse, at angles that are a little uneven, beginning anywhere.
void some_outline(i32 *c, usize n) {
    do {
        i32 rx = from(1500, 6000), ry = from(1500, 6000), x = from(-10000, 10000), y = from(-10000, 10000);
        double start = from(0, 999999) * 6.283185307179586e-6;
        for (usize i = 0; i < n; i++) {
            double t = start + 6.283185307179586 * ((double)i + from(0, 600) * 0.001) / (double)n;
            c[2 * i] = (i32)(x + rx * cos(t));
            c[2 * i + 1] = (i32)(y + ry * sin(t));
        }
    } while (!strictly_convex(c, n));
}

static enum Kind kind(struct Window w, const i32 *c, usize n) {
    int whole = 1;
    for (usize i = 0; i < n; i++)
        whole &= w.left <= c[2 * i] && c[2 * i] <= w.right && w.bottom <= c[2 * i + 1] && c[2 * i + 1] <= w.top;
    if (whole) return WHOLE;
    return tuned_clip_outline(w, 0, c, 2 * n, out[0], ROOM).count ? CUT : OUTSIDE;
}

static struct Window window_for(const i32 *c, usize n, enum Kind k) {
    for (;;) {
        i32 x = from(-16000, 15000), y = from(-16000, 15000);
        struct Window w = { x, y, from(x + 1, 16383), from(y + 1, 16383) };
        if (k == WHOLE) {
            w = (struct Window){ 16383, 16383, -16383, -16383 };
            for (usize i = 0; i < n; i++) {
                if (c[2 * i] < w.left) w.left = c[2 * i];
                if (c[2 * i] > w.right) w.right = c[2 * i];
                if (c[2 * i + 1] < w.bottom) w.bottom = c[2 * i + 1];
                if (c[2 * i + 1] > w.top) w.top = c[2 * i + 1];
            }
            w = (struct Window){ w.left - from(0, 50), w.bottom - from(0, 50), w.right + from(0, 50), w.top + from(0, 50) };
            return w;
        }
        if (k == CUT) {
            // its sides are near the outline's middle or its rim
            i32 a = from(0, (i32)n - 1), b = from(0, (i32)n - 1);
            w.left = c[2 * a] - from(-500, 2000);
            w.bottom = c[2 * b + 1] - from(-500, 2000);
            w.right = w.left + from(500, 7000);
            w.top = w.bottom + from(500, 7000);
            if (w.left < -16383 || w.bottom < -16383 || w.right > 16383 || w.top > 16383) continue;
        }
        if (kind(w, c, n) == k) return w;
    }
}

static struct Outlines *outlines_of(usize all, usize n, int k) {
    struct Outlines *in = lent(1, sizeof *in);
    usize many = few(all);
    in->many = many;
    in->count = 2 * n;
    for (usize i = 0; i < many; i++) {
        some_outline(in->c[i], n);
        in->w[i] = window_for(in->c[i], n, k == KINDS ? (enum Kind)from(WHOLE, OUTSIDE) : (enum Kind)k);
        in->order[i] = (u32)from(0, 23);
    }
    return in;
}

static void run_outlines(const void *inputs, Call *call) {
    const struct Outlines *in = inputs;
    for (usize i = 0; i < in->many; i++) {
        struct OutlineAnswer a = ((OutlineCall *)call)(in->w[i], in->order[i], in->c[i], in->count, out[0], ROOM);
        USED(a);
    }
}

// Whether two answers are the same in all fields, and so are the two outputs.
static int alike(struct OutlineAnswer a, struct OutlineAnswer b) {
    return a.number == b.number && a.place == b.place && a.count == b.count
        && !memcmp(a.passes, b.passes, sizeof a.passes) && !memcmp(out[0], out[1], sizeof out[0]);
}

static void check_outline(struct Window w, u32 order, const i32 *c, usize count, usize room, int convex) {
    if (traced) return;
    for (usize i = 0; i < ROOM + 8; i++) out[0][i] = out[1][i] = 7000000 + (i32)i;
    struct OutlineAnswer a = gerlyantu_clip_outline(w, order, c, count, out[0], room);
    check(alike(a, tuned_clip_outline(w, order, c, count, out[1], room)), "an outline");
    if (!convex) return;
    OutlineCall *const untested[] = { tuned_clip_convex, tuned_clip_plainly };
    for (int k = 0; k < 2; k++) {
        for (usize i = 0; i < ROOM + 8; i++) out[1][i] = 7000000 + (i32)i;
        check(alike(a, untested[k](w, order, c, count, out[1], room)), "a convex outline");
    }
}

// Small outlines, so that corners lie on sides and rings touch, and some that are refused.
static void check_small(void) {
    if (traced) return;
    i32 c[130];
    for (int i = 0; i < 300000; i++) {
        usize n = from(3, 5);
        struct Window w = { from(-4, 4), from(-4, 4), from(-2, 8), from(-2, 8) };
        for (usize k = 0; k < 2 * n; k++) c[k] = from(-8, 12);
        int convex = strictly_convex(c, n);
        if (!convex && from(0, 9)) continue;
        check_outline(w, (u32)from(0, 24), c, from(0, 20) ? 2 * n : 2 * n - 1, from(0, 3) ? ROOM : from(0, 40), convex);
    }
    for (int i = 0; i < 20000; i++) {
        usize n = from(3, 64);
        some_outline(c, n);
        struct Window w = window_for(c, n, CUT);
        for (int k = from(0, 2); k > 0; k--) c[from(0, 2 * (i32)n - 1)] += from(0, 2) ? from(-3, 3) : from(-20000, 20000);
        check_outline(w, (u32)from(0, 23), c, from(0, 30) ? 2 * n : (usize)from(0, 130), from(0, 3) ? ROOM : from(0, ROOM), 0);
    }
}

static void check_outlines(const struct Outlines *in, int convex) {
    for (usize i = 0; i < in->many; i++) check_outline(in->w[i], in->order[i], in->c[i], in->count, ROOM, convex);
}

// The same outlines against a window that is refused: the test of convexity comes before it, unless a number is off the table, too.
static const struct Outlines *refused(const struct Outlines *from, int tested) {
    struct Outlines *in = lent(1, sizeof *in);
    *in = *from;
    for (usize i = 0; i < in->many; i++) {
        in->w[i].left = -16384;
        if (!tested) in->c[i][1] = 16384;
    }
    return in;
}

static const struct Outlines *mixed[4];
static usize mixed_count;

// A line for each outline of the mixed rows: o, how many corners, the window, the corners.
void print_outlines(void) {
    for (usize k = 0; k < mixed_count; k++)
        for (usize i = 0; i < mixed[k]->many; i++) {
            struct Window w = mixed[k]->w[i];
            printf("o %lu %d %d %d %d", mixed[k]->count / 2, w.left, w.bottom, w.right, w.top);
            for (usize p = 0; p < mixed[k]->count; p++) printf(" %d", mixed[k]->c[i][p]);
            printf("\n");
        }
}

static void rows_of(usize n, const char *const names[9]) {
    Call *ours = (Call *)gerlyantu_clip_outline, *tuned = (Call *)tuned_clip_outline;
    const struct Outlines *in = 0, *cut = 0;
    for (int k = 0; k <= KINDS; k++) {
        in = outlines_of(OUTLINES, n, k);
        check_outlines(in, 1);
        if (k == CUT) cut = in;
        add_row((struct Row){ names[k], run_outlines, in, in->many, ours, tuned, in->many });
    }
    mixed[mixed_count++] = in;
    add_row((struct Row){ names[4], run_outlines, in, in->many, ours, (Call *)tuned_clip_convex, in->many });
    add_row((struct Row){ names[5], run_outlines, in, in->many, ours, (Call *)tuned_clip_plainly, in->many });
    add_row((struct Row){ names[6], run_outlines, cut, cut->many, ours, (Call *)tuned_clip_plainly, cut->many });
    for (int tested = 0; tested <= 1; tested++) {
        const struct Outlines *bad = refused(in, tested);
        check_outlines(bad, 0);
        add_row((struct Row){ names[7 + tested], run_outlines, bad, bad->many, ours, tuned, bad->many });
    }
}

#define NAMES(n) { "outline " n " whole", "outline " n " cut", "outline " n " outside", "outline " n " mixed", "outline " n " untested", \
    "outline " n " plain", "outline " n " plain cut", "refused " n, "refused tested " n }

void outline_rows(void) {
    static const char *const three[] = NAMES("3"), *const eight[] = NAMES("8"), *const sixteen[] = NAMES("16"), *const most[] = NAMES("64");
    static const usize sizes[] = { 3, 4, 6, 8, 12, 16, 24, 32, 48, 64 };
    static const char *const growth[] = { "growth outline 3", "growth outline 4", "growth outline 6", "growth outline 8", "growth outline 12",
        "growth outline 16", "growth outline 24", "growth outline 32", "growth outline 48", "growth outline 64" };
    seed(2);
    check_small();
    rows_of(3, three);
    rows_of(8, eight);
    rows_of(16, sixteen);
    rows_of(64, most);
    for (int k = 0; k < 10; k++) {
        const struct Outlines *in = outlines_of(512, sizes[k], CUT);
        check_outlines(in, 1);
        add_row((struct Row){ growth[k], run_outlines, in, in->many, (Call *)gerlyantu_clip_outline, (Call *)tuned_clip_outline, in->many });
    }
}
