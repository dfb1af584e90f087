// Strokes against a corner window.
#include "harness.h"

typedef struct CornerAnswer CornerCall(const i32 *, usize, struct Stroke);

enum { STROKES = 4096 };

struct Windows { usize count; i32 c[STROKES][32]; struct Stroke s[STROKES]; };

static void run_corners(const void *inputs, Call *call) {
    const struct Windows *in = inputs;
    for (usize i = 0; i < few(STROKES); i++) {
        struct CornerAnswer a = ((CornerCall *)call)(in->c[i], in->count, in->s[i]);
        USED(a);
    }
}

static void check_corner(const i32 *c, usize n, struct Stroke s) {
    if (traced) return;
    struct CornerAnswer a = gerlyantu_cyrus_beck(c, n, s), b = tuned_cyrus_beck(c, n, s);
    check(a.number == b.number && a.place == b.place && a.kept == b.kept && a.t0.num == b.t0.num && a.t0.den == b.t0.den
        && a.t1.num == b.t1.num && a.t1.den == b.t1.den && a.side0 == b.side0 && a.side1 == b.side1, "a corner window");
}

// Every stroke with ends from -2 to 6 against the window's list begun at each of its corners: many go through a corner, where two edges give the same
// fraction, and in turn each corner is the one where the closing edge meets edge 0.
static void check_turns(const i32 *c, usize n) {
    for (usize first = 0; first < n; first += 2) {
        i32 turned[32];
        for (usize i = 0; i < n; i++) turned[i] = c[(first + i) % n];
        for (i32 x1 = -2; x1 <= 6; x1++)
            for (i32 y1 = -2; y1 <= 6; y1++)
                for (i32 x2 = -2; x2 <= 6; x2++)
                    for (i32 y2 = -2; y2 <= 6; y2++) check_corner(turned, n, (struct Stroke){ x1, y1, x2, y2 });
    }
}

// Small numbers, so that strokes touch edges and corners, and some that are refused.
static void check_small(void) {
    static const i32 triangle[] = { 0, 0, 4, 0, 0, 4 }, square[] = { 0, 0, 4, 0, 4, 4, 0, 4 };
    static const i32 octagon[] = { 1, 0, 3, 0, 4, 1, 4, 3, 3, 4, 1, 4, 0, 3, 0, 1 };
    if (traced) return;
    check_turns(triangle, 6);
    check_turns(square, 8);
    check_turns(octagon, 16);
    i32 c[40];
    for (int i = 0; i < 300000; i++) {
        for (int k = 0; k < 12; k++) c[k] = from(-6, 6);
        check_corner(c, 2 * (usize)from(3, 4), (struct Stroke){ from(-8, 8), from(-8, 8), from(-8, 8), from(-8, 8) });
    }
    for (int i = 0; i < 100000; i++) {
        usize n = (usize)from(3, 16);
        some_outline(c, n);
        struct Stroke s = { from(-16383, 16383), from(-16383, 16383), from(-16383, 16383), from(-16383, 16383) };
        if (!from(0, 3)) c[from(0, 2 * (i32)n - 1)] += from(0, 2) ? from(-3, 3) : from(-40000, 40000);
        if (!from(0, 3)) s.y1 = from(-40000, 40000);
        if (!from(0, 3)) s.x2 = from(-40000, 40000);
        check_corner(c, from(0, 9) ? 2 * n : (usize)from(0, 40), s);
    }
}

// Half of the strokes have both ends near the window's middle, half anywhere.
static const struct Windows *windows_of(usize n) {
    struct Windows *in = lent(1, sizeof *in);
    in->count = 2 * n;
    for (usize i = 0; i < few(STROKES); i++) {
        i32 *c = in->c[i], x = 0, y = 0;
        some_outline(c, n);
        for (usize k = 0; k < n; k++) { x += c[2 * k] / (i32)n; y += c[2 * k + 1] / (i32)n; }
        struct Stroke s = { from(-16383, 16383), from(-16383, 16383), from(-16383, 16383), from(-16383, 16383) };
        if (from(0, 1)) { s.x1 = x + from(-300, 300); s.y1 = y + from(-300, 300); }
        if (from(0, 1)) { s.x2 = x + from(-300, 300); s.y2 = y + from(-300, 300); }
        in->s[i] = s;
        check_corner(c, in->count, s);
    }
    return in;
}

void corner_rows(void) {
    static const usize sizes[] = { 3, 4, 8, 16 };
    static const char *names[] = { "corner window 3", "corner window 4", "corner window 8", "corner window 16" };
    seed(3);
    check_small();
    for (int k = 0; k < 4; k++) {
        const struct Windows *in = windows_of(sizes[k]);
        add_row((struct Row){ names[k], run_corners, in, few(STROKES), (Call *)gerlyantu_cyrus_beck, (Call *)tuned_cyrus_beck, few(STROKES) });
    }
}
