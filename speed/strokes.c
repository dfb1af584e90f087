// Strokes against a rectangle, one by one and in batches.
#include "harness.h"

typedef struct StrokeAnswer StrokeCall(struct Window, struct Stroke);
typedef struct CountedAnswer CountedCall(struct Window, struct Stroke);
typedef struct Answer BatchCall(struct Window, const i32 *, usize, i32 *, usize);

enum { STROKES = 8192, MOST = 4096 };
// Mixed is a third each of the first three.
enum Kind { INSIDE, CROSSING, OUTSIDE, PAST_A_CORNER, MIXED, TOUCHING, KINDS };

struct Strokes { struct Window w[STROKES]; struct Stroke s[STROKES]; };
struct Lists { usize many; struct List { struct Window w; usize count; i32 *numbers, *out; usize room; } list[MOST]; };

static struct Window some_window(void) {
    struct Window w;
    w.left = from(-12000, 8000);
    w.right = w.left + from(200, 8000);
    w.bottom = from(-12000, 8000);
    w.top = w.bottom + from(200, 8000);
    return w;
}

static int beyond(i32 lo, i32 hi, i32 a, i32 b) { return (a < lo && b < lo) || (hi < a && hi < b); }

static enum Kind kind(struct Window w, struct Stroke s) {
    if (beyond(w.left, w.right, s.x1, s.x2) || beyond(w.bottom, w.top, s.y1, s.y2)) return OUTSIDE;
    if (w.left <= s.x1 && s.x1 <= w.right && w.left <= s.x2 && s.x2 <= w.right && w.bottom <= s.y1 && s.y1 <= w.top
        && w.bottom <= s.y2 && s.y2 <= w.top)
        return INSIDE;
    return tuned_liang_barsky(w, s).kept ? CROSSING : PAST_A_CORNER;
}

static i32 near(i32 lo, i32 hi) {
    i32 far = (hi - lo) / 2, a = lo - far < -16383 ? -16383 : lo - far, b = hi + far > 16383 ? 16383 : hi + far;
    return from(a, b);
}

// The stroke from (x, y) by dx and dy, or from its end to its start.
static struct Stroke either_way(i32 x, i32 y, i32 dx, i32 dy) {
    if (from(0, 1)) return (struct Stroke){ x, y, x + dx, y + dy };
    return (struct Stroke){ x + dx, y + dy, x, y };
}

// A stroke that only touches: past a corner of the window, or with one end on a side and the other outside. The window is more than 3000 wide and
// high, and more than 3000 from the table's border.
static struct Stroke some_touching(struct Window w) {
    int high_x = from(0, 1), high_y = from(0, 1);
    i32 x = high_x ? w.right : w.left, y = high_y ? w.top : w.bottom;
    i32 out_x = high_x ? 1 : -1, out_y = high_y ? 1 : -1;
    if (from(0, 1)) {
        // k steps beyond the one side, and m beyond the other
        i32 dx = -out_x * from(1, 150), dy = out_y * from(1, 150), k = from(1, 20), m = from(1, 20);
        return either_way(x - k * dx, y - k * dy, (k + m) * dx, (k + m) * dy);
    }
    if (from(0, 1)) return either_way(x, from(w.bottom, w.top), out_x * from(1, 3000), from(-3000, 3000));
    return either_way(from(w.left, w.right), y, from(-3000, 3000), out_y * from(1, 3000));
}

static struct Stroke some_stroke(struct Window w, enum Kind k) {
    if (k == TOUCHING) return some_touching(w);
    if (k == MIXED) k = from(INSIDE, OUTSIDE);
    for (;;) {
        struct Stroke s = { near(w.left, w.right), near(w.bottom, w.top), near(w.left, w.right), near(w.bottom, w.top) };
        if (kind(w, s) == k) return s;
    }
}

static const struct Strokes *strokes_of(enum Kind k) {
    struct Strokes *in = lent(1, sizeof *in);
    for (usize i = 0; i < few(STROKES); i++) {
        in->w[i] = some_window();
        in->s[i] = some_stroke(in->w[i], k);
    }
    return in;
}

static void run_strokes(const void *inputs, Call *call) {
    const struct Strokes *in = inputs;
    for (usize i = 0; i < few(STROKES); i++) {
        struct StrokeAnswer a = ((StrokeCall *)call)(in->w[i], in->s[i]);
        USED(a);
    }
}

static void run_counted(const void *inputs, Call *call) {
    const struct Strokes *in = inputs;
    for (usize i = 0; i < few(STROKES); i++) {
        struct CountedAnswer a = ((CountedCall *)call)(in->w[i], in->s[i]);
        USED(a);
    }
}

static void run_batch(const void *inputs, Call *call) {
    const struct Lists *in = inputs;
    for (const struct List *l = in->list; l < in->list + in->many; l++) {
        struct Answer a = ((BatchCall *)call)(l->w, l->numbers, l->count, l->out, l->room);
        USED(a);
    }
}

static int same_stroke_answer(const struct StrokeAnswer *a, const struct StrokeAnswer *b) {
    return a->number == b->number && a->place == b->place && a->kept == b->kept && a->t0.num == b->t0.num && a->t0.den == b->t0.den
        && a->t1.num == b->t1.num && a->t1.den == b->t1.den && a->ax == b->ax && a->ay == b->ay && a->bx == b->bx && a->by == b->by
        && a->side0 == b->side0 && a->side1 == b->side1;
}

static void check_stroke(struct Window w, struct Stroke s) {
    if (traced) return;
    struct StrokeAnswer a = gerlyantu_liang_barsky(w, s), b = tuned_liang_barsky(w, s), f = faster_liang_barsky(w, s);
    check(same_stroke_answer(&a, &b), "a stroke");
    check(same_stroke_answer(&a, &f), "a stroke, faster C");
    struct CountedAnswer c = gerlyantu_cohen_sutherland(w, s), d = tuned_cohen_sutherland(w, s);
    check(same_stroke_answer(&c.answer, &d.answer) && c.shortenings == d.shortenings, "a stroke by Cohen-Sutherland");
    struct StrokeAnswer g = gerlyantu_cross_product(w, s), h = tuned_cross_product(w, s);
    check(same_stroke_answer(&a, &g), "a stroke by the cross product");
    check(same_stroke_answer(&a, &h), "a stroke by the cross product, tuned C");
}

static void check_rows(BatchCall *ours, BatchCall *tuned, struct Window w, const i32 *s, usize n, usize room, const char *what) {
    static i32 out[2][5 * MOST + 8];
    for (usize i = 0; i < 5 * MOST + 8; i++) out[0][i] = out[1][i] = 7000000 + (i32)i;
    struct Answer a = ours(w, s, n, out[0], room), b = tuned(w, s, n, out[1], room);
    check(a.number == b.number && a.place == b.place && a.count == b.count && !memcmp(out[0], out[1], sizeof out[0]), what);
}

static void check_batch(struct Window w, const i32 *s, usize n, usize room) {
    if (traced) return;
    check_rows(gerlyantu_batch, tuned_batch, w, s, n, room, "a batch");
    check_rows(gerlyantu_batch, faster_batch, w, s, n, room, "a batch, faster C");
    check_rows(gerlyantu_batch_with_touches, tuned_batch_with_touches, w, s, n, room, "a batch with touches");
    check_rows(gerlyantu_batch_with_touches, faster_batch_with_touches, w, s, n, room, "a batch with touches, faster C");
}

static void put_stroke(i32 *to, struct Stroke s) {
    to[0] = s.x1; to[1] = s.y1; to[2] = s.x2; to[3] = s.y2;
}

// Every stroke with ends from -4 to 8 against one window: many go through its corners, where two sides give the same fraction, or end on a side.
// Those from one point are a batch; with one number less than is enough for all of them, its rows are counted first.
static void check_corners(void) {
    enum { ENDS = 13 * 13 };
    const struct Window w = { 0, 0, 4, 4 };
    i32 list[4 * ENDS];
    for (i32 x1 = -4; x1 <= 8; x1++)
        for (i32 y1 = -4; y1 <= 8; y1++) {
            usize n = 0;
            for (i32 x2 = -4; x2 <= 8; x2++)
                for (i32 y2 = -4; y2 <= 8; y2++) {
                    struct Stroke s = { x1, y1, x2, y2 };
                    check_stroke(w, s);
                    put_stroke(list + 4 * n++, s);
                }
            check_batch(w, list, 4 * n, 5 * n);
            check_batch(w, list, 4 * n, 5 * n - 1);
        }
}

// Small numbers, so that strokes touch sides and corners, and some that are refused.
static void check_small(void) {
    if (traced) return;
    check_corners();
    for (int i = 0; i < 200000; i++) {
        struct Window w = { from(-4, 4), from(-4, 4), from(-2, 8), from(-2, 8) };
        struct Stroke s = { from(-8, 12), from(-8, 12), from(-8, 12), from(-8, 12) };
        check_stroke(w, s);
    }
    for (int i = 0; i < 100000; i++) {
        i32 n[8] = { -9, -8, 9, 8, 1, 2, 3, 4 };
        for (int k = from(0, 3); k > 0; k--) n[from(0, 7)] = from(0, 3) ? from(16380, 16386) * (from(0, 1) ? 1 : -1) : (i32)next();
        check_stroke((struct Window){ n[0], n[1], n[2], n[3] }, (struct Stroke){ n[4], n[5], n[6], n[7] });
    }
    for (int i = 0; i < 20000; i++) {
        i32 n[64];
        usize count = from(0, 3) ? 4 * from(0, 15) : from(0, 63);
        for (int k = 0; k < 64; k++) n[k] = from(-8, 12);
        if (!from(0, 9)) n[from(0, 63)] = (i32)next();
        check_batch((struct Window){ from(-4, 4), from(-4, 4), from(-2, 8), from(-2, 8) }, n, count, from(0, 90));
    }
}

static struct List list_of(usize strokes, enum Kind k) {
    struct List l = { { -3000, -2500, 4000, 3500 }, 4 * strokes, lent(4 * strokes, sizeof(i32)), lent(5 * strokes, sizeof(i32)), 5 * strokes };
    for (usize i = 0; i < strokes; i++) put_stroke(l.numbers + 4 * i, some_stroke(l.w, k));
    check_batch(l.w, l.numbers, l.count, l.room);
    check_batch(l.w, l.numbers, l.count, l.room - 1);
    return l;
}

// Lists of one length with as many strokes together as the longest has, so that no row's strokes can be learnt.
static const struct Lists *lists_of(usize strokes, enum Kind k) {
    struct Lists *in = lent(1, sizeof *in);
    in->many = MOST / strokes;
    for (usize i = 0; i < in->many; i++) in->list[i] = list_of(strokes, k);
    return in;
}

static void add_strokes(const char *name, const struct Strokes *in, StrokeCall *ours, StrokeCall *tuned) {
    add_row((struct Row){ name, run_strokes, in, few(STROKES), (Call *)ours, (Call *)tuned, few(STROKES) });
}

static void add_batch(const char *name, const struct Lists *in, BatchCall *ours, BatchCall *tuned) {
    add_row((struct Row){ name, run_batch, in, in->many, (Call *)ours, (Call *)tuned, MOST });
}

static const struct Strokes *mixed;

// A line for each stroke of the mixed row: s, the window, the stroke.
void print_strokes(void) {
    for (usize i = 0; i < STROKES; i++) {
        struct Window w = mixed->w[i];
        struct Stroke s = mixed->s[i];
        printf("s %d %d %d %d %d %d %d %d\n", w.left, w.bottom, w.right, w.top, s.x1, s.y1, s.x2, s.y2);
    }
}

void stroke_rows(void) {
    static const char *ones[] = { "stroke inside", "stroke crossing", "stroke outside", "stroke past a corner", "stroke mixed" };
    static const char *counted[] = { "codes inside", "codes crossing", "codes outside", "codes past a corner", "codes mixed" };
    static const char *crossed[] = { "cross product inside", "cross product crossing", "cross product outside", "cross product past a corner",
        "cross product mixed" };
    static const char *batches[] = { "batch inside", "batch crossing", "batch outside", "batch past a corner", "batch mixed", "batch touching" };
    static const char *touches[] = { "touches inside", "touches crossing", "touches outside", "touches past a corner", "touches mixed",
        "touches touching" };
    static const usize sizes[] = { 64, 128, 256, 512, 1024, 2048, 4096 };
    static const char *growth[] = { "growth batch 64", "growth batch 128", "growth batch 256", "growth batch 512", "growth batch 1024",
        "growth batch 2048", "growth batch 4096" };
    seed(1);
    check_small();
    const struct Strokes *in[MIXED + 1];
    for (int k = 0; k <= MIXED; k++) {
        in[k] = strokes_of(k);
        for (usize i = 0; i < few(STROKES); i++) check_stroke(in[k]->w[i], in[k]->s[i]);
        add_strokes(ones[k], in[k], gerlyantu_liang_barsky, tuned_liang_barsky);
    }
    mixed = in[MIXED];
    const struct Lists *lists[KINDS], *grown[7];
    for (int k = 0; k <= MIXED; k++) lists[k] = lists_of(MOST, k);
    for (int k = 0; k < 7; k++) grown[k] = lists_of(sizes[k], MIXED);
    // last, so that the other rows have the inputs that they had without it
    lists[TOUCHING] = lists_of(MOST, TOUCHING);
    for (int k = 0; k < KINDS; k++) add_batch(batches[k], lists[k], gerlyantu_batch, tuned_batch);
    for (int k = 0; k < KINDS; k++) add_batch(touches[k], lists[k], gerlyantu_batch_with_touches, tuned_batch_with_touches);
    add_strokes("stroke crossing, faster C", in[CROSSING], gerlyantu_liang_barsky, faster_liang_barsky);
    add_strokes("stroke mixed, faster C", in[MIXED], gerlyantu_liang_barsky, faster_liang_barsky);
    add_batch("batch crossing, faster C", lists[CROSSING], gerlyantu_batch, faster_batch);
    add_batch("batch mixed, faster C", lists[MIXED], gerlyantu_batch, faster_batch);
    add_batch("touches crossing, faster C", lists[CROSSING], gerlyantu_batch_with_touches, faster_batch_with_touches);
    add_batch("touches mixed, faster C", lists[MIXED], gerlyantu_batch_with_touches, faster_batch_with_touches);
    for (int k = 0; k <= MIXED; k++)
        add_row((struct Row){ counted[k], run_counted, in[k], few(STROKES), (Call *)gerlyantu_cohen_sutherland, (Call *)tuned_cohen_sutherland, few(STROKES) });
    for (int k = 0; k <= MIXED; k++) add_strokes(crossed[k], in[k], gerlyantu_cross_product, tuned_cross_product);
    // two rules of our own on the same strokes, in place of ours and the C
    add_strokes("cross product crossing, our Liang-Barsky", in[CROSSING], gerlyantu_cross_product, gerlyantu_liang_barsky);
    add_strokes("cross product mixed, our Liang-Barsky", in[MIXED], gerlyantu_cross_product, gerlyantu_liang_barsky);
    for (int k = 0; k < 7; k++) add_batch(growth[k], grown[k], gerlyantu_batch, tuned_batch);
}
