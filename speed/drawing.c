// The drawing file.
#include "harness.h"

typedef struct DrawingAnswer DrawingCall(const u8 *, usize, i32 *, usize);

enum { BYTES = 65536, ROOM = 4 * 4096 };

struct Drawing { usize count; u8 bytes[BYTES]; };

static i32 out[2][ROOM + 8];

static void run_drawing(const void *inputs, Call *call) {
    const struct Drawing *in = inputs;
    struct DrawingAnswer a = ((DrawingCall *)call)(in->bytes, in->count, out[0], ROOM);
    USED(a);
}

static void put32(struct Drawing *d, u32 n) {
    for (int shift = 24; shift >= 0; shift -= 8) d->bytes[d->count++] = (u8)(n >> shift);
}

static void put_mm(struct Drawing *d, i32 lo, i32 hi) {
    union { float f; u32 u; } b = { .f = (float)from(lo, hi) / 10000 };
    put32(d, b.u);
}

static void put_step(struct Drawing *d, u8 letter) {
    d->bytes[d->count++] = letter;
    put_mm(d, -5119687, 5119687);
    put_mm(d, -5119687, 5119687);
}

// Figures of a move, some lines and mostly a close, of so many strokes or some more.
static struct Drawing *drawing_of(usize strokes) {
    struct Drawing *d = lent(1, sizeof *d);
    usize drawn = 0;
    put32(d, 0);
    d->bytes[d->count++] = 1;
    put_mm(d, -5000000, -10); put_mm(d, -5000000, -10); put_mm(d, 10, 5000000); put_mm(d, 10, 5000000);
    while (drawn < strokes) {
        put_step(d, 0x4D);
        for (int k = from(1, 24); k > 0 && drawn < strokes; k--) { put_step(d, 0x4C); drawn++; }
        if (from(0, 4) && drawn < strokes) { d->bytes[d->count++] = 0x5A; drawn++; }
    }
    usize n = d->count;
    d->count = 0;
    put32(d, (u32)n - 4);
    d->count = n;
    return d;
}

static struct DrawingAnswer check_drawing(const struct Drawing *d, usize room) {
    for (usize i = 0; i < ROOM + 8; i++) out[0][i] = out[1][i] = 7000000 + (i32)i;
    struct DrawingAnswer a = gerlyantu_read_drawing(d->bytes, d->count, out[0], room), b = tuned_read_drawing(d->bytes, d->count, out[1], room);
    check(a.number == b.number && a.place == b.place && !memcmp(&a.window, &b.window, sizeof a.window) && a.count == b.count
        && !memcmp(out[0], out[1], sizeof out[0]), "a drawing");
    return a;
}

// Drawings with bytes changed, cut or added, most of which are refused.
static void check_spoilt(void) {
    if (traced) return;
    static struct Drawing d;
    for (int i = 0; i < 4000; i++) {
        d = *drawing_of((usize)from(0, 6));
        for (int k = from(0, 2); k > 0; k--) d.bytes[from(0, 3) ? from(4, (i32)d.count - 1) : from(0, (i32)d.count - 1)] = (u8)from(0, 255);
        if (!from(0, 3)) {
            d.count = (usize)from(0, (i32)d.count + 10);
            if (d.count >= 4 && from(0, 3)) { d.bytes[0] = d.bytes[1] = 0; d.bytes[2] = (u8)((d.count - 4) >> 8); d.bytes[3] = (u8)(d.count - 4); }
        }
        check_drawing(&d, from(0, 3) ? ROOM : (usize)from(0, 30));
    }
    check_drawing(drawing_of(4096), ROOM);
    check_drawing(drawing_of(4097), ROOM);
    check_drawing(drawing_of(4096), ROOM - 1);
}

void drawing_rows(void) {
    static const usize sizes[] = { 64, 1024, 4096 };
    static const char *names[] = { "drawing 64", "drawing 1024", "drawing 4096" };
    seed(5);
    check_spoilt();
    for (int k = 0; k < 3; k++) {
        const struct Drawing *in = drawing_of(sizes[k]);
        struct DrawingAnswer a = check_drawing(in, ROOM);
        check(a.number == 0 && a.count == sizes[k], "a drawing that is right");
        add_row((struct Row){ names[k], run_drawing, in, 1, (Call *)gerlyantu_read_drawing, (Call *)tuned_read_drawing, sizes[k] });
    }
}
