// Millimetres to the grid and back.
#include "harness.h"

typedef struct PointAnswer PointCall(struct PointMm);
typedef struct WindowAnswer WindowCall(struct WindowMm);
typedef struct BackAnswer BackCall(i32);

enum { POINTS = 8192 };

struct Numbers { struct PointMm p[POINTS]; struct WindowMm w[POINTS]; i32 g[POINTS]; };

union Bits { float f; u32 u; };

static void run_points(const void *inputs, Call *call) {
    const struct Numbers *in = inputs;
    for (usize i = 0; i < few(POINTS); i++) {
        struct PointAnswer a = ((PointCall *)call)(in->p[i]);
        USED(a);
    }
}

static void run_windows(const void *inputs, Call *call) {
    const struct Numbers *in = inputs;
    for (usize i = 0; i < few(POINTS); i++) {
        struct WindowAnswer a = ((WindowCall *)call)(in->w[i]);
        USED(a);
    }
}

static void run_back(const void *inputs, Call *call) {
    const struct Numbers *in = inputs;
    for (usize i = 0; i < few(POINTS); i++) {
        struct BackAnswer a = ((BackCall *)call)(in->g[i]);
        USED(a);
    }
}

static void check_numbers(struct PointMm p, struct WindowMm w, i32 g) {
    if (traced) return;
    struct PointAnswer a = gerlyantu_point_to_grid(p), b = tuned_point_to_grid(p);
    check(a.number == b.number && a.place == b.place && a.x == b.x && a.y == b.y, "a point in millimetres");
    struct WindowAnswer c = gerlyantu_window_to_grid(w), d = tuned_window_to_grid(w);
    check(c.number == d.number && c.place == d.place && !memcmp(&c.window, &d.window, sizeof c.window), "a window in millimetres");
    struct BackAnswer e = gerlyantu_to_millimetres(g), f = tuned_to_millimetres(g);
    check(e.number == f.number && e.place == f.place && !memcmp(&e.mm, &f.mm, sizeof e.mm), "a grid number");
}

// Any bits, the f32 round the table's ends, or halves of the grid.
static float any(void) {
    union Bits b = { .u = (u32)next() }, end = { .f = 511.984375f };
    switch (from(0, 4)) {
    case 0: return b.f;
    case 4: end.u += (u32)from(-200, 200); return from(0, 1) ? end.f : -end.f;
    case 1: return (float)(from(16380, 16386) * 2 + from(-1, 1)) / 64 * (from(0, 1) ? 1 : -1);
    default: return (float)from(-40000, 40000) / 64;
    }
}

static float on_table(void) { return (float)from(-5119687, 5119687) / 10000; }

void intake_rows(void) {
    struct Numbers *in = lent(1, sizeof *in);
    seed(4);
    for (int i = 0; i < 300000 && !traced; i++)
        check_numbers((struct PointMm){ any(), any() }, (struct WindowMm){ any(), any(), any(), any() },
            from(0, 1) ? from(-17000, 17000) : (i32)next());
    for (usize i = 0; i < few(POINTS); i++) {
        in->p[i] = (struct PointMm){ on_table(), on_table() };
        in->w[i] = (struct WindowMm){ on_table(), on_table(), on_table(), on_table() };
        in->g[i] = from(-16383, 16383);
        check_numbers(in->p[i], in->w[i], in->g[i]);
    }
    add_row((struct Row){ "intake point", run_points, in, few(POINTS), (Call *)gerlyantu_point_to_grid, (Call *)tuned_point_to_grid, few(POINTS) });
    add_row((struct Row){ "intake window", run_windows, in, few(POINTS), (Call *)gerlyantu_window_to_grid, (Call *)tuned_window_to_grid, few(POINTS) });
    add_row((struct Row){ "intake back", run_back, in, few(POINTS), (Call *)gerlyantu_to_millimetres, (Call *)tuned_to_millimetres, few(POINTS) });
}
