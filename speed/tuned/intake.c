// Millimetres to the grid of 1/32 mm and back.
#include "intake.h"

// Why the first number that is not taken is not.
static COLD struct Refusal refusal(const float *x) {
    usize i = 0;
    while (taken(x[i] * 32)) i++;
    return (struct Refusal){ x[i] == x[i] ? 10 : 9, i };
}

static COLD struct PointAnswer refused_point(struct PointMm p) {
    struct Refusal r = refusal((float[]){ p.x, p.y });
    return (struct PointAnswer){ .number = r.number, .place = r.place };
}

static COLD struct WindowAnswer refused_window(struct WindowMm w) {
    struct Refusal r = refusal((float[]){ w.left, w.bottom, w.right, w.top });
    return (struct WindowAnswer){ .number = r.number, .place = r.place };
}

struct PointAnswer tuned_point_to_grid(struct PointMm p) {
    float x = p.x * 32, y = p.y * 32;
    if (UNLIKELY(!taken(x) || !taken(y))) return refused_point(p);
    return (struct PointAnswer){ 0, 0, nearest(x), nearest(y) };
}

struct WindowAnswer tuned_window_to_grid(struct WindowMm w) {
    float l = w.left * 32, b = w.bottom * 32, r = w.right * 32, t = w.top * 32;
    if (UNLIKELY(!taken(l) || !taken(b) || !taken(r) || !taken(t))) return refused_window(w);
    return (struct WindowAnswer){ 0, 0, { nearest(l), nearest(b), nearest(r), nearest(t) } };
}

struct BackAnswer tuned_to_millimetres(i32 g) {
    if (UNLIKELY(off(g))) return (struct BackAnswer){ 6, 0, 0 };
    return (struct BackAnswer){ 0, 0, (float)g * 0.03125f };
}
