// The drawing file. The strokes go to a memory of its own and from there to the output, so that the bytes are read once.
#include "intake.h"

enum { HEAD = 21, MOST_BYTES = 65536, MOST_STROKES = 4096 };

static inline u32 number_at(const u8 *s) { return (u32)s[0] << 24 | (u32)s[1] << 16 | (u32)s[2] << 8 | s[3]; }

// 32 times the f32 at s.
static inline float grid_at(const u8 *s) {
    union Bits b = { .u = number_at(s) };
    return b.f * 32;
}

static struct DrawingAnswer refused(u8 number, usize place) { return (struct DrawingAnswer){ .number = number, .place = place }; }

struct DrawingAnswer tuned_read_drawing(const u8 *s, usize n, i32 *restrict out, usize room) {
    if (UNLIKELY(n < HEAD || n > MOST_BYTES || number_at(s) != n - 4 || s[4] != 1)) return refused(11, 0);
    float l = grid_at(s + 5), b = grid_at(s + 9), r = grid_at(s + 13), t = grid_at(s + 17);
    if (UNLIKELY(!taken(l) || !taken(b) || !taken(r) || !taken(t))) return refused(11, 0);
    i32 strokes[4 * MOST_STROKES + 4], *to = strokes, *end = strokes + 4 * MOST_STROKES;
    i32 x = 0, y = 0, start_x = 0, start_y = 0, moved = 0;
    for (const u8 *p = s + HEAD, *last = s + n; p < last;) {
        if (*p == 0x5A) {
            if (UNLIKELY(!moved)) return refused(11, 0);
            p++;
            if (x == start_x && y == start_y) continue;
            if (UNLIKELY(to == end)) return refused(11, 0);
            to[0] = x; to[1] = y; to[2] = x = start_x; to[3] = y = start_y;
            to += 4;
            continue;
        }
        if (UNLIKELY(last - p < 9)) return refused(11, 0);
        float u = grid_at(p + 1), v = grid_at(p + 5);
        if (UNLIKELY(!taken(u) || !taken(v))) return refused(11, 0);
        i32 gx = nearest(u), gy = nearest(v);
        if (*p == 0x4C) {
            if (UNLIKELY(!moved || to == end)) return refused(11, 0);
            to[0] = x; to[1] = y; to[2] = gx; to[3] = gy;
            to += 4;
        } else {
            if (UNLIKELY(*p != 0x4D)) return refused(11, 0);
            moved = 1; start_x = gx; start_y = gy;
        }
        x = gx; y = gy;
        p += 9;
    }
    struct Window w = { nearest(l), nearest(b), nearest(r), nearest(t) };
    if (UNLIKELY(w.left >= w.right || w.bottom >= w.top)) return refused(3, 0);
    usize numbers = to - strokes;
    if (UNLIKELY(room < numbers)) return refused(8, numbers);
    __builtin_memcpy(out, strokes, numbers * sizeof *out);
    return (struct DrawingAnswer){ 0, 0, w, numbers / 4 };
}
