// A strictly convex outline against a rectangle: Sutherland-Hodgman passes over one memory.
#include "common.h"

// The corner (x/dx, y/dy), and the line of the edge after it: an edge of the outline, or 64 and more for a side of the window.
struct Corner { i32 x, y; u16 dx, dy; i32 tag; };

struct Job { i32 side[4]; const i32 *outline; usize count; };

static const u8 orders[24][4] = {
    { 0, 1, 2, 3 }, { 0, 1, 3, 2 }, { 0, 2, 1, 3 }, { 0, 2, 3, 1 }, { 0, 3, 1, 2 }, { 0, 3, 2, 1 },
    { 1, 0, 2, 3 }, { 1, 0, 3, 2 }, { 1, 2, 0, 3 }, { 1, 2, 3, 0 }, { 1, 3, 0, 2 }, { 1, 3, 2, 0 },
    { 2, 0, 1, 3 }, { 2, 0, 3, 1 }, { 2, 1, 0, 3 }, { 2, 1, 3, 0 }, { 2, 3, 0, 1 }, { 2, 3, 1, 0 },
    { 3, 0, 1, 2 }, { 3, 0, 2, 1 }, { 3, 1, 0, 2 }, { 3, 1, 2, 0 }, { 3, 2, 0, 1 }, { 3, 2, 1, 0 },
};

// The outline's least and greatest numbers, and the place of its lowest corner, of those the leftmost.
struct Extent { i32 least_x, most_x, least_y, most_y; usize low; };

// Whether all corners turn left and the ways turn round once, which is when they begin to go up once; where a way turns from one
// direction to another is the outline's end on that side. Products stay below 2^31.
static inline i32 strictly_convex(const i32 *c, usize n, struct Extent *e) {
    i32 rises = 0;
    // The turn at a corner from the way (ex, ey) to the way (fx, fy).
    #define TURN(ex, ey, fx, fy, at) \
        if (UNLIKELY(ex * fy <= ey * fx)) return 0; \
        if (UNLIKELY(((ex ^ fx) | (ey ^ fy)) < 0)) { \
            if ((ex ^ fx) < 0) *(fx < 0 ? &e->most_x : &e->least_x) = c[at]; \
            if ((ey ^ fy) < 0) { \
                if (fy < 0) e->most_y = c[at + 1]; \
                else { e->least_y = c[at + 1]; e->low = at; rises++; } \
            } \
        }
    i32 ex = c[0] - c[n - 2], ey = c[1] - c[n - 1], x = ex, y = ey;
    usize i = 2;
    // two corners a time, so that the ways change places without being moved
    for (; i + 2 < n; i += 4) {
        i32 fx = c[i] - c[i - 2], fy = c[i + 1] - c[i - 1];
        TURN(ex, ey, fx, fy, i - 2)
        ex = c[i + 2] - c[i]; ey = c[i + 3] - c[i + 1];
        TURN(fx, fy, ex, ey, i)
    }
    if (i < n) {
        i32 fx = c[i] - c[i - 2], fy = c[i + 1] - c[i - 1];
        TURN(ex, ey, fx, fy, i - 2)
        ex = fx; ey = fy;
    }
    TURN(ex, ey, x, y, n - 2)
    return rises == 1;
}

// The same ends of an outline that is known to be strictly convex; of its numbers nothing is known.
static inline void extent_of(const i32 *c, usize n, struct Extent *e) {
    i32 least_x = c[0], least_y = c[1], most_x = c[0], most_y = c[1];
    for (usize i = 2; i < n; i += 2) {
        i32 x = c[i], y = c[i + 1];
        least_x = x < least_x ? x : least_x;
        most_x = x > most_x ? x : most_x;
        least_y = y < least_y ? y : least_y;
        most_y = y > most_y ? y : most_y;
    }
    *e = (struct Extent){ least_x, most_x, least_y, most_y, 0 };
}

// The corners come down to the lowest and go up from it, so the search goes the way that goes down.
static inline usize lowest_corner(const i32 *c, usize n) {
    usize low = 0;
    #define BEFORE(i, j) (c[(i) + 1] < c[(j) + 1] || (c[(i) + 1] == c[(j) + 1] && c[i] < c[j]))
    while (low + 2 < n && BEFORE(low + 2, low)) low += 2;
    if (low != 0) return low;
    if (!BEFORE(n - 2, 0)) return 0;
    low = n - 2;
    while (BEFORE(low - 2, low)) low -= 2;
    return low;
}

// Where the line that a tag names meets that of a side: from the outline's own edge, or a corner of the window.
static inline struct Corner crossing(const struct Job *j, u32 side, i32 tag, i32 new_tag) {
    i32 c = j->side[side];
    if (tag >= 64) {
        i32 d = j->side[tag - 64];
        return side < 2 ? (struct Corner){ c, d, 1, 1, new_tag } : (struct Corner){ d, c, 1, 1, new_tag };
    }
    const i32 *p = j->outline + 2 * tag, *q = 2 * (usize)tag + 2 < j->count ? p + 2 : j->outline;
    u32 k = side / 2;
    i32 a = p[k], b = p[1 - k], run = q[k] - a;
    i32 z = b * run + (c - a) * (q[1 - k] - b);
    if (run < 0) { run = -run; z = -z; }
    return side < 2 ? (struct Corner){ c, z, 1, run, new_tag } : (struct Corner){ z, c, run, 1, new_tag };
}

// Positive inside, 0 on the side's line, negative outside.
static inline i32 value(const struct Corner *p, u32 side, i32 line) {
    i32 v = side < 2 ? p->x - line * p->dx : p->y - line * p->dy;
    return side & 1 ? -v : v;
}

// The outline's own corners from one place up to another, each tagged with its own edge.
static inline struct Corner *load(struct Corner *to, const i32 *c, usize from, usize end) {
    for (usize i = from; i < end; i += 2) *to++ = (struct Corner){ c[i], c[i + 1], 1, 1, i / 2 };
    return to;
}

// The first pass, of a side that cuts something off and leaves something, from the outline itself.
static inline __attribute__((always_inline)) usize first_at(const struct Job *j, u32 side, struct Corner *ring) {
    const i32 *c = j->outline, *z = c + side / 2;
    i32 line = j->side[side];
    #define VALUE(i) (side & 1 ? line - z[i] : z[i] - line)
    usize n = j->count, begin, end;
    struct Corner *to = ring;
    if (VALUE(0) >= 0) {
        end = 2;
        while (VALUE(end) >= 0) end += 2;
        begin = end + 2;
        while (begin < n && VALUE(begin) < 0) begin += 2;
        to = load(load(to, c, begin, n), c, 0, end);
    } else {
        begin = 2;
        while (VALUE(begin) < 0) begin += 2;
        end = begin + 2;
        while (end < n && VALUE(end) >= 0) end += 2;
        to = load(to, c, begin, end);
    }
    i32 out_tag = (i32)end / 2 - 1, in_tag = (i32)begin / 2 - 1;
    if (VALUE(end - 2) > 0) *to++ = crossing(j, side, out_tag, 64 + side);
    else to[-1].tag = 64 + side;
    if (VALUE(begin == n ? 0 : begin) > 0) *to++ = crossing(j, side, in_tag, in_tag);
    return to - ring;
}

static usize first_pass(const struct Job *j, u32 side, struct Corner *ring) {
    switch (side) {
    case 0: return first_at(j, 0, ring);
    case 1: return first_at(j, 1, ring);
    case 2: return first_at(j, 2, ring);
    default: return first_at(j, 3, ring);
    }
}

// One pass. What is outside a side is one run of the ring, so the pass puts its two crossings there and moves what is behind.
static inline __attribute__((always_inline)) usize pass_at(const struct Job *j, u32 side, struct Corner **ring, usize n) {
    struct Corner *r = *ring;
    i32 line = j->side[side];
    i32 first = value(r, side, line);
    if (first >= 0) {
        i32 before = first, v = 0;
        usize p = 1;
        for (; p < n; p++) {
            v = value(r + p, side, line);
            if (v < 0) break;
            before = v;
        }
        if (p == n) return n;
        usize q = p + 1;
        for (v = first; q < n; q++) {
            i32 u = value(r + q, side, line);
            if (u >= 0) { v = u; break; }
        }
        i32 out_tag = r[p - 1].tag, in_tag = r[q - 1].tag;
        struct Corner in;
        usize at = p, added = (before > 0) + (v > 0);
        if (v > 0) in = crossing(j, side, in_tag, in_tag);
        usize behind = n - q;
        if (p + added != q) __builtin_memmove(r + p + added, r + q, behind * sizeof *r);
        if (before > 0) r[at++] = crossing(j, side, out_tag, 64 + side);
        else r[p - 1].tag = 64 + side;
        if (v > 0) r[at++] = in;
        return at + behind;
    }
    usize s = 1;
    i32 entered = 0;
    for (; s < n; s++) {
        entered = value(r + s, side, line);
        if (entered >= 0) break;
    }
    if (s == n) return 0;
    i32 in_tag = r[s - 1].tag, before = entered, v;
    usize e = s + 1;
    for (; e < n; e++) {
        v = value(r + e, side, line);
        if (v < 0) break;
        before = v;
    }
    *ring = r + s;
    if (before > 0) { r[e] = crossing(j, side, r[e - 1].tag, 64 + side); e++; }
    else r[e - 1].tag = 64 + side;
    if (entered > 0) { r[e] = crossing(j, side, in_tag, in_tag); e++; }
    return e - s;
}

static usize pass(const struct Job *j, u32 side, struct Corner **ring, usize n) {
    switch (side) {
    case 0: return pass_at(j, 0, ring, n);
    case 1: return pass_at(j, 1, ring, n);
    case 2: return pass_at(j, 2, ring, n);
    default: return pass_at(j, 3, ring, n);
    }
}

static inline void put(i32 *out, i32 z, u32 d) {
    if (d != 1) {
        u32 g = common(d, (u32)(z < 0 ? -z : z) % d);
        if (g != 1) { z /= (i32)g; d /= g; }
    }
    out[0] = z; out[1] = d;
}

static inline void write_corners(const struct Corner *r, usize n, i32 *out) {
    for (usize i = 0; i < n; i++, out += 4) {
        put(out, r[i].x, r[i].dx);
        put(out + 2, r[i].y, r[i].dy);
    }
}

// One count of corners for all four passes.
static inline void all_alike(u8 passes[4], usize corners) {
    u32 four = (u32)corners * 0x01010101;
    __builtin_memcpy(passes, &four, sizeof four);
}

static inline struct OutlineAnswer refused(u8 number, usize place) {
    return (struct OutlineAnswer){ number, place, 0, { 0 } };
}

static inline struct OutlineAnswer no_area(void) { return refused(0, 0); }

// The outline as it is, from its lowest corner on: every side leaves all its corners.
static inline struct OutlineAnswer give_whole(const i32 *c, usize n, usize low, i32 *restrict out, usize room) {
    if (UNLIKELY(room < 2 * n)) return refused(8, 2 * n);
    i32 *to = out;
    for (usize i = low; i < n; i += 2, to += 4) { to[0] = c[i]; to[1] = 1; to[2] = c[i + 1]; to[3] = 1; }
    for (usize i = 0; i < low; i += 2, to += 4) { to[0] = c[i]; to[1] = 1; to[2] = c[i + 1]; to[3] = 1; }
    struct OutlineAnswer a = { 0, 0, 2 * n, { 0 } };
    all_alike(a.passes, n / 2);
    return a;
}

// Whether p lies lower than q, or as low and further left.
static inline i32 before(const struct Corner *p, const struct Corner *q) {
    i64 a = (i64)p->y * q->dy, b = (i64)q->y * p->dy;
    return a < b || (a == b && (i64)p->x * q->dx < (i64)q->x * p->dx);
}

// Writes the ring, and what the answer is to have beside the counts of the passes.
static void give(struct OutlineAnswer *restrict a, const struct Corner *r, usize n, i32 *restrict out, usize room) {
    if (UNLIKELY(room < 4 * n)) {
        *a = refused(8, 4 * n);
        return;
    }
    const struct Corner *low = r;
    while (low + 1 < r + n && before(low + 1, low)) low++;
    if (low == r && before(r + n - 1, r))
        for (low = r + n - 1; before(low - 1, low);) low--;
    usize start = low - r;
    write_corners(low, n - start, out);
    write_corners(r, start, out + 4 * (n - start));
    a->number = 0;
    a->place = 0;
    a->count = 4 * n;
}

static inline __attribute__((always_inline)) struct OutlineAnswer
clip(struct Window w, u32 order, const i32 *c, usize n, i32 *restrict out, usize room, i32 tested) {
    if (!good_window(w)) {
        struct Refusal r = window_refusal(w);
        return refused(r.number, r.place);
    }
    if (UNLIKELY(order > 23)) return refused(4, 0);
    if (UNLIKELY(n % 2 != 0 || n < 6 || n > 128)) return refused(5, 0);
    struct Extent e;
    if (tested) {
        if (any_off(c, n)) return refused(6, first_off(c));
        if (!strictly_convex(c, n, &e)) return refused(7, 0);
    } else {
        extent_of(c, n, &e);
        if (UNLIKELY(e.least_x < -FARTHEST || e.least_y < -FARTHEST || e.most_x > FARTHEST || e.most_y > FARTHEST))
            return refused(6, first_off(c));
    }
    u32 cutting = (e.least_x < w.left) | (e.most_x > w.right) << 1 | (e.least_y < w.bottom) << 2 | (e.most_y > w.top) << 3;
    if (cutting == 0) return give_whole(c, n, tested ? e.low : lowest_corner(c, n), out, room);
    if (e.most_x <= w.left || e.least_x >= w.right || e.most_y <= w.bottom || e.least_y >= w.top) return no_area();
    struct Corner memory[72], *ring = memory;
    struct Job j = { { w.left, w.right, w.bottom, w.top }, c, n };
    const u8 *sides = orders[order];
    usize k = 0;
    while (!(cutting >> sides[k] & 1)) k++;
    // each count goes where the caller finds it; the sides before the first pass left all corners
    struct OutlineAnswer a;
    all_alike(a.passes, n / 2);
    usize left = first_pass(&j, sides[k], ring);
    for (;;) {
        if (left < 3) {
            a = no_area();
            return a;
        }
        a.passes[k] = (u8)left;
        if (++k == 4) break;
        if (cutting >> sides[k] & 1) left = pass(&j, sides[k], &ring, left);
    }
    give(&a, ring, left, out, room);
    return a;
}

struct OutlineAnswer
tuned_clip_outline(struct Window w, u32 order, const i32 *c, usize n, i32 *restrict out, usize room) {
    return clip(w, order, c, n, out, room, 1);
}

struct OutlineAnswer
tuned_clip_convex(struct Window w, u32 order, const i32 *c, usize n, i32 *restrict out, usize room) {
    return clip(w, order, c, n, out, room, 0);
}

struct OutlineAnswer
tuned_clip_plainly(struct Window w, u32 order, const i32 *c, usize n, i32 *restrict out, usize room) {
    if (!good_window(w)) {
        struct Refusal r = window_refusal(w);
        return refused(r.number, r.place);
    }
    if (UNLIKELY(order > 23)) return refused(4, 0);
    if (UNLIKELY(n % 2 != 0 || n < 6 || n > 128)) return refused(5, 0);
    if (any_off(c, n)) return refused(6, first_off(c));
    struct Corner memory[72], *ring = memory;
    struct Job j = { { w.left, w.right, w.bottom, w.top }, c, n };
    usize left = load(ring, c, 0, n) - ring;
    struct OutlineAnswer a;
    for (usize k = 0; k < 4; k++) {
        left = pass(&j, orders[order][k], &ring, left);
        if (left < 3) {
            a = no_area();
            return a;
        }
        a.passes[k] = (u8)left;
    }
    give(&a, ring, left, out, room);
    return a;
}
