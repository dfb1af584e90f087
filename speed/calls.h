// The calls of the archive as C sees them, and the tuned C version of each under the prefix tuned_.
// No header of a C library is included: the kit's compiler brings none.
#ifndef CALLS_H
#define CALLS_H

typedef unsigned char u8;
typedef unsigned short u16;
typedef int i32;
typedef unsigned int u32;
typedef long i64;
typedef unsigned long u64;
typedef unsigned long usize;

struct Window { i32 left, bottom, right, top; };
struct Stroke { i32 x1, y1, x2, y2; };
struct Fraction { i64 num, den; };
struct Answer { u8 number; usize place; usize count; };
struct OutlineAnswer { u8 number; usize place; usize count; u8 passes[4]; };
struct StrokeAnswer { u8 number; usize place; u8 kept; struct Fraction t0, t1; i32 ax, ay, bx, by; u8 side0, side1; };
struct CountedAnswer { u32 shortenings; struct StrokeAnswer answer; };
struct CornerAnswer { u8 number; usize place; u8 kept; struct Fraction t0, t1; u8 side0, side1; };
struct PointMm { float x, y; };
struct WindowMm { float left, bottom, right, top; };
struct PointAnswer { u8 number; usize place; i32 x, y; };
struct WindowAnswer { u8 number; usize place; struct Window window; };
struct BackAnswer { u8 number; usize place; float mm; };
struct DrawingAnswer { u8 number; usize place; struct Window window; usize count; };
struct BookingAnswer { u8 number; usize place; i32 slot; };
struct ReleaseAnswer { u8 number; usize place; };

#define CALLS(prefix) \
    struct StrokeAnswer prefix##_liang_barsky(struct Window w, struct Stroke s); \
    struct CountedAnswer prefix##_cohen_sutherland(struct Window w, struct Stroke s); \
    struct StrokeAnswer prefix##_cross_product(struct Window w, struct Stroke s); \
    struct Answer prefix##_batch(struct Window w, const i32 *strokes, usize count, i32 *out, usize room); \
    struct Answer prefix##_batch_with_touches(struct Window w, const i32 *strokes, usize count, i32 *out, usize room); \
    struct CornerAnswer prefix##_cyrus_beck(const i32 *corners, usize count, struct Stroke s); \
    struct OutlineAnswer \
    prefix##_clip_outline(struct Window w, u32 order, const i32 *outline, usize count, i32 *out, usize room); \
    struct PointAnswer prefix##_point_to_grid(struct PointMm p); \
    struct WindowAnswer prefix##_window_to_grid(struct WindowMm w); \
    struct BackAnswer prefix##_to_millimetres(i32 g); \
    struct DrawingAnswer prefix##_read_drawing(const u8 *bytes, usize count, i32 *out, usize room); \
    struct BookingAnswer prefix##_book_strip(i32 *book, usize count, i32 renter, struct Window w); \
    struct ReleaseAnswer prefix##_release_slot(i32 *book, usize count, i32 renter, i32 slot); \
    struct Answer prefix##_list_strips(const i32 *book, usize count, i32 renter, i32 *out, usize room);

CALLS(gerlyantu)
CALLS(tuned)
// The same without the test of convexity: for outlines that are known to be strictly convex.
struct OutlineAnswer
tuned_clip_convex(struct Window w, u32 order, const i32 *outline, usize count, i32 *out, usize room);
// The same by four passes that look at every corner, without a rectangle round the outline first.
struct OutlineAnswer
tuned_clip_plainly(struct Window w, u32 order, const i32 *outline, usize count, i32 *out, usize room);
// Strokes in a form that takes fewer instructions for what is cut than the one that the other rows are measured against.
struct StrokeAnswer faster_liang_barsky(struct Window w, struct Stroke s);
struct Answer faster_batch(struct Window w, const i32 *strokes, usize count, i32 *out, usize room);
struct Answer faster_batch_with_touches(struct Window w, const i32 *strokes, usize count, i32 *out, usize room);

#endif
