/* Millimetres to the grid and back. */
#include "check.h"

#define POINT(px, py, n, p, gx, gy) \
    do { \
        gerlyantu_point_answer point = gerlyantu_point_to_grid((gerlyantu_point_mm){px, py}); \
        SAME(point.number, n); \
        SAME(point.place, p); \
        SAME(point.x, gx); \
        SAME(point.y, gy); \
    } while (0)

#define WINDOW(l, b, r, t, n, p, gl, gb, gr, gt) \
    do { \
        gerlyantu_window_answer window = gerlyantu_window_to_grid((gerlyantu_window_mm){l, b, r, t}); \
        SAME(window.number, n); \
        SAME(window.place, p); \
        SAME(window.window.left, gl); \
        SAME(window.window.bottom, gb); \
        SAME(window.window.right, gr); \
        SAME(window.window.top, gt); \
    } while (0)

#define BACK(g, n, p, x) \
    do { \
        gerlyantu_back_answer back = gerlyantu_to_millimetres(g); \
        SAME(back.number, n); \
        SAME(back.place, p); \
        SAME(bits_of(back.mm), bits_of(x)); \
    } while (0)

static void check_points(void) {
    POINT(1.0f, 2.5f, 0, 0, 32, 80);
    POINT(0.0f, -0.0f, 0, 0, 0, 0);
    POINT(511.96875f, -511.96875f, 0, 0, 16383, -16383);
    /* halves to the even one: 0.5, 1.5, 2.5, -0.5, -1.5 */
    POINT(0.015625f, 0.046875f, 0, 0, 0, 2);
    POINT(0.078125f, -0.015625f, 0, 0, 2, 0);
    POINT(-0.046875f, 0.0f, 0, 0, -2, 0);
    /* the largest float that still falls on the range, and the next */
    POINT(float_of(0x43FFFDFFu), float_of(0xC3FFFDFFu), 0, 0, 16383, -16383);
    POINT(511.984375f, 0.0f, 10, 0, 0, 0);
    POINT(0.0f, -511.984375f, 10, 1, 0, 0);
    /* the least float, and the largest, which overflows */
    POINT(float_of(1u), float_of(0x80000001u), 0, 0, 0, 0);
    POINT(1.0f, float_of(0x7F7FFFFFu), 10, 1, 0, 0);
}

static void check_point_faults(void) {
    const float quiet = float_of(0x7FC00000u), signalling = float_of(0xFF800001u);
    const float infinite = float_of(0x7F800000u), below = float_of(0xFF800000u);
    POINT(quiet, 0.0f, 9, 0, 0, 0);
    POINT(1.0f, signalling, 9, 1, 0, 0);
    POINT(infinite, 1.0f, 10, 0, 0, 0);
    POINT(1.0f, below, 10, 1, 0, 0);
    /* the first faulty number decides */
    POINT(quiet, infinite, 9, 0, 0, 0);
    POINT(infinite, quiet, 10, 0, 0, 0);
}

static void check_windows(void) {
    const float nan = float_of(0x7FC00000u), infinite = float_of(0x7F800000u);
    WINDOW(0.0f, -1.0f, 0.3125f, 511.96875f, 0, 0, 0, -32, 10, 16383);
    /* area is the clipping calls' matter */
    WINDOW(2.0f, 2.0f, 1.0f, 2.0f, 0, 0, 64, 64, 32, 64);
    WINDOW(nan, 1.0f, 1.0f, 1.0f, 9, 0, 0, 0, 0, 0);
    WINDOW(1.0f, infinite, nan, 1.0f, 10, 1, 0, 0, 0, 0);
    WINDOW(1.0f, 1.0f, nan, infinite, 9, 2, 0, 0, 0, 0);
    WINDOW(1.0f, 1.0f, 1.0f, -512.0f, 10, 3, 0, 0, 0, 0);
}

static void check_back(void) {
    BACK(0, 0, 0, 0.0f);
    BACK(1, 0, 0, 0.03125f);
    BACK(-33, 0, 0, -1.03125f);
    BACK(16383, 0, 0, 511.96875f);
    BACK(-16383, 0, 0, -511.96875f);
    BACK(16384, 6, 0, 0.0f);
    BACK(-16384, 6, 0, 0.0f);
    BACK(INT32_MAX, 6, 0, 0.0f);
    BACK(INT32_MIN, 6, 0, 0.0f);
}

/* Every grid number goes to millimetres and comes back. */
static void check_there_and_back(void) {
    int returned = 0;
    for (int32_t g = -GERLYANTU_LARGEST; g <= GERLYANTU_LARGEST; g++) {
        gerlyantu_back_answer back = gerlyantu_to_millimetres(g);
        gerlyantu_point_answer point = gerlyantu_point_to_grid((gerlyantu_point_mm){back.mm, -back.mm});
        if (back.number == 0 && point.number == 0 && point.x == g && point.y == -g) returned++;
    }
    SAME(returned, 32767);
}

void check_millimetres(void) {
    check_points();
    check_point_faults();
    check_windows();
    check_back();
    check_there_and_back();
}
