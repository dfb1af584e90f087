// The bench's inputs, our answers, and how a peer's answers are held to them.
#pragma once
#include <algorithm>
#include <cmath>
#include <cstdio>
#include <cstdlib>
#include <cstring>
#include <ctime>
#include <functional>
#include <sstream>
#include <string>
#include <vector>
extern "C" {
#include "../calls.h"
}

struct StrokeInput { Window w; Stroke s; StrokeAnswer exact; };
struct OutlineInput { Window w; std::vector<i32> c; std::vector<i32> exact; };

struct Inputs {
    std::vector<std::pair<std::string, std::vector<StrokeInput>>> strokes;
    std::vector<std::pair<std::string, std::vector<OutlineInput>>> outlines;
};

inline StrokeInput stroke_input(Window w, Stroke s) { return { w, s, gerlyantu_liang_barsky(w, s) }; }

inline std::vector<i32> ring(Window w, const std::vector<i32> &c) {
    std::vector<i32> out(4 * 68);
    OutlineAnswer a = gerlyantu_clip_outline(w, 0, c.data(), c.size(), out.data(), out.size());
    if (a.number != 0) { std::fprintf(stderr, "an input is refused\n"); std::exit(1); }
    out.resize(a.count);
    return out;
}

// The inputs of the bench's mixed rows.
inline Inputs read_inputs(const char *path) {
    Inputs in;
    in.strokes.push_back({ "strokes", {} });
    std::FILE *f = std::fopen(path, "r");
    if (!f) std::exit(1);
    char line[4096];
    while (std::fgets(line, sizeof line, f)) {
        std::istringstream s(line);
        char kind;
        Window w;
        s >> kind;
        if (kind == 's') {
            Stroke t;
            s >> w.left >> w.bottom >> w.right >> w.top >> t.x1 >> t.y1 >> t.x2 >> t.y2;
            in.strokes[0].second.push_back(stroke_input(w, t));
        } else {
            size_t n;
            s >> n >> w.left >> w.bottom >> w.right >> w.top;
            std::vector<i32> c(2 * n);
            for (i32 &z : c) s >> z;
            std::string name = "outline " + std::to_string(n);
            if (in.outlines.empty() || in.outlines.back().first != name) in.outlines.push_back({ name, {} });
            in.outlines.back().second.push_back({ w, c, ring(w, c) });
        }
    }
    std::fclose(f);
    return in;
}

// Inputs with small numbers, many of which touch: all strokes between points from -5 to 15, all triangles with corners at five places.
inline void add_small(Inputs &in) {
    Window w = { 0, 0, 10, 10 };
    in.strokes.push_back({ "small", {} });
    for (i32 a = -5; a <= 15; a++)
        for (i32 b = -5; b <= 15; b++)
            for (i32 c = -5; c <= 15; c++)
                for (i32 d = -5; d <= 15; d++)
                    if (a != c || b != d) in.strokes[1].second.push_back(stroke_input(w, { a, b, c, d }));
    in.outlines.push_back({ "triangles", {} });
    static const i32 places[] = { -3, 0, 4, 10, 13 };
    auto x = [](int k) { return places[k / 5]; };
    auto y = [](int k) { return places[k % 5]; };
    for (int a = 0; a < 25; a++)
        for (int b = a + 1; b < 25; b++)
            for (int c = a + 1; c < 25; c++) {
                if ((x(b) - x(a)) * (y(c) - y(a)) - (y(b) - y(a)) * (x(c) - x(a)) <= 0) continue;
                std::vector<i32> t = { x(a), y(a), x(b), y(b), x(c), y(c) };
                in.outlines.back().second.push_back({ w, t, ring(w, t) });
            }
}

// Processor time in nanoseconds for one of n, the least of five rounds.
inline double timed(size_t n, const std::function<void()> &run) {
    auto now = [] {
        timespec t;
        clock_gettime(CLOCK_THREAD_CPUTIME_ID, &t);
        return (double)t.tv_sec * 1e9 + (double)t.tv_nsec;
    };
    double best = 1e18;
    for (int k = 0; k < 5; k++) {
        double start = now();
        run();
        best = std::min(best, (now() - start) / (double)n);
    }
    return best;
}

// What is used is not optimised away.
template <class T> inline void used(const T &x) { __asm__ volatile("" : : "r"(&x) : "memory"); }

inline double ours_strokes(const std::vector<StrokeInput> &in) {
    return timed(in.size(), [&] { for (auto &i : in) used(gerlyantu_liang_barsky(i.w, i.s)); });
}

inline double ours_outlines(const std::vector<OutlineInput> &in) {
    std::vector<i32> out(4 * 68);
    return timed(in.size(), [&] { for (auto &i : in) used(gerlyantu_clip_outline(i.w, 0, i.c.data(), i.c.size(), out.data(), out.size())); });
}

struct P { double x, y; };

// The nearest grid number, a half to the even one, as a C program rounds unless it is told otherwise.
inline i32 to_grid(double z) { return (i32)std::nearbyint(z); }

// A peer's answers on strokes: kept or not, and the two ends.
struct StrokeTally {
    size_t all = 0, decided = 0, inexact = 0, grid = 0;
    void add(const StrokeInput &i, bool kept, P a, P b) {
        all++;
        const StrokeAnswer &e = i.exact;
        if (kept != (e.kept != 0)) { decided++; return; }
        if (!kept) return;
        // some peers give the ends in the other order
        double dx = i.s.x2 - i.s.x1, dy = i.s.y2 - i.s.y1;
        if ((b.x - a.x) * dx + (b.y - a.y) * dy < 0) std::swap(a, b);
        auto at = [&](i32 from, i32 to, Fraction t) { return (double)((long double)((i64)from * t.den + (i64)(to - from) * t.num) / t.den); };
        P ea = { at(i.s.x1, i.s.x2, e.t0), at(i.s.y1, i.s.y2, e.t0) }, eb = { at(i.s.x1, i.s.x2, e.t1), at(i.s.y1, i.s.y2, e.t1) };
        if (a.x != ea.x || a.y != ea.y || b.x != eb.x || b.y != eb.y) inexact++;
        if (to_grid(a.x) != e.ax || to_grid(a.y) != e.ay || to_grid(b.x) != e.bx || to_grid(b.y) != e.by) grid++;
    }
    void print(const char *who, const char *what, double ns, double ours) const {
        std::printf("%-24s %-10s %9.1f ns, %7.1f times ours; of %zu: %zu kept or missed wrongly, %zu not the exact points, "
            "%zu wrong on the grid\n",
            who, what, ns, ns / ours, all, decided, inexact, grid);
    }
};

// A peer's rings: counterclockwise from the lowest corner, of those the leftmost, without a repeated last one.
inline void turn(std::vector<P> &r) {
    if (r.size() > 1 && r.front().x == r.back().x && r.front().y == r.back().y) r.pop_back();
    double area = 0;
    for (size_t i = 0; i < r.size(); i++) {
        const P &p = r[i], &q = r[(i + 1) % r.size()];
        area += p.x * q.y - p.y * q.x;
    }
    if (area < 0) std::reverse(r.begin(), r.end());
    std::rotate(r.begin(), std::min_element(r.begin(), r.end(), [](P a, P b) { return a.y < b.y || (a.y == b.y && a.x < b.x); }), r.end());
}

struct OutlineTally {
    size_t all = 0, decided = 0, corners = 0, inexact = 0;
    double farthest = 0;
    void add(const OutlineInput &i, std::vector<P> r) {
        all++;
        const std::vector<i32> &e = i.exact;
        if (r.empty() != e.empty()) { decided++; return; }
        if (r.empty()) return;
        turn(r);
        if (r.size() != e.size() / 4) { corners++; return; }
        bool same = true;
        double far = 0;
        for (size_t k = 0; k < r.size(); k++) {
            double x = (double)e[4 * k] / e[4 * k + 1], y = (double)e[4 * k + 2] / e[4 * k + 3];
            same &= r[k].x == x && r[k].y == y;
            far = std::max(far, std::max(std::fabs(r[k].x - x), std::fabs(r[k].y - y)));
        }
        // a ring that begins elsewhere is another ring
        if (far > 1) { corners++; return; }
        if (!same) inexact++;
        farthest = std::max(farthest, far);
    }
    void print(const char *who, const char *what, double ns, double ours) const {
        std::printf("%-24s %-10s %9.1f ns, %7.1f times ours; of %zu: %zu empty or not wrongly, %zu with other corners, "
            "%zu not the exact corners (by up to %.2g)\n",
            who, what, ns, ns / ours, all, decided, corners, inexact, farthest);
    }
};

// Inputs at the edge of what is defined, with our answer.
struct Edge { const char *what; std::vector<i32> c; };
inline const std::vector<Edge> &edges() {
    static const std::vector<Edge> e = {
        { "touches a side with a corner", { -4, 0, 0, 2, -4, 4 } },
        { "touches a side with an edge", { -4, 2, 0, 2, 0, 6, -4, 6 } },
        { "touches a corner of the window", { -4, -4, 4, -4, -4, 4 } },
        { "is the five-pointed star", { 0, 3, -2, -3, 3, 1, -3, 1, 2, -3 } },
        { "goes clockwise", { 2, 2, 2, 8, 8, 8, 8, 2 } },
        { "has three corners on a line", { 2, 2, 5, 2, 8, 2, 8, 8 } },
        { "has a corner twice", { 2, 2, 8, 2, 8, 2, 8, 8 } },
        { "has no area", { 2, 2, 8, 2, 5, 2 } },
    };
    return e;
}

inline std::string ours_at_edge(const Edge &e) {
    std::vector<i32> out(4 * 68);
    OutlineAnswer a = gerlyantu_clip_outline({ 0, 0, 10, 10 }, 0, e.c.data(), e.c.size(), out.data(), out.size());
    if (a.number) return "refused " + std::to_string(a.number);
    return a.count ? std::to_string(a.count / 4) + " corners" : "no area";
}
