// What Debian's peers answer on the bench's inputs, and how long they take.
#include "common.h"
#include <boost/geometry.hpp>
#include <boost/geometry/geometries/box.hpp>
#include <boost/geometry/geometries/linestring.hpp>
#include <boost/geometry/geometries/point_xy.hpp>
#include <boost/geometry/geometries/polygon.hpp>
#include <geos_c.h>
#include <polyclipping/clipper.hpp>
#include <CGAL/Boolean_set_operations_2.h>
#include <CGAL/Exact_predicates_exact_constructions_kernel.h>
#include <CGAL/Polygon_2.h>
#include <CGAL/intersections.h>

namespace bg = boost::geometry;
namespace cl = ClipperLib;
using Rings = std::vector<std::vector<P>>;

// ---- Clipper: whole numbers in, whole numbers out.
static cl::Path rectangle(Window w) { return { { w.left, w.bottom }, { w.right, w.bottom }, { w.right, w.top }, { w.left, w.top } }; }

static Rings clipper_outline(Window w, const std::vector<i32> &c) {
    cl::Path p;
    for (size_t i = 0; i < c.size(); i += 2) p.push_back({ c[i], c[i + 1] });
    cl::Clipper k;
    k.AddPath(p, cl::ptSubject, true);
    k.AddPath(rectangle(w), cl::ptClip, true);
    cl::Paths out;
    k.Execute(cl::ctIntersection, out, cl::pftNonZero, cl::pftNonZero);
    Rings r;
    for (auto &q : out) {
        r.emplace_back();
        for (auto &z : q) r.back().push_back({ (double)z.X, (double)z.Y });
    }
    return r;
}

static bool clipper_stroke(Window w, Stroke s, P &a, P &b) {
    cl::Clipper k;
    k.AddPath({ { s.x1, s.y1 }, { s.x2, s.y2 } }, cl::ptSubject, false);
    k.AddPath(rectangle(w), cl::ptClip, true);
    cl::PolyTree tree;
    k.Execute(cl::ctIntersection, tree, cl::pftNonZero, cl::pftNonZero);
    cl::Paths out;
    cl::OpenPathsFromPolyTree(tree, out);
    if (out.empty() || out[0].size() < 2) return false;
    a = { (double)out[0].front().X, (double)out[0].front().Y };
    b = { (double)out[0].back().X, (double)out[0].back().Y };
    return true;
}

// ---- Boost.Geometry, on doubles.
using BPoint = bg::model::d2::point_xy<double>;
using BPolygon = bg::model::polygon<BPoint, false, true>;
using BLine = bg::model::linestring<BPoint>;
using BBox = bg::model::box<BPoint>;

static BBox box(Window w) { return { { (double)w.left, (double)w.bottom }, { (double)w.right, (double)w.top } }; }

static Rings boost_outline(Window w, const std::vector<i32> &c) {
    BPolygon p;
    for (size_t i = 0; i < c.size(); i += 2) p.outer().push_back({ (double)c[i], (double)c[i + 1] });
    p.outer().push_back(p.outer().front());
    std::vector<BPolygon> out;
    bg::intersection(p, box(w), out);
    Rings r;
    for (auto &q : out) {
        r.emplace_back();
        for (auto &z : q.outer()) r.back().push_back({ z.x(), z.y() });
    }
    return r;
}

static bool boost_stroke(Window w, Stroke s, P &a, P &b) {
    BLine l = { { (double)s.x1, (double)s.y1 }, { (double)s.x2, (double)s.y2 } };
    std::vector<BLine> out;
    bg::intersection(l, box(w), out);
    if (out.empty()) return false;
    a = { out[0].front().x(), out[0].front().y() };
    b = { out[0].back().x(), out[0].back().y() };
    return true;
}

// ---- GEOS, on doubles: clipping to a rectangle, and the general intersection.
static GEOSContextHandle_t geos;

static void points(const GEOSGeometry *g, std::vector<P> &to) {
    const GEOSCoordSequence *q = GEOSGeom_getCoordSeq_r(geos, g);
    unsigned n = 0;
    GEOSCoordSeq_getSize_r(geos, q, &n);
    for (unsigned i = 0; i < n; i++) {
        double x, y;
        GEOSCoordSeq_getXY_r(geos, q, i, &x, &y);
        to.push_back({ x, y });
    }
}

static GEOSGeometry *geos_ring(const std::vector<P> &c) {
    GEOSCoordSequence *q = GEOSCoordSeq_create_r(geos, (unsigned)c.size() + 1, 2);
    for (unsigned i = 0; i <= c.size(); i++) GEOSCoordSeq_setXY_r(geos, q, i, c[i % c.size()].x, c[i % c.size()].y);
    return GEOSGeom_createPolygon_r(geos, GEOSGeom_createLinearRing_r(geos, q), nullptr, 0);
}

static GEOSGeometry *geos_clip(const GEOSGeometry *g, Window w, bool general) {
    GEOSGeometry *r;
    if (general) {
        std::vector<P> c;
        for (auto &z : rectangle(w)) c.push_back({ (double)z.X, (double)z.Y });
        GEOSGeometry *b = geos_ring(c);
        r = GEOSIntersection_r(geos, g, b);
        GEOSGeom_destroy_r(geos, b);
    } else r = GEOSClipByRect_r(geos, g, w.left, w.bottom, w.right, w.top);
    // its way to report an error
    if (!r) throw std::runtime_error("GEOS");
    return r;
}

static Rings geos_outline(Window w, const std::vector<i32> &c, bool general) {
    std::vector<P> p;
    for (size_t i = 0; i < c.size(); i += 2) p.push_back({ (double)c[i], (double)c[i + 1] });
    GEOSGeometry *g = geos_ring(p), *o = geos_clip(g, w, general);
    Rings r;
    for (int i = 0; i < GEOSGetNumGeometries_r(geos, o); i++) {
        const GEOSGeometry *part = GEOSGetGeometryN_r(geos, o, i);
        if (GEOSGeomTypeId_r(geos, part) != GEOS_POLYGON || GEOSisEmpty_r(geos, part)) continue;
        r.emplace_back();
        points(GEOSGetExteriorRing_r(geos, part), r.back());
    }
    GEOSGeom_destroy_r(geos, o);
    GEOSGeom_destroy_r(geos, g);
    return r;
}

static bool geos_stroke(Window w, Stroke s, P &a, P &b, bool general) {
    GEOSCoordSequence *q = GEOSCoordSeq_create_r(geos, 2, 2);
    GEOSCoordSeq_setXY_r(geos, q, 0, s.x1, s.y1);
    GEOSCoordSeq_setXY_r(geos, q, 1, s.x2, s.y2);
    GEOSGeometry *g = GEOSGeom_createLineString_r(geos, q), *o = geos_clip(g, w, general);
    std::vector<P> r;
    if (!GEOSisEmpty_r(geos, o)) {
        int type = GEOSGeomTypeId_r(geos, o);
        if (type == GEOS_LINESTRING || type == GEOS_POINT) points(o, r);
    }
    GEOSGeom_destroy_r(geos, o);
    GEOSGeom_destroy_r(geos, g);
    if (r.empty()) return false;
    a = r.front();
    b = r.back();
    return true;
}

// ---- CGAL, on exact fractions.
using Kernel = CGAL::Exact_predicates_exact_constructions_kernel;
using CPoint = Kernel::Point_2;
using CPolygon = CGAL::Polygon_2<Kernel>;
using CResult = std::vector<CGAL::Polygon_with_holes_2<Kernel>>;

static CResult cgal_outline(Window w, const std::vector<i32> &c) {
    CPolygon p, b;
    for (size_t i = 0; i < c.size(); i += 2) p.push_back(CPoint(c[i], c[i + 1]));
    for (auto &z : rectangle(w)) b.push_back(CPoint((double)z.X, (double)z.Y));
    CResult out;
    CGAL::intersection(p, b, std::back_inserter(out));
    return out;
}

// The exact corners of both, ours as fractions.
static bool cgal_differs(const CResult &out, std::vector<i32> e) {
    if (out.empty() || e.empty()) return out.empty() != e.empty();
    if (out.size() != 1) return true;
    const CPolygon &p = out[0].outer_boundary();
    size_t n = p.size(), start = 0;
    if (n != e.size() / 4) return true;
    for (size_t i = 1; i < n; i++)
        if (p[i].y() < p[start].y() || (p[i].y() == p[start].y() && p[i].x() < p[start].x())) start = i;
    for (size_t i = 0; i < n; i++) {
        const CPoint &q = p[(start + i) % n];
        if (q.x() * e[4 * i + 1] != e[4 * i] || q.y() * e[4 * i + 3] != e[4 * i + 2]) return true;
    }
    return false;
}

static bool cgal_stroke(Window w, Stroke s, CPoint &a, CPoint &b) {
    Kernel::Iso_rectangle_2 window(CPoint(w.left, w.bottom), CPoint(w.right, w.top));
    auto r = CGAL::intersection(window, Kernel::Segment_2(CPoint(s.x1, s.y1), CPoint(s.x2, s.y2)));
    if (!r) return false;
    if (const CPoint *p = boost::get<CPoint>(&*r)) a = b = *p;
    else {
        const Kernel::Segment_2 *q = boost::get<Kernel::Segment_2>(&*r);
        a = q->source();
        b = q->target();
    }
    return true;
}

static bool cgal_wrong(const StrokeInput &i) {
    CPoint a, b;
    const StrokeAnswer &e = i.exact;
    if (cgal_stroke(i.w, i.s, a, b) != (e.kept != 0)) return true;
    if (!e.kept) return false;
    CPoint o(i.s.x1, i.s.y1);
    Kernel::Vector_2 way(o, CPoint(i.s.x2, i.s.y2));
    CPoint ea = o + way * (Kernel::FT((i32)e.t0.num) / (i32)e.t0.den), eb = o + way * (Kernel::FT((i32)e.t1.num) / (i32)e.t1.den);
    return !((a == ea && b == eb) || (a == eb && b == ea));
}

static void cgal_line(const std::string &what, double ns, double ours, size_t all, size_t wrong) {
    std::printf("%-24s %-10s %9.1f ns, %7.1f times ours; of %zu: %zu differ\n", "CGAL, exact", what.c_str(), ns, ns / ours, all, wrong);
}

// It computes lazily, so the exact numbers are asked for, as ours gives them.
static void ask(const CPoint &p) {
    used(p.x().exact());
    used(p.y().exact());
}

static void cgal_rows(const Inputs &in) {
    for (auto &group : in.strokes) {
        size_t wrong = 0;
        for (auto &i : group.second) wrong += cgal_wrong(i);
        double ours = ours_strokes(group.second), ns = timed(group.second.size(), [&] {
            for (auto &i : group.second) {
                CPoint a, b;
                if (cgal_stroke(i.w, i.s, a, b)) { ask(a); ask(b); }
            }
        });
        cgal_line(group.first, ns, ours, group.second.size(), wrong);
    }
    for (auto &group : in.outlines) {
        size_t wrong = 0;
        for (auto &i : group.second) wrong += cgal_differs(cgal_outline(i.w, i.c), i.exact);
        double ours = ours_outlines(group.second), ns = timed(group.second.size(), [&] {
            for (auto &i : group.second)
                for (auto &p : cgal_outline(i.w, i.c))
                    for (auto &q : p.outer_boundary()) ask(q);
        });
        cgal_line(group.first, ns, ours, group.second.size(), wrong);
    }
}

// ---- The rows of a peer on whole numbers or doubles.
using OutlineOf = std::function<Rings(Window, const std::vector<i32> &)>;
using StrokeOf = std::function<bool(Window, Stroke, P &, P &)>;

static void rows(const char *who, const Inputs &in, const StrokeOf &stroke, const OutlineOf &outline) {
    for (auto &group : in.strokes) {
        StrokeTally t;
        for (auto &i : group.second) {
            P a, b;
            bool kept = stroke(i.w, i.s, a, b);
            t.add(i, kept, a, b);
        }
        double ours = ours_strokes(group.second);
        double ns = timed(group.second.size(), [&] { for (auto &i : group.second) { P a, b; used(stroke(i.w, i.s, a, b)); } });
        t.print(who, group.first.c_str(), ns, ours);
    }
    for (auto &group : in.outlines) {
        OutlineTally o;
        for (auto &i : group.second) {
            Rings r = outline(i.w, i.c);
            if (r.size() > 1) { o.all++; o.corners++; }
            else o.add(i, r.empty() ? std::vector<P>() : r[0]);
        }
        double ours = ours_outlines(group.second);
        double ns = timed(group.second.size(), [&] { for (auto &i : group.second) used(outline(i.w, i.c)); });
        o.print(who, group.first.c_str(), ns, ours);
    }
}

static std::string said(const std::function<Rings()> &call) {
    try {
        Rings r = call();
        if (r.empty()) return "nothing";
        std::string s;
        for (auto &q : r) {
            size_t n = q.size();
            if (n > 1 && q.front().x == q.back().x && q.front().y == q.back().y) n--;
            s += (s.empty() ? "" : " and ") + std::to_string(n) + " corners";
        }
        return s;
    } catch (const std::exception &) {
        return "an exception";
    }
}

static Rings cgal_rings(Window w, const std::vector<i32> &c) {
    Rings r;
    for (auto &p : cgal_outline(w, c)) {
        r.emplace_back();
        for (auto &q : p.outer_boundary()) r.back().push_back({ CGAL::to_double(q.x()), CGAL::to_double(q.y()) });
    }
    return r;
}

static std::string kept_or_not(const std::function<bool()> &call) {
    try {
        return call() ? "kept" : "missed";
    } catch (const std::exception &) {
        return "an exception";
    }
}

// Strokes that touch the window, or have no length.
static void touching(const std::vector<StrokeOf> &calls) {
    struct { const char *what; Stroke s; } cases[] = {
        { "touches a corner in passing", { -5, 5, 5, -5 } },
        { "ends on a side from outside", { -5, 5, 0, 5 } },
        { "lies along a side", { 0, 2, 0, 8 } },
        { "has no length, inside", { 5, 5, 5, 5 } },
        { "has no length, outside", { 15, 5, 15, 5 } },
    };
    std::printf("\nwindow 0 0 10 10; a stroke that       | ours | Clipper | Boost | GEOS clip | GEOS | CGAL\n");
    for (auto &c : cases) {
        Window w = { 0, 0, 10, 10 };
        P a, b;
        std::printf("%-36s | %s", c.what, gerlyantu_liang_barsky(w, c.s).kept ? "kept" : "missed");
        for (auto &call : calls) std::printf(" | %s", kept_or_not([&] { return call(w, c.s, a, b); }).c_str());
        std::printf("\n");
    }
}

static void at_the_edge(const std::vector<OutlineOf> &calls) {
    std::printf("\nwindow 0 0 10 10; an outline that     | ours | Clipper | Boost | GEOS clip | GEOS | CGAL\n");
    for (auto &e : edges()) {
        Window w = { 0, 0, 10, 10 };
        std::printf("%-36s | %s", e.what, ours_at_edge(e).c_str());
        for (auto &call : calls) std::printf(" | %s", said([&] { return call(w, e.c); }).c_str());
        std::printf("\n");
    }
}

// peers times INPUTS, or peers edges
int main(int, char **argv) {
    geos = GEOS_init_r();
    auto rect = [](Window w, Stroke s, P &a, P &b) { return geos_stroke(w, s, a, b, false); };
    auto general = [](Window w, Stroke s, P &a, P &b) { return geos_stroke(w, s, a, b, true); };
    auto rect_outline = [](Window w, const std::vector<i32> &c) { return geos_outline(w, c, false); };
    auto general_outline = [](Window w, const std::vector<i32> &c) { return geos_outline(w, c, true); };
    if (!std::strcmp(argv[1], "times")) {
        Inputs in = read_inputs(argv[2]);
        add_small(in);
        rows("Clipper", in, clipper_stroke, clipper_outline);
        rows("Boost.Geometry, doubles", in, boost_stroke, boost_outline);
        rows("GEOS, clip by rectangle", in, rect, rect_outline);
        rows("GEOS, intersection", in, general, general_outline);
        cgal_rows(in);
    } else {
        // it throws, and says no more
        CGAL::set_error_behaviour(CGAL::THROW_EXCEPTION);
        CGAL::set_error_handler([](const char *, const char *, const char *, int, const char *) {});
        CGAL::set_warning_handler([](const char *, const char *, const char *, int, const char *) {});
        auto cgal = [](Window w, Stroke s, P &, P &) { CPoint a, b; return cgal_stroke(w, s, a, b); };
        touching({ clipper_stroke, boost_stroke, rect, general, cgal });
        at_the_edge({ clipper_outline, boost_outline, rect_outline, general_outline, cgal_rings });
    }
    GEOS_finish_r(geos);
}
