//! An outline against a rectangle, from the shape that is common to both.
//!
//! The common shape is convex and every corner of it is a corner of one that lies in the other,
//! or a crossing of an edge with a side. The ring is the hull of all of these.

use crate::convex;
use crate::hull;
use crate::point::{corners, Point};
use crate::rectangle::{self, Rectangle};
use crate::refusal::{at, lowest, when, Refusal};
use crate::stroke::Stroke;
use crate::table;

const MOST_ORDER: u32 = 23;

pub fn write(
    order: u32,
    window: [i32; 4],
    outline: &[i32],
    room: usize,
) -> Result<Vec<i128>, Refusal> {
    let [range, area] = rectangle::faults(window);
    let odd_or_count = outline.len() % 2 == 1 || !(3..=64).contains(&(outline.len() / 2));
    lowest(&[
        range,
        area,
        when(order > MOST_ORDER, 4),
        when(odd_or_count, 5),
        at(table::first_off(outline), 6),
        when(!convex::strictly(&corners(outline)), 7),
    ])?;
    let answer = numbers(&ring(window, outline));
    let short = (answer.len() > room).then_some(answer.len());
    lowest(&[at(short, 8)])?;
    Ok(answer)
}

/// The ring of the common shape; empty if that has no area.
pub fn ring(window: [i32; 4], outline: &[i32]) -> Vec<Point> {
    let ring = hull::ring(candidates(Rectangle::of(window), outline));
    if ring.len() < 3 {
        Vec::new()
    } else {
        ring
    }
}

fn numbers(ring: &[Point]) -> Vec<i128> {
    ring.iter()
        .flat_map(|point| [point.x.num, point.x.den, point.y.num, point.y.den])
        .collect()
}

fn candidates(window: Rectangle, outline: &[i32]) -> Vec<Point> {
    let outline = corners(outline);
    let in_outline = |point: &Point| convex::holds(&outline, *point);
    let mut all: Vec<Point> = window.corners().into_iter().filter(in_outline).collect();
    all.extend(outline.iter().filter(|point| window.holds(**point)));
    for k in 0..outline.len() {
        all.extend(crossings(
            &window,
            outline[k],
            outline[(k + 1) % outline.len()],
        ));
    }
    all
}

/// Where the edge from a to b meets the window's border. An edge along a side adds nothing:
/// the ends of what they share are corners of one in the other.
fn crossings(window: &Rectangle, a: Point, b: Point) -> Vec<Point> {
    let edge = Stroke {
        x1: a.x.num,
        y1: a.y.num,
        dx: b.x.num - a.x.num,
        dy: b.y.num - a.y.num,
    };
    [
        edge.where_x(window.left),
        edge.where_x(window.right),
        edge.where_y(window.bottom),
        edge.where_y(window.top),
    ]
    .into_iter()
    .flatten()
    .filter(|t| 0 <= t.num && t.num <= t.den)
    .map(|t| edge.at(t))
    .filter(|point| window.holds(*point))
    .collect()
}
