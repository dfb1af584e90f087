//! Strictly convex corner lists, counterclockwise, made in several ways.

use super::numbers::{near, on_table, onto_table};
use super::windows::Window;
use crate::hull;
use crate::point::Point;
use crate::random::Random;
use crate::table::MOST;

pub type Corner = [i32; 2];

/// Of 3 to `most` corners; some have to do with the window.
pub fn convex(random: &mut Random, most: usize, window: Window) -> Vec<Corner> {
    loop {
        let points = match random.below(14) {
            0..=3 => round(random, most),
            4 => scattered(random, 3 * most),
            5 | 6 => parabola(random, most),
            7 => sliver(random),
            8 | 9 => triangle(random),
            10 => on_corner(random, window),
            11 | 12 => by_window(random, window),
            _ => box_like(random, window),
        };
        let ring = thinned(random, ring(&points), most);
        if ring.len() >= 3 {
            return begun_anywhere(random, ring);
        }
    }
}

/// The corners of the hull, as whole numbers.
pub fn ring(points: &[Corner]) -> Vec<Corner> {
    let points = points
        .iter()
        .map(|[x, y]| Point::whole((*x).into(), (*y).into()));
    hull::ring(points.collect())
        .iter()
        .map(|point| [point.x.num as i32, point.y.num as i32])
        .collect()
}

/// Some corners of a strictly convex ring are one again.
fn thinned(random: &mut Random, mut ring: Vec<Corner>, most: usize) -> Vec<Corner> {
    while ring.len() > most {
        let place = random.below(ring.len());
        ring.remove(place);
    }
    ring
}

fn begun_anywhere(random: &mut Random, mut ring: Vec<Corner>) -> Vec<Corner> {
    let first = random.below(ring.len());
    ring.rotate_left(first);
    ring
}

fn round(random: &mut Random, most: usize) -> Vec<Corner> {
    let few = 3 + random.below(most - 2);
    let count = random.pick(&[few, most]);
    let reach = random.pick(&[6, 30, 300, 5_000, MOST]);
    let size = [(); 2].map(|_| random.between(reach / 3, reach));
    let middle = size.map(|size| middle(random, size));
    let phase = random.below(360) as f64;
    regular(count, middle, size, phase)
}

/// A regular polygon, flattened or not, rounded to the grid.
pub fn regular(count: usize, middle: Corner, size: [i32; 2], phase: f64) -> Vec<Corner> {
    let corner = |k: usize| {
        let angle = (phase + 360.0 * k as f64 / count as f64).to_radians();
        let x = f64::from(size[0]) * angle.cos();
        let y = f64::from(size[1]) * angle.sin();
        [middle[0] + x.round() as i32, middle[1] + y.round() as i32]
    };
    (0..count).map(corner).collect()
}

/// A middle from which `reach` stays on the table, most often close to its centre.
fn middle(random: &mut Random, reach: i32) -> i32 {
    let free = MOST - reach;
    let close = free.min(12);
    if random.one_in(3) {
        random.between(-free, free)
    } else {
        random.between(-close, close)
    }
}

fn scattered(random: &mut Random, most: usize) -> Vec<Corner> {
    let reach = random.pick(&[5, 25, 1_000, MOST]);
    let count = 3 + random.below(most);
    (0..count)
        .map(|_| [random.between(-reach, reach), random.between(-reach, reach)])
        .collect()
}

/// Points of y = x x, in one of four positions.
pub fn parabola(random: &mut Random, count: usize) -> Vec<Corner> {
    let first = -random.between(0, count as i32);
    let shift = [random.between(-40, 40), random.between(-40, 40)];
    let position = random.below(4);
    let corner = |k: i32| {
        let (x, y) = (k + shift[0], k * k + shift[1]);
        [[x, y], [y, x], [x, -y], [-y, x]][position]
    };
    (first..first + count as i32).map(corner).collect()
}

/// Long, and one or two grid steps wide.
fn sliver(random: &mut Random) -> Vec<Corner> {
    let reach = random.pick(&[20, 400, 16_000]);
    let end = [random.between(-reach, reach), random.between(-reach, reach)];
    (0..5)
        .map(|_| {
            let part = random.between(-8, 8);
            [
                near(random, end[0] * part / 8, 1),
                near(random, end[1] * part / 8, 1),
            ]
        })
        .collect()
}

fn triangle(random: &mut Random) -> Vec<Corner> {
    let reach = random.pick(&[6, 16, 60, MOST]);
    (0..3)
        .map(|_| [random.between(-reach, reach), random.between(-reach, reach)])
        .collect()
}

/// An edge straight through a corner of the window.
fn on_corner(random: &mut Random, window: Window) -> Vec<Corner> {
    let corner = [
        random.pick(&[window[0], window[2]]),
        random.pick(&[window[1], window[3]]),
    ];
    let step = [random.between(-9, 9), random.between(-9, 9)];
    let (before, after) = (random.between(0, 9), random.between(0, 9));
    let along = |k: i32| [corner[0] + k * step[0], corner[1] + k * step[1]].map(onto_table);
    let third = [near(random, corner[0], 40), near(random, corner[1], 40)];
    vec![along(-before), along(after), third]
}

/// Corners with coordinates at or beside the window's own.
fn by_window(random: &mut Random, window: Window) -> Vec<Corner> {
    let reach = random.pick(&[0, 1, 6]);
    let mut number = |low: i32, high: i32| {
        let middle = low + (high - low) / 2;
        let n = random.pick(&[low, high, low, high, middle]);
        near(random, n, reach)
    };
    let [left, bottom, right, top] = window;
    (0..6)
        .map(|_| [number(left, right), number(bottom, top)])
        .collect()
}

/// A rectangle that has sides in common with the window, holds it, or lies in it.
fn box_like(random: &mut Random, window: Window) -> Vec<Corner> {
    let reach = random.pick(&[0, 1, 5]);
    let [left, bottom, right, top] = window.map(|n| near(random, n, reach));
    let far = on_table(random);
    let right = if random.one_in(6) { far } else { right };
    vec![[left, bottom], [right, bottom], [right, top], [left, top]]
}
