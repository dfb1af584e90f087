//! Corner lists that are not strictly convex counterclockwise.

use super::shapes::Corner;
use crate::random::Random;

/// It turns left at all five corners and still crosses itself.
pub const PENTAGRAM: [Corner; 5] = [[0, 3], [-2, -3], [3, 1], [-3, 1], [2, -3]];

pub fn flawed(random: &mut Random, ring: &[Corner]) -> Vec<Corner> {
    let mut list = ring.to_vec();
    let place = random.below(list.len());
    match random.below(9) {
        0 | 1 => list.reverse(),
        2 => list.insert(place, list[place]),
        3 => list.push(list[0]),
        4 => list.push(list[place]),
        5 => list = on_one_line(&list, place),
        6 => list.swap(place, (place + 1) % ring.len()),
        7 => list.extend(ring),
        _ => list = pentagram(random),
    }
    list
}

/// Even coordinates, so that the middle of an edge is a grid point.
fn on_one_line(ring: &[Corner], place: usize) -> Vec<Corner> {
    let mut list: Vec<Corner> = ring.iter().map(|c| [c[0] / 2 * 2, c[1] / 2 * 2]).collect();
    let (a, b) = (list[place], list[(place + 1) % list.len()]);
    list.insert(place + 1, [(a[0] + b[0]) / 2, (a[1] + b[1]) / 2]);
    list
}

fn pentagram(random: &mut Random) -> Vec<Corner> {
    let scale = random.between(1, 1_000);
    let shift = random.between(-9, 9);
    let mut list: Vec<Corner> = PENTAGRAM
        .iter()
        .map(|[x, y]| [x * scale + shift, y * scale - shift])
        .collect();
    list.rotate_left(random.below(5));
    list
}
