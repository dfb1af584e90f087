//! Groups of lines on neighbouring strips: the fixed ones, of every sentence that is promised of them, then random ones.

use super::border_kinds;
use super::neighbours::{Asked, Group, Neighbours};
use super::numbers::spoil;
use super::stroke_kinds::Stroke;
use super::{joined_afar, joined_lists, joined_strokes, strokes};
use crate::random::Random;

/// At least the fixed groups; the last group may go beyond the count.
pub fn lines(seed: u64, count: usize) -> Vec<Vec<u8>> {
    let mut random = Random::new(seed);
    let mut lines = fixed();
    while lines.len() < count {
        lines.extend(group(&mut random).lines());
    }
    lines
}

pub fn fixed() -> Vec<Vec<u8>> {
    let groups = [
        joined_strokes::groups(),
        joined_afar::groups(),
        joined_lists::groups(),
    ];
    groups.concat().iter().flat_map(Group::lines).collect()
}

fn group(random: &mut Random) -> Group {
    let strips = border_kinds::strips(random);
    let asked = if random.one_in(5) {
        list(random, &strips)
    } else {
        stroke(random, &strips)
    };
    Group { strips, asked }
}

/// Now and then refused.
fn stroke(random: &mut Random, strips: &Neighbours) -> Asked {
    let stroke = border_kinds::stroke(random, strips);
    Asked::Stroke(match random.below(24) {
        0 => strokes::off(random, stroke),
        _ => stroke,
    })
}

/// In exactly enough room or a little more; now and then refused for its numbers or for its length.
fn list(random: &mut Random, strips: &Neighbours) -> Asked {
    let count = 2 + random.below(11);
    let strokes: Vec<Stroke> = (0..count)
        .map(|_| border_kinds::stroke(random, strips))
        .collect();
    let mut list = strokes.concat();
    let room = strips.needed(&list) + random.pick(&[0, 0, 1, 7]);
    match random.below(16) {
        0 => spoil(random, &mut list),
        1 => _ = list.pop(),
        _ => {}
    }
    Asked::List(room, list)
}
