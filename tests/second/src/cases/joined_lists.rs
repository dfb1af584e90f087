//! Fixed lists on neighbouring strips, in as much room as the joined window needs for them with their touches, or more.

use super::joined_afar;
use super::joined_strokes::{
    both_ways, ALONG, AT_ITS_ENDS, CROSSING, IN_ONE, MISSED, NO_LENGTH, REFUSED, SQUARE, TOUCHING,
    UP_TO_IT,
};
use super::neighbours::{Asked, Group, Neighbours};
use super::stroke_kinds::Stroke;

pub fn groups() -> Vec<Group> {
    let afar = joined_afar::lists().map(|(strips, list)| listed(strips, list, 0));
    [on_the_square(), refused(), afar.to_vec()].concat()
}

/// In as much room as it needs, and some numbers more.
fn listed(strips: Neighbours, list: &[Stroke], more: usize) -> Group {
    let list = list.concat();
    lent(strips, strips.needed(&list) + more, list)
}

fn lent(strips: Neighbours, room: usize, list: Vec<i32>) -> Group {
    let asked = Asked::List(room, list);
    Group { strips, asked }
}

fn on_the_square() -> Vec<Group> {
    let up_to_it = [&AT_ITS_ENDS[..], &UP_TO_IT].concat();
    // Dots that are meant between such as are not.
    let dots = [&TOUCHING[..], &NO_LENGTH, &TOUCHING, &MISSED].concat();
    vec![
        listed(SQUARE, &both_ways(&CROSSING), 0),
        listed(SQUARE, &both_ways(&up_to_it), 3),
        listed(SQUARE, &both_ways(&ALONG), 0),
        listed(SQUARE, &dots, 0),
        listed(SQUARE, &IN_ONE, 1),
        listed(SQUARE, &MISSED, 0),
        listed(SQUARE, &TOUCHING[..1], 0),
        listed(SQUARE, &[], 0),
    ]
}

/// For its length, for a number off the table, for both.
fn refused() -> Vec<Group> {
    let good = CROSSING.concat();
    let off = [&CROSSING[..2], &REFUSED[..1]].concat().concat();
    vec![
        lent(SQUARE, 60, good[..47].to_vec()),
        lent(SQUARE, 10, off.clone()),
        lent(SQUARE, 10, off[..11].to_vec()),
    ]
}
