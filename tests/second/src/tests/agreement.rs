//! Two ways to the same answer, over a lot of cases.

use super::passes;
use crate::call::{read, Call};
use crate::cases::lot;
use crate::fraction::Fraction;
use crate::liang_barsky::{clip, taken};
use crate::point::corners;
use crate::rectangle::Rectangle;
use crate::stroke::Stroke;
use crate::sweeps;
use crate::{answer, cohen_sutherland, millimetres, outline};

fn calls() -> impl Iterator<Item = Call> {
    lot(7, 9_000).into_iter().filter_map(|line| read(&line))
}

#[test]
fn shortening_ends_where_the_kept_t_end() {
    for call in calls() {
        if let Call::LiangBarsky(window, stroke) | Call::CohenSutherland(window, stroke) = call {
            if taken(window, stroke).is_ok() {
                shortened(window, stroke);
            }
        }
    }
}

fn shortened(window: [i32; 4], stroke: [i32; 4]) {
    let run = cohen_sutherland::run(window, stroke);
    let kept = clip(window, stroke);
    assert_eq!(run.kept, kept.is_some(), "{window:?} {stroke:?}");
    assert!(run.shortenings <= 4);
    if let Some(kept) = kept {
        let ends = [kept.t0, kept.t1].map(|t| Stroke::of(stroke).at(t));
        assert_eq!(run.ends, ends, "{window:?} {stroke:?}");
    }
}

#[test]
fn rounded_ends_stay_in_the_window() {
    for call in calls() {
        if let Call::LiangBarsky(window, stroke) = call {
            let Some(kept) = taken(window, stroke)
                .ok()
                .and_then(|_| clip(window, stroke))
            else {
                continue;
            };
            let window = Rectangle::of(window);
            for [x, y] in [kept.first, kept.last] {
                assert!((window.left..=window.right).contains(&x));
                assert!((window.bottom..=window.top).contains(&y));
            }
        }
    }
}

#[test]
fn every_order_of_passes_ends_in_the_hull() {
    for call in calls() {
        if let Call::Outline(order, _, window, list) = call {
            if outline::write(order, window, &list, 1_000).is_err() {
                continue;
            }
            let ring = outline::ring(window, &list);
            for order in passes::orders() {
                let by_passes = passes::ring(window, &corners(&list), order);
                assert_eq!(ring, by_passes, "{order:?} {window:?} {list:?}");
            }
        }
    }
}

/// Times 32 is exact in f32, so the machine's own rounding of it must come to the same.
#[test]
fn intake_as_the_machine_rounds() {
    for bits in (0..=u32::MAX).step_by(65_537) {
        let scaled = 32.0 * f32::from_bits(bits);
        let expected = match scaled.round_ties_even() {
            n if n.is_nan() => Err(9),
            n if n.abs() > 16_383.0 => Err(10),
            n => Ok(n as i32),
        };
        assert_eq!(millimetres::grid(bits), expected, "{bits:08x}");
    }
}

#[test]
fn every_grid_number_there_and_back() {
    for g in -16_383..=16_383 {
        let bits = millimetres::back(g).unwrap_or(1);
        assert_eq!(f32::from_bits(bits), g as f32 / 32.0);
        assert_eq!(millimetres::grid(bits), Ok(g));
    }
    assert!(sweeps::grid().all(|line| answer::answer(line.as_bytes()) != "?"));
}

#[test]
fn fractions_are_in_lowest_terms() {
    assert_eq!(Fraction::new(6, -4), Fraction { num: -3, den: 2 });
    assert_eq!(Fraction::new(0, -7), Fraction::ZERO);
    assert_eq!(Fraction::new(-7, 2).floor(), -4);
}
