//! Nets on a few units of the die, small enough to try all metal on.

use super::draft::Draft;
use super::{weights, Shift};
use crate::best::MACROS;
use crate::lists::Lists;
use crate::random::Random;

/// One to five pins and at most sixteen macros on at most thirteen units either way, so close together
/// that macros touch, wall off and are in the way; weights of all sorts; anywhere on the die, often
/// at its edge.
pub fn crowded(seed: u64) -> Lists {
    let random = &mut Random::new(!seed);
    let high = random.between(3, 10);
    let mut draft = Draft::default();
    match random.below(8) {
        0 => {}
        1 | 2 => walls(&mut draft, random, high),
        3 | 4 => cells(&mut draft, random, high),
        _ => {
            let (tries, longest) = (random.between(1, 16), random.between(high / 2, high));
            draft.macros_between(random, tries, (0, high), longest);
        }
    }
    let pins = random.choose(&[1, 2, 3, 4, 4, 5, 5, 5]);
    let tries = if draft.macros.is_empty() {
        0
    } else {
        random.between(0, pins)
    };
    match random.below(3) {
        0 => draft.pins_on_corners(random, tries),
        _ => draft.pins_on_sides(random, tries),
    }
    // Outside the macros there is room for all of them.
    while draft.pins.len() < pins as usize {
        draft.pins_between(random, 1, -1, high + 1);
    }
    let lists = Lists {
        weights: weights::weights(random),
        ..draft.turned(random)
    };
    Shift::of(&lists, &[], random.bits()).lists(&lists)
}

/// Level walls, one above the other, each with a gap of a unit or of none, that touch or not.
fn walls(draft: &mut Draft, random: &mut Random, high: i32) {
    let mut bottom = random.between(0, 1);
    while bottom < high && draft.macros.len() + 2 <= MACROS {
        let top = bottom + random.between(1, 2);
        let (gap, width) = (random.between(0, high), random.between(0, 1));
        draft.macro_box(0, bottom, gap, top);
        draft.macro_box(gap + width, bottom, high, top);
        bottom = top + random.between(0, 2);
    }
}

/// Cells between a few lines either way, most of them macros: they touch side to side and corner
/// to corner.
fn cells(draft: &mut Draft, random: &mut Random, high: i32) {
    let (xs, ys) = (cuts(random, high), cuts(random, high));
    for x in xs.windows(2) {
        for y in ys.windows(2) {
            if !random.one_in(4) {
                draft.macro_box(x[0], y[0], x[1], y[1]);
            }
        }
    }
}

/// Both ends and at most three numbers between them.
fn cuts(random: &mut Random, high: i32) -> Vec<i32> {
    let mut cuts = vec![0, high];
    cuts.extend((0..3).map(|_| random.between(1, high)));
    cuts.sort();
    cuts.dedup();
    cuts
}
