//! Nets on which something rare happens while refining under some weights, found by trying.

use super::draft::Draft;
use super::nets;
use crate::lists::Lists;
use crate::net::{check, Net, Weights};
use crate::random::Random;
use crate::refined::{refined, Statistics};

/// At least three rounds gain.
pub fn rounds(random: &mut Random, weights: Weights) -> Lists {
    find(random, weights, tiny, |s| s.rounds >= 3)
}

/// At least one point is pruned.
pub fn pruned(random: &mut Random, weights: Weights) -> Lists {
    find(random, weights, tiny, |s| s.pruned > 0)
}

/// At least one candidate is dropped.
pub fn dropped(random: &mut Random, weights: Weights) -> Lists {
    find(random, weights, tiny, |s| s.dropped > 0)
}

fn tiny(random: &mut Random) -> Lists {
    nets::tiny(random, 8)
}

/// A dropped candidate would have won a round. On random nets that is too rare to wait for, so
/// entries are added to a net known for it under weights 1 and 1, and the whole is stretched and
/// moved, which changes no order and no comparison of lengths: along x by the weight of y and along
/// y by that of x, so that every cost is the plain length times both.
pub fn dropped_wins(random: &mut Random, weights: Weights) -> Lists {
    let lists = find(random, Weights::ONE, about_a_dropped_winner, |s| {
        s.dropped_would_win
    });
    let stretch = random.choose(&[1, 2, 30_000 / weights.x.max(weights.y)]);
    let (right, up) = (random.between(-999, 999), random.between(-999, 999));
    let across = |x: i32| x * stretch * weights.y + right;
    let along = |y: i32| y * stretch * weights.x + up;
    let pin = |pin: &[i32]| [across(pin[0]), along(pin[1]), pin[2]];
    let sides = |m: &[i32]| [across(m[0]), along(m[1]), across(m[2]), along(m[3])];
    Lists {
        pins: lists.pins.chunks(Net::PIN_NUMBERS).flat_map(pin).collect(),
        macros: lists
            .macros
            .chunks(Net::MACRO_NUMBERS)
            .flat_map(sides)
            .collect(),
        weights,
    }
}

/// Two macros that touch, with a pin just below the seam: the edge from (2, 11) to (4, 10) and the
/// corner (9, 11) would win with s = (4, 11), which is a corner on the seam.
fn about_a_dropped_winner(random: &mut Random) -> Lists {
    let mut draft = Draft::default();
    for (x, y) in [(0, 9), (2, 11), (3, 18), (4, 10), (9, 15), (13, 11)] {
        draft.pin(x, y);
    }
    draft.macro_box(0, 11, 4, 18);
    draft.macro_box(4, 11, 9, 18);
    let tries = random.between(0, 4);
    draft.macros_between(random, tries, (-10, 30), 8);
    let tries = random.between(0, 4);
    draft.pins_between(random, tries, -10, 30);
    draft.lists()
}

/// m rounds are done and a further gain is still there: ways that zigzag over many small macros
/// gain at every bend, and there are few pins to count rounds by.
pub fn bound_ends(random: &mut Random, weights: Weights) -> Lists {
    let drawn = |random: &mut Random| {
        let lists = few_pins_far_apart(random);
        match weights {
            Weights::ONE => lists,
            _ => roughly_stretched(&lists, random, weights),
        }
    };
    find(random, weights, drawn, |s| s.bound_ended)
}

/// The net stretched by the weights as above, so that neither axis is far dearer than it was, and
/// each coordinate then moved on by less than its stretch, so that it is a net of its own. A macro
/// that would now meet something is left out.
fn roughly_stretched(lists: &Lists, random: &mut Random, weights: Weights) -> Lists {
    let mut moved = |c: i32, stretch: i32| c * stretch + random.between(0, stretch - 1);
    let mut draft = Draft::default();
    for pin in lists.pins.chunks_exact(Net::PIN_NUMBERS) {
        draft.pin(moved(pin[0], weights.y), moved(pin[1], weights.x));
    }
    for four in lists.macros.chunks_exact(Net::MACRO_NUMBERS) {
        let (left, bottom) = (moved(four[0], weights.y), moved(four[1], weights.x));
        let (right, top) = (moved(four[2], weights.y), moved(four[3], weights.x));
        draft.macro_box(left, bottom, right, top);
    }
    draft.lists()
}

fn few_pins_far_apart(random: &mut Random) -> Lists {
    let (width, height) = random.choose(&[(1_000, 400), (4_000, 1_000)]);
    let mut draft = Draft::default();
    draft.pin(0, random.between(0, height));
    draft.pin(width, random.between(0, height));
    for _ in 0..random.choose(&[0, 0, 0, 1, 2]) {
        draft.pin(random.between(0, width), random.between(0, height));
    }
    for _ in 0..random.between(20, 32) {
        let (x, y) = (random.between(0, width), random.between(0, height));
        draft.macro_box(x, y, x + random.between(1, 3), y + random.between(1, 3));
    }
    draft.turned(random)
}

/// Draws nets until one is refined in the way asked for.
fn find(
    random: &mut Random,
    weights: Weights,
    draw: impl Fn(&mut Random) -> Lists,
    wanted: impl Fn(&Statistics) -> bool,
) -> Lists {
    loop {
        let lists = draw(random);
        let net = check(&lists.pins, &lists.macros, weights).expect("drawn nets are allowed");
        if wanted(&refined(&net).statistics) {
            return lists;
        }
    }
}
