//! Weights to go with lists: allowed ones, and any two numbers.

use crate::net::{Net, Weights};
use crate::random::Random;

/// Weights that are allowed: both 1, both the greatest, one of each, equal, or any two.
pub fn weights(random: &mut Random) -> Weights {
    let (least, greatest) = (Net::LEAST_WEIGHT, Net::GREATEST_WEIGHT);
    let (x, y) = match random.below(8) {
        0 => (least, least),
        1 => (greatest, greatest),
        2 => random.choose(&[(least, greatest), (greatest, least)]),
        3 => {
            let both = allowed(random);
            (both, both)
        }
        _ => (allowed(random), allowed(random)),
    };
    Weights { x, y }
}

/// Weights of which one at least is outside 1 to 8.
pub fn outside(random: &mut Random) -> Weights {
    let (x, y) = match random.below(3) {
        0 => (beyond(random), allowed(random)),
        1 => (allowed(random), beyond(random)),
        _ => (beyond(random), beyond(random)),
    };
    Weights { x, y }
}

/// Weights of either sort.
pub fn any(random: &mut Random) -> Weights {
    if random.one_in(2) {
        weights(random)
    } else {
        outside(random)
    }
}

fn allowed(random: &mut Random) -> i32 {
    random.between(Net::LEAST_WEIGHT, Net::GREATEST_WEIGHT)
}

/// A weight just outside 1 to 8, one whose low bits are such a weight, one at the ends of 32 bits,
/// or any number below or above.
fn beyond(random: &mut Random) -> i32 {
    match random.below(4) {
        0 => random.choose(&[Net::LEAST_WEIGHT - 1, Net::GREATEST_WEIGHT + 1]),
        1 => random.choose(&[-8, -1, 256 + 1, (1 << 16) + 8, (1 << 30) + 1]),
        2 => random.choose(&[i32::MIN, i32::MIN + 1, i32::MAX - 1, i32::MAX]),
        _ if random.one_in(2) => random.between(i32::MIN, Net::LEAST_WEIGHT - 1),
        _ => random.between(Net::GREATEST_WEIGHT + 1, i32::MAX),
    }
}
