//! The same net with its lists in another order; the weights have none.

use crate::lists::Lists;
use crate::net::Net;
use crate::random::Random;

/// The entries of both lists in another order; lists must be whole entries.
pub fn permuted(lists: &Lists, seed: u64) -> Lists {
    let mut random = Random::new(seed);
    Lists {
        pins: shuffled(&lists.pins, Net::PIN_NUMBERS, &mut random),
        macros: shuffled(&lists.macros, Net::MACRO_NUMBERS, &mut random),
        weights: lists.weights,
    }
}

fn shuffled(list: &[i32], width: usize, random: &mut Random) -> Vec<i32> {
    let mut entries: Vec<&[i32]> = list.chunks(width).collect();
    random.shuffle(&mut entries);
    entries.concat()
}
