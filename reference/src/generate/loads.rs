//! Loads to go with the pins of a list: allowed ones of all sorts, one above 0 at least.

use crate::lists::Lists;
use crate::net::Net;
use crate::random::Random;

/// The lists with loads on their pins, which must be whole entries and one at least: on one pin
/// alone, on some or on all of them, small or up to the greatest.
pub fn loaded(lists: &Lists, seed: u64) -> Lists {
    with_loads(lists.clone(), &mut Random::new(seed))
}

pub(super) fn with_loads(mut lists: Lists, random: &mut Random) -> Lists {
    let pins = lists.pins.len() / Net::PIN_NUMBERS;
    if pins == 0 {
        return lists;
    }
    let greatest = random.choose(&[1, 9, Net::LOAD]);
    let bare = random.choose(&[0, 2, 4]);
    for pin in lists.pins.chunks_exact_mut(Net::PIN_NUMBERS) {
        let stays = bare > 0 && !random.one_in(bare);
        pin[2] = if stays {
            0
        } else {
            random.between(0, greatest)
        };
    }
    let one = random.below(pins);
    lists.pins[one * Net::PIN_NUMBERS + 2] = random.choose(&[1, greatest, Net::LOAD]);
    lists
}
