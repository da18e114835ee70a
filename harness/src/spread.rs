//! Random nets of a size, spread over a square: what trees and bounds are measured on where the number of pins and
//! macros counts.

use reference::lists::Lists;
use reference::net::{check, Net, Weights};
use reference::random::Random;

/// Half a side of the square.
const REACH: i32 = 5_000;

/// So many pins and macros on a square of 10,000 units. Each macro has a cell to itself, of which it takes up to nine
/// tenths either way; pins stand anywhere outside.
pub fn spread(m: usize, k: usize, weights: Weights, seed: u64) -> Lists {
    let random = &mut Random::new(seed ^ (m as u64) << 32 ^ (k as u64) << 48);
    let mut lists = Lists {
        macros: macros(random, k),
        weights,
        ..Lists::default()
    };
    while lists.pins.len() < Net::PIN_NUMBERS * m {
        let before = lists.pins.len();
        let [x, y] = [0; 2].map(|_| random.between(-REACH, REACH));
        lists.pins.extend([x, y, 0]);
        let (pins, macros, weights) = lists.parts();
        if check(pins, macros, weights).is_err() {
            lists.pins.truncate(before);
        }
    }
    lists
}

/// Macros in cells that are taken at random, of a square of cells just large enough.
fn macros(random: &mut Random, k: usize) -> Vec<i32> {
    let side = (1..).find(|side| side * side >= k as i32).unwrap_or(1);
    let cell = 2 * REACH / side;
    let mut cells: Vec<i32> = (0..side * side).collect();
    random.shuffle(&mut cells);
    let in_cell = |number: &i32| {
        let [left, bottom] = [number / side, number % side].map(|at| at * cell - REACH);
        let [width, height] = [0; 2].map(|_| random.between(1, cell * 9 / 10));
        let [x, y] = [
            left + random.between(0, cell - width),
            bottom + random.between(0, cell - height),
        ];
        [x, y, x + width, y + height]
    };
    cells[..k].iter().flat_map(in_cell).collect()
}
