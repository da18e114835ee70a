//! The same net on another site.

use crate::lists::Lists;
use crate::net::Net;
use crate::random::Random;

/// A fixed amount in x and in y.
#[derive(Clone, Copy, Debug, Default, PartialEq, Eq)]
pub struct Shift {
    pub x: i32,
    pub y: i32,
}

impl Shift {
    /// A shift that keeps lists, and the edges of a bought-in tree, in range: none, as far as the range goes to either side, or any
    /// between. What is not of whole entries or not in range stays where it is.
    pub fn of(lists: &Lists, edges: &[i32], seed: u64) -> Shift {
        let whole = lists.pins.len().is_multiple_of(Net::PIN_NUMBERS)
            && lists.macros.len().is_multiple_of(Net::MACRO_NUMBERS)
            && edges.len().is_multiple_of(4);
        let (xs, ys) = coordinates(lists, edges);
        let range = -Net::COORDINATE..=Net::COORDINATE;
        if !whole || !xs.iter().chain(&ys).all(|z| range.contains(z)) {
            return Shift::default();
        }
        let random = &mut Random::new(seed);
        Shift {
            x: along(&xs, random),
            y: along(&ys, random),
        }
    }

    /// The lists, shifted; loads and weights stay.
    pub fn lists(self, lists: &Lists) -> Lists {
        let mut moved = lists.clone();
        for pin in moved.pins.chunks_exact_mut(Net::PIN_NUMBERS) {
            self.places(&mut pin[..2]);
        }
        self.places(&mut moved.macros);
        moved
    }

    /// A place, shifted. It may be anywhere in 32 bits; what is far out of range stays out of range.
    pub fn place(self, (x, y): (i32, i32)) -> (i32, i32) {
        (x.wrapping_add(self.x), y.wrapping_add(self.y))
    }

    /// Places as they are lent, pairs of x and y, shifted.
    pub fn places(self, numbers: &mut [i32]) {
        for place in numbers.chunks_exact_mut(2) {
            place[0] += self.x;
            place[1] += self.y;
        }
    }

    /// Terminal paths as they are lent, two places and a length, shifted.
    pub fn paths(self, numbers: &mut [i64]) {
        let by = [self.x, self.y, self.x, self.y].map(i64::from);
        for path in numbers.chunks_exact_mut(5) {
            for (number, by) in path.iter_mut().zip(by) {
                *number += by;
            }
        }
    }
}

/// All x and all y of pins, macros and edges.
fn coordinates(lists: &Lists, edges: &[i32]) -> (Vec<i32>, Vec<i32>) {
    let pins = lists.pins.chunks_exact(Net::PIN_NUMBERS);
    let others = lists.macros.chunks_exact(2).chain(edges.chunks_exact(2));
    let places = pins.map(|pin| &pin[..2]).chain(others);
    places.map(|place| (place[0], place[1])).unzip()
}

/// How far these go.
fn along(axis: &[i32], random: &mut Random) -> i32 {
    let low = axis
        .iter()
        .min()
        .map_or(0, |least| -Net::COORDINATE - least);
    let high = axis.iter().max().map_or(0, |most| Net::COORDINATE - most);
    let between = random.between(low, high);
    random.choose(&[0, low, high, between])
}

#[cfg(test)]
mod tests {
    use super::*;
    use crate::generate::{net, Kind};

    /// Nets reach each edge of the range, and never pass it.
    #[test]
    fn shifts_go_to_the_edges_of_the_range() {
        let mut reached = [false; 4];
        for seed in 0..200 {
            let lists = net(Kind::TinyFour, seed);
            let moved = Shift::of(&lists, &[], seed).lists(&lists);
            let (xs, ys) = coordinates(&moved, &[]);
            for (at, axis) in [xs, ys].iter().enumerate() {
                let (low, high) = (axis.iter().min().unwrap(), axis.iter().max().unwrap());
                assert!(-Net::COORDINATE <= *low && *high <= Net::COORDINATE);
                reached[2 * at] |= *low == -Net::COORDINATE;
                reached[2 * at + 1] |= *high == Net::COORDINATE;
            }
        }
        assert_eq!(reached, [true; 4]);
    }
}
