//! What a net arrives in, before anything is known of it.

use crate::net::{Net, Weights};

/// Pins as threes (x, y, load) and macros as fours (left, bottom, right, top), if they are whole at
/// all, and the two weights.
#[derive(Clone, Debug, PartialEq, Eq)]
pub struct Lists {
    pub pins: Vec<i32>,
    pub macros: Vec<i32>,
    pub weights: Weights,
}

/// Pins without a load at places that are given as pairs (x, y); a number left over stays.
pub fn unloaded(places: &[i32]) -> Vec<i32> {
    places
        .chunks(2)
        .flat_map(|place| match place {
            [x, y] => vec![*x, *y, 0],
            left_over => left_over.to_vec(),
        })
        .collect()
}

impl Lists {
    /// Pins, macros and weights, as every operation takes them.
    pub fn parts(&self) -> (&[i32], &[i32], Weights) {
        (&self.pins, &self.macros, self.weights)
    }

    /// At most so many pins and macros, the first of both lists: what is left of an allowed net is
    /// allowed, if that is a pin at least.
    pub fn first(&self, pins: usize, macros: usize) -> Lists {
        let first = |list: &[i32], numbers: usize| list.iter().copied().take(numbers).collect();
        Lists {
            pins: first(&self.pins, Net::PIN_NUMBERS * pins),
            macros: first(&self.macros, Net::MACRO_NUMBERS * macros),
            weights: self.weights,
        }
    }
}

/// No pins and no macros, and weights that change no length.
impl Default for Lists {
    fn default() -> Lists {
        Lists {
            pins: Vec::new(),
            macros: Vec::new(),
            weights: Weights::ONE,
        }
    }
}
