//! How much is tried: 1 to 9.

use super::relay::Reach;
use crate::line::plain;
use crate::program::{Failure, Switch, Words};

/// An effort. A greater one goes on where a smaller one ends, so its tree is never dearer.
#[derive(Clone, Copy, Debug, PartialEq, Eq, PartialOrd, Ord)]
pub struct Effort(usize);

/// What an effort stands for.
struct Level {
    /// How many of [`REACHES`] are gone through.
    reaches: usize,
    /// How many steps are taken for each crossing of the grid, from each tree that the search begins with.
    steps: u64,
    /// How many trees, each grown from another pin, it begins with beside the router's own.
    grown: usize,
}

/// Relays in the order in which they are tried. Nearly all of the gain comes from the first ones.
const REACHES: [Reach; 6] = [
    reach(1, 4, 4),
    reach(2, 5, 4),
    reach(3, 5, 4),
    reach(4, 6, 4),
    reach(3, 6, 8),
    reach(5, 7, 4),
];

const fn reach(keys: usize, parts: usize, margin: u64) -> Reach {
    Reach {
        keys,
        parts,
        margin,
    }
}

const fn level(reaches: usize, steps: u64, grown: usize) -> Level {
    Level {
        reaches,
        steps,
        grown,
    }
}

const LEVELS: [Level; 9] = [
    level(1, 20, 0),
    level(2, 40, 0),
    level(3, 60, 0),
    level(4, 60, 0),
    level(4, 70, 0),
    level(5, 200, 0),
    level(6, 500, 0),
    level(6, 1_000, 2),
    level(6, 5_000, 8),
];

/// A small grid has as many steps as one of so many crossings: that takes no time to speak of.
const FEW_CROSSINGS: u64 = 16_384;

impl Effort {
    pub const LEAST: usize = 1;
    pub const MOST: usize = LEVELS.len();

    /// The effort of a number, where it is one.
    pub fn of(number: usize) -> Option<Effort> {
        (Effort::LEAST..=Effort::MOST)
            .contains(&number)
            .then_some(Effort(number))
    }

    pub fn number(self) -> usize {
        self.0
    }

    fn level(self) -> &'static Level {
        &LEVELS[self.0 - Effort::LEAST]
    }

    pub(super) fn reaches(self) -> &'static [Reach] {
        &REACHES[..self.level().reaches]
    }

    /// How many steps a search on a grid of so many crossings takes at the most.
    pub fn steps(self, crossings: u64) -> u64 {
        self.level().steps * crossings.max(FEW_CROSSINGS)
    }

    pub(super) fn grown(self) -> usize {
        self.level().grown
    }
}

/// A second or so for the largest nets.
impl Default for Effort {
    fn default() -> Effort {
        Effort(5)
    }
}

/// How much a search tries.
pub const EFFORT: Switch = Switch {
    name: "--effort",
    value: Some("a number from 1 to 9"),
};

/// Asks for the shortened tree, in commands that give other trees too.
pub const SHORTENED: Switch = Switch {
    name: "--shortened",
    value: None,
};

/// The effort that a command line asks for.
pub fn effort(words: &Words) -> Result<Effort, Failure> {
    let Some(said) = words.value(EFFORT.name) else {
        return Ok(Effort::default());
    };
    let effort = said.parse().ok().and_then(Effort::of);
    effort.ok_or_else(|| Failure::Usage(format!("--effort is 1 to 9, not '{}'", plain(said))))
}

/// The same where the shortened tree is asked for by an option; none where it is not.
pub fn effort_if_shortened(words: &Words) -> Result<Option<Effort>, Failure> {
    if words.has(SHORTENED.name) {
        return effort(words).map(Some);
    }
    if words.has(EFFORT.name) {
        let alone = "--effort says how much --shortened tries, and there is none";
        return Err(Failure::Usage(alone.into()));
    }
    Ok(None)
}
