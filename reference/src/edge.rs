//! Edges, of the graph and of the trees.

use crate::net::{Place, Weights};

/// N16: the smaller place is the first one; the derived order compares first places before second ones.
#[derive(Clone, Copy, Debug, PartialEq, Eq, PartialOrd, Ord)]
pub struct Edge {
    first: Place,
    second: Place,
}

impl Edge {
    pub fn new(one: Place, other: Place) -> Edge {
        Edge {
            first: one.min(other),
            second: one.max(other),
        }
    }

    pub fn first(self) -> Place {
        self.first
    }

    pub fn second(self) -> Place {
        self.second
    }

    /// Plain length, which metal to lay is in.
    pub fn length(self) -> i64 {
        self.first.distance(self.second)
    }

    /// "Its length is their distance", which is in cost: what picks, paths, gains and totals use.
    pub fn cost(self, weights: Weights) -> i64 {
        weights.cost(self.first, self.second)
    }
}
