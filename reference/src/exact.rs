//! Exact trees: what metal along the grid costs at least that joins the pins, however many they
//! are, and edges that cost no more. One set of pins is joined after the other (Dreyfus and
//! Wagner). The work grows threefold with every pin and the space twofold, so this is for some ten
//! pins on a small grid.

use std::iter::successors;

use crate::edge::Edge;
use crate::grid::{Grid, FAR};
use crate::net::Net;

/// What an exact tree costs.
pub fn cost(net: &Net) -> i64 {
    Exact::of(net).cost()
}

/// The edges of an exact tree, in order. Several may tie; this is one of them.
pub fn tree(net: &Net) -> Vec<Edge> {
    let exact = Exact::of(net);
    let mut edges = Vec::new();
    exact.lay(exact.all, exact.root, &mut edges);
    edges.sort();
    edges
}

/// A net's grid, the last pin on it, and for each set of the others what it costs to join them and
/// a crossing.
struct Exact {
    grid: Grid,
    root: usize,
    joined: Vec<Vec<i64>>,
    /// The set of all pins but the last.
    all: usize,
}

impl Exact {
    fn of(net: &Net) -> Exact {
        let grid = Grid::of(net);
        let mut pins = grid.pins(net);
        let root = pins.pop().expect("a net has a pin");
        Exact {
            joined: joined(&grid.joined, &pins),
            all: (1 << pins.len()) - 1,
            grid,
            root,
        }
    }

    fn cost(&self) -> i64 {
        match self.all {
            0 => 0,
            all => self.joined[all][self.root],
        }
    }

    /// Lays metal that joins a set of pins and a crossing, for what the table says: a step to a
    /// neighbour and on from there, or two parts of the set that are joined here, or nothing more
    /// at the only pin.
    fn lay(&self, set: usize, at: usize, edges: &mut Vec<Edge>) {
        let (costs, places) = (&self.joined[set], &self.grid.crossings);
        let leads = |&&(to, more): &&(usize, i64)| costs[to] + more == costs[at];
        let met = |&part: &usize| self.joined[part][at] + self.joined[set ^ part][at] == costs[at];
        if let Some(&(to, _)) = self.grid.joined[at].iter().find(leads) {
            edges.push(Edge::new(places[at], places[to]));
            self.lay(set, to, edges);
        } else if let Some(part) = parts(set).find(met) {
            self.lay(part, at, edges);
            self.lay(set ^ part, at, edges);
        }
    }
}

/// For each set of pins, as bits, what it costs at least to join them and a point, for each point.
/// Points are numbers, and steps lead from each to others, at a cost that is the same both ways.
/// What joins a set is led to a point from where two parts of the set are joined, or from the only
/// pin. The set of no pins has a row for its number's sake.
pub(crate) fn joined(steps: &[Vec<(usize, i64)>], pins: &[usize]) -> Vec<Vec<i64>> {
    let mut joined: Vec<Vec<i64>> = vec![vec![FAR; steps.len()]];
    for set in 1..1_usize << pins.len() {
        let mut costs = vec![FAR; steps.len()];
        if set.is_power_of_two() {
            costs[pins[set.trailing_zeros() as usize]] = 0;
        }
        for part in parts(set) {
            let both = joined[part].iter().zip(&joined[set ^ part]);
            for (cost, (one, other)) in costs.iter_mut().zip(both) {
                *cost = (*cost).min(one + other);
            }
        }
        joined.push(led_on(steps, costs));
    }
    joined
}

/// The parts of a set that lack its first entry and have another: with what each leaves, every way
/// to part the set, once.
fn parts(set: usize) -> impl Iterator<Item = usize> {
    let rest = set & set.wrapping_sub(1);
    let some = |part: usize| (part > 0).then_some(part);
    successors(some(rest), move |part| some((part - 1) & rest))
}

/// The costs once they are led on from point to point: in order and back, until none falls.
fn led_on(steps: &[Vec<(usize, i64)>], mut costs: Vec<i64>) -> Vec<i64> {
    loop {
        let before = costs.clone();
        let points = 0..costs.len();
        for at in points.clone().chain(points.rev()) {
            for &(to, more) in &steps[at] {
                costs[to] = costs[to].min(costs[at] + more);
            }
        }
        if costs == before {
            return costs;
        }
    }
}

#[cfg(test)]
mod tests {
    use super::*;

    /// Each way to part three pins in two, and none for one pin or none.
    #[test]
    fn parts_of_small_sets() {
        let of = |set| parts(set).collect::<Vec<usize>>();
        assert_eq!(of(0b111), [0b110, 0b100, 0b010]);
        assert_eq!(of(0b101), [0b100]);
        assert!(of(0b10).is_empty() && of(0).is_empty());
    }
}
