//! "True distance on the grid", document 02's ninth request, in two ways that share nothing: a
//! search along the grid's crossings, and one in unit steps over a small piece of the plane.

use std::cmp::Reverse;
use std::collections::{BTreeMap, BinaryHeap};

use crate::net::{Macro, Net, Place};

/// "For up to 16 pins and 16 macros": above either is 36.
pub const PINS: usize = 16;
pub const MACROS: usize = 16;

/// L6: the table of grid distances, row after row.
pub fn distances(net: &Net) -> Vec<i64> {
    let grid = Grid::of(net);
    let mut pins = grid.pins(net);
    // "In the order of places", which is that of the crossings' numbers.
    pins.sort();
    let row = |&from: &usize| {
        let costs = grid.costs_from(from);
        pins.iter().map(|&to| costs[to]).collect::<Vec<i64>>()
    };
    pins.iter().flat_map(row).collect()
}

/// The same table by "walks in unit steps, each clear of the interiors", over all whole places at
/// most `margin` outside the lines. A walk that leaves them comes back for no less, so a margin of
/// 0 would do; a larger one shows it.
pub fn distances_by_units(net: &Net, margin: i64) -> Vec<i64> {
    let (xs, ys) = lines(net);
    let low = Place {
        x: xs[0] - margin,
        y: ys[0] - margin,
    };
    let high = Place {
        x: xs[xs.len() - 1] + margin,
        y: ys[ys.len() - 1] + margin,
    };
    let mut pins = net.pins().to_vec();
    pins.sort();
    let row = |&from: &Place| {
        let costs = search(from, |place| unit_steps(net, low, high, place));
        pins.iter().map(|to| costs[to]).collect::<Vec<i64>>()
    };
    pins.iter().flat_map(row).collect()
}

/// More than any way costs: no way.
pub(crate) const FAR: i64 = i64::MAX / 8;

/// The grid's crossings in the order of places, and with which others each is joined, at what cost.
#[derive(Clone)]
pub(crate) struct Grid {
    pub(crate) crossings: Vec<Place>,
    pub(crate) joined: Vec<Vec<(usize, i64)>>,
}

impl Grid {
    pub(crate) fn of(net: &Net) -> Grid {
        let (xs, ys) = lines(net);
        let column = |&x: &i64| ys.iter().map(move |&y| Place { x, y }).collect::<Vec<_>>();
        let crossings: Vec<Place> = xs.iter().flat_map(column).collect();
        let number = |place| crossings.binary_search(&place).expect("a crossing");
        let from = |&at: &Place| {
            let steps = grid_steps(net, &xs, &ys, at).into_iter();
            steps.map(|(to, cost)| (number(to), cost)).collect()
        };
        let joined = crossings.iter().map(from).collect();
        Grid { crossings, joined }
    }

    pub(crate) fn pins(&self, net: &Net) -> Vec<usize> {
        let number = |pin| self.crossings.binary_search(pin).expect("a crossing");
        net.pins().iter().map(number).collect()
    }

    /// What it costs to come from one crossing to each.
    pub(crate) fn costs_from(&self, from: usize) -> Vec<i64> {
        self.costs_until(from, |_| false)
    }

    /// The same, nearest first, until one that is sought is come to: all that cost less are then
    /// known, and the others may be FAR.
    pub(crate) fn costs_until(&self, from: usize, is_sought: impl Fn(usize) -> bool) -> Vec<i64> {
        let mut costs = vec![FAR; self.crossings.len()];
        let mut found = BinaryHeap::from([Reverse((0, from))]);
        while let Some(Reverse((cost, at))) = found.pop() {
            if costs[at] != FAR {
                continue;
            }
            costs[at] = cost;
            if is_sought(at) {
                break;
            }
            let steps = self.joined[at].iter().filter(|(to, _)| costs[*to] == FAR);
            found.extend(steps.map(|&(to, more)| Reverse((cost + more, to))));
        }
        costs
    }
}

/// L1: the x lines and the y lines, each once and in order.
fn lines(net: &Net) -> (Vec<i64>, Vec<i64>) {
    let pins = net.pins().iter();
    let macros = net.macros().iter();
    let xs = pins
        .clone()
        .map(|p| p.x)
        .chain(macros.clone().flat_map(|m| [m.left, m.right]));
    let ys = pins
        .map(|p| p.y)
        .chain(macros.flat_map(|m| [m.bottom, m.top]));
    (in_order(xs), in_order(ys))
}

fn in_order(values: impl Iterator<Item = i64>) -> Vec<i64> {
    let mut values: Vec<i64> = values.collect();
    values.sort();
    values.dedup();
    values
}

/// L3: where the edges of the grid lead from a crossing, and what each costs.
fn grid_steps(net: &Net, xs: &[i64], ys: &[i64], at: Place) -> Vec<(Place, i64)> {
    let across = beside(xs, at.x).map(|x| Place { x, ..at });
    let along = beside(ys, at.y).map(|y| Place { y, ..at });
    priced(net, at, across.chain(along))
}

/// The lines next to one of them, below and above.
fn beside(lines: &[i64], line: i64) -> impl Iterator<Item = i64> + '_ {
    let below = lines.iter().rev().copied().find(move |&other| other < line);
    let above = lines.iter().copied().find(move |&other| other > line);
    below.into_iter().chain(above)
}

/// One unit along one axis, within a box.
fn unit_steps(net: &Net, low: Place, high: Place, at: Place) -> Vec<(Place, i64)> {
    let steps = [(1, 0), (-1, 0), (0, 1), (0, -1)]
        .map(|(x, y)| Place {
            x: at.x + x,
            y: at.y + y,
        })
        .into_iter()
        .filter(move |to| (low.x..=high.x).contains(&to.x) && (low.y..=high.y).contains(&to.y));
    priced(net, at, steps)
}

/// Those places that are clear of `at`, each with the cost of the way there.
fn priced(net: &Net, at: Place, places: impl Iterator<Item = Place>) -> Vec<(Place, i64)> {
    places
        .filter(|&to| !net.macros().iter().any(|m: &Macro| m.meets_box(at, to)))
        .map(|to| (to, net.weights().cost(at, to)))
        .collect()
}

/// What each place that steps lead to costs, the cheapest way.
fn search(from: Place, steps: impl Fn(Place) -> Vec<(Place, i64)>) -> BTreeMap<Place, i64> {
    let mut settled = BTreeMap::new();
    let mut found = BinaryHeap::from([Reverse((0, from))]);
    while let Some(Reverse((cost, at))) = found.pop() {
        if settled.contains_key(&at) {
            continue;
        }
        settled.insert(at, cost);
        for (to, more) in steps(at) {
            if !settled.contains_key(&to) {
                found.push(Reverse((cost + more, to)));
            }
        }
    }
    settled
}

#[cfg(test)]
mod tests {
    use super::*;
    use crate::lists::unloaded;
    use crate::net::{check, Weights};

    fn net(pins: &[i32], macros: &[i32], x: i32, y: i32) -> Net {
        check(&unloaded(pins), macros, Weights { x, y }).expect("an allowed net")
    }

    /// Between the first two of four pins the graph's way is 5; on the grid it is 3.
    #[test]
    fn shorter_than_the_graph() {
        let net = net(&[1, 0, 1, 3, 0, 1, 2, 2], &[], 1, 1);
        let table = distances(&net);
        // In the order of places: (0, 1), (1, 0), (1, 3), (2, 2).
        assert_eq!(table, [0, 2, 3, 3, 2, 0, 3, 3, 3, 3, 0, 2, 3, 3, 2, 0]);
        assert_eq!(table, distances_by_units(&net, 2));
    }

    /// A pin in a notch between three macros that touch: down a side that two of them share, and not
    /// out at the open side.
    #[test]
    fn out_of_a_notch() {
        let macros = [0, 0, 2, 6, 4, 0, 6, 6, 2, 0, 4, 2];
        let net = net(&[3, 3, 3, -2], &macros, 1, 1);
        let table = distances(&net);
        assert_eq!(table, distances_by_units(&net, 3));
        assert_eq!(table[1], 7);
    }

    /// Along the sides that touching macros share, weights 1 and 8.
    #[test]
    fn between_touching_macros() {
        let macros = [0, 0, 2, 2, 2, 0, 4, 2];
        let net = net(&[2, -1, 2, 3], &macros, 1, 8);
        assert_eq!(distances(&net), [0, 32, 32, 0]);
        assert_eq!(distances_by_units(&net, 2), [0, 32, 32, 0]);
    }

    #[test]
    fn one_pin() {
        assert_eq!(distances(&net(&[5, 5], &[], 1, 1)), [0]);
    }
}
