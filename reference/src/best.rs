//! "Best tree for five pins", document 02's thirteenth request, in two ways that share nothing:
//! over all shapes that a cheapest tree can have, by the costs between every two crossings; and, on
//! tiny nets, over every set of grid edges. Both say what the tree costs; "which tree is given is
//! left to the program".

use crate::grid::{Grid, FAR};
use crate::net::Net;

/// "For up to 5 pins and 16 macros": above either is 41.
pub const PINS: usize = 5;
pub const MACROS: usize = 16;

/// L16: how many numbers of work have to be lent.
pub const WORK: usize = 65_536;

/// "4 × (m + 2k)² numbers for the edges."
pub fn edge_numbers(m: usize, k: usize) -> usize {
    4 * (m + 2 * k) * (m + 2 * k)
}

/// What the cheapest tree costs. A tree of five pins has at most three points where ways part: one
/// where the ways of two pins meet, one where those of two others do, and one on the fifth pin's
/// way. All crossings are tried as each of the three, for all ways to pair the pins. Fewer pins
/// are five of which some are at one place.
pub fn cost(net: &Net) -> i64 {
    let grid = Grid::of(net);
    let pins = grid.pins(net);
    let pins: [usize; PINS] = std::array::from_fn(|i| pins[i.min(pins.len() - 1)]);
    let between: Vec<Vec<i64>> = (0..grid.crossings.len())
        .map(|from| grid.costs_from(from))
        .collect();
    // What two pins and a crossing cost together, the ways of the two met anywhere.
    let met = |a: usize, b: usize| -> Vec<i64> {
        let least = |row: &Vec<i64>| {
            let meeting = between[pins[a]].iter().zip(&between[pins[b]]).zip(row);
            meeting
                .map(|((x, y), z)| x + y + z)
                .min()
                .expect("a crossing")
        };
        between.iter().map(least).collect()
    };
    let shape = |single: usize| {
        let [a, b, c, d] = [1, 2, 3, 4].map(|step| (single + step) % PINS);
        let (alone, met) = (&between[pins[single]], &met);
        let cost = move |[a, b, c, d]: [usize; 4]| {
            let pairs = met(a, b).into_iter().zip(met(c, d)).zip(alone);
            pairs
                .map(|((x, y), z)| x + y + z)
                .min()
                .expect("a crossing")
        };
        [[a, b, c, d], [a, c, b, d], [a, d, b, c]]
            .map(cost)
            .into_iter()
            .min()
            .expect("a way to pair them")
    };
    (0..PINS).map(shape).min().expect("a shape")
}

/// The same by trying every set of grid edges, where there are at most so many of them.
pub fn cost_by_edge_sets(net: &Net, most: usize) -> Option<i64> {
    let grid = Grid::of(net);
    let pins = grid.pins(net);
    let joined = grid.joined.iter().enumerate();
    let edges: Vec<(usize, usize, i64)> = joined
        .flat_map(|(a, others)| others.iter().map(move |&(b, cost)| (a, b, cost)))
        .filter(|(a, b, _)| a < b)
        .collect();
    let count = grid.crossings.len();
    (edges.len() <= most).then(|| least_set(count, &edges, &pins))
}

/// What the cheapest set of edges costs that joins the pins, of so many points by number.
pub(crate) fn least_set(points: usize, edges: &[(usize, usize, i64)], pins: &[usize]) -> i64 {
    let chosen = |set: u64| {
        edges
            .iter()
            .enumerate()
            .filter(move |(i, _)| set >> i & 1 == 1)
    };
    let joins = |set: u64| {
        let mut groups: Vec<usize> = (0..points).collect();
        for (_, &(a, b, _)) in chosen(set) {
            let (kept, gone) = (groups[a], groups[b]);
            groups
                .iter_mut()
                .filter(|group| **group == gone)
                .for_each(|group| *group = kept);
        }
        pins.iter().all(|&pin| groups[pin] == groups[pins[0]])
    };
    let mut least = FAR;
    for set in 0..1_u64 << edges.len() {
        let cost: i64 = chosen(set).map(|(_, edge)| edge.2).sum();
        if cost < least && joins(set) {
            least = cost;
        }
    }
    least
}

#[cfg(test)]
mod tests {
    use super::*;
    use crate::lists::unloaded;
    use crate::net::{check, Weights};

    fn both(places: &[i32], macros: &[i32], x: i32, y: i32) -> (i64, Option<i64>) {
        let pins = unloaded(places);
        let net = check(&pins, macros, Weights { x, y }).expect("an allowed net");
        (cost(&net), cost_by_edge_sets(&net, 17))
    }

    /// The worked net, whose refined tree costs 8; one pin; two pins round a macro; three in a
    /// corner, with weights.
    #[test]
    fn worked_by_both() {
        let five = [2, 0, 1, 3, 0, 1, 3, 1, 0, 0];
        assert_eq!(both(&five, &[], 1, 1), (7, Some(7)));
        assert_eq!(both(&[5, 5], &[], 1, 1), (0, Some(0)));
        let round = both(&[0, 5, 10, 5], &[2, 2, 8, 8], 1, 1);
        assert_eq!(round, (16, Some(16)));
        assert_eq!(both(&[0, 0, 4, 0, 2, 3], &[], 2, 3), (17, Some(17)));
    }
}
