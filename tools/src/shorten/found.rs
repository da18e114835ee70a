//! A search from trees of the router on.

use calzundi::{Edge, Net, Place};

use super::budget::Budget;
use super::checked::Unchecked;
use super::effort::Effort;
use super::grid::Grid;
use super::grown::grown;
use super::laid::Laid;
use super::search::{search, Ended, Found};

/// What a search is given: a net, trees of it to begin with, how much to try, and a number that no tree of the net is
/// cheaper than, or 0.
#[derive(Clone, Copy, Debug)]
pub struct Task<'a> {
    pub net: &'a Net,
    pub given: &'a [&'a [Edge]],
    pub effort: Effort,
    pub bound: i64,
}

/// What it gives back: a tree, about which nothing is known until it is checked, how the search ended, and how many
/// steps it took.
pub struct Outcome {
    pub tree: Unchecked,
    pub ended: Ended,
    pub steps: u64,
}

/// The cheapest tree that is found. None where none of the given ones can be laid on a grid.
pub fn find(task: &Task) -> Option<Outcome> {
    let ends = task.given.iter().flat_map(|tree| tree.iter());
    let ends: Vec<Place> = ends.flat_map(|edge| [edge.first, edge.second]).collect();
    // A slid tree may have bars on lines of its own. Where these are too many it is left out, and the refined tree,
    // which has none, is taken.
    let grid = Grid::of(task.net, &ends).or_else(|| Grid::of(task.net, &[]))?;
    let mut best: Option<Found> = None;
    let mut steps = 0;
    for start in starts(&grid, task) {
        let budget = Budget::of(task.effort.steps(grid.costs.len() as u64));
        let bound = u64::try_from(task.bound).unwrap_or(0);
        let found = search(&grid, start, task.effort.reaches(), bound, budget);
        steps += found.steps;
        if best.as_ref().is_none_or(|best| found.cost < best.cost) {
            best = Some(found);
        }
    }
    best.map(|best| Outcome {
        tree: Unchecked::of(best.laid.edges(&grid)),
        ended: best.ended,
        steps,
    })
}

/// The cheapest of the given trees, and those that are grown from pins here and there.
fn starts<'a>(grid: &'a Grid, task: &'a Task) -> impl Iterator<Item = Laid> + 'a {
    let given = task.given.iter().filter_map(|tree| Laid::of(grid, tree));
    let first = given.min_by_key(|laid| laid.cost(grid));
    let pins = grid.pins.len();
    let count = task.effort.grown().min(pins);
    let pins = (0..count).map(move |at| grid.pins[at * pins / count]);
    first
        .into_iter()
        .chain(pins.filter_map(|pin| grown(grid, pin)))
}

/// The tree of the plain heuristic of shortest ways, grown from the first pin; none where there is no pin.
pub fn shortest_ways(net: &Net) -> Option<Unchecked> {
    let grid = Grid::of(net, &[])?;
    let laid = grown(&grid, *grid.pins.first()?)?;
    Some(Unchecked::of(laid.edges(&grid)))
}
