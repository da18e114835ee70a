//! The one move. *Relay*: some key points that hang together are taken with every way that ends at one of them, and
//! the parts that are left are joined as cheaply as a window about what is gone allows. It holds the field's usual
//! moves: an exchange of a way, a branching that goes, one that comes.

use std::collections::BTreeSet;

use super::budget::Budget;
use super::grid::{Grid, Step};
use super::heights::{Heights, MOST_PARTS};
use super::laid::Laid;
use super::room::Room;
use super::tables::Tables;
use super::window::Window;

/// How far a relay goes.
#[derive(Clone, Copy, Debug, PartialEq, Eq, Hash)]
pub struct Reach {
    /// So many key points are taken away.
    pub keys: usize,
    /// At most so many parts are joined.
    pub parts: usize,
    /// How far the window goes beyond what is gone, in quarters of what a way costs there in the mean.
    pub margin: u64,
}

/// Tables have at most so many numbers, of eight bytes each. A window that wants more is not tried.
pub const MOST_NUMBERS: usize = 1 << 22;

/// All that tries need beside the tree, kept from one to the next.
#[derive(Debug, Default)]
pub struct Bench {
    room: Room,
    heights: Heights,
    tables: Tables,
}

/// What a relay saved, and where the tree has changed.
#[derive(Debug)]
pub struct Gain {
    pub saved: u64,
    pub changed: Window,
}

/// What is taken away, and where it is looked for anew.
#[derive(Debug)]
pub struct Gap {
    pub window: Window,
    /// What is gone costs so much.
    cost: u64,
    gone: Vec<Step>,
    /// A crossing of each part that is left.
    cuts: Vec<usize>,
}

impl Gap {
    /// What goes with some key points; none where more parts would be left, or a larger window wanted, than are taken.
    pub fn about(grid: &Grid, laid: &Laid, keys: &[usize], reach: Reach) -> Option<Gap> {
        let mut cuts: Vec<usize> = keys
            .iter()
            .copied()
            .filter(|&key| grid.is_pin(key))
            .collect();
        let (mut gone, mut ways) = (Vec::new(), 0);
        for &key in keys {
            for first in laid.steps(key) {
                let way = laid.way(grid, first);
                let end = way.last().map_or(key, |&last| grid.end(last));
                if !keys.contains(&end) {
                    cuts.push(end);
                } else if end < key {
                    // It was taken from its other end.
                    continue;
                }
                gone.extend(way);
                ways += 1;
            }
        }
        if ways == 0 || cuts.len() < 2 || cuts.len() > reach.parts.min(MOST_PARTS) {
            return None;
        }
        let cost: u64 = gone.iter().map(|&step| grid.cost(step)).sum();
        let touched = gone.iter().flat_map(|&step| [step.from, grid.end(step)]);
        let window = Window::about(grid, touched, cost * reach.margin / (4 * ways));
        let is_small = Tables::numbers(window.area(), cuts.len()) <= MOST_NUMBERS;
        is_small.then_some(Gap {
            window,
            cost,
            gone,
            cuts,
        })
    }

    /// Lays what joins the parts for less than what is gone did, where there is such; else the tree stays as it was.
    pub fn close(
        &self,
        grid: &Grid,
        laid: &mut Laid,
        bench: &mut Bench,
        budget: &mut Budget,
    ) -> Option<Gain> {
        for &step in &self.gone {
            laid.take(grid, step);
        }
        let parts = self.cuts.iter().map(|&cut| laid.reached(grid, cut));
        let mut parts: Vec<Vec<usize>> = parts.collect();
        // The largest one has no table of its own.
        parts.sort_unstable_by_key(|part| (part.len(), part[0]));
        let found = self.joined(grid, &parts, bench, budget);
        for &step in found.as_ref().unwrap_or(&self.gone) {
            laid.lay(grid, step);
        }
        let new = found?;
        let cost: u64 = new.iter().map(|&step| grid.cost(step)).sum();
        let moved = self.gone.iter().chain(&new);
        let ends = moved.flat_map(|&step| [step.from, grid.end(step)]);
        Some(Gain {
            saved: self.cost - cost,
            changed: Window::about(grid, ends, 0),
        })
    }

    fn joined(
        &self,
        grid: &Grid,
        parts: &[Vec<usize>],
        bench: &mut Bench,
        budget: &mut Budget,
    ) -> Option<Vec<Step>> {
        let Bench {
            room,
            heights,
            tables,
        } = bench;
        room.set_up(grid, &self.window, parts);
        let cuts: Vec<usize> = parts.iter().map(|part| part[0]).collect();
        if !heights.sweep(room, &cuts, self.cost, budget) {
            return None;
        }
        let steps = tables.join(room, heights, self.cost, budget)?;
        let there = |step: Step| Step {
            from: self.window.crossing(grid, step.from),
            ..step
        };
        Some(steps.into_iter().map(there).collect())
    }
}

/// Every set of so many key points that hang together and of which one is the least, each in order.
pub fn sets(grid: &Grid, laid: &Laid, least: usize, count: usize) -> BTreeSet<Vec<usize>> {
    let mut sets = BTreeSet::from([vec![least]]);
    for _ in 1..count {
        sets = sets
            .iter()
            .flat_map(|set| larger(grid, laid, set))
            .collect();
    }
    sets
}

/// The sets with one key point more, next to one of them.
fn larger(grid: &Grid, laid: &Laid, set: &[usize]) -> Vec<Vec<usize>> {
    let firsts = set.iter().flat_map(|&key| laid.steps(key));
    let ends = firsts.filter_map(|first| laid.way(grid, first).last().map(|&last| grid.end(last)));
    let new = ends.filter(|&end| end > set[0] && !set.contains(&end));
    new.map(|end| {
        let mut more = [set, &[end]].concat();
        more.sort_unstable();
        more
    })
    .collect()
}
