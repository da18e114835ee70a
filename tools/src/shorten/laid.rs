//! Metal on the grid, as steps that are laid.

use std::cmp::Reverse;
use std::collections::BinaryHeap;

use calzundi::{Edge, Place};

use super::grid::{back, leads_up, Grid, Step, DIRECTIONS, DOWN, NO_STEP, RIGHT, UP};

/// For each crossing a bit for each direction in which metal leaves it.
#[derive(Clone, Debug, PartialEq, Eq)]
pub struct Laid {
    leaving: Vec<u8>,
}

/// Metal straight through a crossing leaves it so.
const LEVEL: u8 = 0b0011;
const UPRIGHT: u8 = 0b1100;

impl Laid {
    /// No metal.
    pub fn none(grid: &Grid) -> Laid {
        Laid {
            leaving: vec![0; grid.costs.len()],
        }
    }

    /// The tree of edges as the wires are drawn, level from the smaller place and then upright. Where wires meet or
    /// cross they are joined, and what that makes superfluous is left out. None where an end is no crossing, a wire
    /// is not free, or the pins are not joined.
    pub fn of(grid: &Grid, edges: &[Edge]) -> Option<Laid> {
        let mut laid = Laid::none(grid);
        for edge in edges {
            let (low, high) = (edge.first.min(edge.second), edge.first.max(edge.second));
            let (start, end) = (grid.crossing(low)?, grid.crossing(high)?);
            let bend = grid.crossing(Place {
                x: high.x,
                y: low.y,
            })?;
            laid.run(grid, start, bend, RIGHT)?;
            laid.run(grid, bend, end, if low.y < high.y { UP } else { DOWN })?;
        }
        laid.spanning(grid)
    }

    fn run(&mut self, grid: &Grid, start: usize, end: usize, direction: usize) -> Option<()> {
        let mut from = start;
        while from != end {
            let step = Step { from, direction };
            if grid.costs[from][direction] == NO_STEP {
                return None;
            }
            self.lay(grid, step);
            from = grid.end(step);
        }
        Some(())
    }

    pub fn lay(&mut self, grid: &Grid, step: Step) {
        self.leaving[step.from] |= 1 << step.direction;
        self.leaving[grid.end(step)] |= 1 << back(step.direction);
    }

    pub fn take(&mut self, grid: &Grid, step: Step) {
        self.leaving[step.from] &= !(1 << step.direction);
        self.leaving[grid.end(step)] &= !(1 << back(step.direction));
    }

    /// The steps that leave a crossing.
    pub fn steps(&self, from: usize) -> impl Iterator<Item = Step> + use<> {
        let leaving = self.leaving[from];
        let laid = (0..DIRECTIONS).filter(move |direction| leaving >> direction & 1 == 1);
        laid.map(move |direction| Step { from, direction })
    }

    /// How many steps leave a crossing.
    pub fn degree(&self, at: usize) -> u32 {
        self.leaving[at].count_ones()
    }

    /// A key point: a pin, or a crossing where three or more ways meet.
    pub fn is_key(&self, grid: &Grid, at: usize) -> bool {
        self.leaving[at] != 0 && (grid.is_pin(at) || self.degree(at) >= 3)
    }

    /// The steps from a key point up to the next one.
    pub fn way(&self, grid: &Grid, first: Step) -> Vec<Step> {
        let mut way = vec![first];
        let mut last = first;
        loop {
            let at = grid.end(last);
            let on = |step: &Step| step.direction != back(last.direction);
            match self.steps(at).find(on) {
                Some(next) if !self.is_key(grid, at) => {
                    way.push(next);
                    last = next;
                }
                _ => return way,
            }
        }
    }

    /// Every crossing that hangs together with one, in a tree.
    pub fn reached(&self, grid: &Grid, start: usize) -> Vec<usize> {
        let mut found = vec![(start, DIRECTIONS)];
        let mut at = 0;
        while let Some(&(crossing, came)) = found.get(at) {
            let on = self.steps(crossing).filter(|step| step.direction != came);
            found.extend(on.map(|step| (grid.end(step), back(step.direction))));
            at += 1;
        }
        found.into_iter().map(|(crossing, _)| crossing).collect()
    }

    /// A cheapest tree of this metal that spans the pins, without ends that are no pins; none where it does not join
    /// them.
    pub fn spanning(&self, grid: &Grid) -> Option<Laid> {
        let mut tree = Laid::none(grid);
        let mut is_joined = vec![false; self.leaving.len()];
        let root = *grid.pins.first()?;
        // A crossing by what the step costs that would join it, and that step's direction back.
        let mut near = BinaryHeap::from([Reverse((0, root, DIRECTIONS))]);
        while let Some(Reverse((_, from, came))) = near.pop() {
            if std::mem::replace(&mut is_joined[from], true) {
                continue;
            }
            if came < DIRECTIONS {
                tree.lay(
                    grid,
                    Step {
                        from,
                        direction: came,
                    },
                );
            }
            near.extend(
                self.steps(from)
                    .map(|step| Reverse((grid.cost(step), grid.end(step), back(step.direction)))),
            );
        }
        for crossing in 0..tree.leaving.len() {
            tree.prune(grid, crossing);
        }
        grid.pins.iter().all(|&pin| is_joined[pin]).then_some(tree)
    }

    /// Takes away what hangs at a crossing alone and leads to no pin.
    fn prune(&mut self, grid: &Grid, end: usize) {
        let mut at = end;
        while self.degree(at) == 1 && !grid.is_pin(at) {
            let Some(step) = self.steps(at).next() else {
                return;
            };
            self.take(grid, step);
            at = grid.end(step);
        }
    }

    pub fn cost(&self, grid: &Grid) -> u64 {
        let steps = (0..self.leaving.len()).flat_map(|from| self.steps(from));
        let once = steps.filter(|step| leads_up(step.direction));
        once.map(|step| grid.cost(step)).sum()
    }

    /// Level and upright edges between pins, bends and branchings, in order.
    pub fn edges(&self, grid: &Grid) -> Vec<Edge> {
        let is_straight =
            |at: usize| !grid.is_pin(at) && [LEVEL, UPRIGHT].contains(&self.leaving[at]);
        let mut edges = Vec::new();
        for from in (0..self.leaving.len()).filter(|&at| !is_straight(at)) {
            for step in self.steps(from).filter(|step| leads_up(step.direction)) {
                let mut end = grid.end(step);
                while is_straight(end) {
                    end = grid.end(Step { from: end, ..step });
                }
                let (first, second) = (grid.place(from), grid.place(end));
                edges.push(Edge { first, second });
            }
        }
        edges.sort_unstable();
        edges
    }
}
