//! The lower bound, by the rules U1 to U5: what no metal that joins the pins undercuts. In a sweep
//! one pin after the other takes what it can off the costs of the grid's edges, up to where it
//! meets a pin that has not had its turn.

use crate::grid::Grid;
use crate::net::{Net, Place};

/// "589,824 numbers of 32 bits and 147,456 of 64 bits are lent as work."
pub const LEFT: usize = 589_824;
pub const ROWS: usize = 147_456;

/// "The lower bound is the greatest of four sweeps."
pub fn lower_bound(net: &Net) -> i64 {
    sweeps(net).into_iter().max().expect("four sweeps")
}

/// The numbers of the four sweeps: "the pins by x and then y, by y and then x, and both of these
/// turned round".
pub fn sweeps(net: &Net) -> [i64; 4] {
    let grid = Grid::of(net);
    let by = |coordinates: fn(Place) -> (i64, i64)| {
        let mut order = grid.pins(net);
        order.sort_by_key(|&pin| coordinates(grid.crossings[pin]));
        order
    };
    let turned = |order: &[usize]| order.iter().rev().copied().collect();
    let (by_x, by_y) = (by(|pin| (pin.x, pin.y)), by(|pin| (pin.y, pin.x)));
    let (from_right, from_above) = (turned(&by_x), turned(&by_y));
    [by_x, by_y, from_right, from_above].map(|order| sweep(grid.clone(), &order))
}

/// "A sweep takes the pins in an order, from the last to the second." "The number of a sweep is the
/// sum of its raises t; with one pin it is 0." "At the start of a sweep" what is left "is the
/// edge's cost, both ways".
fn sweep(grid: Grid, order: &[usize]) -> i64 {
    let mut left = Left(grid);
    let turns = (1..order.len()).rev();
    turns.map(|at| left.raise(order[at], &order[..at])).sum()
}

/// "Of each edge of the grid something is left, a number for each of its two directions": each
/// crossing has the steps that end there, with where they start and what is left of them. So costs
/// from a crossing on are those of ways that lead to it.
struct Left(Grid);

impl Left {
    /// Raises a pin: its t.
    fn raise(&mut self, pin: usize, before: &[usize]) -> i64 {
        let Left(grid) = self;
        let costs = grid.costs_until(pin, |crossing| before.contains(&crossing));
        // "t is the least cost of a way along the grid to p from a pin that comes before p in the
        // order, each step by what is left in the direction of the way."
        let nearest = before.iter().map(|&earlier| costs[earlier]).min();
        let t = nearest.expect("the first pin is not raised");
        // "The height of a crossing is the least cost of a way from it to p, counted so, or t where
        // that is less."
        let height = |crossing: usize| costs[crossing].min(t);
        // Heights fall to a crossing only if its own is below t.
        let steps = grid.joined.iter_mut().enumerate();
        for (end, steps) in steps.filter(|&(end, _)| height(end) < t) {
            for (start, left) in steps {
                // "What the heights fall from the start of an edge to its end is taken off what is
                // left in that direction; a rise takes nothing."
                *left -= (height(*start) - height(end)).max(0);
            }
        }
        t
    }
}
