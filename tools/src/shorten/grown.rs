//! A tree by the plain heuristic of shortest ways: from a pin on, the nearest pin that is not joined yet is joined by
//! a cheapest way, again and again. A search that has time begins with some of these too.

use std::cmp::Reverse;

use super::grid::{back, Grid, Step, DIRECTIONS, NO_STEP};
use super::heights::{Queue, Reached, FAR};
use super::laid::Laid;

/// The tree grown from a pin, by its crossing. None where some pin cannot be reached, which an allowed net does not
/// have.
pub fn grown(grid: &Grid, start: usize) -> Option<Laid> {
    let count = grid.costs.len();
    let mut laid = Laid::none(grid);
    let (mut is_joined, mut costs, mut came) = (
        vec![false; count],
        vec![FAR; count],
        vec![DIRECTIONS; count],
    );
    is_joined[start] = true;
    costs[start] = 0;
    let mut queue = Queue::from([Reverse(Reached::new(0, start))]);
    while let Some(Reverse(next)) = queue.pop() {
        let (cost, from) = (next.cost(), next.point());
        if cost > costs[from] {
            continue;
        }
        if grid.is_pin(from) && !is_joined[from] {
            let mut at = from;
            while !is_joined[at] {
                is_joined[at] = true;
                costs[at] = 0;
                queue.push(Reverse(Reached::new(0, at)));
                let step = Step {
                    from: at,
                    direction: came[at],
                };
                laid.lay(grid, step);
                at = grid.end(step);
            }
            continue;
        }
        for direction in (0..DIRECTIONS).filter(|&direction| grid.costs[from][direction] != NO_STEP)
        {
            let step = Step { from, direction };
            let (end, there) = (grid.end(step), cost + grid.cost(step));
            if there < costs[end] {
                costs[end] = there;
                came[end] = back(direction);
                queue.push(Reverse(Reached::new(there, end)));
            }
        }
    }
    laid.spanning(grid)
}
