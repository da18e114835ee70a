//! What joining parts costs at least, by sweeps as those of the lower bound: one part after the other is raised until
//! it meets one that comes before it. Its heights are distances to it by what is left of the costs, and what they
//! fall along a step is taken off what is left.
//!
//! The greatest heights add up to a bound on all trees that join the parts; and at every point the heights of some
//! parts add up to a bound on what joining these to it costs. So a try that cannot win is over before a table is
//! filled, and what cannot lead to a cheaper tree is kept out of the tables. That changes no answer, it only saves
//! steps.

use std::cmp::Reverse;
use std::collections::BinaryHeap;

use super::budget::Budget;
use super::grid::{CROSSING_BITS, DIRECTIONS, MOST_CROSSINGS};
use super::room::Room;

/// More than any tree costs.
pub const FAR: u64 = u64::MAX / 4;

/// At most so many parts are joined at a time.
pub const MOST_PARTS: usize = 7;

/// Sweeps: by place, and by falling place.
const SWEEPS: usize = 2;

/// A point and what leads to it cost, in one number: a queue of these is ordered by cost, then by place.
#[derive(Clone, Copy, PartialEq, Eq, PartialOrd, Ord)]
pub struct Reached(u64);

impl Reached {
    pub fn new(cost: u64, point: usize) -> Reached {
        Reached(cost << CROSSING_BITS | point as u64)
    }

    pub fn cost(self) -> u64 {
        self.0 >> CROSSING_BITS
    }

    pub fn point(self) -> usize {
        self.0 as usize % MOST_CROSSINGS
    }
}

/// Points that are still to be looked at, the cheapest first.
pub type Queue = BinaryHeap<Reverse<Reached>>;

#[derive(Debug, Default)]
pub struct Heights {
    /// What is left of the cost of the step *to* a point from its neighbour in each direction.
    left: Vec<[u32; DIRECTIONS]>,
    /// The heights of the part that is being raised.
    height: Vec<u64>,
    /// By sweep and part: its greatest height.
    tops: [[u64; MOST_PARTS]; SWEEPS],
    /// By point, sweep and part: how far its height there is below its greatest, so that what was not reached is 0.
    below: Vec<[[u64; MOST_PARTS]; SWEEPS]>,
    /// Points where that is not 0.
    touched: Vec<u32>,
}

impl Heights {
    /// Sweeps over the parts of a room. False where no tree that joins them costs less than a limit. The parts are
    /// taken in the order of where they were cut off.
    pub fn sweep(&mut self, room: &Room, cuts: &[usize], limit: u64, budget: &mut Budget) -> bool {
        self.touched
            .drain(..)
            .for_each(|point| self.below[point as usize] = Default::default());
        self.below
            .resize(self.below.len().max(room.area()), Default::default());
        self.height.resize(self.height.len().max(room.area()), FAR);
        self.tops = Default::default();
        let mut order: Vec<usize> = (0..room.parts()).collect();
        order.sort_unstable_by_key(|&part| Reverse(cuts[part]));
        for sweep in 0..SWEEPS {
            self.left.clear();
            self.left.extend_from_slice(&room.costs);
            let mut bound = 0;
            for last in (1..order.len()).rev() {
                bound += self.raise(room, &order[..=last], limit - bound, sweep, budget);
                if bound >= limit {
                    return false;
                }
            }
            order.reverse();
        }
        true
    }

    /// Raises the last of some parts until it meets one before it, or to a limit; its greatest height.
    fn raise(
        &mut self,
        room: &Room,
        parts: &[usize],
        limit: u64,
        sweep: usize,
        budget: &mut Budget,
    ) -> u64 {
        let Some((&raised, before)) = parts.split_last() else {
            return 0;
        };
        let start = room.point(raised);
        let mut known = vec![start];
        self.height[start] = 0;
        let mut queue = Queue::from([Reverse(Reached::new(0, start))]);
        let mut top = limit;
        while let Some(Reverse(next)) = queue.pop() {
            budget.spend(1);
            let (cost, point) = (next.cost(), next.point());
            if cost >= top {
                break;
            }
            if cost > self.height[point] {
                continue;
            }
            let (left, height) = (&self.left, &mut self.height);
            room.around(point, |step, end| {
                let there = cost + u64::from(left[step.from][step.direction]);
                if there >= top || there >= height[end] {
                    return;
                }
                if room.part(end).is_some_and(|part| before.contains(&part)) {
                    top = there;
                    return;
                }
                if height[end] == FAR {
                    known.push(end);
                }
                height[end] = there;
                queue.push(Reverse(Reached::new(there, end)));
            });
        }
        self.take_off(room, &known, top);
        self.tops[sweep][raised] = top;
        for point in known {
            self.below[point][sweep][raised] = top.saturating_sub(self.height[point]);
            self.touched.push(point as u32);
            self.height[point] = FAR;
        }
        top
    }

    /// Takes what heights fall along steps off what is left of their costs.
    fn take_off(&mut self, room: &Room, known: &[usize], top: u64) {
        let (left, height) = (&mut self.left, &self.height);
        for &point in known.iter().filter(|&&point| height[point] < top) {
            room.around(point, |step, end| {
                let fall = height[end].min(top).saturating_sub(height[point]);
                left[step.from][step.direction] -= fall as u32;
            });
        }
    }

    /// At least what it costs to join, to what is at a point, the parts that are not in a set.
    pub fn rest(&self, point: usize, set: usize, parts: usize) -> u64 {
        let missing = || (0..parts).filter(|part| set >> part & 1 == 0);
        let below = &self.below[point];
        let sums = self.tops.iter().zip(below);
        let sums = sums.map(|(tops, below)| missing().map(|part| tops[part] - below[part]).sum());
        sums.max().unwrap_or(0)
    }
}
