//! The cheapest metal that joins the parts of a room, exactly, after Dreyfus and Wagner: for each set of parts and
//! each point what joining that set to that point costs, the sets by rising number. A set's metal at a point is that
//! of two smaller sets, or comes in by a step.

use std::cmp::Reverse;

use super::budget::Budget;
use super::grid::Step;
use super::heights::{Heights, Queue, Reached, FAR};
use super::room::Room;

/// Kept from one try to the next. Between tries every number is [`FAR`].
#[derive(Debug, Default)]
pub struct Tables {
    /// A set has a bit for each part but the last, which is where all the others are brought to.
    bits: usize,
    /// By point and set: its number is `point << bits | set`.
    numbers: Vec<u64>,
    /// By set: the points that have a number.
    known: Vec<Vec<u32>>,
}

/// What a number must stay below, with what the missing parts cost at least.
struct Wanted<'a> {
    room: &'a Room,
    heights: &'a Heights,
    limit: u64,
}

impl Tables {
    /// How many numbers are wanted for so many parts in a window of so many crossings.
    pub const fn numbers(area: usize, parts: usize) -> usize {
        area << (parts - 1)
    }

    /// The cheapest steps that join all parts of a room, where they cost less than a limit and the budget reaches.
    pub fn join(
        &mut self,
        room: &Room,
        heights: &Heights,
        limit: u64,
        budget: &mut Budget,
    ) -> Option<Vec<Step>> {
        self.bits = room.parts() - 1;
        let numbers = Tables::numbers(room.area(), room.parts());
        self.numbers.resize(self.numbers.len().max(numbers), FAR);
        self.known
            .resize(self.known.len().max(1 << self.bits), Vec::new());
        let wanted = Wanted {
            room,
            heights,
            limit,
        };
        let is_below = self.fill(&wanted, budget);
        let steps = is_below.then(|| self.steps(room)).flatten();
        self.clear();
        steps
    }

    fn clear(&mut self) {
        for (set, known) in self.known.iter_mut().enumerate() {
            for point in known.drain(..) {
                self.numbers[(point as usize) << self.bits | set] = FAR;
            }
        }
    }

    fn number(&self, set: usize, point: usize) -> u64 {
        self.numbers[point << self.bits | set]
    }

    /// The set of all parts but the last.
    fn all(&self) -> usize {
        (1 << self.bits) - 1
    }

    /// Every number that can lead below the limit. True where the last part is reached below it.
    fn fill(&mut self, wanted: &Wanted, budget: &mut Budget) -> bool {
        for set in 1..=self.all() {
            if set.is_power_of_two() {
                let part = set.trailing_zeros() as usize;
                self.lower(wanted, set, wanted.room.point(part), 0);
            } else {
                self.merge(wanted, set, budget);
            }
            self.carry(wanted, set, budget);
            if budget.is_spent() {
                return false;
            }
        }
        self.number(self.all(), wanted.room.point(self.bits)) < wanted.limit
    }

    /// A number, where it is lower than the one that is there and can lead below the limit.
    fn lower(&mut self, wanted: &Wanted, set: usize, point: usize, cost: u64) -> bool {
        let at = point << self.bits | set;
        let before = self.numbers[at];
        if cost >= before || cost + wanted.heights.rest(point, set, self.bits + 1) >= wanted.limit {
            return false;
        }
        if before == FAR {
            self.known[set].push(point as u32);
        }
        self.numbers[at] = cost;
        true
    }

    /// A set's numbers out of those of every two smaller ones that make it up.
    fn merge(&mut self, wanted: &Wanted, set: usize, budget: &mut Budget) {
        let mut one = (set - 1) & set;
        while one > set ^ one {
            let other = set ^ one;
            let (few, many) = match self.known[one].len() < self.known[other].len() {
                true => (one, other),
                false => (other, one),
            };
            let points = std::mem::take(&mut self.known[few]);
            for &point in &points {
                let point = point as usize;
                let both = self.number(few, point) + self.number(many, point);
                self.lower(wanted, set, point, both);
            }
            budget.spend(points.len() as u64 / 8);
            self.known[few] = points;
            one = (one - 1) & set;
        }
    }

    /// A set's numbers carried on, step by step, from the points that have one.
    fn carry(&mut self, wanted: &Wanted, set: usize, budget: &mut Budget) {
        let first = |&point: &u32| {
            Reverse(Reached::new(
                self.number(set, point as usize),
                point as usize,
            ))
        };
        let mut queue: Queue = self.known[set].iter().map(first).collect();
        while let Some(Reverse(next)) = queue.pop() {
            budget.spend(1);
            let (cost, point) = (next.cost(), next.point());
            if cost > self.number(set, point) {
                continue;
            }
            wanted.room.around(point, |step, end| {
                let there = cost + u64::from(wanted.room.costs[step.from][step.direction]);
                if self.lower(wanted, set, end, there) {
                    queue.push(Reverse(Reached::new(there, end)));
                }
            });
        }
    }

    /// The steps behind the last part's number: at each point the set was parted, or a step led there. The first of
    /// each that fits is taken.
    fn steps(&self, room: &Room) -> Option<Vec<Step>> {
        let mut steps = Vec::new();
        let mut open = vec![(self.all(), room.point(self.bits))];
        while let Some((set, point)) = open.pop() {
            let cost = self.number(set, point);
            let mut one = (set - 1) & set;
            while one > 0 && self.number(one, point) + self.number(set ^ one, point) != cost {
                one = (one - 1) & set;
            }
            if one > 0 {
                open.extend([(one, point), (set ^ one, point)]);
            } else if cost > 0 {
                let mut came = None;
                room.around(point, |step, end| {
                    let there =
                        self.number(set, end) + u64::from(room.costs[step.from][step.direction]);
                    if there == cost {
                        came.get_or_insert((step, end));
                    }
                });
                let (step, end) = came?;
                steps.push(step);
                open.push((set, end));
            }
        }
        Some(steps)
    }
}
