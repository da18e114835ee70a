//! The grid on which metal is laid: a line through every pin and along every side of a macro, and through the ends of
//! the trees that a search begins with. Where two lines cross is a crossing; a step leads to the next one, where no
//! macro's interior lies between.

use std::collections::BTreeSet;

use calzundi::{Net, Place};

/// Directions by number: an even one leads to a larger crossing, and its opposite is the one after it.
pub const RIGHT: usize = 0;
pub const LEFT: usize = 1;
pub const UP: usize = 2;
pub const DOWN: usize = 3;
pub const DIRECTIONS: usize = 4;

/// The direction back.
pub const fn back(direction: usize) -> usize {
    direction ^ 1
}

/// Whether a direction leads to a larger crossing: each step is met once in one of these.
pub const fn leads_up(direction: usize) -> bool {
    direction.is_multiple_of(2)
}

/// What a step costs that is not there.
pub const NO_STEP: u32 = u32::MAX;

/// A grid has at most so many crossings, so that a cost and a crossing's number share 64 bits.
pub const MOST_CROSSINGS: usize = 1 << CROSSING_BITS;
pub const CROSSING_BITS: u32 = 18;

/// A step from a crossing to the next one.
#[derive(Clone, Copy, Debug, PartialEq, Eq)]
pub struct Step {
    pub from: usize,
    pub direction: usize,
}

/// Crossings have numbers, in the order of their places: so neither the order of lists nor the site is seen by what
/// goes by numbers.
#[derive(Debug)]
pub struct Grid {
    pub xs: Vec<i32>,
    pub ys: Vec<i32>,
    /// What a unit costs along each axis.
    pub weights: [u64; 2],
    /// What the step from a crossing costs in each direction.
    pub costs: Vec<[u32; DIRECTIONS]>,
    /// The crossings of pins, rising.
    pub pins: Vec<usize>,
    is_pin: Vec<bool>,
}

impl Grid {
    /// The grid of an allowed net, with lines through some more places; none where it would have too many crossings.
    pub fn of(net: &Net, more: &[Place]) -> Option<Grid> {
        let places = || {
            net.pins
                .iter()
                .map(|pin| pin.place)
                .chain(more.iter().copied())
        };
        let sides = |one: &calzundi::Macro| [(one.left, one.bottom), (one.right, one.top)];
        let sides = || net.macros.iter().flat_map(sides);
        let xs: BTreeSet<i32> = places()
            .map(|place| place.x)
            .chain(sides().map(|side| side.0))
            .collect();
        let ys: BTreeSet<i32> = places()
            .map(|place| place.y)
            .chain(sides().map(|side| side.1))
            .collect();
        let count = xs.len() * ys.len();
        if count > MOST_CROSSINGS {
            return None;
        }
        let mut grid = Grid {
            xs: xs.into_iter().collect(),
            ys: ys.into_iter().collect(),
            weights: [net.weights.x, net.weights.y].map(|weight| weight.unsigned_abs().into()),
            costs: vec![[NO_STEP; DIRECTIONS]; count],
            pins: Vec::new(),
            is_pin: vec![false; count],
        };
        grid.open();
        for one in &net.macros {
            grid.shut(one);
        }
        let pins: BTreeSet<usize> = net
            .pins
            .iter()
            .filter_map(|pin| grid.crossing(pin.place))
            .collect();
        for &pin in &pins {
            grid.is_pin[pin] = true;
        }
        grid.pins = pins.into_iter().collect();
        Some(grid)
    }

    /// Every step between neighbours, with its cost.
    fn open(&mut self) {
        let (across, high) = (self.xs.len(), self.ys.len());
        let cost =
            |line: &[i32], at: usize, weight: u64| line[at].abs_diff(line[at + 1]) * weight as u32;
        for from in 0..self.costs.len() {
            let (column, row) = (from / high, from % high);
            if column + 1 < across {
                let cost = cost(&self.xs, column, self.weights[0]);
                self.set(
                    Step {
                        from,
                        direction: RIGHT,
                    },
                    cost,
                );
            }
            if row + 1 < high {
                let cost = cost(&self.ys, row, self.weights[1]);
                self.set(
                    Step {
                        from,
                        direction: UP,
                    },
                    cost,
                );
            }
        }
    }

    /// No step through a macro's interior; those along its sides stay.
    fn shut(&mut self, one: &calzundi::Macro) {
        let high = self.ys.len();
        let corner = |x, y| self.crossing(Place { x, y }).expect("sides are lines");
        let (low, far) = (corner(one.left, one.bottom), corner(one.right, one.top));
        let (left, bottom) = (low / high, low % high);
        for column in left..far / high {
            for row in bottom..far % high {
                let from = column * high + row;
                if row > bottom {
                    self.set(
                        Step {
                            from,
                            direction: RIGHT,
                        },
                        NO_STEP,
                    );
                }
                if column > left {
                    self.set(
                        Step {
                            from,
                            direction: UP,
                        },
                        NO_STEP,
                    );
                }
            }
        }
    }

    fn set(&mut self, step: Step, cost: u32) {
        let end = self.end(step);
        self.costs[step.from][step.direction] = cost;
        self.costs[end][back(step.direction)] = cost;
    }

    /// Where a step leads.
    pub fn end(&self, Step { from, direction }: Step) -> usize {
        let high = self.ys.len();
        match direction {
            RIGHT => from + high,
            LEFT => from - high,
            UP => from + 1,
            _ => from - 1,
        }
    }

    /// What a step costs, which is there.
    pub fn cost(&self, step: Step) -> u64 {
        self.costs[step.from][step.direction].into()
    }

    pub fn is_pin(&self, crossing: usize) -> bool {
        self.is_pin[crossing]
    }

    /// The crossing at a place.
    pub fn crossing(&self, place: Place) -> Option<usize> {
        let column = self.xs.binary_search(&place.x).ok()?;
        Some(column * self.ys.len() + self.ys.binary_search(&place.y).ok()?)
    }

    /// The place of a crossing.
    pub fn place(&self, crossing: usize) -> Place {
        let high = self.ys.len();
        Place {
            x: self.xs[crossing / high],
            y: self.ys[crossing % high],
        }
    }
}
