//! A room: the crossings of a window, numbered by themselves, and the parts of a tree that are to be joined there. A
//! part is one point: its first crossing stands for all of it.

use super::grid::{Grid, Step, DIRECTIONS, DOWN, LEFT, NO_STEP, RIGHT, UP};
use super::window::Window;

/// No part stands at a crossing.
const NO_PART: u8 = u8::MAX;

/// Kept from one try to the next, so that its lists are.
#[derive(Debug, Default)]
pub struct Room {
    high: usize,
    /// What steps cost; none leads out of the window.
    pub costs: Vec<[u32; DIRECTIONS]>,
    /// What stands for a crossing: itself, or its part's first.
    stands: Vec<u32>,
    part_of: Vec<u8>,
    parts: Vec<Vec<usize>>,
}

impl Room {
    /// Sets up a window with these parts, each a list of crossings of the grid of which some are in the window.
    pub fn set_up(&mut self, grid: &Grid, window: &Window, parts: &[Vec<usize>]) {
        self.high = window.high();
        self.copy_costs(grid, window);
        self.stands.clear();
        self.stands.extend(0..window.area() as u32);
        self.part_of.clear();
        self.part_of.resize(window.area(), NO_PART);
        self.parts.clear();
        for (number, part) in parts.iter().enumerate() {
            let mut here: Vec<usize> = part
                .iter()
                .filter_map(|&at| window.within(grid, at))
                .collect();
            here.sort_unstable();
            for &at in &here {
                self.stands[at] = here[0] as u32;
                self.part_of[at] = number as u8;
            }
            self.parts.push(here);
        }
    }

    fn copy_costs(&mut self, grid: &Grid, window: &Window) {
        self.costs.clear();
        for column in window.columns.0..=window.columns.1 {
            let first = column * grid.ys.len();
            let rows = first + window.rows.0..=first + window.rows.1;
            self.costs.extend_from_slice(&grid.costs[rows]);
        }
        let area = self.costs.len();
        for column in 0..window.across() {
            self.costs[column * self.high][DOWN] = NO_STEP;
            self.costs[(column + 1) * self.high - 1][UP] = NO_STEP;
        }
        for row in 0..self.high {
            self.costs[row][LEFT] = NO_STEP;
            self.costs[area - 1 - row][RIGHT] = NO_STEP;
        }
    }

    /// How many crossings there are.
    pub fn area(&self) -> usize {
        self.costs.len()
    }

    /// How many parts there are.
    pub fn parts(&self) -> usize {
        self.parts.len()
    }

    /// The point that a part is.
    pub fn point(&self, part: usize) -> usize {
        self.parts[part][0]
    }

    /// The part that stands at a crossing.
    pub fn part(&self, at: usize) -> Option<usize> {
        let part = self.part_of[at];
        (part != NO_PART).then_some(part.into())
    }

    /// Every step out of a point, with the point to which it leads.
    #[inline]
    pub fn around(&self, point: usize, mut visit: impl FnMut(Step, usize)) {
        match self.part(point) {
            None => self.steps(point, point, &mut visit),
            Some(part) => {
                for &from in &self.parts[part] {
                    self.steps(point, from, &mut visit);
                }
            }
        }
    }

    #[inline]
    fn steps(&self, point: usize, from: usize, visit: &mut impl FnMut(Step, usize)) {
        for (direction, &cost) in self.costs[from].iter().enumerate() {
            if cost == NO_STEP {
                continue;
            }
            let end = match direction {
                RIGHT => from + self.high,
                LEFT => from - self.high,
                UP => from + 1,
                _ => from - 1,
            };
            let end = self.stands[end] as usize;
            if end != point {
                visit(Step { from, direction }, end);
            }
        }
    }
}
