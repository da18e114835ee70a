//! A window: the part of the grid in which something is tried.

use super::grid::Grid;

/// Columns and rows, the first and the last of each.
#[derive(Clone, Copy, Debug, PartialEq, Eq)]
pub struct Window {
    pub columns: (usize, usize),
    pub rows: (usize, usize),
}

impl Window {
    /// The least window about some crossings, and about all lines that are no farther from it than a margin, in cost.
    pub fn about(grid: &Grid, crossings: impl Iterator<Item = usize>, margin: u64) -> Window {
        let high = grid.ys.len();
        let none = (usize::MAX, 0);
        let with = |(low, last): (usize, usize), at: usize| (low.min(at), last.max(at));
        let (columns, rows) = crossings.fold((none, none), |(columns, rows), at| {
            (with(columns, at / high), with(rows, at % high))
        });
        Window {
            columns: widened(&grid.xs, columns, margin / grid.weights[0]),
            rows: widened(&grid.ys, rows, margin / grid.weights[1]),
        }
    }

    pub fn meets(&self, other: &Window) -> bool {
        let meet = |a: (usize, usize), b: (usize, usize)| a.0 <= b.1 && b.0 <= a.1;
        meet(self.columns, other.columns) && meet(self.rows, other.rows)
    }

    pub fn across(&self) -> usize {
        self.columns.1 - self.columns.0 + 1
    }

    pub fn high(&self) -> usize {
        self.rows.1 - self.rows.0 + 1
    }

    /// How many crossings it has.
    pub fn area(&self) -> usize {
        self.across() * self.high()
    }

    /// The number that a crossing of the grid has within, where it is.
    pub fn within(&self, grid: &Grid, crossing: usize) -> Option<usize> {
        let (column, row) = (crossing / grid.ys.len(), crossing % grid.ys.len());
        let is_in = |(low, last): (usize, usize), at: usize| (low..=last).contains(&at);
        let here = is_in(self.columns, column) && is_in(self.rows, row);
        here.then(|| (column - self.columns.0) * self.high() + row - self.rows.0)
    }

    /// The crossing of the grid that has a number within.
    pub fn crossing(&self, grid: &Grid, within: usize) -> usize {
        let (column, row) = (within / self.high(), within % self.high());
        (column + self.columns.0) * grid.ys.len() + row + self.rows.0
    }
}

/// The lines from a first to a last one and those within so many units of them.
fn widened(lines: &[i32], (first, last): (usize, usize), units: u64) -> (usize, usize) {
    let (low, high) = (lines[first], lines[last]);
    let far = |from: i32, to: i32| u64::from(from.abs_diff(to)) > units;
    let before = lines[..first].partition_point(|&line| far(line, low));
    let after = lines[last + 1..].partition_point(|&line| !far(line, high));
    (before, last + after)
}
