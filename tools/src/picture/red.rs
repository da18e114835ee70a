//! What is drawn in red: the entries that are to blame for a refusal, and what is said of them.

use std::collections::BTreeSet;

use crate::blame::{Blame, Kind};

pub const RED: &str = "#c8102e";

/// Entries by number from 0, and the lines that say what is wrong with them.
#[derive(Clone, Debug, Default, PartialEq, Eq)]
pub struct Red {
    pub pins: BTreeSet<usize>,
    pub macros: BTreeSet<usize>,
    pub edges: BTreeSet<usize>,
    /// The refusal, then each reason.
    pub said: Vec<String>,
    /// How many more reasons there are, of which the last line tells.
    more: usize,
}

/// So many reasons stand on a sheet.
const FEW: usize = 12;

impl Red {
    pub fn of(blame: &Blame) -> Red {
        let of = |kind: Kind| {
            let entries = blame.entries().into_iter();
            entries
                .filter(|entry| entry.kind == kind)
                .map(|entry| entry.at)
                .collect()
        };
        let lines = blame.lines();
        let said = lines.iter().map(|line| line.trim_start().to_string());
        Red {
            pins: of(Kind::Pin),
            macros: of(Kind::Macro),
            edges: of(Kind::Edge),
            said: said.collect(),
            more: blame.more.saturating_sub(1),
        }
    }

    /// The first lines, and how many are left.
    pub fn few(&self) -> Vec<String> {
        let mut few: Vec<String> = self.said.iter().take(FEW + 1).cloned().collect();
        if let Some(more) = self.said.len().checked_sub(FEW + 2) {
            few.push(format!("and {} more", more + 1 + self.more));
        }
        few
    }
}
