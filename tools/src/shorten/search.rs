//! The search: relays of few key points until none helps, then of more, and of few again after each gain. A set of
//! key points is tried again only where something has changed in its window since.

use std::collections::HashMap;

use super::budget::Budget;
use super::grid::Grid;
use super::laid::Laid;
use super::relay::{sets, Bench, Gap, Reach};
use super::window::Window;

/// Why a search ended.
#[derive(Clone, Copy, Debug, PartialEq, Eq)]
pub enum Ended {
    /// No tree costs less than this one.
    AtBound,
    /// No relay within its reach helps.
    NothingHelps,
    /// The budget is spent.
    Spent,
    /// There was none: a best tree of the router was taken.
    Best,
}

impl Ended {
    /// In a word or two.
    pub fn word(self) -> &'static str {
        match self {
            Ended::AtBound => "bound",
            Ended::NothingHelps => "nothing helps",
            Ended::Spent => "budget",
            Ended::Best => "best tree",
        }
    }
}

/// What a search has come to.
#[derive(Debug)]
pub(super) struct Found {
    pub laid: Laid,
    pub cost: u64,
    pub ended: Ended,
    pub steps: u64,
}

/// A search from a tree, by relays of these reaches, until nothing helps, the bound is reached or the budget is
/// spent. With more reaches at the end of the list, or a greater budget, the same search goes on: so it never comes
/// to a dearer tree.
pub(super) fn search(
    grid: &Grid,
    start: Laid,
    reaches: &[Reach],
    bound: u64,
    budget: Budget,
) -> Found {
    let cost = start.cost(grid);
    let mut search = Search {
        grid,
        laid: start,
        cost,
        bound,
        budget,
        tried: HashMap::new(),
        changed: Vec::new(),
        bench: Bench::default(),
    };
    let ended = search.run(reaches);
    Found {
        ended,
        cost: search.cost,
        laid: search.laid,
        steps: search.budget.spent(),
    }
}

/// So many sets are remembered; beyond that all are forgotten, and may be tried again.
const MOST_TRIED: usize = 1 << 17;

struct Search<'a> {
    grid: &'a Grid,
    laid: Laid,
    cost: u64,
    bound: u64,
    budget: Budget,
    /// Key points that did not help: how much had changed then, and their window.
    tried: HashMap<(Reach, Vec<usize>), (usize, Window)>,
    /// Where each gain has changed the tree.
    changed: Vec<Window>,
    bench: Bench,
}

impl Search<'_> {
    fn run(&mut self, reaches: &[Reach]) -> Ended {
        let mut at = 0;
        while let Some(&reach) = reaches.get(at) {
            let before = self.changed.len();
            if let Some(ended) = self.round(reach) {
                return ended;
            }
            at = if self.changed.len() > before {
                0
            } else {
                at + 1
            };
        }
        self.ended().unwrap_or(Ended::NothingHelps)
    }

    fn ended(&self) -> Option<Ended> {
        match () {
            _ if self.cost <= self.bound => Some(Ended::AtBound),
            _ if self.budget.is_spent() => Some(Ended::Spent),
            _ => None,
        }
    }

    /// Every set of key points once, in the order of places; after a gain it goes on with the next place.
    fn round(&mut self, reach: Reach) -> Option<Ended> {
        for least in 0..self.grid.costs.len() {
            if !self.laid.is_key(self.grid, least) {
                continue;
            }
            for keys in sets(self.grid, &self.laid, least, reach.keys) {
                if let Some(ended) = self.ended() {
                    return Some(ended);
                }
                self.budget.spend(1);
                if self.relay(keys, reach) {
                    break;
                }
            }
        }
        None
    }

    /// Whether a relay of some key points made the tree cheaper.
    fn relay(&mut self, keys: Vec<usize>, reach: Reach) -> bool {
        let key = (reach, keys);
        let since = |&(when, window): &(usize, Window)| {
            self.changed[when..].iter().any(|one| one.meets(&window))
        };
        if self.tried.get(&key).is_some_and(|before| !since(before)) {
            return false;
        }
        let Some(gap) = Gap::about(self.grid, &self.laid, &key.1, reach) else {
            return false;
        };
        let gain = gap.close(self.grid, &mut self.laid, &mut self.bench, &mut self.budget);
        match &gain {
            Some(gain) => {
                self.cost -= gain.saved;
                self.changed.push(gain.changed);
            }
            None => {
                if self.tried.len() == MOST_TRIED {
                    self.tried.clear();
                }
                self.tried.insert(key, (self.changed.len(), gap.window));
            }
        }
        gain.is_some()
    }
}
