//! How far a tree is from the least: its cost beside the net's lower bound, in numbers and in words.

use std::sync::mpsc::{channel, RecvTimeoutError};
use std::thread;
use std::time::Duration;

use calzundi::Weights;

use crate::json::Field;
use crate::picture::grouped;
use crate::program::{Failure, Switch, Words};
use crate::source::Source;
use crate::streams::say;

/// Asks for the lower bound.
pub const BOUND: Switch = Switch {
    name: "--bound",
    value: None,
};

/// A tree's cost and a number that no tree of its net undercuts.
#[derive(Clone, Copy, Debug, PartialEq, Eq)]
pub struct Bounded {
    pub cost: i64,
    pub bound: i64,
    /// Whether a unit of metal costs anything but 1, so that costs are no lengths.
    weighed: bool,
    /// Whether no tree is cheaper, by the bound or as it is known otherwise.
    least: bool,
}

impl Bounded {
    /// A tree of a net with these weights beside the net's bound.
    pub fn of(weights: Weights, cost: i64, bound: i64) -> Bounded {
        Bounded {
            cost,
            bound,
            weighed: weights != Weights::default(),
            least: cost == bound,
        }
    }

    /// The same of a best tree, which is a cheapest whatever the bound.
    pub fn best(self) -> Bounded {
        Bounded {
            least: true,
            ..self
        }
    }

    /// Whether no tree is cheaper.
    pub fn is_least(&self) -> bool {
        self.least
    }

    /// By how much the cost is above the bound, in parts of it, the next one up: so it is never more, and none only where both are equal.
    fn parts_over(&self, parts: i64) -> i64 {
        let Bounded { cost, bound, .. } = *self;
        let over = (i128::from(cost) - i128::from(bound)) * i128::from(parts);
        let bound = i128::from(bound.max(1));
        i64::try_from((over + bound - 1).div_euclid(bound)).unwrap_or(i64::MAX)
    }

    /// The same in percent, to two places.
    pub fn over(&self) -> String {
        let parts = self.parts_over(10_000);
        format!("{}.{:02}", parts / 100, parts % 100)
    }

    /// `bound 109 over 2.76%`, as it stands at the end of a header.
    pub fn text(&self) -> String {
        format!("bound {} over {}%", self.bound, self.over())
    }

    /// `bound` and `over`.
    pub fn fields(&self) -> [Field; 2] {
        [("bound", self.bound.to_string()), ("over", self.over())]
    }

    /// In words: `112, and no tree has less than 109: at most 2.8 % longer`.
    pub fn words(&self) -> String {
        let (cost, bound) = (grouped(self.cost), grouped(self.bound));
        let parts = self.parts_over(1_000);
        let more = format!("at most {}.{} %", parts / 10, parts % 10);
        match (self.weighed, self.least) {
            (false, false) => format!("{cost}, and no tree has less than {bound}: {more} longer"),
            (false, true) => format!("{cost}, and no tree has less: this is a shortest tree"),
            (true, false) => {
                format!("cost {cost}, and no tree costs less than {bound}: {more} dearer")
            }
            (true, true) => {
                format!("cost {cost}, and no tree costs less: this is a cheapest tree")
            }
        }
    }
}

/// What takes longer than this is said to take long.
const LONG: Duration = Duration::from_secs(1);

/// The lower bound of an allowed net, if the words ask for it.
pub fn asked(words: &Words, source: &Source) -> Result<Option<i64>, Failure> {
    match words.has(BOUND.name) {
        true => bound_of(source).map(Some),
        false => Ok(None),
    }
}

/// The lower bound of an allowed net. Where it takes long, standard error says what is being waited for.
pub fn bound_of(source: &Source) -> Result<i64, Failure> {
    let (done, is_done) = channel::<()>();
    let patience = format!("calzundi: {}: its lower bound takes a while", source.name);
    let wait = move || {
        if is_done.recv_timeout(LONG) == Err(RecvTimeoutError::Timeout) {
            say(&patience);
        }
    };
    // Without a thread to wait nothing is said.
    let waiting = thread::Builder::new().spawn(wait);
    let bound = source.net.lower_bound();
    drop(done);
    if let Ok(waiting) = waiting {
        let _ = waiting.join();
    }
    bound.map_err(|refusal| source.unfit(refusal))
}
