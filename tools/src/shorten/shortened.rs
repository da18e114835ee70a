//! The answer: the shortest tree that was found, checked, beside the trees of the router.

use std::panic::{catch_unwind, AssertUnwindSafe};

use calzundi::{Net, Refusal, Tree, Wire};

use super::checked::{Checked, NotPassed, Unchecked};
use super::effort::Effort;
use super::found::{find, Outcome, Task};
use super::search::Ended;
use crate::bound::Bounded;
use crate::formats::drawing::wires;
use crate::json::{self, listed, quoted};
use crate::name::Name;
use crate::routed::edge_lines;

/// A checked tree and what is said of it. There is none without the check: the tree can be seen from outside, and not
/// set.
#[derive(Clone, Debug)]
pub struct Shortened<'net> {
    checked: Checked<'net>,
    refined: i64,
    slid: i64,
    /// A number that no tree undercuts; 0 where it was not asked for.
    bound: i64,
    effort: Effort,
    ended: Ended,
    steps: u64,
}

/// Why there is none.
#[derive(Clone, Debug, PartialEq, Eq)]
pub enum Stopped {
    /// The net is refused.
    Refused(Refusal),
    /// The search gave what does not pass.
    Unsound(NotPassed),
    /// The search broke down.
    Broken,
}

impl From<Refusal> for Stopped {
    fn from(refusal: Refusal) -> Stopped {
        Stopped::Refused(refusal)
    }
}

impl From<NotPassed> for Stopped {
    fn from(not_passed: NotPassed) -> Stopped {
        Stopped::Unsound(not_passed)
    }
}

/// The shortest tree of a net that is found with some effort. A search ends at a lower bound of the net, where one is
/// given that is not 0; the tree is the same without it.
pub fn shortened(net: &Net, effort: Effort, bound: i64) -> Result<Shortened<'_>, Stopped> {
    shortened_by(find, net, effort, bound)
}

/// The same by any search. Whatever it gives is checked. Where that is dearer than the slid tree, or nothing, the
/// slid tree is the answer. A net that is small enough gets a best tree, and no search.
pub fn shortened_by(
    search: impl Fn(&Task) -> Option<Outcome>,
    net: &Net,
    effort: Effort,
    bound: i64,
) -> Result<Shortened<'_>, Stopped> {
    let (refined, slid) = (net.refined_tree()?, net.slid_tree()?);
    let found = match net.best_tree() {
        Ok(best) => Some(Outcome {
            tree: Unchecked::of(best.edges),
            ended: Ended::Best,
            steps: 0,
        }),
        Err(Refusal::BestSize) => {
            let task = Task {
                net,
                given: &[&slid.edges, &refined.edges],
                effort,
                bound,
            };
            let searched = catch_unwind(AssertUnwindSafe(|| search(&task)));
            searched.map_err(|_| Stopped::Broken)?
        }
        Err(refusal) => return Err(refusal.into()),
    };
    let mut answer = Shortened {
        checked: Checked::of(net, Unchecked::of(slid.edges))?,
        refined: refined.total,
        slid: slid.total,
        bound,
        effort,
        ended: Ended::NothingHelps,
        steps: 0,
    };
    if let Some(Outcome { tree, ended, steps }) = found {
        let checked = Checked::of(net, tree)?;
        (answer.ended, answer.steps) = (ended, steps);
        if checked.tree().total <= slid.total {
            answer.checked = checked;
        }
    }
    Ok(answer)
}

impl Shortened<'_> {
    pub fn tree(&self) -> &Tree {
        self.checked.tree()
    }

    pub fn ended(&self) -> Ended {
        self.ended
    }

    /// How many steps the search took.
    pub fn steps(&self) -> u64 {
        self.steps
    }

    /// Its wires, in the order of edges.
    pub fn wires(&self) -> Vec<Wire> {
        wires(&self.tree().edges)
    }

    /// How far it is above the bound.
    fn bounded(&self) -> Bounded {
        let bounded = Bounded::of(self.checked.net().weights, self.tree().total, self.bound);
        match self.ended {
            Ended::Best => bounded.best(),
            _ => bounded,
        }
    }

    /// A line with the totals, one with the bound in words, and one for each edge.
    pub fn text(&self) -> String {
        let net = self.checked.net();
        let (pins, macros) = (net.pins.len(), net.macros.len());
        let Shortened { refined, slid, .. } = self;
        let Tree {
            total,
            metal,
            edges,
        } = self.tree();
        let bounded = self.bounded();
        let (bound, words) = (bounded.text(), bounded.words());
        let totals = format!("refined {refined} slid {slid} shortened {total} metal {metal}");
        let edges = edge_lines(edges, net.weights);
        format!("pins {pins} macros {macros} {totals} {bound}\n# {words}\n{edges}")
    }

    /// Everything about it and its net.
    pub fn json(&self, name: &Name) -> String {
        let net = self.checked.net();
        let Tree {
            total,
            metal,
            edges,
        } = self.tree();
        let numbers = [
            ("refined", self.refined),
            ("slid", self.slid),
            ("shortened", *total),
            ("metal", *metal),
        ];
        let bounded = self.bounded();
        let mut fields = json::about("net", name);
        fields.extend(numbers.map(|(name, number)| (name, number.to_string())));
        fields.extend(bounded.fields());
        fields.push(("shortest", bounded.is_least().to_string()));
        fields.push(("effort", self.effort.number().to_string()));
        fields.push(("ended", quoted(self.ended.word())));
        fields.push(("steps", self.steps.to_string()));
        fields.extend(json::net(net));
        let edges = edges.iter().map(|edge| json::edge(edge, net.weights));
        fields.push(("edges", listed(edges)));
        fields.push(("wires", listed(self.wires().iter().map(json::wire))));
        json::object(&fields)
    }
}
