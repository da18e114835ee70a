//! The refined tree: candidates, rounds and pruning.

use std::cmp::Reverse;

use crate::beside::{joints, Joint};
use crate::edge::Edge;
use crate::graph::Sight;
use crate::ground::Ground;
use crate::net::{Net, Place, Weights};
use crate::terminal::{terminal_on, Terminal};
use crate::tree::{neighbours, numbered, ways_from, Tree, Way};

/// The refined tree's edges in order, their total in cost, the metal to lay in plain length, and
/// what happened on the way.
#[derive(Clone, Debug, PartialEq, Eq)]
pub struct Refined {
    pub edges: Vec<Edge>,
    pub total: i64,
    pub metal: i64,
    pub statistics: Statistics,
}

/// What happened while refining, so that tests can tell which sentences a net exercises.
#[derive(Clone, Debug, Default, PartialEq, Eq)]
pub struct Statistics {
    /// Rounds that took a candidate.
    pub rounds: usize,
    /// Whether a further gain was still there after m rounds.
    pub bound_ended: bool,
    /// Points that went in the pruning.
    pub pruned: usize,
    /// How often s equalled a, b or u in a taken candidate.
    pub s_at_a: usize,
    pub s_at_b: usize,
    pub s_at_u: usize,
    /// Candidates dropped, over all rounds.
    pub dropped: usize,
    /// Whether in some round a dropped candidate would have been taken.
    pub dropped_would_win: bool,
    /// Rounds that took a point beside the tree.
    pub beside: usize,
    /// Rounds in which a candidate on the tree and one beside it had the same greatest gain.
    pub tied: usize,
    /// Candidates beside the tree dropped, over all rounds: v is a or b; s is the place of a way's point other than u; s is the
    /// place of a tree point other than a and b.
    pub joined_at_end: usize,
    pub s_on_way: usize,
    pub s_on_tree: usize,
    /// Whether one of the latter two would have been taken in some round.
    pub s_on_way_would_win: bool,
    pub s_on_tree_would_win: bool,
    /// Rounds beside the tree whose v was put in as s by a former round.
    pub joined_at_s: usize,
}

/// Which points may be the third: those of the tree (document 01), or graph vertices beside it too (document 02, \[3\]).
#[derive(Clone, Copy, Debug, PartialEq, Eq)]
pub enum Rule {
    OnTree,
    Beside,
}

/// A candidate's edge and third point (R3), with its s (R5), its L (R8), its gain (R9) and whether
/// it is dropped (R6).
#[derive(Clone, Copy, Debug, PartialEq, Eq)]
pub struct Candidate {
    pub edge: Edge,
    pub u: Place,
    pub s: Place,
    pub longest: Edge,
    pub gain: i64,
    pub dropped: bool,
}

/// A candidate whose u stands beside the tree, with how it is joined, and the kind of dropping.
#[derive(Clone, Copy, Debug, PartialEq, Eq)]
struct Beside<'a> {
    candidate: Candidate,
    joint: &'a Joint,
    on_way: bool,
}

/// The rule that the proved router goes by.
pub const RULE: Rule = Rule::Beside;

/// The refined tree of a net.
pub fn refined(net: &Net) -> Refined {
    let ground = Ground::new(net);
    refine_on(RULE, &ground, net, &terminal_on(&ground, net))
}

pub fn refine(net: &Net, terminal: &Terminal) -> Refined {
    refine_by(RULE, net, terminal)
}

pub fn refine_by(rule: Rule, net: &Net, terminal: &Terminal) -> Refined {
    refine_on(rule, &Ground::new(net), net, terminal)
}

/// R15: no more rounds than pins, and none after one that finds no gain. Then pruning (R16).
pub fn refine_on(rule: Rule, ground: &Ground, net: &Net, terminal: &Terminal) -> Refined {
    let mut sight = Sight::new(net);
    let mut tree = union(net, terminal);
    let mut statistics = Statistics::default();
    let mut put_in = Vec::new();
    while statistics.rounds < net.m() {
        let Some(s) = round(
            rule,
            ground,
            &mut sight,
            &mut tree,
            &put_in,
            &mut statistics,
        ) else {
            break;
        };
        put_in.extend(s);
        statistics.rounds += 1;
    }
    if statistics.rounds == net.m() {
        let mut left = tree.clone();
        let further = &mut Statistics::default();
        let next = round(rule, ground, &mut sight, &mut left, &put_in, further);
        statistics.bound_ended = next.is_some();
    }
    while prune(&mut tree) {
        statistics.pruned += 1;
    }
    Refined {
        total: tree.total(net.weights()),
        metal: tree.metal(),
        edges: tree.edges.into_iter().collect(),
        statistics,
    }
}

/// A round, where there is a gain: what it laid as s, unless that was a tree point before.
fn round(
    rule: Rule,
    ground: &Ground,
    sight: &mut Sight,
    tree: &mut Tree,
    put_in: &[Place],
    statistics: &mut Statistics,
) -> Option<Option<Place>> {
    let view = View::new(tree, ground.graph.weights, sight);
    // One that gains less than another that is not dropped is out of the question.
    let mut least = 1;
    let on_tree = view.candidates(sight, |c| {
        statistics.dropped += usize::from(c.dropped);
        let asked = c.gain >= least;
        if asked && !c.dropped {
            least = c.gain;
        }
        asked
    });
    let first = best(on_tree.iter().filter(|c| !c.dropped));
    statistics.dropped_would_win |= best(on_tree.iter()).is_some_and(|winner| winner.dropped);
    let joints = match rule {
        Rule::OnTree => Vec::new(),
        Rule::Beside if tree.edges.is_empty() => Vec::new(),
        Rule::Beside => joints(ground, tree),
    };
    let beside = view.beside(&joints, sight, statistics);
    let second = best_beside(beside.iter().filter(|c| !c.candidate.dropped));
    // "On-tree candidates come first at equal gain."
    let gain = first.map_or(0, |c| c.gain);
    let beside_gain = second.map_or(0, |c| c.candidate.gain);
    statistics.tied += usize::from(gain > 0 && gain == beside_gain);
    if let Some(all) = best_beside(beside.iter()) {
        let wins = all.candidate.gain > gain && all.candidate.dropped;
        statistics.s_on_way_would_win |= wins && all.on_way;
        statistics.s_on_tree_would_win |= wins && !all.on_way;
    }
    let winner = match second {
        Some(second) if second.candidate.gain > gain => {
            statistics.beside += 1;
            statistics.joined_at_s += usize::from(put_in.contains(&second.joint.v()));
            // "And the way is laid."
            tree.edges.extend(second.joint.edges());
            &second.candidate
        }
        _ => first?,
    };
    statistics.s_at_a += usize::from(winner.s == winner.edge.first());
    statistics.s_at_b += usize::from(winner.s == winner.edge.second());
    statistics.s_at_u += usize::from(winner.s == winner.u);
    take(tree, winner);
    let ends = [winner.edge.first(), winner.edge.second(), winner.u];
    Some((!ends.contains(&winner.s)).then_some(winner.s))
}

/// R1: the tree that the first round starts with.
pub fn union(net: &Net, terminal: &Terminal) -> Tree {
    Tree {
        pins: net.pins().to_vec(),
        edges: terminal.paths.iter().flat_map(|p| p.edges()).collect(),
    }
}

/// All candidates of a tree, the dropped ones marked.
pub fn candidates(net: &Net, tree: &Tree) -> Vec<Candidate> {
    let mut sight = Sight::new(net);
    View::new(tree, net.weights(), &mut sight).candidates(&mut sight, |_| true)
}

/// A tree as a round sees it: points and edges by number, in order, and the tree way between every two points.
struct View {
    weights: Weights,
    points: Vec<Place>,
    /// The points' numbers in the sight.
    seen: Vec<usize>,
    edges: Vec<(usize, usize)>,
    costs: Vec<i64>,
    ways: Vec<Vec<Way>>,
}

impl View {
    fn new(tree: &Tree, weights: Weights, sight: &mut Sight) -> View {
        let points = tree.points();
        let edges = numbered(tree, &points);
        let neighbours = neighbours(points.len(), &edges);
        let costs: Vec<i64> = tree.edges.iter().map(|edge| edge.cost(weights)).collect();
        let ways = |start: usize| ways_from(&neighbours, start, &costs);
        View {
            weights,
            seen: points.iter().map(|&point| sight.number(point)).collect(),
            ways: (0..points.len()).map(ways).collect(),
            points,
            edges,
            costs,
        }
    }

    fn edge(&self, number: usize) -> Edge {
        let (a, b) = self.edges[number];
        Edge::new(self.points[a], self.points[b])
    }

    /// The candidates whose u is a tree point, of those that are asked for.
    fn candidates(
        &self,
        sight: &mut Sight,
        mut asked: impl FnMut(&Candidate) -> bool,
    ) -> Vec<Candidate> {
        let mut found = Vec::new();
        for (u, &seen) in self.seen.iter().enumerate() {
            let clear_of_u = sight.clear_of(seen, &self.seen);
            for (number, &(a, b)) in self.edges.iter().enumerate() {
                if u != a && u != b && (clear_of_u[a] || clear_of_u[b]) {
                    let candidate = self.candidate(number, self.points[u], u);
                    if asked(&candidate) {
                        found.push(candidate);
                    }
                }
            }
        }
        found
    }

    /// The candidate of an edge and a place u, whose L is sought from a tree point that is no end of the edge.
    fn candidate(&self, edge: usize, u: Place, from: usize) -> Candidate {
        let (a, b) = self.edges[edge];
        // R8: of a and b the one with fewer edges on the way.
        let (to_a, to_b) = (self.ways[from][a], self.ways[from][b]);
        let way = if to_a.steps < to_b.steps { to_a } else { to_b };
        let longest = way.longest.expect("it is neither a nor b");
        let (a, b) = (self.points[a], self.points[b]);
        let s = middle(a, b, u);
        Candidate {
            edge: Edge::new(a, b),
            u,
            s,
            longest: self.edge(longest),
            // R9.
            gain: self.costs[longest] - self.weights.cost(s, u),
            // R6.
            dropped: ![a, b, u].contains(&s) && self.points.binary_search(&s).is_ok(),
        }
    }

    /// The candidates beside the tree (R3), with their gains by R25. The dropped ones are marked, but for those whose v
    /// is a or b, which have no L. Those left out gain nothing or less than one that is not dropped.
    fn beside<'a>(
        &self,
        joints: &'a [Joint],
        sight: &mut Sight,
        statistics: &mut Statistics,
    ) -> Vec<Beside<'a>> {
        let mut least = 1;
        let mut found = Vec::new();
        for joint in joints {
            let (u, cost) = (joint.u(), joint.cost(self.weights));
            let from = self.points.binary_search(&joint.v());
            let from = from.expect("v is a tree point");
            let seen = sight.number(u);
            let clear_of_u = sight.clear_of(seen, &self.seen);
            for (number, &(a, b)) in self.edges.iter().enumerate() {
                if !(clear_of_u[a] || clear_of_u[b]) {
                    continue;
                }
                // R24, by v.
                if from == a || from == b {
                    statistics.joined_at_end += 1;
                    continue;
                }
                let mut candidate = self.candidate(number, u, from);
                candidate.gain -= cost;
                // R24, by the way without its first point, which is u.
                let on_way = joint.way[1..].contains(&candidate.s);
                // R6, as for any candidate.
                let on_tree = candidate.dropped;
                statistics.s_on_way += usize::from(on_way && !on_tree);
                statistics.s_on_tree += usize::from(on_tree);
                candidate.dropped = on_way || on_tree;
                if candidate.gain >= least {
                    if !candidate.dropped {
                        least = candidate.gain;
                    }
                    found.push(Beside {
                        candidate,
                        joint,
                        on_way: on_way && !on_tree,
                    });
                }
            }
        }
        found
    }
}

/// R5: s, the middle place along each axis by itself.
fn middle(a: Place, b: Place, u: Place) -> Place {
    let of = |one: i64, other: i64, third: i64| third.clamp(one.min(other), one.max(other));
    Place {
        x: of(a.x, b.x, u.x),
        y: of(a.y, b.y, u.y),
    }
}

/// R10: the candidate that gains most, if any gains; of several the one whose edge, then whose u,
/// is smallest.
fn best<'a>(candidates: impl Iterator<Item = &'a Candidate>) -> Option<&'a Candidate> {
    candidates
        .filter(|c| c.gain > 0)
        .min_by_key(|c| (Reverse(c.gain), c.edge, c.u))
}

/// The same of those beside the tree.
fn best_beside<'a, 'b: 'a>(
    candidates: impl Iterator<Item = &'a Beside<'b>>,
) -> Option<&'a Beside<'b>> {
    candidates
        .filter(|c| c.candidate.gain > 0)
        .min_by_key(|c| (Reverse(c.candidate.gain), c.candidate.edge, c.candidate.u))
}

/// R12 and R13: the two edges go, and s is joined to each of the three points where it does not stand.
fn take(tree: &mut Tree, winner: &Candidate) {
    tree.edges.remove(&winner.edge);
    tree.edges.remove(&winner.longest);
    for end in [winner.edge.first(), winner.edge.second(), winner.u] {
        if winner.s != end {
            tree.edges.insert(Edge::new(winner.s, end));
        }
    }
}

/// R16, one step: a point that is no pin goes with its only edge, or there is none.
fn prune(tree: &mut Tree) -> bool {
    for point in tree.points() {
        let touching = |edge: &&Edge| edge.first() == point || edge.second() == point;
        let at_point: Vec<Edge> = tree.edges.iter().filter(touching).copied().collect();
        if !tree.pins.contains(&point) && at_point.len() == 1 {
            tree.edges.remove(&at_point[0]);
            return true;
        }
    }
    false
}
