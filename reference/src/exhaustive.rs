//! Mission demand 3 by exhaustion: every terminal path of a small net's graph is enumerated, and a
//! terminal tree is judged by all of them, in cost. Nothing of `terminal` is used, so that a
//! mistake there shows.

use std::collections::BTreeSet;
use std::fmt;

use crate::edge::Edge;
use crate::graph::graph;
use crate::net::{Net, Place, Weights};

/// A loop-free walk along the graph, and its cost with every edge counted.
#[derive(Clone, Debug, PartialEq, Eq)]
pub struct Walk {
    pub vertices: Vec<Place>,
    pub cost: i64,
}

impl Walk {
    fn at(start: Place) -> Walk {
        Walk {
            vertices: vec![start],
            cost: 0,
        }
    }

    fn last(&self) -> Place {
        *self.vertices.last().expect("a walk has a first vertex")
    }

    /// The two ends, smaller place first.
    fn ends(&self) -> Edge {
        Edge::new(self.vertices[0], self.last())
    }

    fn uses(&self, edge: Edge) -> bool {
        self.vertices
            .windows(2)
            .any(|two| Edge::new(two[0], two[1]) == edge)
    }
}

/// A terminal tree as the call gives it: for each kept path its bridge and its cost, and the
/// total.
#[derive(Clone, Debug, PartialEq, Eq)]
pub struct Given {
    pub paths: Vec<(Edge, i64)>,
    pub total: i64,
}

/// What is wrong with a terminal tree.
#[derive(Clone, Copy, Debug, PartialEq, Eq, PartialOrd, Ord)]
pub enum Fault {
    /// A bridge and cost stand for no terminal path from root to root.
    NoTerminalPath(Edge, i64),
    /// There are not m − 1 paths, or they do not join all pins.
    NoJoining,
    /// The total is not the sum of the costs.
    Total { said: i64, sum: i64 },
    /// A joining is shorter than the total.
    ShorterJoining { said: i64, found: i64 },
    /// A chain between two pins has a longest path shorter than the longest on our way.
    ShorterChain { pins: Edge, ours: i64, found: i64 },
}

impl fmt::Display for Fault {
    fn fmt(&self, f: &mut fmt::Formatter) -> fmt::Result {
        match self {
            Fault::NoTerminalPath(bridge, cost) => write!(
                f,
                "no terminal path over {bridge:?} from root to root costs {cost}"
            ),
            Fault::NoJoining => write!(f, "the paths are no joining of m - 1"),
            Fault::Total { said, sum } => {
                write!(f, "the total is {said}, the paths' sum is {sum}")
            }
            Fault::ShorterJoining { said, found } => {
                write!(f, "a joining of {found} is shorter than {said}")
            }
            Fault::ShorterChain { pins, ours, found } => write!(
                f,
                "between {pins:?} our longest is {ours}, another chain's is {found}"
            ),
        }
    }
}

/// Pins, edges, weights and every terminal path of a net, each path once, by cost.
pub struct Every {
    pins: Vec<Place>,
    edges: Vec<Edge>,
    weights: Weights,
    paths: Vec<Walk>,
}

/// For each two pins, by their numbers, the longest path on the way between them, or none where no
/// chain joins them.
type Longest = Vec<Vec<Option<i64>>>;

impl Every {
    /// All terminal paths (T2), each once: read from the smaller of its two pins (T3).
    pub fn of(net: &Net) -> Every {
        let mut every = Every {
            pins: net.pins().to_vec(),
            edges: graph(net).edges,
            weights: net.weights(),
            paths: Vec::new(),
        };
        every.pins.sort();
        for &pin in &every.pins {
            let from_here = every.walks_to_pins(pin);
            let once = from_here.into_iter().filter(|walk| pin < walk.last());
            every.paths.extend(once);
        }
        every.paths.sort_by_key(|path| path.cost);
        every
    }

    pub fn paths(&self) -> &[Walk] {
        &self.paths
    }

    pub fn edges(&self) -> &[Edge] {
        &self.edges
    }

    /// Every loop-free walk from a vertex to a pin with no pin inside.
    fn walks_to_pins(&self, start: Place) -> Vec<Walk> {
        let mut found = Vec::new();
        self.walk_on(&mut Walk::at(start), &mut found);
        found
    }

    fn walk_on(&self, walk: &mut Walk, found: &mut Vec<Walk>) {
        let here = walk.last();
        for edge in &self.edges {
            let next = match (edge.first() == here, edge.second() == here) {
                (true, _) => edge.second(),
                (_, true) => edge.first(),
                _ => continue,
            };
            if walk.vertices.contains(&next) {
                continue;
            }
            walk.vertices.push(next);
            walk.cost += edge.cost(self.weights);
            if self.pins.contains(&next) {
                found.push(walk.clone());
            } else {
                self.walk_on(walk, found);
            }
            walk.vertices.pop();
            walk.cost -= edge.cost(self.weights);
        }
    }

    /// T6: a vertex's root, and how far it is: the best of every walk. One that ran through a pin
    /// would have ended there.
    pub fn root(&self, vertex: Place) -> (i64, Place) {
        if self.pins.contains(&vertex) {
            return (0, vertex);
        }
        let walks = self.walks_to_pins(vertex);
        let nearest = walks.iter().map(|walk| (walk.cost, walk.last())).min();
        nearest.expect("the graph joins all its vertices")
    }

    /// T10: the two pins of the path that a bridge stands for, where there is such a terminal path
    /// of this cost.
    fn ends(&self, bridge: Edge, cost: i64) -> Option<Edge> {
        if !self.edges.contains(&bridge) {
            return None;
        }
        let (before, one) = self.root(bridge.first());
        let (after, other) = self.root(bridge.second());
        let pins = Edge::new(one, other);
        let fits = |path: &Walk| path.ends() == pins && path.cost == cost && path.uses(bridge);
        let adds_up = before + bridge.cost(self.weights) + after == cost;
        (adds_up && self.paths.iter().any(fits)).then_some(pins)
    }

    /// Everything that is wrong with a terminal tree, in order; for few paths by every set of them
    /// too.
    pub fn faults(&self, given: &Given) -> BTreeSet<Fault> {
        let mut faults = BTreeSet::new();
        let mut pairs = Vec::new();
        for &(bridge, cost) in &given.paths {
            match self.ends(bridge, cost) {
                Some(pins) => pairs.push((pins, cost)),
                None => {
                    faults.insert(Fault::NoTerminalPath(bridge, cost));
                }
            }
        }
        let sum = given.paths.iter().map(|&(_, cost)| cost).sum();
        if sum != given.total {
            let said = given.total;
            faults.insert(Fault::Total { said, sum });
        }
        let ours = self.longest(&pairs);
        let all_joined = ours.iter().flatten().all(Option::is_some);
        if given.paths.len() + 1 != self.pins.len() || !all_joined {
            faults.insert(Fault::NoJoining);
        }
        self.against_spanning(given.total, &mut faults);
        self.against_chains(&ours, &mut faults);
        if self.is_few() {
            self.against_every_set(given.total, &ours, &mut faults);
        }
        faults
    }

    /// Whether there are so few paths that every set of them can be tried.
    pub fn is_few(&self) -> bool {
        self.paths.len() <= 12
    }

    /// The shortest joining: of all paths, by cost, each one that joins what was not yet joined.
    fn against_spanning(&self, said: i64, faults: &mut BTreeSet<Fault>) {
        let mut mark: Vec<usize> = (0..self.pins.len()).collect();
        let mut found = 0;
        for path in &self.paths {
            if merge(&mut mark, self.numbers(path.ends())) {
                found += path.cost;
            }
        }
        if found < said {
            faults.insert(Fault::ShorterJoining { said, found });
        }
    }

    /// "The longest path of every chain of terminal paths of that graph is at least as long as the
    /// longest on our way."
    fn against_chains(&self, ours: &Longest, faults: &mut BTreeSet<Fault>) {
        let all: Vec<(Edge, i64)> = self.paths.iter().map(|p| (p.ends(), p.cost)).collect();
        let least = self.longest(&all);
        self.compare(ours, |a, b| least[a][b], faults);
    }

    /// The same two comparisons with every set of terminal paths there is. The paths of a chain
    /// are a set that joins its ends, so no chain is left out.
    fn against_every_set(&self, said: i64, ours: &Longest, faults: &mut BTreeSet<Fault>) {
        for set in 0..1u32 << self.paths.len() {
            let is_in = |&(number, _): &(usize, &Walk)| set >> number & 1 == 1;
            let mut mark: Vec<usize> = (0..self.pins.len()).collect();
            let (mut found, mut longest) = (0, 0);
            for (_, path) in self.paths.iter().enumerate().filter(is_in) {
                merge(&mut mark, self.numbers(path.ends()));
                found += path.cost;
                longest = longest.max(path.cost);
            }
            if mark.iter().all(|&m| m == mark[0]) && found < said {
                faults.insert(Fault::ShorterJoining { said, found });
            }
            let joined = |a: usize, b: usize| (mark[a] == mark[b]).then_some(longest);
            self.compare(ours, joined, faults);
        }
    }

    /// Notes each pair of pins whose chains have a shorter longest path than ours.
    fn compare(
        &self,
        ours: &Longest,
        theirs: impl Fn(usize, usize) -> Option<i64>,
        faults: &mut BTreeSet<Fault>,
    ) {
        for a in 0..self.pins.len() {
            for b in 0..a {
                if let (Some(ours), Some(found)) = (ours[a][b], theirs(a, b)) {
                    if found < ours {
                        let pins = Edge::new(self.pins[a], self.pins[b]);
                        faults.insert(Fault::ShorterChain { pins, ours, found });
                    }
                }
            }
        }
    }

    /// For each two pins the least longest path of a chain between them, among the paths given;
    /// where they are a tree there is but one chain with no path twice.
    fn longest(&self, paths: &[(Edge, i64)]) -> Longest {
        let count = self.pins.len();
        let mut table = vec![vec![None; count]; count];
        for (pin, row) in table.iter_mut().enumerate() {
            row[pin] = Some(0);
        }
        for &(ends, cost) in paths {
            let (a, b) = self.numbers(ends);
            for (a, b) in [(a, b), (b, a)] {
                table[a][b] = least(table[a][b], Some(cost));
            }
        }
        for middle in 0..count {
            for a in 0..count {
                for b in 0..count {
                    let through = table[a][middle].zip(table[middle][b]);
                    let through = through.map(|(one, other): (i64, i64)| one.max(other));
                    table[a][b] = least(table[a][b], through);
                }
            }
        }
        table
    }

    /// The numbers of two pins in their order.
    fn numbers(&self, ends: Edge) -> (usize, usize) {
        let number = |pin| self.pins.binary_search(&pin).expect("paths end at pins");
        (number(ends.first()), number(ends.second()))
    }
}

/// The lesser of what is there.
fn least(one: Option<i64>, other: Option<i64>) -> Option<i64> {
    one.into_iter().chain(other).min()
}

/// Gives two joined pins and all that is joined to them one mark; false where they had it.
fn merge(mark: &mut [usize], (a, b): (usize, usize)) -> bool {
    let (one, other) = (mark[a], mark[b]);
    for m in mark.iter_mut().filter(|m| **m == other) {
        *m = one;
    }
    one != other
}
