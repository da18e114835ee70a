//! A tree of edges that holds all pins, while it is being refined.

use std::cmp::Ordering;
use std::collections::BTreeSet;

use crate::edge::Edge;
use crate::net::{Place, Weights};

/// The tree's points are the pins and the ends of its edges.
#[derive(Clone, Debug, PartialEq, Eq)]
pub struct Tree {
    pub pins: Vec<Place>,
    pub edges: BTreeSet<Edge>,
}

/// What the tree way from one point to another holds: how many edges, and the number of the longest of them by cost (none on the way
/// from a point to itself).
#[derive(Clone, Copy, Debug, PartialEq, Eq)]
pub struct Way {
    pub steps: usize,
    pub longest: Option<usize>,
}

impl Tree {
    /// The tree points, in order.
    pub fn points(&self) -> Vec<Place> {
        let ends = self.edges.iter().flat_map(|e| [e.first(), e.second()]);
        let points: BTreeSet<Place> = self.pins.iter().copied().chain(ends).collect();
        points.into_iter().collect()
    }

    /// The total, in cost.
    pub fn total(&self, weights: Weights) -> i64 {
        self.edges.iter().map(|edge| edge.cost(weights)).sum()
    }

    /// Metal to lay: "the sum of edge lengths", which "stays plain length".
    pub fn metal(&self) -> i64 {
        self.edges.iter().map(|edge| edge.length()).sum()
    }
}

/// The edges as pairs of numbers of the ordered points, in the order of edges.
pub fn numbered(tree: &Tree, points: &[Place]) -> Vec<(usize, usize)> {
    let number = |place| {
        points
            .binary_search(&place)
            .expect("ends of edges are tree points")
    };
    tree.edges
        .iter()
        .map(|edge| (number(edge.first()), number(edge.second())))
        .collect()
}

/// The neighbours of each of so many points, each with the number of the edge that leads there.
pub fn neighbours(count: usize, edges: &[(usize, usize)]) -> Vec<Vec<(usize, usize)>> {
    let mut lists = vec![Vec::new(); count];
    for (number, &(a, b)) in edges.iter().enumerate() {
        lists[a].push((b, number));
        lists[b].push((a, number));
    }
    lists
}

/// The tree way from one point to every point: a walk outward that never steps back. Costs are those of the edges.
pub fn ways_from(neighbours: &[Vec<(usize, usize)>], start: usize, costs: &[i64]) -> Vec<Way> {
    let mut ways = vec![None; neighbours.len()];
    ways[start] = Some(Way {
        steps: 0,
        longest: None,
    });
    let mut reached = vec![start];
    while let Some(here) = reached.pop() {
        let way: Way = ways[here].expect("a point has its way before it is walked on from");
        for &(next, edge) in &neighbours[here] {
            if ways[next].is_none() {
                ways[next] = Some(Way {
                    steps: way.steps + 1,
                    longest: Some(match way.longest {
                        Some(before) => longer(before, edge, costs),
                        None => edge,
                    }),
                });
                reached.push(next);
            }
        }
    }
    ways.into_iter()
        .map(|way| way.expect("a tree way leads to every point"))
        .collect()
}

/// "The longest edge (smallest on a tie)" of two, by cost: the order of numbers is the order of edges.
fn longer(one: usize, other: usize, costs: &[i64]) -> usize {
    match costs[one].cmp(&costs[other]) {
        Ordering::Greater => one,
        Ordering::Less => other,
        Ordering::Equal => one.min(other),
    }
}
