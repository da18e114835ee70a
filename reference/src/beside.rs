//! Points beside the tree: which tree point a graph vertex is joined to, and by which way.

use crate::edge::Edge;
use crate::ground::Ground;
use crate::net::{Place, Weights};
use crate::tree::Tree;

/// How a graph vertex beside the tree is joined to it: the way from u to v, both included.
#[derive(Clone, Debug, PartialEq, Eq)]
pub struct Joint {
    pub way: Vec<Place>,
}

/// R23: for each vertex u beside the tree, in order, its joint. Its v is, of the vertices that are tree points, the one
/// that costs least to reach along the graph, at equal cost the smallest.
pub fn joints(ground: &Ground, tree: &Tree) -> Vec<Joint> {
    let points = tree.points();
    let vertices = &ground.graph.vertices;
    let (on, beside): (Vec<usize>, Vec<usize>) =
        (0..vertices.len()).partition(|&v| points.binary_search(&vertices[v]).is_ok());
    let mut nearest = vec![None; vertices.len()];
    for v in on {
        let costs = ground.costs(v);
        for &u in &beside {
            let offer = (costs[u], v);
            if nearest[u].is_none_or(|known| offer < known) {
                nearest[u] = Some(offer);
            }
        }
    }
    let joint_of = |u: usize| {
        let (_, v) = nearest[u].expect("pins are tree points and graph vertices");
        joint(ground, u, v)
    };
    beside.iter().map(|&u| joint_of(u)).collect()
}

/// R23: the way from u to v, always on to the smallest neighbour by which a shortest one can go.
fn joint(ground: &Ground, u: usize, v: usize) -> Joint {
    let costs = ground.costs(v);
    let mut here = u;
    let mut way = vec![ground.graph.vertices[u]];
    while here != v {
        let lies = |&(next, cost): &(usize, i64)| cost + costs[next] == costs[here];
        let onward = ground.neighbours(here).iter().copied().filter(lies);
        here = onward
            .map(|(next, _)| next)
            .min()
            .expect("a shortest way goes on over some neighbour");
        way.push(ground.graph.vertices[here]);
    }
    Joint { way }
}

impl Joint {
    pub fn u(&self) -> Place {
        self.way[0]
    }

    pub fn v(&self) -> Place {
        self.way[self.way.len() - 1]
    }

    pub fn edges(&self) -> impl Iterator<Item = Edge> + '_ {
        self.way.windows(2).map(|two| Edge::new(two[0], two[1]))
    }

    /// "The way's cost."
    pub fn cost(&self, weights: Weights) -> i64 {
        self.edges().map(|edge| edge.cost(weights)).sum()
    }
}
