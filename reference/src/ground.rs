//! The ground that trees stand on: the graph, and what a cheapest way along it costs.

use std::cell::OnceCell;
use std::cmp::Reverse;
use std::collections::BinaryHeap;

use crate::graph::{graph, Graph};
use crate::net::{Net, Place};

/// The graph with its vertices by number, in the order of places.
pub struct Ground {
    pub graph: Graph,
    neighbours: Vec<Vec<(usize, i64)>>,
    costs: Vec<OnceCell<Vec<i64>>>,
}

impl Ground {
    pub fn new(net: &Net) -> Ground {
        let graph = graph(net);
        let count = graph.vertices.len();
        let mut neighbours = vec![Vec::new(); count];
        for edge in &graph.edges {
            let cost = edge.cost(graph.weights);
            let (a, b) = (number(&graph, edge.first()), number(&graph, edge.second()));
            neighbours[a].push((b, cost));
            neighbours[b].push((a, cost));
        }
        Ground {
            graph,
            neighbours,
            costs: vec![OnceCell::new(); count],
        }
    }

    /// The number of a vertex.
    pub fn number(&self, place: Place) -> usize {
        number(&self.graph, place)
    }

    /// The vertices that an edge joins to one, each with the edge's cost.
    pub fn neighbours(&self, v: usize) -> &[(usize, i64)] {
        &self.neighbours[v]
    }

    /// The cost of a cheapest way along the graph between a vertex and every vertex, worked out when it is first asked for.
    pub fn costs(&self, v: usize) -> &[i64] {
        self.costs[v].get_or_init(|| self.search(v))
    }

    /// What a cheapest way costs, the nearest vertices first.
    fn search(&self, from: usize) -> Vec<i64> {
        let mut settled = vec![None; self.graph.vertices.len()];
        let mut found = BinaryHeap::from([Reverse((0, from))]);
        while let Some(Reverse((cost, here))) = found.pop() {
            if settled[here].is_some() {
                continue;
            }
            settled[here] = Some(cost);
            for &(next, more) in &self.neighbours[here] {
                if settled[next].is_none() {
                    found.push(Reverse((cost + more, next)));
                }
            }
        }
        let joined = |cost: Option<i64>| cost.expect("the graph joins all its vertices");
        settled.into_iter().map(joined).collect()
    }
}

/// The number of a place in the ordered list of vertices.
fn number(graph: &Graph, place: Place) -> usize {
    graph
        .vertices
        .binary_search(&place)
        .expect("pins and ends of edges are vertices")
}
