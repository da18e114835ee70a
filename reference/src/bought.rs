//! Pass or fail for bought-in trees: a lent list of edges against a net.

use crate::edge::Edge;
use crate::graph::clear;
use crate::net::{Net, Place};
use crate::tree::{neighbours, numbered, Tree};

/// V1: how many edges a list may have.
pub const EDGES: usize = 1_535;

/// "The answer is its cost and metal."
#[derive(Clone, Copy, Debug, PartialEq, Eq)]
pub struct Passed {
    pub cost: i64,
    pub metal: i64,
}

/// C79 and C80: cost and metal, or the first that applies of C33, C34 and C35. Each is asked of the whole list before
/// the next.
pub fn check(net: &Net, numbers: &[i32]) -> Result<Passed, u32> {
    let range = -Net::COORDINATE..=Net::COORDINATE;
    let is_whole = numbers.len().is_multiple_of(4) && numbers.len() / 4 <= EDGES;
    if !is_whole || numbers.iter().any(|c| !range.contains(c)) {
        return Err(33);
    }
    let edges = edges_of(numbers);
    // V5.
    let joins =
        |edge: &Edge| edge.first() != edge.second() && clear(net, edge.first(), edge.second());
    if !edges.iter().all(joins) {
        return Err(34);
    }
    let tree = Tree {
        pins: net.pins().to_vec(),
        edges: edges.iter().copied().collect(),
    };
    // "One given twice is 35."
    let once = tree.edges.len() == edges.len();
    if !once || !is_one_tree(&tree) || !ends_in_pins(&tree) {
        return Err(35);
    }
    Ok(Passed {
        cost: tree.total(net.weights()),
        metal: tree.metal(),
    })
}

/// The edges of a list of whole fours. "An edge may be given from either end."
pub fn edges_of(numbers: &[i32]) -> Vec<Edge> {
    let place = |x: i32, y: i32| Place {
        x: i64::from(x),
        y: i64::from(y),
    };
    numbers
        .chunks_exact(4)
        .map(|four| Edge::new(place(four[0], four[1]), place(four[2], four[3])))
        .collect()
}

/// V3: between every two points there is a way without a loop, and no second one. A pin that is no end of an edge has
/// no way to the others; where it is alone there are none to reach (V7).
fn is_one_tree(tree: &Tree) -> bool {
    let points = tree.points();
    let neighbours = neighbours(points.len(), &numbered(tree, &points));
    (0..points.len()).all(|start| one_way_to_each(&neighbours, start))
}

/// A walk outward that never turns back on the edge that it came by comes to each point once.
fn one_way_to_each(neighbours: &[Vec<(usize, usize)>], start: usize) -> bool {
    let mut reached = vec![false; neighbours.len()];
    let mut steps = vec![(start, start)];
    while let Some((from, here)) = steps.pop() {
        if reached[here] {
            return false;
        }
        reached[here] = true;
        let onward = neighbours[here].iter().filter(|(next, _)| *next != from);
        steps.extend(onward.map(|&(next, _)| (here, next)));
    }
    reached.into_iter().all(|point| point)
}

/// "Every point with a single edge is a pin."
fn ends_in_pins(tree: &Tree) -> bool {
    tree.points().into_iter().all(|point| {
        let touching = |edge: &&Edge| edge.first() == point || edge.second() == point;
        tree.pins.contains(&point) || tree.edges.iter().filter(touching).count() != 1
    })
}
