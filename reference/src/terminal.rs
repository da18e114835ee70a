//! The terminal tree: roots, parents, ways, bridges and the kept paths.

use crate::edge::Edge;
use crate::ground::Ground;
use crate::net::{Net, Place};

/// A kept path: its bridge, its cost with every edge counted, and its vertices from the root of
/// the bridge's first place to the root of its second.
#[derive(Clone, Debug, PartialEq, Eq)]
pub struct Path {
    pub bridge: Edge,
    pub cost: i64,
    pub vertices: Vec<Place>,
}

impl Path {
    pub fn edges(&self) -> impl Iterator<Item = Edge> + '_ {
        self.vertices
            .windows(2)
            .map(|pair| Edge::new(pair[0], pair[1]))
    }
}

/// T14: the kept paths, in the order kept. Their lengths added up are the total (T16), with an edge
/// on two paths in both.
#[derive(Clone, Debug, PartialEq, Eq)]
pub struct Terminal {
    pub paths: Vec<Path>,
    pub total: i64,
}

/// Root and parent of each vertex, by the vertex's number in the graph's ordered list; the order
/// of numbers is the order of places.
struct Ways<'a> {
    ground: &'a Ground,
    root: Vec<usize>,
    parent: Vec<Option<usize>>,
}

/// Bridges taken in order, each kept where it joins what was not yet joined.
pub fn terminal(net: &Net) -> Terminal {
    terminal_on(&Ground::new(net), net)
}

/// The same on a net's own ground.
pub fn terminal_on(ground: &Ground, net: &Net) -> Terminal {
    let ways = ways(net, ground);
    let paths = kept(&ways, bridges(&ways));
    Terminal {
        total: paths.iter().map(|path| path.cost).sum(),
        paths,
    }
}

/// T6 and T7: for each vertex the nearest pin, of several the smallest, and unless it is a pin the
/// smallest neighbour of the same root that is nearer by just the edge between them.
fn ways<'a>(net: &Net, ground: &'a Ground) -> Ways<'a> {
    let count = ground.graph.vertices.len();
    let mut pins: Vec<usize> = net.pins().iter().map(|&pin| ground.number(pin)).collect();
    pins.sort();
    let nearest = |v: usize| {
        pins.iter()
            .copied()
            .min_by_key(|&pin| (ground.costs(pin)[v], pin))
    };
    let root: Vec<usize> = (0..count)
        .map(|v| nearest(v).expect("a net has a pin"))
        .collect();
    let mut parent = vec![None; count];
    for v in (0..count).filter(|v| pins.binary_search(v).is_err()) {
        let to_root = ground.costs(root[v]);
        let runs = |&(next, cost): &(usize, i64)| {
            root[next] == root[v] && cost + to_root[next] == to_root[v]
        };
        let through = ground.neighbours(v).iter().copied().filter(runs);
        parent[v] = through.map(|(next, _)| next).min();
    }
    Ways {
        ground,
        root,
        parent,
    }
}

/// T8: a vertex, then the way of its parent.
fn way(ways: &Ways, v: usize) -> Vec<Place> {
    let mut places = vec![ways.ground.graph.vertices[v]];
    if v != ways.root[v] {
        let parent = ways.parent[v].expect("a vertex that is no pin has a parent");
        places.extend(way(ways, parent));
    }
    places
}

/// The path of every bridge (T9, T10), in the order in which bridges are taken (T12).
fn bridges(ways: &Ways) -> Vec<Path> {
    let mut paths = Vec::new();
    let graph = &ways.ground.graph;
    for &edge in &graph.edges {
        let a = ways.ground.number(edge.first());
        let b = ways.ground.number(edge.second());
        if ways.root[a] != ways.root[b] {
            let mut vertices = way(ways, a);
            vertices.reverse();
            vertices.extend(way(ways, b));
            let step = |two: &[Place]| graph.weights.cost(two[0], two[1]);
            paths.push(Path {
                bridge: edge,
                cost: vertices.windows(2).map(step).sum(),
                vertices,
            });
        }
    }
    paths.sort_by_key(|path| (path.cost, path.bridge));
    paths
}

/// T13: the paths of the bridges that are kept. Each vertex bears a mark, its root at first; roots
/// with equal marks are joined.
fn kept(ways: &Ways, bridges: Vec<Path>) -> Vec<Path> {
    let mut mark = ways.root.clone();
    let mut paths = Vec::new();
    for path in bridges {
        let one = mark[ways.ground.number(path.bridge.first())];
        let other = mark[ways.ground.number(path.bridge.second())];
        if one != other {
            for m in &mut mark {
                if *m == other {
                    *m = one;
                }
            }
            paths.push(path);
        }
    }
    paths
}
