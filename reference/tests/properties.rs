//! What document 01 says of every allowed net, on generated ones.

mod common;

use std::collections::BTreeSet;

use reference::edge::Edge;
use reference::graph::{clear, graph, vertices, Graph, Quadrant};
use reference::net::{check, Net, Place};
use reference::refined::{refine, union};
use reference::terminal::terminal;
use reference::wires::wires;

fn allowed(seeds: u64) -> impl Iterator<Item = (String, Net)> {
    common::nets(seeds).map(|(name, lists)| {
        let net = check(&lists.pins, &lists.macros, lists.weights);
        (name, net.expect("generated nets are allowed"))
    })
}

/// All places that ways along the edges lead to from one place.
fn reached(edges: &[Edge], start: Place) -> BTreeSet<Place> {
    let mut reached = BTreeSet::from([start]);
    loop {
        let before = reached.len();
        for edge in edges {
            if reached.contains(&edge.first()) || reached.contains(&edge.second()) {
                reached.extend([edge.first(), edge.second()]);
            }
        }
        if reached.len() == before {
            return reached;
        }
    }
}

/// "Each other vertex is in exactly one."
#[test]
fn quadrants_part_the_other_vertices() {
    for (name, net) in allowed(2) {
        let vertices = vertices(&net);
        for &u in &vertices {
            for &v in &vertices {
                let holding = Quadrant::ALL.iter().filter(|q| q.holds(u, v)).count();
                assert_eq!(holding, usize::from(u != v), "{name}");
            }
        }
    }
}

/// "This graph joins all its vertices for every allowed net", with edges in order and at most 4n.
#[test]
fn graph_joins_its_vertices() {
    for (name, net) in allowed(8) {
        let Graph {
            vertices, edges, ..
        } = graph(&net);
        let start = net.pins()[0];
        let all: BTreeSet<Place> = vertices.iter().copied().collect();
        assert_eq!(reached(&edges, start), all, "{name}");
        assert!(vertices.windows(2).all(|two| two[0] < two[1]), "{name}");
        assert!(edges.windows(2).all(|two| two[0] < two[1]), "{name}");
        assert!(edges.len() <= 4 * net.n(), "{name}");
        let ends_clear = |e: &Edge| clear(&net, e.first(), e.second());
        assert!(edges.iter().all(ends_clear), "{name}");
    }
}

/// Kept paths are terminal paths (T2); the cost of each counts every edge (T4); the m − 1 paths join
/// all pins.
#[test]
fn terminal_paths_are_terminal_paths() {
    for (name, net) in allowed(8) {
        let edges: BTreeSet<Edge> = graph(&net).edges.into_iter().collect();
        let tree = terminal(&net);
        assert_eq!(tree.paths.len(), net.m() - 1, "{name}");
        for path in &tree.paths {
            let different: BTreeSet<&Place> = path.vertices.iter().collect();
            assert_eq!(different.len(), path.vertices.len(), "{name}");
            let is_pin = |v: &Place| net.pins().contains(v);
            let last = path.vertices.len() - 1;
            for (number, vertex) in path.vertices.iter().enumerate() {
                assert_eq!(is_pin(vertex), number == 0 || number == last, "{name}");
            }
            assert!(path.edges().all(|edge| edges.contains(&edge)), "{name}");
            assert!(path.edges().any(|edge| edge == path.bridge), "{name}");
            let cost: i64 = path.edges().map(|edge| edge.cost(net.weights())).sum();
            assert_eq!(path.cost, cost, "{name}");
        }
        let costs: Vec<i64> = tree.paths.iter().map(|path| path.cost).collect();
        assert!(costs.windows(2).all(|two| two[0] <= two[1]), "{name}");
        assert_eq!(tree.total, costs.iter().sum::<i64>(), "{name}");
        let ends = |path: &reference::terminal::Path| {
            Edge::new(path.vertices[0], path.vertices[path.vertices.len() - 1])
        };
        let pairs: Vec<Edge> = tree.paths.iter().map(ends).collect();
        let pins: BTreeSet<Place> = net.pins().iter().copied().collect();
        assert_eq!(reached(&pairs, net.pins()[0]), pins, "{name}");
    }
}

/// The least cost along the graph from one vertex to each, worked out by other means than the
/// terminal tree's: edges shorten until none does.
fn shortest(graph: &Graph, start: Place) -> Vec<i64> {
    let number = |place| graph.vertices.binary_search(&place).unwrap();
    let mut least = vec![i64::MAX / 4; graph.vertices.len()];
    least[number(start)] = 0;
    loop {
        let mut shortened = false;
        for edge in &graph.edges {
            let (a, b) = (number(edge.first()), number(edge.second()));
            for (from, to) in [(a, b), (b, a)] {
                let through = least[from] + edge.cost(graph.weights);
                if through < least[to] {
                    least[to] = through;
                    shortened = true;
                }
            }
        }
        if !shortened {
            return least;
        }
    }
}

/// No joining of the pins is shorter: the total is that of a least tree over all pins under the
/// distances along the graph, grown pin by pin.
#[test]
fn terminal_total_is_least() {
    for (name, net) in allowed(8) {
        let graph = graph(&net);
        let number = |place| graph.vertices.binary_search(&place).unwrap();
        let mut outside: Vec<(i64, Place)> = net.pins().iter().map(|&p| (i64::MAX, p)).collect();
        let mut total = 0;
        let mut joined = outside.pop().unwrap().1;
        while !outside.is_empty() {
            let least = shortest(&graph, joined);
            for (distance, pin) in &mut outside {
                *distance = (*distance).min(least[number(*pin)]);
            }
            outside.sort();
            let (distance, pin) = outside.remove(0);
            total += distance;
            joined = pin;
        }
        assert_eq!(terminal(&net).total, total, "{name}");
    }
}

/// The union counts an edge of two paths once, and there are nets where that matters.
#[test]
fn union_is_a_tree_no_longer_than_the_paths() {
    let mut shorter = 0;
    for (name, net) in allowed(8) {
        let paths = terminal(&net);
        let tree = union(&net, &paths);
        assert_eq!(tree.points().len(), tree.edges.len() + 1, "{name}");
        let total = tree.total(net.weights());
        assert!(total <= paths.total, "{name}");
        shorter += usize::from(total < paths.total);
    }
    assert!(shorter > 20, "only {shorter} nets share an edge");
}

/// The refined tree is one tree that holds all pins, enters no interior, has no bare point that
/// is no pin, and is no dearer than the terminal tree. Its metal is its edges' plain length.
#[test]
fn refined_tree_is_a_tree_of_all_pins() {
    for (name, net) in allowed(8) {
        let paths = terminal(&net);
        let laid = refine(&net, &paths);
        assert!(laid.total <= paths.total, "{name}");
        let cost: i64 = laid.edges.iter().map(|e| e.cost(net.weights())).sum();
        let length: i64 = laid.edges.iter().map(|e| e.length()).sum();
        assert_eq!((laid.total, laid.metal), (cost, length), "{name}");
        assert!(laid.edges.windows(2).all(|two| two[0] < two[1]), "{name}");
        let points = reached(&laid.edges, net.pins()[0]);
        assert!(net.pins().iter().all(|pin| points.contains(pin)), "{name}");
        assert_eq!(points.len(), laid.edges.len() + 1, "{name}");
        for edge in &laid.edges {
            assert!(clear(&net, edge.first(), edge.second()), "{name}");
            assert!(edge.length() > 0, "{name}");
            assert!(points.contains(&edge.first()), "{name}");
        }
        for point in points {
            let touching = |e: &&Edge| e.first() == point || e.second() == point;
            let bare = laid.edges.iter().filter(touching).count() == 1;
            assert!(!bare || net.pins().contains(&point), "{name}");
        }
        assert!(laid.statistics.rounds <= net.m(), "{name}");
        assert!(laid.edges.len() <= net.n() + net.m(), "{name}");
    }
}

/// Wires are level or upright, none is of length zero, together they are the metal to lay and cost
/// as much as the edges, and none enters an interior.
#[test]
fn wires_lay_the_refined_tree() {
    for (name, net) in allowed(8) {
        let laid = refine(&net, &terminal(&net));
        let drawn = wires(&laid.edges);
        let (mut length, mut cost) = (0, 0);
        for wire in &drawn {
            let (dx, dy) = (wire.end.x - wire.start.x, wire.end.y - wire.start.y);
            assert!((dx > 0) != (dy != 0), "{name}");
            assert!(clear(&net, wire.start, wire.end), "{name}");
            length += wire.start.distance(wire.end);
            cost += net.weights().cost(wire.start, wire.end);
        }
        assert_eq!((length, cost), (laid.metal, laid.total), "{name}");
    }
}
