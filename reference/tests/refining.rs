//! Candidates and rounds on trees small enough to follow by hand.

use std::collections::BTreeSet;

use reference::edge::Edge;
use reference::generate::{net, Kind};
use reference::net::{check, Place, Weights};
use reference::refined::{candidates, refine, refined, Candidate};
use reference::terminal::{Path, Terminal};
use reference::tree::Tree;

fn place(x: i64, y: i64) -> Place {
    Place { x, y }
}

fn edge(a: (i64, i64), b: (i64, i64)) -> Edge {
    Edge::new(place(a.0, a.1), place(b.0, b.1))
}

/// The third net: its union is (0, 0)–(4, 0) and (0, 0)–(2, 3), each a candidate with the end of
/// the other.
#[test]
fn candidates_of_three_pins() {
    let net = check(&[0, 0, 0, 4, 0, 0, 2, 3, 0], &[], Weights::ONE).unwrap();
    let tree = Tree {
        pins: net.pins().to_vec(),
        edges: BTreeSet::from([edge((0, 0), (4, 0)), edge((0, 0), (2, 3))]),
    };
    let mut found = candidates(&net, &tree);
    found.sort_by_key(|candidate| candidate.edge);
    let expected = [
        Candidate {
            edge: edge((0, 0), (2, 3)),
            u: place(4, 0),
            s: place(2, 0),
            longest: edge((0, 0), (4, 0)),
            gain: 4 - 2,
            dropped: false,
        },
        Candidate {
            edge: edge((0, 0), (4, 0)),
            u: place(2, 3),
            s: place(2, 0),
            longest: edge((0, 0), (2, 3)),
            gain: 5 - 3,
            dropped: false,
        },
    ];
    assert_eq!(found, expected);
}

/// A macro between u and both ends of the edge leaves no candidate.
#[test]
fn a_candidate_needs_a_clear_end() {
    let net = check(&[0, 0, 0, 0, 4, 0, 9, 1, 0], &[2, -5, 6, 8], Weights::ONE).unwrap();
    let corner = (2, 8);
    let tree = Tree {
        pins: net.pins().to_vec(),
        edges: BTreeSet::from([
            edge((0, 0), (0, 4)),
            edge((0, 4), corner),
            edge(corner, (6, 8)),
            edge((6, 8), (9, 1)),
        ]),
    };
    let found = candidates(&net, &tree);
    let of = |e: Edge, u: Place| found.iter().filter(|c| c.edge == e && c.u == u).count();
    assert_eq!(of(edge((0, 0), (0, 4)), place(9, 1)), 0);
    assert_eq!(of(edge((0, 0), (0, 4)), place(2, 8)), 1);
    assert_eq!(of(edge(corner, (6, 8)), place(9, 1)), 1);
}

/// R8: of several longest edges L is the smallest. Two edges of length 5 lie on the way from (10, 0)
/// to (0, 0).
#[test]
fn the_smallest_of_the_longest_edges_goes() {
    let net = check(&[0, 0, 0, 5, 0, 0, 10, 0, 0, 0, 3, 0], &[], Weights::ONE).unwrap();
    let tree = Tree {
        pins: net.pins().to_vec(),
        edges: BTreeSet::from([
            edge((0, 0), (0, 3)),
            edge((0, 0), (5, 0)),
            edge((5, 0), (10, 0)),
        ]),
    };
    let found = candidates(&net, &tree);
    let of = |e: Edge, u: Place| *found.iter().find(|c| c.edge == e && c.u == u).unwrap();
    let far = of(edge((0, 0), (0, 3)), place(10, 0));
    assert_eq!(far.longest, edge((0, 0), (5, 0)));
    let back = of(edge((5, 0), (10, 0)), place(0, 3));
    assert_eq!(back.longest, edge((0, 0), (5, 0)));
}

/// Paths of one edge each, with weights 1 and 1, whose union is the tree wanted.
fn paths(edges: &[Edge]) -> Terminal {
    let path = |&bridge: &Edge| Path {
        bridge,
        cost: bridge.length(),
        vertices: vec![bridge.first(), bridge.second()],
    };
    Terminal {
        paths: edges.iter().map(path).collect(),
        total: edges.iter().map(|edge| edge.length()).sum(),
    }
}

/// A candidate is dropped by its s also where it would win. The edge (0, 0)–(4, 0) and (2, 3) have
/// the greatest gain, 16, and come first by order, but s = (2, 0) is a tree point; so
/// (2, 0)–(4, 0), of the same gain, is taken, and (0, 0)–(4, 0) waits for the next round.
#[test]
fn a_dropped_candidate_does_not_win() {
    let net = check(
        &[0, 0, 0, 2, 0, 0, 2, 3, 0, 4, 0, 0, 20, 3, 0],
        &[],
        Weights::ONE,
    )
    .unwrap();
    let before = paths(&[
        edge((0, 0), (4, 0)),
        edge((2, 0), (4, 0)),
        edge((2, 3), (20, 3)),
        edge((4, 0), (20, 3)),
    ]);
    let laid = refine(&net, &before);
    let after = [
        edge((0, 0), (2, 0)),
        edge((2, 0), (2, 3)),
        edge((2, 0), (4, 0)),
        edge((2, 3), (20, 3)),
    ];
    assert_eq!(laid.edges, after);
    assert_eq!(laid.total, 25);
    assert_eq!(laid.statistics.rounds, 2);
    assert!(laid.statistics.dropped_would_win);
    assert_eq!(laid.statistics.s_at_u, 1);
}

/// An allowed net on which forgetting to drop candidates changes the answer. The gain is 2 both for
/// (2, 11)–(4, 10) and (9, 11), dropped because s = (4, 11) is a tree point, and for
/// (4, 10)–(4, 11) and (9, 11), which comes later by order and is taken; then (2, 10) gains 1.
#[test]
fn dropping_a_candidate_changes_the_answer() {
    let pins = [0, 9, 0, 2, 11, 0, 3, 18, 0, 4, 10, 0, 9, 15, 0, 13, 11, 0];
    let net = check(&pins, &[0, 11, 4, 18, 4, 11, 9, 18], Weights::ONE).unwrap();
    let laid = refined(&net);
    let edges = [
        edge((0, 9), (2, 10)),
        edge((2, 10), (2, 11)),
        edge((2, 10), (4, 10)),
        edge((3, 18), (4, 18)),
        edge((4, 10), (4, 11)),
        edge((4, 11), (9, 11)),
        edge((4, 18), (9, 18)),
        edge((9, 11), (9, 15)),
        edge((9, 11), (13, 11)),
        edge((9, 15), (9, 18)),
    ];
    assert_eq!(laid.edges, edges);
    assert_eq!(laid.total, 29);
    assert!(laid.statistics.dropped_would_win);
}

/// R11: the union is 17 long. First the gain of 2 at (4, 2), then the gain of 1 at (4, 7); taking a
/// gain of 1 at (3, 4) first would spoil that of 2 and end at 15.
#[test]
fn the_greatest_gain_goes_first() {
    let net = check(
        &[2, 0, 0, 7, 2, 0, 4, 4, 0, 3, 7, 0, 5, 7, 0],
        &[],
        Weights::ONE,
    )
    .unwrap();
    let laid = refined(&net);
    let edges = [
        edge((2, 0), (4, 2)),
        edge((3, 7), (4, 7)),
        edge((4, 2), (4, 4)),
        edge((4, 2), (7, 2)),
        edge((4, 4), (4, 7)),
        edge((4, 7), (5, 7)),
    ];
    assert_eq!(laid.edges, edges);
    assert_eq!(laid.total, 14);
    assert_eq!(laid.statistics.rounds, 2);
}

/// "There are at most m rounds": the union of the net above, of which one place alone is a pin
/// here, has two rounds to gain, and m is 1. All other points are bare in the end, one by one.
#[test]
fn the_pins_bound_the_rounds() {
    let net = check(&[2, 0, 0], &[], Weights::ONE).unwrap();
    let before = paths(&[
        edge((2, 0), (4, 4)),
        edge((4, 4), (7, 2)),
        edge((4, 4), (3, 7)),
        edge((3, 7), (5, 7)),
    ]);
    let laid = refine(&net, &before);
    assert_eq!(laid.statistics.rounds, 1);
    assert!(laid.statistics.bound_ended);
    assert_eq!(laid.statistics.pruned, 5);
    assert_eq!(laid.edges, []);
    assert_eq!(laid.total, 0);
}

/// R16 and R19: a spur of two points goes, the point (5, 0) through which the metal goes straight
/// stays.
#[test]
fn spurs_go_and_through_points_stay() {
    let net = check(&[0, 0, 0, 10, 0, 0], &[], Weights::ONE).unwrap();
    let before = paths(&[
        edge((0, 0), (5, 0)),
        edge((5, 0), (10, 0)),
        edge((10, 0), (14, 0)),
        edge((14, 0), (20, 0)),
    ]);
    let laid = refine(&net, &before);
    assert_eq!(laid.edges, [edge((0, 0), (5, 0)), edge((5, 0), (10, 0))]);
    assert_eq!((laid.total, laid.statistics.rounds), (10, 0));
    assert_eq!(laid.statistics.pruned, 2);
}

/// The statistics name what happens on the nets found for it.
#[test]
fn rare_things_happen() {
    for seed in 0..10 {
        let statistics = |kind| {
            let lists = net(kind, seed);
            refined(&check(&lists.pins, &lists.macros, lists.weights).unwrap()).statistics
        };
        assert!(statistics(Kind::Rounds).rounds >= 3);
        assert!(statistics(Kind::Pruned).pruned > 0);
        assert!(statistics(Kind::Dropped).dropped > 0);
        assert!(statistics(Kind::DroppedWins).dropped_would_win);
        assert!(statistics(Kind::BoundEnds).bound_ended);
    }
}
