//! "Vertical metal costs more", document 02's first request, sentence by sentence.

mod common;

use reference::edge::Edge;
use reference::generate::{hostile, refusal, Hostile};
use reference::graph::{graph, pick, vertices, Quadrant};
use reference::lists::Lists;
use reference::net::{check, Net, Place, Weights};
use reference::netfile;
use reference::operations;
use reference::refined::{refine, refined};
use reference::route::route;
use reference::terminal::terminal;

fn place(x: i64, y: i64) -> Place {
    Place { x, y }
}

fn edge(a: (i64, i64), b: (i64, i64)) -> Edge {
    Edge::new(place(a.0, a.1), place(b.0, b.1))
}

/// Weights 1 and 3: a round takes the edge (0, 0)–(0, 2) and the pin (3, 1), s = (0, 1), and gains
/// 1, the cost 4 of (2, 0)–(3, 1) less the cost 3 from s. It lays 3 for 2 that it removes.
const WEIGHTS: Weights = Weights { x: 1, y: 3 };
const PINS: [i32; 12] = [3, 1, 0, 0, 0, 0, 2, 0, 0, 0, 2, 0];

#[test]
fn the_worked_net() {
    let net = check(&PINS, &[], WEIGHTS).unwrap();
    let paths = terminal(&net);
    let kept: Vec<(Edge, i64)> = paths.paths.iter().map(|p| (p.bridge, p.cost)).collect();
    let expected = [
        (edge((0, 0), (2, 0)), 2),
        (edge((2, 0), (3, 1)), 4),
        (edge((0, 0), (0, 2)), 6),
    ];
    assert_eq!((kept.as_slice(), paths.total), (expected.as_slice(), 12));
    let plain: i64 = paths
        .paths
        .iter()
        .flat_map(|p| p.edges())
        .map(Edge::length)
        .sum();
    assert_eq!(plain, 6);
    let laid = refined(&net);
    assert_eq!((laid.total, laid.metal), (11, 7));
}

/// P2 and P3: the header ends with the metal, in plain length, and an edge's line with its cost.
#[test]
fn the_worked_net_printed() {
    let file = netfile::write(&Lists {
        pins: PINS.to_vec(),
        macros: vec![],
        weights: WEIGHTS,
    });
    let printed = "\
pins 4 macros 0 terminal 12 refined 11 metal 7
0 0 0 1 3
0 0 2 0 2
0 1 0 2 3
0 1 3 1 3
";
    assert_eq!(route(&file), printed);
}

/// The calls give the same: the total in cost and the metal beside it.
#[test]
fn the_worked_net_called() {
    let (paths, edges) = (&mut [0; 20], &mut [0; 32]);
    let terminal = operations::terminal_tree(&PINS, &[], WEIGHTS, paths);
    assert_eq!(terminal, Ok((3, 12)));
    assert_eq!(paths[4..10], [2, 2, 0, 3, 1, 4]);
    let refined = operations::refined_tree(&PINS, &[], WEIGHTS, edges);
    assert_eq!(refined, Ok((4, 11, 7)));
}

/// "Bureaus charge by metal laid": 7 and not 11.
#[test]
fn the_price_is_by_metal() {
    let price = |bands: &[u64]| operations::price(&PINS, &[], WEIGHTS, bands);
    assert_eq!(price(&[7, 1_000]), Ok(7));
    assert_eq!(price(&[6, 1_000]), Err(32));
    assert_eq!(price(&[6, 1, 10, 1_000, 11, 2_000]), Ok(7));
}

/// N26, at both ends of the range too.
#[test]
fn cost_of_two_places() {
    let weights = Weights { x: 2, y: 5 };
    for (a, b, cost) in [
        (place(0, 0), place(0, 0), 0),
        (place(0, 0), place(1, 0), 2),
        (place(0, 0), place(0, 1), 5),
        (place(3, -1), place(-2, 4), 2 * 5 + 5 * 5),
    ] {
        assert_eq!(weights.cost(a, b), cost);
        assert_eq!(weights.cost(b, a), cost);
    }
    let (low, high) = (place(-1_000_000, -1_000_000), place(1_000_000, 1_000_000));
    assert_eq!(Weights { x: 8, y: 8 }.cost(low, high), 32_000_000);
    assert_eq!(Weights { x: 8, y: 1 }.cost(high, low), 18_000_000);
}

/// "Every pick ... is in this cost": two vertices of the first quadrant, of which each is the one
/// picked under some weights, and the smaller place on a tie.
#[test]
fn picks_are_in_cost() {
    for (x, y, picked) in [
        (1, 1, place(1, 2)),
        (2, 1, place(1, 2)),
        (1, 2, place(4, 0)),
        (1, 3, place(4, 0)),
        (2, 3, place(1, 2)),
    ] {
        let net = check(&[0, 0, 0, 4, 0, 0, 1, 2, 0], &[], Weights { x, y }).unwrap();
        let found = pick(&net, &vertices(&net), place(0, 0), Quadrant::First);
        assert_eq!(found, Some(picked), "weights {x} and {y}");
    }
}

/// "18, a weight outside 1 to 8, after 17."
#[test]
fn a_weight_outside_is_refused() {
    for bad in [0, 9, -1, -8, 10, 257, i32::MIN, i32::MAX] {
        for good in 1..=8 {
            for (x, y) in [(bad, good), (good, bad), (bad, bad)] {
                let answer = operations::check(&[5, 5, 0], &[], Weights { x, y });
                assert_eq!(answer, Err(18), "weights {x} and {y}");
            }
        }
    }
    for x in 1..=8 {
        for y in 1..=8 {
            assert_eq!(operations::check(&[5, 5, 0], &[], Weights { x, y }), Ok(()));
        }
    }
}

/// A net that overlaps with weight 9 is 16, and so with every number before 18.
#[test]
fn other_numbers_come_before_18() {
    let nine = Weights { x: 1, y: 9 };
    let overlap = [0, 0, 2, 2, 1, 1, 3, 3];
    assert_eq!(operations::check(&[9, 9, 0], &overlap, nine), Err(16));
    for &kind in Hostile::ALL {
        for seed in 0..100 {
            let Some(number) = refusal(kind, seed) else {
                continue;
            };
            let lists = hostile(kind, seed);
            let answer = operations::check(&lists.pins, &lists.macros, nine);
            assert_eq!(answer, Err(number), "{} {seed}", kind.name());
        }
    }
}

/// 18 is the net's own, so it comes before 21, 31 and 32.
#[test]
fn eighteen_comes_before_the_space_and_the_bands() {
    let weights = Weights { x: 9, y: 1 };
    let (pins, none) = (&[5, 5, 0], &[]);
    let graph = operations::graph(pins, none, weights, &mut [], &mut []);
    assert_eq!(graph, Err(18));
    let terminal = operations::terminal_tree(pins, none, weights, &mut []);
    assert_eq!(terminal, Err(18));
    let refined = operations::refined_tree(pins, none, weights, &mut []);
    assert_eq!(refined, Err(18));
    let wires = operations::wires(pins, none, weights, &mut []);
    assert_eq!(wires, Err(18));
    let price = operations::price(pins, none, weights, &[]);
    assert_eq!(price, Err(18));
    let file = operations::write_file(pins, none, weights, &mut []);
    assert_eq!(file, Err(18));
}

/// "With both weights 1" cost is plain length, so metal is the refined total.
#[test]
fn with_both_weights_one_metal_is_the_total() {
    for (name, lists) in common::nets(8) {
        let laid = refined(&check(&lists.pins, &lists.macros, Weights::ONE).unwrap());
        assert_eq!(laid.metal, laid.total, "{name}");
    }
}

/// The net with each coordinate times a number for its axis, and weights 1 and 1.
fn stretched(lists: &Lists, across: i32, up: i32) -> Option<Net> {
    let times = |list: &[i32], axes: &[i32]| -> Vec<i32> {
        let axes = axes.iter().cycle();
        list.iter().zip(axes).map(|(c, by)| c * by).collect()
    };
    let pins = times(&lists.pins, &[across, up, 1]);
    let macros = times(&lists.macros, &[across, up]);
    check(&pins, &macros, Weights::ONE).ok()
}

/// Stretching a net along each axis by that axis's weight changes no order of places, no box that
/// is clear and no middle, and turns plain length into cost: the stretched net under weights 1 and
/// 1 has the same trees, stretched, and the same totals.
#[test]
fn weights_are_a_stretch() {
    let mut compared = 0;
    for (name, lists) in common::nets(16) {
        let net = check(&lists.pins, &lists.macros, lists.weights).unwrap();
        let Weights { x, y } = lists.weights;
        let Some(wide) = stretched(&lists, x, y) else {
            continue;
        };
        let stretch = |p: Place| place(p.x * i64::from(x), p.y * i64::from(y));
        let longer = |e: &Edge| Edge::new(stretch(e.first()), stretch(e.second()));
        let all = |edges: &[Edge]| -> Vec<Edge> { edges.iter().map(longer).collect() };
        assert_eq!(all(&graph(&net).edges), graph(&wide).edges, "{name}");
        let (paths, wide_paths) = (terminal(&net), terminal(&wide));
        assert_eq!(paths.total, wide_paths.total, "{name}");
        for (path, wide_path) in paths.paths.iter().zip(&wide_paths.paths) {
            assert_eq!(longer(&path.bridge), wide_path.bridge, "{name}");
            assert_eq!(path.cost, wide_path.cost, "{name}");
        }
        let (laid, wide_laid) = (refine(&net, &paths), refine(&wide, &wide_paths));
        assert_eq!(all(&laid.edges), wide_laid.edges, "{name}");
        assert_eq!(laid.total, wide_laid.total, "{name}");
        assert_eq!(laid.statistics, wide_laid.statistics, "{name}");
        compared += usize::from(lists.weights != Weights::ONE);
    }
    assert!(compared > 120, "only {compared} nets with weights fitted");
}

/// Weights change trees: not every net's refined tree is that of weights 1 and 1, and there are
/// nets whose metal is more than the plain length of their terminal paths.
#[test]
fn weights_matter() {
    let (mut other_trees, mut more_metal) = (0, 0);
    for (_, lists) in common::nets(16) {
        let net = check(&lists.pins, &lists.macros, lists.weights).unwrap();
        let plain = check(&lists.pins, &lists.macros, Weights::ONE).unwrap();
        let paths = terminal(&net);
        let laid = refine(&net, &paths);
        other_trees += usize::from(laid.edges != refined(&plain).edges);
        let lengths = paths.paths.iter().flat_map(|p| p.edges());
        more_metal += usize::from(laid.metal > lengths.map(Edge::length).sum());
    }
    println!("{other_trees} trees are others, {more_metal} have more metal than their paths");
    assert!(other_trees > 50 && more_metal > 0);
}
