//! Sliding bars: worked nets, small trees by hand, and what holds of every slid tree.

mod common;

use std::collections::BTreeSet;

use reference::edge::Edge;
use reference::generate::{net, Kind};
use reference::graph::clear;
use reference::net::{check, Net, Place, Weights};
use reference::refined::refined;
use reference::slide::{bars, bent, slid, slide, Direction, Slid, Slide, Statistics};
use reference::tree::Tree;
use reference::worked::sliding;

fn place((x, y): (i64, i64)) -> Place {
    Place { x, y }
}

fn edge(a: (i64, i64), b: (i64, i64)) -> Edge {
    Edge::new(place(a), place(b))
}

/// An edge by the coordinates of its ends.
type Ends = ((i64, i64), (i64, i64));

/// A tree of edges and a net of its pins and some macros.
fn by_hand(pins: &[(i32, i32)], macros: &[i32], edges: &[Ends]) -> (Net, Tree) {
    let flat: Vec<i32> = pins.iter().flat_map(|&(x, y)| [x, y, 0]).collect();
    let net = check(&flat, macros, Weights { x: 2, y: 3 }).unwrap();
    let tree = Tree {
        pins: net.pins().to_vec(),
        edges: edges.iter().map(|&(a, b)| edge(a, b)).collect(),
    };
    (net, tree)
}

/// What sliding makes of a tree: its edges and its total.
fn slides_to(net: &Net, tree: Tree, edges: &[Ends]) -> Slid {
    let slid = slide(net, tree);
    let expected: BTreeSet<Edge> = edges.iter().map(|&(a, b)| edge(a, b)).collect();
    assert_eq!(slid.edges, expected.into_iter().collect::<Vec<Edge>>());
    slid
}

#[test]
fn worked_nets() {
    for worked in sliding() {
        let (pins, macros, weights) = worked.lists.parts();
        let net = check(pins, macros, weights).unwrap();
        let Slid {
            total,
            statistics: said,
            ..
        } = slid(&net);
        let name = worked.name;
        assert_eq!(
            (refined(&net).total, total),
            (worked.refined, worked.slid),
            "{name}"
        );
        let (moves, bends) = (said.moves, said.bends);
        let is_there = match name {
            "one move" => moves == 1,
            "two moves" => moves == 2,
            "stopped by a macro" => said.short_by_macro == 1,
            "stopped by metal" => said.short_by_metal == 1,
            "a tie at one place" => said.tied_by_direction == 1,
            "one pin" => moves == 0 && bends == 0,
            "y first" => said.y_first == 1 && bends == 3,
            "given back" => said.given_back && bends == 0,
            _ => panic!("nothing is said of {name}"),
        };
        assert!(is_there, "{name}: {said:?}");
    }
}

/// A fork whose bar goes up to the shorter tine, which becomes one point with it; the pin below gets a longer edge.
#[test]
fn a_bar_moves_to_the_shortest_edge() {
    let (net, tree) = by_hand(
        &[(0, 5), (4, 9), (2, -3)],
        &[],
        &[
            ((0, 0), (0, 5)),
            ((4, 0), (4, 9)),
            ((0, 0), (2, 0)),
            ((2, 0), (4, 0)),
            ((2, -3), (2, 0)),
        ],
    );
    let moved = [
        ((0, 5), (2, 5)),
        ((2, 5), (4, 5)),
        ((4, 5), (4, 9)),
        ((2, -3), (2, 5)),
    ];
    let Slid {
        total,
        metal,
        statistics,
        ..
    } = slides_to(&net, tree, &moved);
    assert_eq!((total, metal), (8 + 12 + 24, 4 + 4 + 8));
    assert_eq!(
        (statistics.moves, statistics.merges, statistics.merged_pins),
        (1, 1, 1)
    );
}

/// The same fork with what holds it back: a macro stops it where it stands, metal one unit before, and a crossing edge or a point on its
/// line altogether.
#[test]
fn what_stops_a_bar() {
    let fork = |more: &[Ends], pins: &[(i32, i32)], macros: &[i32]| {
        let pins = [&[(0, 9), (4, 9), (2, -3)], pins].concat();
        let edges = [
            ((0, 0), (0, 9)),
            ((4, 0), (4, 9)),
            ((0, 0), (2, 0)),
            ((2, 0), (4, 0)),
            ((2, -3), (2, 0)),
        ];
        let (net, tree) = by_hand(&pins, macros, &[&edges, more].concat());
        let bar = bars(&tree)
            .into_iter()
            .find(|bar| bar.direction == Direction::Level && bar.first() == place((0, 0)));
        let slide = Slide::of(&tree, &bar.expect("a level bar")).expect("more hang above");
        assert_eq!((slide.side, slide.surplus, slide.shortest), (1, 1, 9));
        slide.distance(&net, &tree)
    };
    assert_eq!(fork(&[], &[], &[]), Some(9));
    assert_eq!(fork(&[], &[], &[1, 6, 3, 7]), Some(6));
    // Beside the box it does no harm, nor below.
    assert_eq!(fork(&[], &[], &[4, 6, 5, 7]), Some(9));
    assert_eq!(fork(&[], &[], &[0, -9, 1, 0]), Some(9));
    // An edge across, and a pin.
    assert_eq!(fork(&[((-5, 6), (9, 6))], &[(-5, 6), (9, 6)], &[]), Some(5));
    assert_eq!(fork(&[], &[(3, 6)], &[]), Some(5));
    // One that ends at a far end and does not enter the box, and one that does.
    assert_eq!(fork(&[((4, 9), (8, 9))], &[(8, 9)], &[]), Some(9));
    assert_eq!(fork(&[((0, 9), (4, 9))], &[], &[]), Some(8));
    assert_eq!(fork(&[((2, 9), (4, 9))], &[(2, 9)], &[]), Some(8));
    // Crossed where there is no tree point, and a point on the line.
    assert_eq!(fork(&[((1, -5), (1, 5))], &[(1, -5), (1, 5)], &[]), None);
    assert_eq!(fork(&[], &[(3, 0)], &[]), None);
}

/// A bar with a pin stays, and so does one with as many edges above as below.
#[test]
fn bars_that_stay() {
    let fork = [((0, 0), (0, 5)), ((4, 0), (4, 9)), ((0, 0), (4, 0))];
    let (net, tree) = by_hand(&[(0, 5), (4, 9), (0, 0)], &[], &fork);
    slides_to(&net, tree, &fork);
    let step = [((0, 0), (0, 5)), ((0, 0), (4, 0)), ((4, -9), (4, 0))];
    let (net, tree) = by_hand(&[(0, 5), (4, -9)], &[], &step);
    let said = slides_to(&net, tree, &step).statistics;
    assert_eq!((said.moves, said.equal_sides), (0, 1));
}

/// Two edges that leave one point on the same side along one line both hang: the shorter goes, and the longer begins where it ended.
#[test]
fn edges_upon_each_other() {
    let (net, tree) = by_hand(
        &[(0, 3), (0, 7), (4, 9)],
        &[],
        &[
            ((0, 0), (0, 3)),
            ((0, 0), (0, 7)),
            ((0, 0), (4, 0)),
            ((4, 0), (4, 9)),
        ],
    );
    let moved = [((0, 3), (0, 7)), ((0, 3), (4, 3)), ((4, 3), (4, 9))];
    assert_eq!(slides_to(&net, tree, &moved).metal, 14);
}

/// Of two bars with the same saving the one with the smaller first place moves; it takes the corner of the macro that the other would have
/// to pass.
#[test]
fn a_tie_goes_to_the_smaller_place() {
    let level = [
        ((0, 0), (2, 0)),
        ((2, 0), (4, 0)),
        ((2, 0), (2, 2)),
        ((4, 0), (4, 2)),
    ];
    let upright = [
        ((0, -4), (0, -2)),
        ((0, -2), (0, 0)),
        ((-3, -2), (0, -2)),
        ((-3, -4), (0, -4)),
    ];
    let pins = [(2, 2), (4, 2), (-3, -2), (-3, -4)];
    let (net, tree) = by_hand(&pins, &[-3, 0, 0, 2], &[level, upright].concat());
    let moved = [((-3, -4), (-3, -2)), ((-3, -2), (-3, 0)), ((-3, 0), (2, 0))];
    let said = slides_to(&net, tree, &[&moved, &level[1..]].concat()).statistics;
    assert_eq!(
        (said.moves, said.upright_left, said.tied_by_place),
        (1, 1, 1)
    );
}

/// And of two with the same first place the level one.
#[test]
fn a_tie_at_one_place_goes_to_the_level_bar() {
    let level = [
        ((0, 0), (2, 0)),
        ((2, 0), (4, 0)),
        ((2, -2), (2, 0)),
        ((4, -2), (4, 0)),
    ];
    let upright = [
        ((0, 0), (0, 2)),
        ((0, 2), (0, 4)),
        ((-3, 2), (0, 2)),
        ((-3, 4), (0, 4)),
    ];
    let pins = [(2, -2), (4, -2), (-3, 2), (-3, 4)];
    let (net, tree) = by_hand(&pins, &[-3, -2, 0, 0], &[level, upright].concat());
    let moved = [((0, -2), (2, -2)), ((2, -2), (4, -2)), ((0, -2), (0, 2))];
    let said = slides_to(&net, tree, &[&moved, &upright[1..]].concat()).statistics;
    assert_eq!(
        (said.moves, said.level_down, said.tied_by_direction),
        (1, 1, 1)
    );
}

/// The halving gives the greatest of all allowed distances, and those below it are allowed too.
#[test]
fn halving_is_a_search() {
    let (mut looked_at, mut short) = (0, 0);
    for kind in [
        Kind::TinyEight,
        Kind::Comb,
        Kind::Bars,
        Kind::Small,
        Kind::Chambers,
    ] {
        for seed in 0..60 {
            let lists = net(kind, seed);
            let net = check(&lists.pins, &lists.macros, lists.weights).unwrap();
            let start = Tree {
                pins: net.pins().to_vec(),
                edges: refined(&net).edges.into_iter().collect(),
            };
            let Some(tree) = bent(&start, &mut Statistics::default()) else {
                continue;
            };
            for bar in bars(&tree) {
                let Ok(slide) = Slide::of(&tree, &bar) else {
                    continue;
                };
                if slide.shortest > 200 {
                    continue;
                }
                let greatest = slide.distance(&net, &tree);
                for distance in 0..=slide.shortest {
                    let may = slide.may(&net, &tree, distance);
                    assert_eq!(
                        may,
                        greatest.is_some_and(|greatest| distance <= greatest),
                        "{} {seed}",
                        kind.name()
                    );
                }
                looked_at += 1;
                short += usize::from(greatest.is_none_or(|greatest| greatest < slide.shortest));
            }
        }
    }
    assert!(looked_at > 100 && short > 10, "{looked_at} {short}");
}

/// Axis-parallel unless it was given back, clear, no dearer than the refined tree, within the lent space, and the same for every order.
#[test]
fn what_holds_of_every_slid_tree() {
    for (name, lists) in common::nets(16) {
        let net = check(&lists.pins, &lists.macros, lists.weights).unwrap();
        let (before, after) = (refined(&net), slid(&net));
        assert!(after.total <= before.total, "{name}");
        assert!(
            after.statistics.moves == 0 || after.total < before.total,
            "{name}"
        );
        assert!(4 * after.edges.len() <= 8 * (net.n() + net.m()), "{name}");
        assert!(!after.statistics.bound_ended, "{name}");
        if after.statistics.given_back {
            assert_eq!(after.edges, before.edges);
            continue;
        }
        for edge in &after.edges {
            let (a, b) = (edge.first(), edge.second());
            assert!(a.x == b.x || a.y == b.y, "{name}");
            assert!(clear(&net, a, b), "{name}");
        }
    }
}
