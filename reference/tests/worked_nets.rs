//! Document 01's "Nets to try", the printed example, and its list of wrong turns.

use reference::edge::Edge;
use reference::graph::graph;
use reference::net::{check, Place, Weights};
use reference::netfile;
use reference::operations;
use reference::refined::refined;
use reference::route::route;
use reference::terminal::terminal;
use reference::text::parse;
use reference::wires::{wires, Wire};

fn place(x: i64, y: i64) -> Place {
    Place { x, y }
}

fn edge(a: (i64, i64), b: (i64, i64)) -> Edge {
    Edge::new(place(a.0, a.1), place(b.0, b.1))
}

/// The totals of both trees.
fn totals(pins: &[i32], macros: &[i32]) -> (i64, i64) {
    let net = check(pins, macros, Weights::ONE).expect("an allowed net");
    (terminal(&net).total, refined(&net).total)
}

/// The bridges and lengths of the kept paths.
fn paths(pins: &[i32], macros: &[i32]) -> Vec<(Edge, i64)> {
    let net = check(pins, macros, Weights::ONE).expect("an allowed net");
    let paths = terminal(&net).paths;
    paths.iter().map(|p| (p.bridge, p.cost)).collect()
}

#[test]
fn one_pin() {
    let net = check(&[5, 5, 0], &[], Weights::ONE).unwrap();
    assert_eq!(graph(&net).vertices, [place(5, 5)]);
    assert_eq!(graph(&net).edges, []);
    assert_eq!(terminal(&net).paths, []);
    assert_eq!(refined(&net).edges, []);
    assert_eq!(totals(&[5, 5, 0], &[]), (0, 0));
}

#[test]
fn no_pin() {
    assert_eq!(operations::check(&[], &[], Weights::ONE), Err(11));
}

#[test]
fn around_a_macro() {
    let (pins, macros) = ([0, 0, 0, 10, 0, 0], [4, -2, 6, 3]);
    let net = check(&pins, &macros, Weights::ONE).unwrap();
    assert_eq!(graph(&net).edges.len(), 8);
    assert_eq!(paths(&pins, &macros), [(edge((4, -2), (6, -2)), 14)]);
    let along = [(0, 0), (4, -2), (6, -2), (10, 0)].map(|(x, y)| place(x, y));
    assert_eq!(terminal(&net).paths[0].vertices, along);
    assert_eq!(totals(&pins, &macros), (14, 14));
}

#[test]
fn three_pins() {
    let pins = [0, 0, 0, 4, 0, 0, 2, 3, 0];
    assert_eq!(totals(&pins, &[]), (9, 7));
    let net = check(&pins, &[], Weights::ONE).unwrap();
    let drawn = wires(&refined(&net).edges);
    let expected = [((0, 0), (2, 0)), ((2, 0), (2, 3)), ((2, 0), (4, 0))].map(|(a, b)| Wire {
        start: place(a.0, a.1),
        end: place(b.0, b.1),
    });
    assert_eq!(drawn, expected);
}

#[test]
fn along_a_shared_side() {
    let (pins, macros) = ([2, -1, 0, 2, 3, 0], [0, 0, 2, 2, 2, 0, 4, 2]);
    assert_eq!(totals(&pins, &macros), (4, 4));
    let net = check(&pins, &macros, Weights::ONE).unwrap();
    assert!(refined(&net).edges.contains(&edge((2, 0), (2, 2))));
}

#[test]
fn pins_on_opposite_sides_of_a_macro() {
    let (pins, macros) = ([0, 1, 0, 1, 1, 0], [0, 0, 1, 2]);
    assert_eq!(paths(&pins, &macros), [(edge((0, 0), (1, 0)), 3)]);
    assert_eq!(totals(&pins, &macros), (3, 3));
}

#[test]
fn overlapping_macros() {
    let macros = [0, 0, 2, 2, 1, 1, 3, 3];
    assert_eq!(
        operations::check(&[9, 9, 0], &macros, Weights::ONE),
        Err(16)
    );
}

#[test]
fn pins_at_a_macro() {
    let four = [4, -2, 6, 3];
    assert_eq!(operations::check(&[4, 0, 0], &four, Weights::ONE), Ok(()));
    assert_eq!(operations::check(&[5, 0, 0], &four, Weights::ONE), Err(17));
    assert_eq!(
        operations::check(&[5, 0, 0, 5, 0, 0], &four, Weights::ONE),
        Err(15)
    );
}

#[test]
fn flat_macro() {
    assert_eq!(
        operations::check(&[9, 9, 0], &[3, 0, 3, 5], Weights::ONE),
        Err(14)
    );
}

#[test]
fn bounds() {
    for bound in [1_000_000i32, -1_000_000] {
        let past = bound + bound.signum();
        assert_eq!(
            operations::check(&[bound, 0, 0, 0, bound, 0], &[], Weights::ONE),
            Ok(())
        );
        assert_eq!(operations::check(&[past, 0, 0], &[], Weights::ONE), Err(13));
        assert_eq!(operations::check(&[0, past, 0], &[], Weights::ONE), Err(13));
    }
    let corner = [999_999, 999_999, 1_000_000, 1_000_000];
    assert_eq!(operations::check(&[0, 0, 0], &corner, Weights::ONE), Ok(()));
    let past = [999_999, 999_999, 1_000_001, 1_000_000];
    assert_eq!(operations::check(&[0, 0, 0], &past, Weights::ONE), Err(13));
    let pins = |count: i32| (0..count).flat_map(|i| [i, 0, 0]).collect::<Vec<i32>>();
    assert_eq!(operations::check(&pins(128), &[], Weights::ONE), Ok(()));
    assert_eq!(operations::check(&pins(129), &[], Weights::ONE), Err(11));
    let macros = |count: i32| {
        (0..count)
            .flat_map(|i| [i, 0, i + 1, 1])
            .collect::<Vec<i32>>()
    };
    assert_eq!(
        operations::check(&[0, 0, 0], &macros(128), Weights::ONE),
        Ok(())
    );
    assert_eq!(
        operations::check(&[0, 0, 0], &macros(129), Weights::ONE),
        Err(12)
    );
}

#[test]
fn distance_at_both_ends_of_the_range() {
    let pins = [-1_000_000, -1_000_000, 0, 1_000_000, 1_000_000, 0];
    assert_eq!(totals(&pins, &[]), (4_000_000, 4_000_000));
}

#[test]
fn printed_example() {
    let lists = parse("pin 0 0\npin 4 0\npin 2 3\n").unwrap();
    let printed = "\
pins 3 macros 0 terminal 9 refined 7 metal 7
0 0 2 0 2
2 0 2 3 3
2 0 4 0 2
";
    assert_eq!(route(&netfile::write(&lists)), printed);
}

#[test]
fn printed_refusals() {
    assert_eq!(route(&[]), "refused 1\n");
    let no_pins = netfile::write(&parse("").unwrap());
    assert_eq!(route(&no_pins), "refused 11\n");
}

/// N10: the macro cuts the box of the two pins, and none of its corners is in that box. The way
/// leads around the right end: 14 to the corner (10, −1), 2 up its side, 13 to the pin.
#[test]
fn a_wide_macro_cuts_the_box() {
    let (pins, macros) = ([0, -5, 0, 1, 5, 0], [-10, -1, 10, 1]);
    assert_eq!(totals(&pins, &macros), (29, 29));
}

/// "Treating a boundary as blocked": both pins stand on one side of the macro.
#[test]
fn a_boundary_is_free() {
    assert_eq!(totals(&[0, 1, 0, 0, 9, 0], &[0, 0, 5, 10]), (8, 8));
}

/// T5: an edge on two terminal paths counts in both. The pin above a wall reaches both pins
/// below through the seam of two macros that touch, from (0, 12) to (0, 10).
#[test]
fn a_shared_edge_counts_in_both_paths() {
    let pins = [-3, 9, 0, 3, 9, 0, 0, 13, 0];
    let macros = [-20, 10, 0, 12, 0, 10, 20, 12, -1, -9, 1, 10];
    let kept = [(edge((-1, 10), (0, 10)), 7), (edge((0, 10), (1, 10)), 7)];
    assert_eq!(paths(&pins, &macros), kept);
    assert_eq!(totals(&pins, &macros), (14, 11));
}

/// T11: by its own length the edge of 2 between two corners of the macro far above would be taken
/// first, and it stands for a path of length 50.
#[test]
fn a_bridge_weighs_its_whole_path() {
    let (pins, macros) = ([0, 0, 0, 10, 0, 0], [4, 20, 6, 21]);
    assert_eq!(paths(&pins, &macros), [(edge((0, 0), (10, 0)), 10)]);
}
