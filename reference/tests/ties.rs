//! "Every tie below is settled by these orders": nets with one tie each, settled by hand.

use reference::edge::Edge;
use reference::graph::{pick, vertices, Quadrant};
use reference::net::{check, Place, Weights};
use reference::terminal::terminal;

fn place(x: i64, y: i64) -> Place {
    Place { x, y }
}

/// N15 and N16: the order of places, which end of an edge is its first, and the order of edges.
#[test]
fn orders() {
    let sorted = [place(-1, 9), place(0, -9), place(0, 3), place(2, -50)];
    assert!(sorted.windows(2).all(|two| two[0] < two[1]));
    let edge = Edge::new(place(2, -50), place(0, 3));
    assert_eq!((edge.first(), edge.second()), (place(0, 3), place(2, -50)));
    assert!(edge < Edge::new(place(1, 0), place(1, 1)));
    assert!(edge > Edge::new(place(0, 3), place(1, 100)));
}

/// Two vertices of the first quadrant at distance 3, and the smaller is picked.
#[test]
fn the_smallest_place_is_picked() {
    let net = check(&[0, 0, 0, 2, 1, 0, 1, 2, 0], &[], Weights::ONE).unwrap();
    let picked = pick(&net, &vertices(&net), place(0, 0), Quadrant::First);
    assert_eq!(picked, Some(place(1, 2)));
}

/// The corner (2, 0) is 2 from either pin, so its root is the smaller and the bridge is beyond it.
#[test]
fn the_smallest_pin_is_root() {
    let net = check(&[4, 0, 0, 0, 0, 0], &[2, 0, 4, 5], Weights::ONE).unwrap();
    let paths = terminal(&net).paths;
    assert_eq!(paths[0].bridge, Edge::new(place(2, 0), place(4, 0)));
    assert_eq!(paths[0].cost, 4);
}

/// Two shortest ways lead around the first macro, and the smaller neighbour of (2, 2) is its
/// parent. The second macro's corner keeps (2, 0) from picking the pin (5, 5).
#[test]
fn the_smallest_neighbour_is_parent() {
    let net = check(
        &[5, 5, 0, 0, 0, 0],
        &[0, 0, 2, 2, 3, -5, 9, 1],
        Weights::ONE,
    )
    .unwrap();
    let paths = terminal(&net).paths;
    let along = [place(0, 0), place(0, 2), place(2, 2), place(5, 5)];
    assert_eq!(paths[0].vertices, along);
}

/// Four pins of a square: four edges of length 2, kept in their order until all is joined.
#[test]
fn the_smallest_bridge_is_kept_first() {
    let net = check(&[2, 2, 0, 0, 2, 0, 2, 0, 0, 0, 0, 0], &[], Weights::ONE).unwrap();
    let bridges: Vec<Edge> = terminal(&net).paths.iter().map(|p| p.bridge).collect();
    let expected = [
        Edge::new(place(0, 0), place(0, 2)),
        Edge::new(place(0, 0), place(2, 0)),
        Edge::new(place(0, 2), place(2, 2)),
    ];
    assert_eq!(bridges, expected);
}
