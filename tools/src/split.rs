//! Wires cut where others meet them, which is what `--split` means in every command. A router's file has long pieces with others that end or
//! cross on them; a tree has edges that meet at their ends only.

use std::collections::BTreeSet;

use calzundi::{Edge, Place};

/// So many pieces come of it at the most.
const MOST_PIECES: usize = 65_536;

/// A piece, and the edge that it is cut from.
#[derive(Debug)]
pub struct Piece {
    pub edge: Edge,
    pub of: usize,
}

/// The pieces of level and upright edges, cut at every place where another one ends or crosses, and at every given place on them. A piece
/// that several have is given once, so that metal upon metal counts once, and an edge without length is none. Slanted edges stay as they are.
pub fn split(edges: &[Edge], places: &[Place]) -> Result<Vec<Piece>, String> {
    let mut known = BTreeSet::new();
    let mut pieces = Vec::new();
    for (of, whole) in edges.iter().enumerate() {
        for edge in cut(whole, &cuts(edges, of, places)) {
            let key = (edge.first.min(edge.second), edge.first.max(edge.second));
            if known.insert(key) {
                pieces.push(Piece { edge, of });
            }
        }
        if pieces.len() > MOST_PIECES {
            return Err(format!("splitting gives more than {MOST_PIECES} pieces"));
        }
    }
    Ok(pieces)
}

/// The places on an edge at which it is to be cut, its own ends perhaps among them.
pub fn cuts(edges: &[Edge], at: usize, places: &[Place]) -> BTreeSet<Place> {
    let edge = &edges[at];
    let others = edges.iter().enumerate().filter(|(other, _)| *other != at);
    let meeting = others.flat_map(|(_, other)| {
        let crossing = crossing(edge, other);
        [Some(other.first), Some(other.second), crossing]
    });
    let asked = places.iter().copied();
    let on_edge = |place: &Place| lies_on(*place, edge);
    meeting.flatten().chain(asked).filter(on_edge).collect()
}

/// Where a level and an upright edge cross.
fn crossing(one: &Edge, other: &Edge) -> Option<Place> {
    let is_level = |edge: &Edge| edge.first.y == edge.second.y;
    let is_upright = |edge: &Edge| edge.first.x == edge.second.x;
    let (level, upright) = match () {
        () if is_level(one) && is_upright(other) => (one, other),
        () if is_upright(one) && is_level(other) => (other, one),
        () => return None,
    };
    let place = Place {
        x: upright.first.x,
        y: level.first.y,
    };
    (lies_on(place, level) && lies_on(place, upright)).then_some(place)
}

/// Whether a place is on a level or upright edge, its ends included.
fn lies_on(place: Place, edge: &Edge) -> bool {
    let Edge { first, second } = edge;
    let within = |a: i32, b: i32, at: i32| a.min(b) <= at && at <= a.max(b);
    (first.x == second.x || first.y == second.y)
        && within(first.x, second.x, place.x)
        && within(first.y, second.y, place.y)
}

/// The pieces of an edge between the places on it, from its first end to its second.
fn cut(edge: &Edge, places: &BTreeSet<Place>) -> Vec<Edge> {
    let mut points: Vec<Place> = places.iter().copied().collect();
    if edge.first > edge.second {
        points.reverse();
    }
    points.insert(0, edge.first);
    points.push(edge.second);
    points.dedup();
    let pairs = points.windows(2);
    pairs
        .map(|pair| Edge {
            first: pair[0],
            second: pair[1],
        })
        .collect()
}
