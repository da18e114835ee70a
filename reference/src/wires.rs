//! The wires of the refined tree.

use crate::edge::Edge;
use crate::net::Place;

/// W4: a wire, drawn from start to end.
#[derive(Clone, Copy, Debug, PartialEq, Eq)]
pub struct Wire {
    pub start: Place,
    pub end: Place,
}

/// W1 to W3: edge after edge, along x and then along y, without wires that go nowhere.
pub fn wires(edges: &[Edge]) -> Vec<Wire> {
    let mut wires = Vec::new();
    for edge in edges {
        let (start, end) = (edge.first(), edge.second());
        let bend = Place {
            x: end.x,
            y: start.y,
        };
        for wire in [Wire { start, end: bend }, Wire { start: bend, end }] {
            if wire.start != wire.end {
                wires.push(wire);
            }
        }
    }
    wires
}
