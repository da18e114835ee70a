//! The spanning graph.

use std::collections::{BTreeMap, BTreeSet};

use crate::edge::Edge;
use crate::net::{Net, Place, Weights};

/// Vertices and edges, each in order, and the weights that its lengths are in.
#[derive(Clone, Debug, PartialEq, Eq)]
pub struct Graph {
    pub vertices: Vec<Place>,
    pub edges: Vec<Edge>,
    pub weights: Weights,
}

/// "Each vertex u has four quadrants."
#[derive(Clone, Copy, Debug, PartialEq, Eq)]
pub enum Quadrant {
    First,
    Second,
    Third,
    Fourth,
}

impl Quadrant {
    pub const ALL: [Quadrant; 4] = [
        Quadrant::First,
        Quadrant::Second,
        Quadrant::Third,
        Quadrant::Fourth,
    ];

    /// G2: whether v, seen from u, is right and not below; above and not right; left and not above;
    /// below and not left.
    pub fn holds(self, u: Place, v: Place) -> bool {
        match self {
            Quadrant::First => v.x > u.x && v.y >= u.y,
            Quadrant::Second => v.x <= u.x && v.y > u.y,
            Quadrant::Third => v.x < u.x && v.y <= u.y,
            Quadrant::Fourth => v.x >= u.x && v.y < u.y,
        }
    }
}

/// G1: where pins and corners of macros are, each place once, in order.
pub fn vertices(net: &Net) -> Vec<Place> {
    let pins = net.pins().iter().copied();
    let corners = net.macros().iter().flat_map(|m| m.corners());
    let places: BTreeSet<Place> = pins.chain(corners).collect();
    places.into_iter().collect()
}

/// N19: no interior meets the box that has these two places at opposite corners.
pub fn clear(net: &Net, one: Place, other: Place) -> bool {
    net.macros().iter().all(|m| !m.meets_box(one, other))
}

/// Which places are clear of each other, each pair asked about once: most points of a round are those of the round before.
pub struct Sight<'a> {
    net: &'a Net,
    numbers: BTreeMap<Place, usize>,
    places: Vec<Place>,
    known: Vec<Vec<Option<bool>>>,
}

impl<'a> Sight<'a> {
    pub fn new(net: &'a Net) -> Sight<'a> {
        Sight {
            net,
            numbers: BTreeMap::new(),
            places: Vec::new(),
            known: Vec::new(),
        }
    }

    /// The number under which a place is known here.
    pub fn number(&mut self, place: Place) -> usize {
        *self.numbers.entry(place).or_insert_with(|| {
            self.places.push(place);
            self.known.push(Vec::new());
            self.places.len() - 1
        })
    }

    /// Whether each of some places is clear of a place, all by number.
    pub fn clear_of(&mut self, place: usize, others: &[usize]) -> Vec<bool> {
        let (net, places) = (self.net, &self.places);
        let row = &mut self.known[place];
        row.resize(places.len(), None);
        let mut ask = |other: usize| {
            *row[other].get_or_insert_with(|| clear(net, places[place], places[other]))
        };
        others.iter().map(|&other| ask(other)).collect()
    }
}

/// G4: of the vertices in a quadrant that are clear of u the one of least cost, of several the
/// smallest.
pub fn pick(net: &Net, vertices: &[Place], u: Place, quadrant: Quadrant) -> Option<Place> {
    vertices
        .iter()
        .copied()
        .filter(|&v| quadrant.holds(u, v) && clear(net, u, v))
        .min_by_key(|&v| (net.weights().cost(u, v), v))
}

/// G5: every pick of every vertex is an edge, one that is picked from both ends too.
pub fn graph(net: &Net) -> Graph {
    let vertices = vertices(net);
    let mut edges = BTreeSet::new();
    for &u in &vertices {
        for quadrant in Quadrant::ALL {
            if let Some(v) = pick(net, &vertices, u, quadrant) {
                edges.insert(Edge::new(u, v));
            }
        }
    }
    Graph {
        vertices,
        edges: edges.into_iter().collect(),
        weights: net.weights(),
    }
}
