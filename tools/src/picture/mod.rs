//! Pictures of a net and its trees: as SVG, both trees side by side, and as a page with layers to look into.

pub mod frame;
pub mod labels;
pub mod page;
pub mod panel;
pub mod red;
pub mod refused;
pub mod sheet;
pub mod svg;
pub mod ways;

use std::collections::{BTreeMap, BTreeSet};

use calzundi::{Edge, Graph, Net, PinDelay, Place, Refusal, Tree, Wire};

use crate::delay::{rounded, said, Asked};
use crate::fingerprint::fingerprint;
use crate::metal::Metal;
use crate::routed::{wires_text, Routed};
use red::Red;

/// All that a picture shows of a net.
#[derive(Clone, Debug)]
pub struct Subject {
    /// What the net is called, where it has a name.
    pub name: String,
    pub net: Net,
    pub routed: Routed,
    pub graph: Graph,
    pub wires: Vec<Wire>,
    /// The edges of each terminal path.
    pub paths: Vec<Vec<Edge>>,
    /// A tree to stand beside the refined one; without it that one stands beside the terminal tree.
    pub other: Option<Other>,
    /// The delays to the pins, where they are asked for, as they are written at the refined tree's.
    pub delays: BTreeMap<Place, String>,
    /// From which driver and by which technology these are, in words.
    pub delayed_by: String,
    /// Further trees, each a layer of a page.
    pub layers: Vec<Layered>,
    /// Another net's metal beside this one's, on a page.
    pub neighbour: Option<Neighbour>,
}

/// A tree as a layer: what its parts are called in a page, whether it is on at first, and the tree.
#[derive(Clone, Debug)]
pub struct Layered {
    pub class: &'static str,
    pub is_on: bool,
    pub other: Other,
}

/// Another net by its name and its wires, and what metal only one of the two has.
#[derive(Clone, Debug)]
pub struct Neighbour {
    pub name: String,
    pub wires: Vec<Wire>,
    pub only_here: Vec<Edge>,
    pub only_there: Vec<Edge>,
}

/// A tree that is not the router's refined one.
#[derive(Clone, Debug)]
pub struct Other {
    /// `slid tree`, `tree of another router`.
    pub name: &'static str,
    pub tree: Tree,
    /// What is to blame where it does not pass.
    pub red: Red,
}

impl Neighbour {
    /// How much metal only one of the two nets has.
    pub fn difference(&self) -> i64 {
        let only = self.only_here.iter().chain(&self.only_there);
        only.map(Edge::length).sum()
    }
}

impl Subject {
    /// Routes an allowed net.
    pub fn of(net: &Net) -> Result<Subject, Refusal> {
        let (routed, graph) = (Routed::of(net)?, net.graph()?);
        let paths = ways::paths(net, &graph, &routed.terminal);
        // Were a way not what the library says it costs, the bridges alone would be drawn.
        let bridges = || routed.terminal.paths.iter().map(|path| vec![path.bridge]);
        Ok(Subject {
            name: String::new(),
            net: net.clone(),
            wires: net.wires()?,
            paths: paths.unwrap_or_else(|| bridges().collect()),
            other: None,
            delays: BTreeMap::new(),
            delayed_by: String::new(),
            layers: Vec::new(),
            neighbour: None,
            graph,
            routed,
        })
    }

    /// The same with a name, that of its file without the folders.
    pub fn named(self, name: &str) -> Subject {
        let name = short_name(name);
        Subject { name, ..self }
    }

    /// The same with another tree beside the refined one.
    pub fn beside(self, name: &'static str, tree: Tree) -> Subject {
        self.beside_red(name, tree, Red::default())
    }

    /// The same with a tree that does not pass, and what is to blame for that.
    pub fn beside_red(self, name: &'static str, tree: Tree, red: Red) -> Subject {
        let other = Some(Other { name, tree, red });
        Subject { other, ..self }
    }

    /// The same with the delays at the pins.
    pub fn delayed(self, asked: &Asked, delays: &[PinDelay]) -> Subject {
        let delays = delays.iter().map(|one| (one.place, rounded(one.delay)));
        let (x, y) = (asked.driver.x, asked.driver.y);
        let resistance = said(asked.technology.resistance);
        let capacitance = said(asked.technology.capacitance);
        Subject {
            delays: delays.collect(),
            delayed_by: format!(
                "from {x}, {y} by resistance {resistance} and capacitance {capacitance}"
            ),
            ..self
        }
    }

    /// What a cheapest tree costs, where one is shown: a best tree, or the shortened one of a net that is small enough for such.
    fn least(&self) -> Option<i64> {
        let Net { pins, macros, .. } = &self.net;
        let is_small = pins.len() <= calzundi::BEST_PINS && macros.len() <= calzundi::GRID_MACROS;
        let layers = self.layers.iter().map(|one| &one.other);
        let mut others = self.other.iter().chain(layers);
        let best = others
            .find(|one| one.name == "best tree" || (is_small && one.name == "shortened tree"));
        best.map(|one| one.tree.total)
    }

    /// What the lower bound says, where it is asked for: on a sheet of the tree that is to be laid, on a page of the refined one and of every
    /// layer. Of one that does not pass nothing is said.
    pub fn bound_words(&self) -> Vec<String> {
        let least = self.least();
        let words = |name: &str, tree: &Tree| {
            let bounded = self.routed.bounded(tree)?;
            let bounded = if Some(tree.total) == least {
                bounded.best()
            } else {
                bounded
            };
            Some(format!("{name}: {}", bounded.words()))
        };
        let refined = words("refined tree", &self.routed.refined);
        let refined = refined.filter(|_| self.other.is_none());
        let layers = self.layers.iter().map(|one| &one.other);
        let others = self.other.iter().chain(layers);
        let others = others.filter(|one| one.red.said.is_empty());
        let others = others.filter_map(|one| words(one.name, &one.tree));
        refined.into_iter().chain(others).collect()
    }

    /// The same with another net's metal.
    pub fn with_neighbour(self, name: &str, wires: Vec<Wire>) -> Subject {
        let (here, there) = (Metal::of(&self.wires), Metal::of(&wires));
        let neighbour = Neighbour {
            name: short_name(name),
            wires,
            only_here: here.without(&there),
            only_there: there.without(&here),
        };
        Subject {
            neighbour: Some(neighbour),
            ..self
        }
    }

    /// The fingerprint of the wires.
    pub fn fingerprint(&self) -> String {
        fingerprint(&wires_text(&self.wires))
    }

    /// What is written at a point of the refined tree: its coordinates, and its delay where that is asked for.
    pub fn label(&self, place: Place) -> String {
        match self.delays.get(&place) {
            Some(delay) => format!("{}: {delay}", coordinates(place)),
            None => coordinates(place),
        }
    }

    /// The pins in the order of the list.
    pub fn pins(&self) -> Vec<Place> {
        self.net.pins.iter().map(|pin| pin.place).collect()
    }

    /// The ends of edges that are no pins: corners of macros, and Steiner points, which refining has put in. Where metal only goes straight
    /// on is neither.
    pub fn other_points(&self, edges: &[Edge]) -> (Vec<Place>, Vec<Place>) {
        let pins: BTreeSet<Place> = self.pins().into_iter().collect();
        let corners = self.net.macros.iter().flat_map(|one| one.corners());
        let corners: BTreeSet<Place> = corners.collect();
        let mut sides: BTreeMap<Place, Vec<Side>> = BTreeMap::new();
        for edge in edges {
            for (end, side) in leaving(edge) {
                sides.entry(end).or_default().push(side);
            }
        }
        sides.retain(|end, sides| {
            !pins.contains(end) && (corners.contains(end) || !is_straight(sides))
        });
        let others = sides.into_keys();
        others.partition(|end| corners.contains(end))
    }

    /// The edges by number, those together that follow each other at points which are not marked.
    pub fn straight_runs(&self, edges: &[Edge]) -> Vec<Vec<usize>> {
        let (corners, steiner) = self.other_points(edges);
        let marked: BTreeSet<Place> = [self.pins(), corners, steiner]
            .concat()
            .into_iter()
            .collect();
        let mut run: Vec<usize> = (0..edges.len()).collect();
        let mut first: BTreeMap<Place, usize> = BTreeMap::new();
        for (at, edge) in edges.iter().enumerate() {
            for end in [edge.first, edge.second] {
                if marked.contains(&end) {
                    continue;
                }
                // Two edges meet at such a point; the runs of both become one.
                if let Some(other) = first.insert(end, at) {
                    let (old, new) = (run[at], run[other]);
                    run.iter_mut()
                        .filter(|one| **one == old)
                        .for_each(|one| *one = new);
                }
            }
        }
        let mut runs: BTreeMap<usize, Vec<usize>> = BTreeMap::new();
        for (at, run) in run.into_iter().enumerate() {
            runs.entry(run).or_default().push(at);
        }
        runs.into_values().collect()
    }

    /// What a diamond stands for: a slid tree and one of another router have points at bends too.
    pub fn diamond(&self) -> &'static str {
        match self.other {
            None => "Steiner point",
            Some(_) => "Steiner point or bend",
        }
    }

    /// Every edge on a terminal path once, with how many paths it is on.
    pub fn terminal_edges(&self) -> Vec<(Edge, usize)> {
        let mut all: Vec<Edge> = self.paths.iter().flatten().copied().collect();
        all.sort_unstable();
        let mut counted: Vec<(Edge, usize)> = Vec::new();
        for edge in all {
            match counted.last_mut() {
                Some((last, count)) if *last == edge => *count += 1,
                _ => counted.push((edge, 1)),
            }
        }
        counted
    }
}

/// To which side metal leaves a point.
#[derive(Clone, Copy, Debug, PartialEq, Eq, PartialOrd, Ord)]
enum Side {
    Left,
    Down,
    Up,
    Right,
}

/// The ends of an edge with the side to which its wires leave each: along x from the smaller place, along y to the larger one.
fn leaving(edge: &Edge) -> [(Place, Side); 2] {
    let (low, high) = (edge.first.min(edge.second), edge.first.max(edge.second));
    let from = match () {
        _ if low.x != high.x => Side::Right,
        _ => Side::Up,
    };
    let to = match () {
        _ if low.y < high.y => Side::Down,
        _ if low.y > high.y => Side::Up,
        _ => Side::Left,
    };
    [(low, from), (high, to)]
}

/// Whether metal comes from one side and leaves to the other, and no more.
fn is_straight(sides: &[Side]) -> bool {
    let mut sides = sides.to_vec();
    sides.sort_unstable();
    sides == [Side::Left, Side::Right] || sides == [Side::Down, Side::Up]
}

/// A name without its folders, cut where it is long.
pub fn short_name(name: &str) -> String {
    let last = name.rsplit('/').next().unwrap_or(name);
    match last.char_indices().nth(LONGEST_NAME) {
        Some((end, _)) => format!("{}...", &last[..end]),
        None => last.to_string(),
    }
}

/// So many letters of a name are written on a sheet.
const LONGEST_NAME: usize = 60;

/// A number with a comma before each three digits.
pub fn grouped(number: i64) -> String {
    let digits = number.unsigned_abs().to_string();
    let mut said = String::from(if number < 0 { "-" } else { "" });
    for (at, digit) in digits.chars().enumerate() {
        if at > 0 && (digits.len() - at).is_multiple_of(3) {
            said.push(',');
        }
        said.push(digit);
    }
    said
}

/// `4, -2`.
pub fn coordinates(place: Place) -> String {
    format!("{}, {}", place.x, place.y)
}
