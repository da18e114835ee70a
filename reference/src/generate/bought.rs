//! Lists of edges for a net, right ones and wrong ones, each made of a tree of ours.

use super::kinds;
use crate::bought::EDGES;
use crate::edge::Edge;
use crate::graph::clear;
use crate::net::{check, Net, Place};
use crate::operations::edge_numbers;
use crate::random::Random;
use crate::refined::refined;
use crate::slide::slid;

kinds! {
    /// A kind of list.
    Bought {
        Refined "refined" "passes: the refined tree",
        Slid "slid" "passes: the slid tree",
        Turned "turned" "passes: edges in another order and from either end",
        LongWay "long-way" "passes: an edge in many short steps, up to 1,535 edges in all",
        Changed "changed" "an end of an edge is put elsewhere",
        Removed "removed" "refused 35: an edge is removed",
        Doubled "doubled" "refused 35: an edge is given twice, from either end",
        Cycle "cycle" "refused 35: an edge more between two points",
        Parts "parts" "refused 35: a cycle and a part of its own, with the right count of edges",
        Bare "bare" "refused 35: an edge to a place that is no pin",
        PinLeftOut "pin-left-out" "the tree of the net without one of its pins",
        ThroughMacro "through-macro" "refused 34: an edge more, through a macro",
        EqualEnds "equal-ends" "refused 34: an edge from a point to itself, once or twice",
        LeftOver "left-over" "refused 33: numbers left over",
        OutOfRange "out-of-range" "refused 33: a coordinate out of range",
        TooMany "too-many" "refused 33: more than 1,535 edges",
        RangeAndEnds "range-and-ends" "refused 33: a coordinate out of range, and an edge with equal ends before it",
        EndsAndCycle "ends-and-cycle" "refused 34: a cycle, and an edge with equal ends behind it",
        Random "random" "edges between any places",
        Nothing "nothing" "no edge",
    }
}

/// A net with the trees that we give for it, of which lists are made.
pub struct Ours<'a> {
    pub net: &'a Net,
    pub refined: Vec<Edge>,
    pub slid: Vec<Edge>,
}

impl Ours<'_> {
    pub fn of(net: &Net) -> Ours<'_> {
        Ours {
            net,
            refined: refined(net).edges,
            slid: slid(net).edges,
        }
    }
}

/// The list of a kind and a seed for an allowed net. None where the net has none of that kind: of one pin no edge can be removed.
pub fn bought(kind: Bought, seed: u64, ours: &Ours) -> Option<Vec<i32>> {
    let random = &mut kind.random(seed);
    let net = ours.net;
    let mut edges = match kind {
        Bought::Refined => ours.refined.clone(),
        Bought::Slid => ours.slid.clone(),
        _ => random.choose(&[&ours.refined, &ours.slid]).clone(),
    };
    let mut last = Vec::new();
    match kind {
        Bought::Refined | Bought::Slid => return Some(numbers(&edges)),
        Bought::Turned => {}
        Bought::LongWay => long_way(&mut edges, random)?,
        Bought::Changed => changed(&mut edges, random)?,
        Bought::Removed => {
            at(&edges, random).map(|at| edges.remove(at))?;
        }
        Bought::Doubled => edges.push(edges[at(&edges, random)?]),
        Bought::Cycle => edges.push(closing(net, &edges, random)?),
        Bought::Parts => parts(net, &mut edges, random)?,
        Bought::Bare => edges.push(bare(net, &edges, random)?),
        Bought::PinLeftOut => edges = refined(&without_a_pin(net, random)?).edges,
        Bought::ThroughMacro => edges.push(through_macro(net, &edges, random)?),
        Bought::EqualEnds => equal_ends(net, &mut edges, random),
        Bought::LeftOver => {
            last = (0..random.between(1, 3))
                .map(|_| random.between(-9, 9))
                .collect()
        }
        Bought::OutOfRange => last = out_of_range(random),
        Bought::TooMany => {
            let any = edges
                .first()
                .copied()
                .unwrap_or_else(|| random_edge(random, 9));
            edges.resize(EDGES + 1 + random.below(3), any);
        }
        Bought::RangeAndEnds => {
            equal_ends(net, &mut edges, random);
            last = out_of_range(random);
        }
        Bought::EndsAndCycle => {
            edges.push(closing(net, &edges, random)?);
            equal_ends(net, &mut edges, random);
        }
        Bought::Random => {
            let high = random.choose(&[2, 4, 20]);
            edges = (0..random.below(12))
                .map(|_| random_edge(random, high))
                .collect();
        }
        Bought::Nothing => edges.clear(),
    }
    let mut list = turned(edges, random);
    list.extend(last);
    Some(list)
}

fn numbers(edges: &[Edge]) -> Vec<i32> {
    edges.iter().flat_map(|&edge| edge_numbers(edge)).collect()
}

/// In another order, each edge from either end.
fn turned(mut edges: Vec<Edge>, random: &mut Random) -> Vec<i32> {
    random.shuffle(&mut edges);
    let four = |edge: Edge| {
        let [a, b, c, d] = edge_numbers(edge);
        if random.one_in(2) {
            [a, b, c, d]
        } else {
            [c, d, a, b]
        }
    };
    edges.into_iter().flat_map(four).collect()
}

/// The position of one of them, if there is any.
fn at(edges: &[Edge], random: &mut Random) -> Option<usize> {
    (!edges.is_empty()).then(|| random.below(edges.len()))
}

/// The points of a list of edges, or the pins where it has none.
fn points(net: &Net, edges: &[Edge]) -> Vec<Place> {
    if edges.is_empty() {
        net.pins().to_vec()
    } else {
        edges
            .iter()
            .flat_map(|edge| [edge.first(), edge.second()])
            .collect()
    }
}

fn random_edge(random: &mut Random, high: i32) -> Edge {
    let mut place = || Place {
        x: i64::from(random.between(0, high)),
        y: i64::from(random.between(0, high)),
    };
    Edge::new(place(), place())
}

/// A long edge becomes a way of steps along one axis, as many as there is room for or some of them.
fn long_way(edges: &mut Vec<Edge>, random: &mut Random) -> Option<()> {
    let is_free = |place: &Place, edges: &[Edge]| {
        edges
            .iter()
            .all(|edge| edge.first() != *place && edge.second() != *place)
    };
    for _ in 0..20 {
        let position = at(edges, random)?;
        let (a, b) = (edges[position].first(), edges[position].second());
        let length = (b.x - a.x).max((b.y - a.y).abs());
        let room = (EDGES - edges.len()) as i64;
        let steps = if random.one_in(2) {
            room
        } else {
            random.between(1, 9).into()
        };
        let steps = steps.min(length - 1);
        // Level first and then upright, or the one of the two that there is.
        let step = |number: i64| {
            if a.x == b.x || (a.y != b.y && length > b.x - a.x) {
                Place {
                    x: b.x,
                    y: a.y + (b.y - a.y).signum() * number,
                }
            } else {
                Place {
                    x: a.x + number,
                    y: a.y,
                }
            }
        };
        let way: Vec<Place> = (1..=steps).map(step).collect();
        if steps < 1 || !way.iter().all(|place| is_free(place, edges)) {
            continue;
        }
        edges.remove(position);
        let mut before = a;
        for place in way.into_iter().chain([b]) {
            edges.push(Edge::new(before, place));
            before = place;
        }
        return Some(());
    }
    None
}

/// One end of one edge goes to a place close by or to another point.
fn changed(edges: &mut [Edge], random: &mut Random) -> Option<()> {
    let (here, there) = (at(edges, random)?, at(edges, random)?);
    let edge = edges[here];
    let near = Place {
        x: edge.second().x.clamp(-999_998, 999_998) + i64::from(random.between(-2, 2)),
        y: edge.second().y.clamp(-999_998, 999_998) + i64::from(random.between(-2, 2)),
    };
    let other = random.choose(&[near, near, edges[there].first(), edges[there].second()]);
    edges[here] = Edge::new(random.choose(&[edge.first(), edge.second()]), other);
    Some(())
}

/// A clear edge between two points that are not joined by one, so that it closes a cycle of a tree.
fn closing(net: &Net, edges: &[Edge], random: &mut Random) -> Option<Edge> {
    let points = points(net, edges);
    let found = (0..60).map(|_| Edge::new(random.choose(&points), random.choose(&points)));
    found.into_iter().find(|edge| {
        edge.first() != edge.second()
            && !edges.contains(edge)
            && clear(net, edge.first(), edge.second())
    })
}

/// A cycle on one side of an edge that goes: as many edges as before, in two parts.
fn parts(net: &Net, edges: &mut Vec<Edge>, random: &mut Random) -> Option<()> {
    for _ in 0..60 {
        let closed = closing(net, edges, random)?;
        let gone = at(edges, random)?;
        let mut left = edges.clone();
        left.remove(gone);
        // The edge closes a cycle if a way between its ends is left.
        let mut reached = vec![closed.first()];
        let mut next = 0;
        while next < reached.len() {
            let here = reached[next];
            for edge in &left {
                for (one, other) in [(edge.first(), edge.second()), (edge.second(), edge.first())] {
                    if one == here && !reached.contains(&other) {
                        reached.push(other);
                    }
                }
            }
            next += 1;
        }
        if reached.contains(&closed.second()) {
            left.push(closed);
            *edges = left;
            return Some(());
        }
    }
    None
}

/// A clear edge from a point to a place that is neither point nor pin.
fn bare(net: &Net, edges: &[Edge], random: &mut Random) -> Option<Edge> {
    let points = points(net, edges);
    let end = i64::from(Net::COORDINATE);
    (0..60).find_map(|_| {
        let from = random.choose(&points);
        let reach = random.choose(&[1, 3, 30]);
        let to = Place {
            x: (from.x + i64::from(random.between(-reach, reach))).clamp(-end, end),
            y: (from.y + i64::from(random.between(-reach, reach))).clamp(-end, end),
        };
        let is_new = !points.contains(&to) && !net.pins().contains(&to);
        (is_new && clear(net, from, to)).then(|| Edge::new(from, to))
    })
}

/// The net with one pin less.
fn without_a_pin(net: &Net, random: &mut Random) -> Option<Net> {
    let flat = |place: &Place| [place.x as i32, place.y as i32, 0];
    let mut pins = net.pins().to_vec();
    pins.remove(random.below(pins.len()));
    let pins: Vec<i32> = pins.iter().flat_map(flat).collect();
    let sides = net
        .macros()
        .iter()
        .flat_map(|m| [m.left, m.bottom, m.right, m.top]);
    let macros: Vec<i32> = sides.map(|side| side as i32).collect();
    check(&pins, &macros, net.weights()).ok()
}

/// An edge from one corner of a macro to the other, from side to side, into it, or from a point to a corner that is not clear of it.
fn through_macro(net: &Net, edges: &[Edge], random: &mut Random) -> Option<Edge> {
    if net.macros().is_empty() {
        return None;
    }
    let m = random.choose(net.macros());
    let [low, up, down, high] = m.corners();
    let inside = Place {
        x: (m.left + m.right) / 2,
        y: (m.bottom + m.top) / 2,
    };
    let points = points(net, edges);
    let choices = [
        (low, high),
        (up, down),
        (low, inside),
        (random.choose(&points), inside),
        (random.choose(&points), high),
    ];
    let (one, other) = random.choose(&choices);
    (one != other && !clear(net, one, other)).then(|| Edge::new(one, other))
}

/// An edge from a point to itself, once or twice.
fn equal_ends(net: &Net, edges: &mut Vec<Edge>, random: &mut Random) {
    let point = random.choose(&points(net, edges));
    let times = 1 + random.below(2);
    edges.extend((0..times).map(|_| Edge::new(point, point)));
}

/// Four numbers with one of them out of range.
fn out_of_range(random: &mut Random) -> Vec<i32> {
    let end = Net::COORDINATE;
    let mut four = vec![random.between(0, 9), 0, 0, random.between(-9, 0)];
    four[random.below(4)] = random.choose(&[end + 1, -end - 1, i32::MAX, i32::MIN]);
    four
}
