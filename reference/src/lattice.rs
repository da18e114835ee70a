//! The least metal of all, by brute force: what L17 and L18 say of every best tree. It is sought over
//! every place of a small box, on the grid's lines or off them, and joins one set of pins after the
//! other. Nothing of `grid` is used, so that a mistake there shows, or one in the rules themselves.

use crate::best::least_set;
use crate::exact::joined;
use crate::graph::vertices;
use crate::net::{Macro, Net, Place};

/// Metal that joins the pins, where none costs less.
#[derive(Clone, Copy, Debug, PartialEq, Eq)]
pub struct Least {
    /// Its cost, in parts: twice as much in steps of half a unit as in whole ones.
    pub cost: i64,
    /// How many places that are on no line of the grid some metal of this cost runs through.
    pub off_lines: usize,
}

/// Steps of a part of a unit: so many parts to a unit, over a box that reaches so many units
/// beyond all pins and macros, and beyond the die where these stand at its edge.
#[derive(Clone, Copy, Debug)]
pub struct Steps {
    pub parts: i64,
    pub margin: i64,
}

impl Steps {
    /// The least metal of a net in these steps, which are whole ones where the net is drawn so many
    /// times as large.
    pub fn least(self, net: &Net) -> Least {
        let lattice = Lattice::of(net, self);
        let whole = joined(&lattice.steps, &lattice.pins).pop();
        let whole = whole.expect("the set of all pins");
        let cost = whole[lattice.pins[0]];
        let through = lattice.places.iter().zip(&whole);
        let through = through.filter(|(_, &joined)| joined == cost);
        let ends = self.ends(net);
        let off_lines = |at: &Place| ends.iter().all(|end| end.x != at.x && end.y != at.y);
        Least {
            cost,
            off_lines: through.filter(|(at, _)| off_lines(at)).count(),
        }
    }

    /// Its cost by trying every set of steps, where there are at most so many of them.
    pub fn least_of_sets(self, net: &Net, most: usize) -> Option<i64> {
        let lattice = Lattice::of(net, self);
        let steps = lattice.steps.iter().enumerate();
        let edges: Vec<(usize, usize, i64)> = steps
            .flat_map(|(a, others)| others.iter().map(move |&(b, cost)| (a, b, cost)))
            .filter(|(a, b, _)| a < b)
            .collect();
        let count = lattice.places.len();
        (edges.len() <= most).then(|| least_set(count, &edges, &lattice.pins))
    }

    /// Pins and macro corners, drawn large: lines run through them, and the box is about them.
    fn ends(self, net: &Net) -> Vec<Place> {
        let ends = vertices(net);
        ends.iter().map(|end| end.drawn(self.parts)).collect()
    }
}

/// Every place of a box in the order of places, the clear steps from each with their costs, and the
/// pins by number.
struct Lattice {
    places: Vec<Place>,
    steps: Vec<Vec<(usize, i64)>>,
    pins: Vec<usize>,
}

impl Lattice {
    fn of(net: &Net, steps: Steps) -> Lattice {
        let ends = steps.ends(net);
        let margin = steps.parts * steps.margin;
        let range = |of: fn(&Place) -> i64| {
            let values = ends.iter().map(of);
            let low = values.clone().min().expect("a pin") - margin;
            low..=values.max().expect("a pin") + margin
        };
        let (xs, ys) = (range(|end| end.x), range(|end| end.y));
        let column = |x| ys.clone().map(move |y| Place { x, y });
        let places: Vec<Place> = xs.flat_map(column).collect();
        let number = |at: Place| places.binary_search(&at).ok();
        let drawn = |pin: &Place| number(pin.drawn(steps.parts)).expect("pins are in the box");
        let macros = net.macros().iter().map(|m| m.drawn(steps.parts));
        let macros: Vec<Macro> = macros.collect();
        let steps_from = |&at: &Place| {
            let beside = [(1, 0), (-1, 0), (0, 1), (0, -1)];
            let beside = beside.map(|(x, y)| Place {
                x: at.x + x,
                y: at.y + y,
            });
            let clear = |to: &Place| macros.iter().all(|m| !enters(m, at, *to));
            let cost = |to: Place| Some((number(to)?, net.weights().cost(at, to)));
            beside.into_iter().filter(clear).filter_map(cost).collect()
        };
        Lattice {
            steps: places.iter().map(steps_from).collect(),
            pins: net.pins().iter().map(drawn).collect(),
            places,
        }
    }
}

/// Whether a step between neighbouring places is not clear (L4). Sides are at whole places, so it
/// meets an interior exactly when its middle is in it (N8).
fn enters(m: &Macro, from: Place, to: Place) -> bool {
    let middle = Place {
        x: from.x + to.x,
        y: from.y + to.y,
    };
    m.drawn(2).holds(middle)
}

/// The same thing drawn so many times as large.
trait Drawn {
    fn drawn(&self, times: i64) -> Self;
}

impl Drawn for Place {
    fn drawn(&self, times: i64) -> Place {
        Place {
            x: times * self.x,
            y: times * self.y,
        }
    }
}

impl Drawn for Macro {
    fn drawn(&self, times: i64) -> Macro {
        Macro {
            left: times * self.left,
            bottom: times * self.bottom,
            right: times * self.right,
            top: times * self.top,
        }
    }
}
