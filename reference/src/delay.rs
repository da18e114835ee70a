//! "Delay to each pin", document 02's twelfth request, by the plainest means: the tree's edges and the pins with their loads are handed in.
//! Rust's `+` and `*` on `f64` round once each and are never joined into one operation.

use std::collections::BTreeMap;

use crate::edge::Edge;
use crate::net::{Net, Place};

/// Y3: what a unit of length has of either.
#[derive(Clone, Copy, Debug, PartialEq)]
pub struct Technology {
    pub resistance: f64,
    pub capacitance: f64,
}

/// A tree hung from its driver: the edges by point, the pins with their loads.
struct Rooted<'a> {
    neighbours: BTreeMap<Place, Vec<Place>>,
    loads: &'a BTreeMap<Place, u32>,
    technology: Technology,
}

/// The same for the pins of a net with their loads, and its tree.
pub fn of_net(
    net: &Net,
    edges: &[Edge],
    driver: Place,
    technology: Technology,
    lent: usize,
) -> Result<Vec<f64>, u32> {
    let load = |&load: &i32| u32::try_from(load).expect("a load is not below zero");
    let loads = net.loads().iter().map(load);
    let loads = net.pins().iter().copied().zip(loads).collect();
    delays(&loads, edges, driver, technology, lent)
}

/// C85 and C86: a delay for each pin in the order of places, or the first that applies of C21, C38, C39 and C40.
pub fn delays(
    loads: &BTreeMap<Place, u32>,
    edges: &[Edge],
    driver: Place,
    technology: Technology,
    lent: usize,
) -> Result<Vec<f64>, u32> {
    if lent < loads.len() {
        return Err(21);
    }
    if ![technology.resistance, technology.capacitance]
        .iter()
        .all(|value| value.is_finite() && *value > 0.0)
    {
        return Err(38);
    }
    if !loads.contains_key(&driver) {
        return Err(39);
    }
    let mut neighbours: BTreeMap<Place, Vec<Place>> = BTreeMap::new();
    for edge in edges {
        neighbours
            .entry(edge.first())
            .or_default()
            .push(edge.second());
        neighbours
            .entry(edge.second())
            .or_default()
            .push(edge.first());
    }
    for around in neighbours.values_mut() {
        around.sort();
    }
    let tree = Rooted {
        neighbours,
        loads,
        technology,
    };
    let mut delays = BTreeMap::from([(driver, 0.0)]);
    tree.lay(None, driver, &mut delays);
    let answer: Vec<f64> = loads.keys().map(|pin| delays[pin]).collect();
    // "One mark refuses the call."
    if answer.iter().all(|delay| delay.is_finite()) {
        Ok(answer)
    } else {
        Err(40)
    }
}

impl Rooted<'_> {
    /// The neighbours but the parent, in order of places.
    fn children(&self, parent: Option<Place>, point: Place) -> Vec<Place> {
        let around = self.neighbours.get(&point).cloned().unwrap_or_default();
        around
            .into_iter()
            .filter(|&other| Some(other) != parent)
            .collect()
    }

    /// Y4: a pin starts with its load, any other point with 0. Child after child is added, in the order of places, each
    /// time what the child and the edge to it have together.
    fn capacitance(&self, parent: Option<Place>, point: Place) -> f64 {
        let mut sum = f64::from(self.loads.get(&point).copied().unwrap_or(0));
        for child in self.children(parent, point) {
            let below = self.capacitance(Some(point), child);
            sum += below + self.edge(self.technology.capacitance, point, child);
        }
        sum
    }

    /// Y3: what an edge has of one of the two, by its plain length.
    fn edge(&self, unit: f64, one: Place, other: Place) -> f64 {
        unit * one.distance(other) as f64
    }

    /// Y5: a child is later than its parent by the edge's resistance times the capacitance behind it, of the edge
    /// itself only half.
    fn lay(&self, parent: Option<Place>, point: Place, delays: &mut BTreeMap<Place, f64>) {
        let own = delays[&point];
        for child in self.children(parent, point) {
            let resistance = self.edge(self.technology.resistance, point, child);
            let half = self.edge(self.technology.capacitance, point, child) / 2.0;
            let below = self.capacitance(Some(point), child);
            delays.insert(child, own + resistance * (half + below));
            self.lay(Some(point), child, delays);
        }
    }
}

#[cfg(test)]
mod tests {
    use std::collections::BTreeMap;

    use super::{delays, Technology};
    use crate::edge::Edge;
    use crate::net::Place;

    fn at(x: i64) -> Place {
        Place { x, y: 0 }
    }

    /// Four pins in a row, the second with a load of 1.
    fn row(driver: i64, resistance: f64, capacitance: f64, lent: usize) -> Result<Vec<f64>, u32> {
        let loads = BTreeMap::from([(at(-1), 0), (at(0), 1), (at(1), 0), (at(2), 0)]);
        let edges: Vec<Edge> = (-1..2).map(|x| Edge::new(at(x), at(x + 1))).collect();
        let technology = Technology {
            resistance,
            capacitance,
        };
        delays(&loads, &edges, at(driver), technology, lent)
    }

    /// A child's capacitance is added to the edge's before it is added to the sum.
    #[test]
    fn the_order_of_adding() {
        let tiny = f64::from_bits(0x3ca0_0000_0000_0000);
        let given = row(-1, 1.0, tiny, 4).unwrap();
        assert_eq!(given[0].to_bits(), 0);
        assert_eq!(given[1].to_bits(), 0x3ff0_0000_0000_0001);
        assert_eq!(given[3].to_bits(), 0x3ff0_0000_0000_0002);
    }

    #[test]
    fn one_pin() {
        let technology = Technology {
            resistance: 1.0,
            capacitance: 1.0,
        };
        let given = delays(&BTreeMap::from([(at(5), 7)]), &[], at(5), technology, 1);
        assert_eq!(given, Ok(vec![0.0]));
    }

    #[test]
    fn refusals() {
        assert_eq!(row(-2, f64::NAN, 1.0, 3), Err(21));
        for wrong in [f64::NAN, f64::INFINITY, 0.0, -0.0, -1.0] {
            assert_eq!(row(-2, wrong, 1.0, 4), Err(38));
            assert_eq!(row(-2, 1.0, wrong, 4), Err(38));
        }
        let least = f64::from_bits(1);
        assert!(row(-1, least, least, 4).is_ok());
        assert_eq!(row(-2, f64::MAX, 1.0, 4), Err(39));
        assert_eq!(row(-1, f64::MAX, 1.0, 4), Err(40));
    }
}
