//! What is read of a layout file: a net, its wires, and what was passed over.

use calzundi::{Edge, Macro, Net, Pin, Place};

use crate::text::Lines;

/// No file of a layout that is longer is read.
pub const MOST_LAYOUT: u64 = 32 << 20;

/// So many boxes, and so many pieces of wire, are taken of a file: a net has 128 macros, a tree that is judged 1,535 edges.
pub const MOST_SHAPES: usize = 4096;

/// A net and its wires, as a file has them.
#[derive(Clone, Debug, Default, PartialEq, Eq)]
pub struct Found {
    /// What it is called in the file.
    pub title: String,
    pub net: Net,
    /// Where its entries stand, where the file has lines.
    pub lines: Option<Lines>,
    /// The pieces of its wires, each with its ends as they were given.
    pub edges: Vec<Edge>,
    /// How many pins the net has that have no place in the file.
    pub missing: usize,
    /// The layers that it has, or the first of them.
    pub layers: Vec<String>,
    /// What was passed over, in words.
    pub notes: Vec<String>,
}

impl Found {
    /// Takes a macro.
    pub fn take_macro(&mut self, one: Macro) -> Result<(), String> {
        room(self.net.macros.len(), "boxes")?;
        self.net.macros.push(one);
        Ok(())
    }

    /// Takes a pin.
    pub fn take_pin(&mut self, pin: Pin) -> Result<(), String> {
        room(self.net.pins.len(), "pins")?;
        self.net.pins.push(pin);
        Ok(())
    }

    /// Takes a piece of wire; one without a length is none.
    pub fn take_wire(&mut self, first: Place, second: Place) -> Result<(), String> {
        if first == second {
            return Ok(());
        }
        if first.x != second.x && first.y != second.y {
            let (a, b, c, d) = (first.x, first.y, second.x, second.y);
            return Err(format!(
                "the wire from {a} {b} to {c} {d} is slanted; wires are level or upright"
            ));
        }
        room(self.edges.len(), "pieces of wire")?;
        self.edges.push(Edge { first, second });
        Ok(())
    }
}

fn room(count: usize, what: &str) -> Result<(), String> {
    if count < MOST_SHAPES {
        Ok(())
    } else {
        Err(format!("more than {MOST_SHAPES} {what} are not read"))
    }
}

/// The box of an outline's points, the last of which may be the first again.
pub fn box_of(points: &[Place]) -> Result<Macro, String> {
    let wrong = || Err("the outline is no upright box".to_string());
    let corners = match points {
        [a, b, c, d] => [a, b, c, d],
        [a, b, c, d, e] if a == e => [a, b, c, d],
        _ => return wrong(),
    };
    let [a, b, c, d] = corners.map(|place| (place.x, place.y));
    // Round one way or the other: each side along one axis, and two sides on each.
    let level_first = a.1 == b.1 && b.0 == c.0 && c.1 == d.1 && d.0 == a.0;
    let upright_first = a.0 == b.0 && b.1 == c.1 && c.0 == d.0 && d.1 == a.1;
    if !level_first && !upright_first {
        return wrong();
    }
    Ok(spanned(*corners[0], *corners[2]))
}

/// The box that two places span.
pub fn spanned(one: Place, other: Place) -> Macro {
    Macro::new(
        one.x.min(other.x),
        one.y.min(other.y),
        one.x.max(other.x),
        one.y.max(other.y),
    )
}

/// So many layers are told of.
const FEW: usize = 6;

/// The first of some layers, and that there are others.
pub fn first_layers(layers: impl Iterator<Item = String>) -> Vec<String> {
    let mut first: Vec<String> = layers.take(FEW + 1).collect();
    if let Some(last) = first.get_mut(FEW) {
        *last = "others".into();
    }
    first
}

/// A count with its noun: `1 via`, `2 vias`.
pub fn counted(count: usize, one: &str, many: &str) -> String {
    match count {
        1 => format!("1 {one}"),
        _ => format!("{count} {many}"),
    }
}
