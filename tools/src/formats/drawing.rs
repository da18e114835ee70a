//! What is written of a net: its macros, its pins and the wires of one of its trees.

use std::ffi::OsStr;
use std::path::Path;

use calzundi::{Edge, Net, Place, Wire};

/// A net that is to be written, by whichever format.
#[derive(Clone, Debug)]
pub struct Drawing<'a> {
    /// The name of the cell, or of the design and its net.
    pub name: String,
    pub net: &'a Net,
    pub wires: Vec<Wire>,
    /// How wide a wire is, in units of the net; a line where it is 0.
    pub width: i32,
    /// How many units of the net a micron has.
    pub per_micron: i32,
}

/// The most letters of a name: as many as GDSII has for a cell.
const MOST_LETTERS: usize = 32;

/// The name of a file without its folder and its ending, as both formats allow it: letters, digits and `_`, at most 32 of them.
pub fn cell_name(file: &OsStr) -> String {
    let stem = Path::new(file).file_stem().filter(|_| file != "-");
    let stem = stem.map(OsStr::to_string_lossy).unwrap_or_default();
    let allowed = |letter: char| {
        if letter.is_ascii_alphanumeric() {
            letter
        } else {
            '_'
        }
    };
    let name: String = stem.chars().take(MOST_LETTERS).map(allowed).collect();
    if name.is_empty() {
        "net".into()
    } else {
        name
    }
}

/// The name of a pin, by its place in the list from 0.
pub fn pin_name(at: usize) -> String {
    format!("p{}", at + 1)
}

/// The wires of edges, as the router draws them: level from the smaller place, then upright; one of length zero is left out.
pub fn wires(edges: &[Edge]) -> Vec<Wire> {
    let mut wires = Vec::new();
    for Edge { first, second } in edges {
        let bend = Place {
            x: second.x,
            y: first.y,
        };
        let both = [(*first, bend), (bend, *second)].map(|(start, end)| Wire { start, end });
        wires.extend(both.into_iter().filter(|wire| wire.start != wire.end));
    }
    wires
}
