//! GDSII stream, release 6: records of a length, a kind and big-endian numbers; a library of cells, a cell of elements.

mod read;
mod record;
mod write;

pub use read::{is_gds, read, BadOffset};
pub use write::write;

use crate::line::quoted;

/// A layer with its data type, written `1/0`. What is written `1` is `1/0`.
#[derive(Clone, Copy, Debug, PartialEq, Eq, PartialOrd, Ord)]
pub struct Layer {
    pub number: i16,
    pub datatype: i16,
}

impl std::fmt::Display for Layer {
    fn fmt(&self, f: &mut std::fmt::Formatter) -> std::fmt::Result {
        write!(f, "{}/{}", self.number, self.datatype)
    }
}

impl Layer {
    pub const fn new(number: i16, datatype: i16) -> Layer {
        Layer { number, datatype }
    }

    /// The layer of a word.
    pub fn parse(word: &str) -> Result<Layer, String> {
        let (number, datatype) = word.split_once('/').unwrap_or((word, "0"));
        let part = |word: &str| {
            let digits = !word.is_empty() && word.bytes().all(|byte| byte.is_ascii_digit());
            word.parse::<i16>().ok().filter(|_| digits)
        };
        match (part(number), part(datatype)) {
            (Some(number), Some(datatype)) => Ok(Layer { number, datatype }),
            _ => {
                let word = quoted(word);
                Err(format!(
                    "{word} is no layer of GDSII, which is written as 1/0"
                ))
            }
        }
    }
}

/// On which layers what stands.
#[derive(Clone, Copy, Debug, PartialEq, Eq)]
pub struct Layers {
    pub macros: Layer,
    pub wires: Layer,
    pub pins: Layer,
}

impl Default for Layers {
    fn default() -> Layers {
        Layers {
            macros: Layer::new(1, 0),
            wires: Layer::new(2, 0),
            pins: Layer::new(3, 0),
        }
    }
}

/// What is asked of a file: its layers, and its cell where there are several.
#[derive(Clone, Debug, Default, PartialEq, Eq)]
pub struct Asked {
    pub layers: Layers,
    pub cell: Option<String>,
}
