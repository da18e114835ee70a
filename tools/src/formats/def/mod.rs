//! DEF 5.8: words between blanks, statements that end at `;`, sections of them that end at `END`.

mod read;
mod words;
mod write;

pub use read::read;
pub use write::write;

/// Whether bytes begin as a DEF does: its first word, after comments, is one of those of its head.
pub fn is_def(bytes: &[u8]) -> bool {
    let head = &bytes[..bytes.len().min(MOST_HEAD)];
    let head = String::from_utf8_lossy(head);
    let first = words::Words::new(&head).next();
    let first = first.ok().flatten().map(|word| word.said);
    first.is_some_and(|word| HEAD.contains(&word))
}

/// The words that a DEF may begin with, and how far comments before them are looked through.
const HEAD: [&str; 7] = [
    "VERSION",
    "NAMESCASESENSITIVE",
    "DIVIDERCHAR",
    "BUSBITCHARS",
    "DESIGN",
    "TECHNOLOGY",
    "UNITS",
];
const MOST_HEAD: usize = 1 << 16;

/// On which layers what stands: those that are written, or the only ones that are read.
#[derive(Clone, Debug, Default, PartialEq, Eq)]
pub struct Layers {
    pub macros: Option<String>,
    pub wires: Option<String>,
    pub pins: Option<String>,
}

/// The layer of what is written where none is named.
pub const LAYER: &str = "M1";

/// What is asked of a file: its layers, and its net where there are several.
#[derive(Clone, Debug, Default, PartialEq, Eq)]
pub struct Asked {
    pub layers: Layers,
    pub net: Option<String>,
}

/// How many units a micron may have in DEF.
pub const PER_MICRON: [i32; 11] = [
    100, 200, 400, 800, 1000, 2000, 4000, 8000, 10000, 16000, 20000,
];

/// The properties that carry what DEF has no word for: a pin's load, and the weights of the design.
const LOAD: &str = "calzundiLoad";
const WEIGHT_X: &str = "calzundiWeightX";
const WEIGHT_Y: &str = "calzundiWeightY";
