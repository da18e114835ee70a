//! A tree router whose every answer is proved, from Rust.
//!
//! A [`Net`] is pins, macros and weights; its calls give trees, wires, distances, delays, a net file or a price as values of their own, or
//! check the tree of another router, or give a [`Refusal`] that says why not. All the work is the static library's, of which every function
//! is proved to do what the documents say; this crate only lends the space and sorts the numbers into structs, and is tested.
//!
//! ```
//! use calzundi::{Net, Refusal};
//!
//! let net = Net::new([(0, 0), (4, 0), (2, 3)], []);
//! let tree = net.refined_tree()?;
//! assert_eq!(tree.metal, 7);
//! assert_eq!(tree.edges.len(), 3);
//!
//! let twice = Net::new([(5, 5), (5, 5)], []);
//! assert_eq!(twice.check(), Err(Refusal::PinTwice));
//! assert_eq!(twice.check().unwrap_err().to_string(), "refused 15: two pins are at one place");
//! # Ok::<(), Refusal>(())
//! ```
//!
//! A call takes up to [`STACK_BYTES`] of stack: a thread of your own wants at least that much. Calls keep no state and may run in any
//! number of threads at a time. [`lent`] has the same calls without a copy, into space of yours.
#![warn(missing_docs)]

#[allow(missing_docs)]
pub mod lent;
mod refusal;

pub use refusal::Refusal;

/// The version of the library, as include/calzundi.h has it.
pub const VERSION: &str = env!("CALZUNDI_VERSION");

/// The most pins that a net may have.
pub const PINS: usize = 128;
/// The most macros that a net may have.
pub const MACROS: usize = 128;
/// A coordinate is from minus this to this.
pub const COORDINATE: i32 = 1_000_000;
/// A pin's load is from 0 to this.
pub const LOAD: i32 = 1_000_000;
/// The numbers of a pin in a list that is handed over or lent: x, y, load.
pub const PIN_NUMBERS: usize = 3;
/// A weight is from 1 to this.
pub const WEIGHT: i32 = 8;
/// The most pins of a net whose distances on the grid are given.
pub const GRID_PINS: usize = 16;
/// The most macros of such a net.
pub const GRID_MACROS: usize = 16;
/// The most pins of a net that gets a best tree; its macros are at most [`GRID_MACROS`].
pub const BEST_PINS: usize = 5;
/// The numbers of work that are lent for a best tree.
pub const BEST_WORK: usize = 65_536;
/// The numbers of 32 bits that are lent for a lower bound.
pub const BOUND_LEFT: usize = 589_824;
/// The numbers of 64 bits that are lent for a lower bound.
pub const BOUND_ROWS: usize = 147_456;
/// The most edges of a bought-in tree.
pub const BOUGHT_EDGES: usize = 1_535;
/// A band's rate is at most this.
pub const RATE: u64 = 1_000_000;
/// A net file is blocks of so many bytes.
pub const BLOCK_BYTES: usize = 512;
/// So many pins are in a full block, where none has a load.
pub const PINS_A_BLOCK: usize = 60;
/// So many pins with their loads are in a full block.
pub const LOADED_A_BLOCK: usize = 40;
/// So many macros are in a full block.
pub const MACROS_A_BLOCK: usize = 30;
/// The bytes of the longest net file.
pub const LONGEST_FILE: usize = file_bytes(PINS, MACROS, true);
/// The stack that a call has to itself, whichever it is; [`stack`] has that of each operation.
pub const STACK_BYTES: usize = 512 * 1024;

/// The stack that each operation has to itself, in bytes, as include/calzundi.h has it: measured on the largest nets, with some KiB to
/// spare, and not proved.
pub mod stack {
    /// Check a net.
    pub const CHECK: usize = 4 * 1024;
    /// Graph.
    pub const GRAPH: usize = 16 * 1024;
    /// Terminal tree.
    pub const TERMINAL_TREE: usize = 224 * 1024;
    /// Refined tree.
    pub const REFINED_TREE: usize = 332 * 1024;
    /// Slid tree, the deepest call.
    pub const SLID_TREE: usize = super::STACK_BYTES;
    /// Wires.
    pub const WIRES: usize = 332 * 1024;
    /// Best tree, whose table is lent.
    pub const BEST_TREE: usize = 104 * 1024;
    /// Lower bound, whose tables are lent.
    pub const LOWER_BOUND: usize = 24 * 1024;
    /// Distances on the grid.
    pub const GRID_DISTANCES: usize = 40 * 1024;
    /// Delay.
    pub const DELAY: usize = 348 * 1024;
    /// Price.
    pub const PRICE: usize = 332 * 1024;
    /// Check a bought-in tree.
    pub const CHECK_TREE: usize = 64 * 1024;
    /// Write a net file.
    pub const WRITE_FILE: usize = 16 * 1024;
    /// Read a net file.
    pub const READ_FILE: usize = 36 * 1024;
}

/// The bytes of the net file of so many pins and macros, and whether a pin has a load.
const fn file_bytes(pins: usize, macros: usize, loaded: bool) -> usize {
    let a_block = if loaded { LOADED_A_BLOCK } else { PINS_A_BLOCK };
    BLOCK_BYTES * (1 + pins.div_ceil(a_block) + macros.div_ceil(MACROS_A_BLOCK))
}

/// A place of the die. Places are ordered by x, then by y.
#[derive(Clone, Copy, Debug, PartialEq, Eq, PartialOrd, Ord, Hash)]
pub struct Place {
    /// Grows to the right.
    pub x: i32,
    /// Grows upwards.
    pub y: i32,
}

/// A pin: a place that is to be joined with the others.
#[derive(Clone, Copy, Debug, PartialEq, Eq, PartialOrd, Ord, Hash)]
#[non_exhaustive]
pub struct Pin {
    /// Where it is.
    pub place: Place,
    /// Its load in units of capacitance, 0 to [`LOAD`]. Of all answers only delays depend on it, and a net file has it.
    pub load: i32,
}

impl Pin {
    /// The pin at a place, without a load.
    pub const fn new(x: i32, y: i32) -> Pin {
        Pin {
            place: Place { x, y },
            load: 0,
        }
    }

    /// The same pin with a load.
    pub const fn with_load(self, load: i32) -> Pin {
        Pin { load, ..self }
    }
}

impl From<(i32, i32)> for Pin {
    fn from((x, y): (i32, i32)) -> Pin {
        Pin::new(x, y)
    }
}

impl From<(i32, i32, i32)> for Pin {
    fn from((x, y, load): (i32, i32, i32)) -> Pin {
        Pin::new(x, y).with_load(load)
    }
}

/// A macro: an upright rectangle whose interior no metal enters. Its boundary blocks nothing.
#[derive(Clone, Copy, Debug, PartialEq, Eq, PartialOrd, Ord, Hash)]
pub struct Macro {
    /// The least x.
    pub left: i32,
    /// The least y.
    pub bottom: i32,
    /// The greatest x.
    pub right: i32,
    /// The greatest y.
    pub top: i32,
}

impl Macro {
    /// The macro of four sides, in the order in which files and lists have them.
    pub const fn new(left: i32, bottom: i32, right: i32, top: i32) -> Macro {
        Macro {
            left,
            bottom,
            right,
            top,
        }
    }

    /// The four corners.
    pub const fn corners(&self) -> [Place; 4] {
        let (left, right) = (self.left, self.right);
        let (bottom, top) = (self.bottom, self.top);
        [
            Place { x: left, y: bottom },
            Place { x: left, y: top },
            Place {
                x: right,
                y: bottom,
            },
            Place { x: right, y: top },
        ]
    }
}

impl From<(i32, i32, i32, i32)> for Macro {
    fn from((left, bottom, right, top): (i32, i32, i32, i32)) -> Macro {
        Macro::new(left, bottom, right, top)
    }
}

/// What a unit of metal costs along each axis, 1 to 8; 1 and 1 where nothing else is said, and then cost is length.
#[derive(Clone, Copy, Debug, PartialEq, Eq, PartialOrd, Ord, Hash)]
pub struct Weights {
    /// A unit along x.
    pub x: i32,
    /// A unit along y.
    pub y: i32,
}

impl Default for Weights {
    fn default() -> Weights {
        Weights { x: 1, y: 1 }
    }
}

/// Two places that are joined, the smaller one first.
#[derive(Clone, Copy, Debug, PartialEq, Eq, PartialOrd, Ord, Hash)]
pub struct Edge {
    /// The smaller place.
    pub first: Place,
    /// The larger place.
    pub second: Place,
}

impl Edge {
    /// The plain length: the difference in x and that in y.
    pub fn length(&self) -> i64 {
        self.cost(Weights::default())
    }

    /// The cost: the difference in x times the first weight and that in y times the second.
    pub fn cost(&self, weights: Weights) -> i64 {
        cost(self.first, self.second, weights)
    }
}

/// A straight piece of metal, as it is drawn: level or upright, from its start to its end.
#[derive(Clone, Copy, Debug, PartialEq, Eq, PartialOrd, Ord, Hash)]
pub struct Wire {
    /// Where drawing starts.
    pub start: Place,
    /// Where it ends.
    pub end: Place,
}

impl Wire {
    /// How long it is.
    pub fn length(&self) -> i64 {
        self.cost(Weights::default())
    }

    /// What it costs.
    pub fn cost(&self, weights: Weights) -> i64 {
        cost(self.start, self.end, weights)
    }
}

fn cost(one: Place, other: Place, weights: Weights) -> i64 {
    let gap = |a: i32, b: i32| (i64::from(a) - i64::from(b)).abs();
    gap(one.x, other.x) * i64::from(weights.x) + gap(one.y, other.y) * i64::from(weights.y)
}

/// A kept terminal path: its bridge stands for it.
#[derive(Clone, Copy, Debug, PartialEq, Eq, PartialOrd, Ord, Hash)]
pub struct Path {
    /// The edge of the graph between the two halves of the path.
    pub bridge: Edge,
    /// What the whole path costs, both ways and the bridge; its length where both weights are 1.
    pub cost: i64,
}

/// The spanning graph, both lists in order.
#[derive(Clone, Debug, Default, PartialEq, Eq)]
pub struct Graph {
    /// Pins and corners of macros, each place once.
    pub vertices: Vec<Place>,
    /// Which of them are joined.
    pub edges: Vec<Edge>,
}

/// The terminal tree: the cheapest joining of the pins by paths of the graph.
#[derive(Clone, Debug, Default, PartialEq, Eq)]
pub struct TerminalTree {
    /// The paths in the order kept, one less than pins.
    pub paths: Vec<Path>,
    /// The sum of their costs: an edge on two paths counts twice.
    pub total: i64,
}

/// A tree that can be laid.
#[derive(Clone, Debug, Default, PartialEq, Eq)]
pub struct Tree {
    /// The edges in order.
    pub edges: Vec<Edge>,
    /// The sum of their costs.
    pub total: i64,
    /// The metal to lay: the sum of their plain lengths.
    pub metal: i64,
}

/// The refined tree: what is laid unless bars slide.
pub type RefinedTree = Tree;

/// The slid tree: the refined one with its slanted edges bent, whose bars have moved where that saves; or the refined one as it was, where
/// both places for a bend are taken.
pub type SlidTree = Tree;

/// A best tree: no level and upright metal outside the macros joins the pins for less. Which one, where several cost the same, is left to the library.
pub type BestTree = Tree;

/// What a bought-in tree that passes comes to.
#[derive(Clone, Copy, Debug, Default, PartialEq, Eq)]
pub struct Passed {
    /// The sum of its edges' costs.
    pub cost: i64,
    /// The metal to lay: the sum of their plain lengths.
    pub metal: i64,
}

/// A band of a price list.
#[derive(Clone, Copy, Debug, PartialEq, Eq, PartialOrd, Ord, Hash)]
pub struct Band {
    /// The most metal that the band reaches.
    pub limit: u64,
    /// Hundredths of the currency per 1,000 units of metal.
    pub rate: u64,
}

/// What a unit of length has, for delays: both numbers finite and above zero.
#[derive(Clone, Copy, Debug, PartialEq)]
pub struct Technology {
    /// Resistance for each unit of length.
    pub resistance: f64,
    /// Capacitance for each unit of length, in the units of loads.
    pub capacitance: f64,
}

/// A pin and the delay to it.
#[derive(Clone, Copy, Debug, PartialEq)]
pub struct PinDelay {
    /// Where the pin is.
    pub place: Place,
    /// Its Elmore delay from the driver.
    pub delay: f64,
}

/// Pins that are to be joined, macros that are in the way, and what metal costs along each axis.
///
/// Any net can be made; a call says whether it is allowed. Answers are the same for every order of the lists; only a net file keeps it.
#[derive(Clone, Debug, Default, PartialEq, Eq)]
pub struct Net {
    /// 1 to [`PINS`] of them, each at a place of its own.
    pub pins: Vec<Pin>,
    /// At most [`MACROS`], with interiors that do not meet.
    pub macros: Vec<Macro>,
    /// 1 and 1 where nothing else is said.
    pub weights: Weights,
}

/// The flat numbers of a net, ready to be lent.
struct Flat {
    pins: Vec<i32>,
    macros: Vec<i32>,
    weights: Weights,
}

impl Flat {
    fn lists(&self) -> lent::Lists<'_> {
        lent::Lists {
            pins: &self.pins,
            macros: &self.macros,
            weights: self.weights,
        }
    }
}

impl Net {
    /// The net of pins and macros with the weights 1 and 1. A pin is `(x, y)`, `(x, y, load)` or a [`Pin`].
    pub fn new<P: Into<Pin>>(
        pins: impl IntoIterator<Item = P>,
        macros: impl IntoIterator<Item = (i32, i32, i32, i32)>,
    ) -> Net {
        Net {
            pins: pins.into_iter().map(Into::into).collect(),
            macros: macros.into_iter().map(Macro::from).collect(),
            weights: Weights::default(),
        }
    }

    /// The same net with other weights.
    pub fn with_weights(self, x: i32, y: i32) -> Net {
        Net {
            weights: Weights { x, y },
            ..self
        }
    }

    /// Whether the net is allowed: 11 to 18, each for the whole net before the next.
    pub fn check(&self) -> Result<(), Refusal> {
        lent::check(self.flat().lists())
    }

    /// The spanning graph.
    pub fn graph(&self) -> Result<Graph, Refusal> {
        let (mut vertices, mut edges) = (vec![0; 2 * self.points()], vec![0; 16 * self.points()]);
        let (v, e) = lent::graph(self.flat().lists(), &mut vertices, &mut edges)?;
        let vertices = vertices[..2 * v].chunks_exact(2);
        Ok(Graph {
            vertices: vertices.map(|pair| place(pair[0], pair[1])).collect(),
            edges: edges_of(&edges[..4 * e]),
        })
    }

    /// The terminal tree.
    pub fn terminal_tree(&self) -> Result<TerminalTree, Refusal> {
        let mut numbers = vec![0; 5 * self.pins.len()];
        let (count, total) = lent::terminal_tree(self.flat().lists(), &mut numbers)?;
        let narrow = |number: i64| i32::try_from(number).expect("a coordinate has 32 bits");
        let path = |numbers: &[i64]| Path {
            bridge: Edge {
                first: place(narrow(numbers[0]), narrow(numbers[1])),
                second: place(narrow(numbers[2]), narrow(numbers[3])),
            },
            cost: numbers[4],
        };
        let paths = numbers[..5 * count].chunks_exact(5).map(path).collect();
        Ok(TerminalTree { paths, total })
    }

    /// The refined tree, with the metal to lay.
    pub fn refined_tree(&self) -> Result<RefinedTree, Refusal> {
        self.tree(lent::refined_tree, 4 * self.tree_points())
    }

    /// The slid tree: never dearer than the refined one. Its edges are level or upright, so each is a wire; only where both places for the
    /// bend of a slanted edge are taken is it the refined tree as it was, with [`Net::wires`] as its wires.
    pub fn slid_tree(&self) -> Result<SlidTree, Refusal> {
        self.tree(lent::slid_tree, 8 * self.tree_points())
    }

    /// A best tree of up to 5 pins and 16 macros: no level and upright metal outside the macros joins the pins for less, along the grid of
    /// all pins and sides or off it; so neither the refined nor the slid tree nor any that [`Net::check_tree`] passes does. Which one is given, where several
    /// cost the same, is left to the library; its cost is fixed.
    pub fn best_tree(&self) -> Result<BestTree, Refusal> {
        let lines = self.pins.len() + 2 * self.macros.len();
        let of_size = self.pins.len() <= BEST_PINS && self.macros.len() <= GRID_MACROS;
        // A larger net is refused before anything that is lent is looked at.
        let lent = if of_size { 4 * lines * lines } else { 0 };
        let mut work = vec![0; if of_size { BEST_WORK } else { 0 }];
        let call = |lists: lent::Lists, edges: &mut [i32]| lent::best_tree(lists, &mut work, edges);
        self.tree(call, lent)
    }

    /// A cost that no metal in level and upright unit steps outside the macros undercuts if it joins all pins: so neither the refined, the slid
    /// nor a best tree nor any that [`Net::check_tree`] passes does, and one that costs just as much is a cheapest. One number, the same for
    /// every order of the lists, and on every site as far as it was tested. It takes 3.4 MiB of work for the time of the call, and on the
    /// largest nets much longer than a tree.
    ///
    /// ```
    /// let net = calzundi::Net::new([(0, 0), (4, 0), (2, 3)], []);
    /// assert_eq!(net.lower_bound(), Ok(7));
    /// assert_eq!(net.refined_tree()?.total, 7); // so this is a cheapest tree
    /// # Ok::<(), calzundi::Refusal>(())
    /// ```
    pub fn lower_bound(&self) -> Result<i64, Refusal> {
        let (mut left, mut rows) = (vec![0; BOUND_LEFT], vec![0; BOUND_ROWS]);
        let bound = lent::lower_bound(self.flat().lists(), &mut left, &mut rows)?;
        Ok(i64::try_from(bound).expect("the bound is not above a total"))
    }

    /// Whether a tree of another router passes for this net: one tree of clear edges that holds every pin, and every point with a single
    /// edge a pin. An edge may be given from either end. Every refined tree and every slid tree passes.
    pub fn check_tree(&self, edges: &[Edge]) -> Result<Passed, Refusal> {
        let ends = |edge: &Edge| [edge.first.x, edge.first.y, edge.second.x, edge.second.y];
        let numbers: Vec<i32> = edges.iter().flat_map(ends).collect();
        let (cost, metal) = lent::check_tree(self.flat().lists(), &numbers)?;
        Ok(Passed { cost, metal })
    }

    /// The wires of the refined tree, in the order in which they are drawn.
    pub fn wires(&self) -> Result<Vec<Wire>, Refusal> {
        let mut numbers = vec![0; 8 * self.tree_points()];
        let count = lent::wires(self.flat().lists(), &mut numbers)?;
        let wire = |numbers: &[i32]| Wire {
            start: place(numbers[0], numbers[1]),
            end: place(numbers[2], numbers[3]),
        };
        Ok(numbers[..4 * count].chunks_exact(4).map(wire).collect())
    }

    /// The cheapest cost between every two pins, by any clear way and not only along the graph: a row for each pin in the order of places, and
    /// in it a number for each. For nets of up to 16 pins and 16 macros.
    pub fn grid_distances(&self) -> Result<Vec<Vec<i64>>, Refusal> {
        let m = self.pins.len();
        let mut table = vec![0; m * m];
        let given = lent::grid_distances(self.flat().lists(), &mut table)?;
        Ok(table[..given]
            .chunks(m.max(1))
            .map(<[i64]>::to_vec)
            .collect())
    }

    /// The Elmore delay of the refined tree from a driver, which is a pin, to each pin, in the order of places. Each operation rounds once,
    /// in the order that the documents write it, so that the same call gives the same bits everywhere.
    pub fn delays(&self, driver: Place, technology: Technology) -> Result<Vec<PinDelay>, Refusal> {
        let mut numbers = vec![0.0; self.pins.len()];
        let given = lent::delay(self.flat().lists(), driver, technology, &mut numbers)?;
        let mut places: Vec<Place> = self.pins.iter().map(|pin| pin.place).collect();
        places.sort_unstable();
        let pairs = places.into_iter().zip(numbers).take(given);
        Ok(pairs
            .map(|(place, delay)| PinDelay { place, delay })
            .collect())
    }

    /// What a bureau charges for the metal to lay, in hundredths of the currency.
    pub fn price(&self, bands: &[Band]) -> Result<u64, Refusal> {
        let pairs = bands.iter().flat_map(|band| [band.limit, band.rate]);
        lent::price(self.flat().lists(), &pairs.collect::<Vec<u64>>())
    }

    /// The net's file, which keeps the order of both lists.
    pub fn to_file(&self) -> Result<Vec<u8>, Refusal> {
        let loaded = self.pins.iter().any(|pin| pin.load != 0);
        let mut bytes = vec![0; file_bytes(self.pins.len(), self.macros.len(), loaded)];
        let given = lent::write_file(self.flat().lists(), &mut bytes)?;
        bytes.truncate(given);
        Ok(bytes)
    }

    /// The net of a file. An accepted file is, byte for byte, the one that [`Net::to_file`] makes of it.
    pub fn from_file(bytes: &[u8]) -> Result<Net, Refusal> {
        let (mut pins, mut macros) = (vec![0; PIN_NUMBERS * PINS], vec![0; 4 * MACROS]);
        let read = lent::read_file(bytes, &mut pins, &mut macros)?;
        let pins = pins[..PIN_NUMBERS * read.pins].chunks_exact(PIN_NUMBERS);
        let macros = macros[..4 * read.macros].chunks_exact(4);
        Ok(Net {
            pins: pins
                .map(|pin| Pin::new(pin[0], pin[1]).with_load(pin[2]))
                .collect(),
            macros: macros.map(|m| Macro::new(m[0], m[1], m[2], m[3])).collect(),
            weights: read.weights,
        })
    }

    /// A tree by one of the calls that give one, into so many numbers.
    fn tree(
        &self,
        call: impl FnOnce(lent::Lists, &mut [i32]) -> Result<lent::Tree, Refusal>,
        numbers: usize,
    ) -> Result<Tree, Refusal> {
        let mut numbers = vec![0; numbers];
        let given = call(self.flat().lists(), &mut numbers)?;
        Ok(Tree {
            edges: edges_of(&numbers[..4 * given.edges]),
            total: given.total,
            metal: given.metal,
        })
    }

    /// n = m + 4k.
    fn points(&self) -> usize {
        self.pins.len() + 4 * self.macros.len()
    }

    /// n + m: the most points that a refined tree has while it is made.
    fn tree_points(&self) -> usize {
        self.points() + self.pins.len()
    }

    fn flat(&self) -> Flat {
        let numbers = |pin: &Pin| [pin.place.x, pin.place.y, pin.load];
        let pins = self.pins.iter().flat_map(numbers);
        let sides = |m: &Macro| [m.left, m.bottom, m.right, m.top];
        Flat {
            pins: pins.collect(),
            macros: self.macros.iter().flat_map(sides).collect(),
            weights: self.weights,
        }
    }
}

fn place(x: i32, y: i32) -> Place {
    Place { x, y }
}

fn edges_of(numbers: &[i32]) -> Vec<Edge> {
    let edge = |numbers: &[i32]| Edge {
        first: place(numbers[0], numbers[1]),
        second: place(numbers[2], numbers[3]),
    };
    numbers.chunks_exact(4).map(edge).collect()
}
