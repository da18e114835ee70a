//! The crate `calzundi` as the second program is called: two lists and weights, lent space, and a refusal as its number. The crate looks
//! at it that a refusal leaves counts, totals, the metal, the charge and the weights of a read as they were.

pub use calzundi::lent::bare::*;
use calzundi::lent::{self, Lists};
use calzundi::Refusal;
use reference::delay::Technology;
use reference::net::Weights;

/// The number that document 01 has for a refusal.
fn number(refusal: Refusal) -> u32 {
    refusal.number().unsigned_abs()
}

fn lists<'a>(pins: &'a [i32], macros: &'a [i32], weights: Weights) -> Lists<'a> {
    let Weights { x, y } = weights;
    Lists {
        pins,
        macros,
        weights: calzundi::Weights { x, y },
    }
}

/// "Check a net."
pub fn check(pins: &[i32], macros: &[i32], weights: Weights) -> Result<(), u32> {
    lent::check(lists(pins, macros, weights)).map_err(number)
}

/// "Graph": how many vertices and edges were given.
pub fn graph(
    pins: &[i32],
    macros: &[i32],
    weights: Weights,
    vertices: &mut [i32],
    edges: &mut [i32],
) -> Result<(usize, usize), u32> {
    lent::graph(lists(pins, macros, weights), vertices, edges).map_err(number)
}

/// "Terminal tree": how many paths were given, and their total.
pub fn terminal_tree(
    pins: &[i32],
    macros: &[i32],
    weights: Weights,
    paths: &mut [i64],
) -> Result<(usize, i64), u32> {
    lent::terminal_tree(lists(pins, macros, weights), paths).map_err(number)
}

fn given(tree: Result<lent::Tree, Refusal>) -> Result<(usize, i64, i64), u32> {
    let lent::Tree {
        edges,
        total,
        metal,
    } = tree.map_err(number)?;
    Ok((edges, total, metal))
}

/// "Refined tree": how many edges were given, their total, and the metal to lay.
pub fn refined_tree(
    pins: &[i32],
    macros: &[i32],
    weights: Weights,
    edges: &mut [i32],
) -> Result<(usize, i64, i64), u32> {
    given(lent::refined_tree(lists(pins, macros, weights), edges))
}

/// "Sliding bars": the same of the slid tree.
pub fn slid_tree(
    pins: &[i32],
    macros: &[i32],
    weights: Weights,
    edges: &mut [i32],
) -> Result<(usize, i64, i64), u32> {
    given(lent::slid_tree(lists(pins, macros, weights), edges))
}

/// "Best tree for five pins": the same of a best tree.
pub fn best_tree(
    pins: &[i32],
    macros: &[i32],
    weights: Weights,
    work: &mut [u32],
    edges: &mut [i32],
) -> Result<(usize, i64, i64), u32> {
    given(lent::best_tree(lists(pins, macros, weights), work, edges))
}

/// The lower bound (U5): a number that no metal undercuts.
pub fn lower_bound(
    pins: &[i32],
    macros: &[i32],
    weights: Weights,
    left: &mut [u32],
    rows: &mut [u64],
) -> Result<u64, u32> {
    lent::lower_bound(lists(pins, macros, weights), left, rows).map_err(number)
}

/// "Pass or fail for bought-in trees": the cost and the metal.
pub fn check_tree(
    pins: &[i32],
    macros: &[i32],
    weights: Weights,
    edges: &[i32],
) -> Result<(i64, i64), u32> {
    lent::check_tree(lists(pins, macros, weights), edges).map_err(number)
}

/// "Wires": how many were given.
pub fn wires(
    pins: &[i32],
    macros: &[i32],
    weights: Weights,
    wires: &mut [i32],
) -> Result<usize, u32> {
    lent::wires(lists(pins, macros, weights), wires).map_err(number)
}

/// "True distance on the grid": how many numbers were given.
pub fn grid_distances(
    pins: &[i32],
    macros: &[i32],
    weights: Weights,
    table: &mut [i64],
) -> Result<usize, u32> {
    lent::grid_distances(lists(pins, macros, weights), table).map_err(number)
}

/// "Delay to each pin": how many delays were given.
pub fn delay(
    pins: &[i32],
    macros: &[i32],
    weights: Weights,
    driver: (i32, i32),
    technology: Technology,
    delays: &mut [f64],
) -> Result<usize, u32> {
    let (x, y) = driver;
    let Technology {
        resistance,
        capacitance,
    } = technology;
    let technology = calzundi::Technology {
        resistance,
        capacitance,
    };
    let driver = calzundi::Place { x, y };
    lent::delay(lists(pins, macros, weights), driver, technology, delays).map_err(number)
}

/// "Price on the job card": the charge, in hundredths of the currency.
pub fn price(pins: &[i32], macros: &[i32], weights: Weights, bands: &[u64]) -> Result<u64, u32> {
    lent::price(lists(pins, macros, weights), bands).map_err(number)
}

/// "Write a net file": how many bytes were given.
pub fn write_file(
    pins: &[i32],
    macros: &[i32],
    weights: Weights,
    bytes: &mut [u8],
) -> Result<usize, u32> {
    lent::write_file(lists(pins, macros, weights), bytes).map_err(number)
}

/// "Read a net file": m and k, and the weights.
pub fn read_file(
    bytes: &[u8],
    pins: &mut [i32],
    macros: &mut [i32],
) -> Result<(usize, usize, Weights), u32> {
    let read = lent::read_file(bytes, pins, macros).map_err(number)?;
    let calzundi::Weights { x, y } = read.weights;
    Ok((read.pins, read.macros, Weights { x, y }))
}
