//! The calls (C60 to C90): each operation with lent space as given. A refused call alters nothing
//! (C50), and a success nothing past its answer (C53); so every operation works its answer out
//! whole and only then writes it.

use crate::best;
use crate::bought;
use crate::delay::{self, Technology};
use crate::edge::Edge;
use crate::graph;
use crate::grid;
use crate::lists::Lists;
use crate::net::{self, Net, Place, Weights};
use crate::netfile;
use crate::price;
use crate::refined;
use crate::slide;
use crate::sweeps;
use crate::terminal;
use crate::wires;

/// "Check a net." 11 to 18.
pub fn check(pins: &[i32], macros: &[i32], weights: Weights) -> Result<(), u32> {
    net::check(pins, macros, weights).map(|_| ())
}

/// Graph (C61, C62). 11 to 18, then 21. How many vertices and edges.
pub fn graph(
    pins: &[i32],
    macros: &[i32],
    weights: Weights,
    vertices: &mut [i32],
    edges: &mut [i32],
) -> Result<(usize, usize), u32> {
    let net = net::check(pins, macros, weights)?;
    if vertices.len() < 2 * net.n() || edges.len() < 16 * net.n() {
        return Err(21);
    }
    let graph = graph::graph(&net);
    lay(vertices, graph.vertices.iter().flat_map(|&v| numbers(v)));
    lay(edges, graph.edges.iter().flat_map(|&e| edge_numbers(e)));
    Ok((graph.vertices.len(), graph.edges.len()))
}

/// Terminal tree (C63, C64). 11 to 18, then 21. How many paths, and the total; it and the lengths
/// are in cost.
pub fn terminal_tree(
    pins: &[i32],
    macros: &[i32],
    weights: Weights,
    paths: &mut [i64],
) -> Result<(usize, i64), u32> {
    let net = net::check(pins, macros, weights)?;
    if paths.len() < 5 * net.m() {
        return Err(21);
    }
    let terminal = terminal::terminal(&net);
    let of_path = |path: &terminal::Path| {
        let [a, b, c, d] = edge_numbers(path.bridge).map(i64::from);
        [a, b, c, d, path.cost]
    };
    lay(paths, terminal.paths.iter().flat_map(of_path));
    Ok((terminal.paths.len(), terminal.total))
}

/// Refined tree (C65, C66). 11 to 18, then 21. How many edges, the total in cost, and the metal to
/// lay.
pub fn refined_tree(
    pins: &[i32],
    macros: &[i32],
    weights: Weights,
    edges: &mut [i32],
) -> Result<(usize, i64, i64), u32> {
    let net = net::check(pins, macros, weights)?;
    if edges.len() < 4 * (net.n() + net.m()) {
        return Err(21);
    }
    let refined = refined::refined(&net);
    lay(edges, refined.edges.iter().flat_map(|&e| edge_numbers(e)));
    Ok((refined.edges.len(), refined.total, refined.metal))
}

/// Slid tree (C81, C82). 11 to 18, then 21. It says what the refined tree says, of its own edges.
pub fn slid_tree(
    pins: &[i32],
    macros: &[i32],
    weights: Weights,
    edges: &mut [i32],
) -> Result<(usize, i64, i64), u32> {
    let net = net::check(pins, macros, weights)?;
    if edges.len() < 8 * (net.n() + net.m()) {
        return Err(21);
    }
    let slid = slide::slid(&net);
    lay(edges, slid.edges.iter().flat_map(|&e| edge_numbers(e)));
    Ok((slid.edges.len(), slid.total, slid.metal))
}

/// "Pass or fail for bought-in trees." 11 to 18, then 33, 34 and 35. The cost and the metal.
pub fn check_tree(
    pins: &[i32],
    macros: &[i32],
    weights: Weights,
    edges: &[i32],
) -> Result<(i64, i64), u32> {
    let net = net::check(pins, macros, weights)?;
    let passed = bought::check(&net, edges)?;
    Ok((passed.cost, passed.metal))
}

/// Wires (C67, C68). 11 to 18, then 21. How many wires.
pub fn wires(
    pins: &[i32],
    macros: &[i32],
    weights: Weights,
    wires: &mut [i32],
) -> Result<usize, u32> {
    let net = net::check(pins, macros, weights)?;
    if wires.len() < 8 * (net.n() + net.m()) {
        return Err(21);
    }
    let answer = wires::wires(&refined::refined(&net).edges);
    let of_wire = |wire: &wires::Wire| [numbers(wire.start), numbers(wire.end)].concat();
    lay(wires, answer.iter().flat_map(of_wire));
    Ok(answer.len())
}

/// Distances on the grid (C77, C78). 11 to 18, then 36, then 21. How many numbers.
pub fn grid_distances(
    pins: &[i32],
    macros: &[i32],
    weights: Weights,
    table: &mut [i64],
) -> Result<usize, u32> {
    let net = net::check(pins, macros, weights)?;
    if net.m() > grid::PINS || net.k() > grid::MACROS {
        return Err(36);
    }
    if table.len() < net.m() * net.m() {
        return Err(21);
    }
    let distances = grid::distances(&net);
    let count = distances.len();
    lay(table, distances.into_iter());
    Ok(count)
}

/// "Delay to each pin": 11 to 18, then 21, "new numbers, after 21: 38", 39 and 40. How many delays. The driver may be any place.
pub fn delay(
    pins: &[i32],
    macros: &[i32],
    weights: Weights,
    driver: (i32, i32),
    technology: Technology,
    delays: &mut [f64],
) -> Result<usize, u32> {
    let net = net::check(pins, macros, weights)?;
    let refined = refined::refined(&net);
    let driver = Place {
        x: driver.0.into(),
        y: driver.1.into(),
    };
    let given = delay::of_net(&net, &refined.edges, driver, technology, delays.len())?;
    let count = given.len();
    lay(delays, given.into_iter());
    Ok(count)
}

/// Best tree (C87, C88). 11 to 18, then 41, then 21 for so many numbers of work and for edges. What
/// the tree costs; which of the cheapest is given is not fixed (L12).
pub fn best_cost(
    pins: &[i32],
    macros: &[i32],
    weights: Weights,
    work: usize,
    edges: usize,
) -> Result<i64, u32> {
    let net = net::check(pins, macros, weights)?;
    if net.m() > best::PINS || net.k() > best::MACROS {
        return Err(41);
    }
    if work < best::WORK || edges < best::edge_numbers(net.m(), net.k()) {
        return Err(21);
    }
    Ok(best::cost(&net))
}

/// The lower bound: 11 to 18, then 21 for too little work of either width (C89). "After a success
/// these are 0 and any after them as they were" (U8).
pub fn lower_bound(
    pins: &[i32],
    macros: &[i32],
    weights: Weights,
    left: &mut [u32],
    rows: &mut [u64],
) -> Result<u64, u32> {
    let net = net::check(pins, macros, weights)?;
    if left.len() < sweeps::LEFT || rows.len() < sweeps::ROWS {
        return Err(21);
    }
    let bound = sweeps::lower_bound(&net);
    left[..sweeps::LEFT].fill(0);
    rows[..sweeps::ROWS].fill(0);
    Ok(u64::try_from(bound).expect("a bound is not below zero"))
}

/// "Price on the job card": "bureaus charge by metal laid", never by cost; 31 and 32 "both after
/// the net's own", and 37 "between 31 and 32". The charge in hundredths.
pub fn price(pins: &[i32], macros: &[i32], weights: Weights, bands: &[u64]) -> Result<u64, u32> {
    let net = net::check(pins, macros, weights)?;
    let metal = u64::try_from(refined::refined(&net).metal).expect("metal is not below zero");
    price::price(metal, bands)
}

/// Write a net file (C69, C70). 11 to 18, then 21. How many bytes.
pub fn write_file(
    pins: &[i32],
    macros: &[i32],
    weights: Weights,
    bytes: &mut [u8],
) -> Result<usize, u32> {
    net::check(pins, macros, weights)?;
    let file = netfile::write(&Lists {
        pins: pins.to_vec(),
        macros: macros.to_vec(),
        weights,
    });
    if bytes.len() < file.len() {
        return Err(21);
    }
    let length = file.len();
    lay(bytes, file.into_iter());
    Ok(length)
}

/// Read a net file (C71, C72). 21 first, then 1, 2 and 3, then 11 to 17; never 18, since a file with
/// a wrong weight is 3. m, k and the weights.
pub fn read_file(
    bytes: &[u8],
    pins: &mut [i32],
    macros: &mut [i32],
) -> Result<(usize, usize, Weights), u32> {
    if pins.len() < Net::PIN_NUMBERS * Net::PINS || macros.len() < Net::MACRO_NUMBERS * Net::MACROS
    {
        return Err(21);
    }
    let lists = netfile::read(bytes)?;
    let net = net::check(&lists.pins, &lists.macros, lists.weights)?;
    lay(pins, lists.pins.into_iter());
    lay(macros, lists.macros.into_iter());
    Ok((net.m(), net.k(), net.weights()))
}

/// Writes an answer at the front of a lent space that is long enough for it.
fn lay<T>(lent: &mut [T], answer: impl Iterator<Item = T>) {
    for (position, number) in answer.enumerate() {
        lent[position] = number;
    }
}

/// A place of an allowed net, or between two of them, as two lent numbers.
fn numbers(place: Place) -> [i32; 2] {
    [place.x, place.y].map(|c| i32::try_from(c).expect("places are in range"))
}

/// "An edge as four numbers."
pub fn edge_numbers(edge: Edge) -> [i32; 4] {
    let ([a, b], [c, d]) = (numbers(edge.first()), numbers(edge.second()));
    [a, b, c, d]
}
