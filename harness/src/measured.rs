//! Operations by name on nets of a kind and size, to be measured: instructions from outside, or processor time.

use reference::best;
use reference::delay::Technology;
use reference::generate::{half, net, Kind};
use reference::lists::Lists;
use reference::net::{Net, Weights};
use reference::{operations, sweeps, text};

use crate::library;

/// The kinds that `sized` takes.
pub const KINDS: [&str; 6] = ["random", "family", "bars", "combs", "clusters", "walls"];

/// A net to be measured: of a kind, SIZE pins and SIZE macros, or the net in a file of text, which the name of the kind then is.
pub fn net_of(kind: &str, size: usize) -> Result<Lists, String> {
    if !kind.ends_with(".txt") {
        return sized(kind, size).ok_or_else(|| format!("there is no kind {kind}"));
    }
    let bytes = std::fs::read(kind).map_err(|error| format!("{kind}: {error}"))?;
    text::parse_bytes(&bytes).map_err(|line| format!("{kind}: {line}"))
}

/// SIZE pins and SIZE macros of a kind, with weights 1 and 1 but for walls. Random ones are the first of a largest net, still allowed, since
/// taking entries away breaks no rule; up to 64 of the net that was the largest once, so that counts can be held to those of earlier
/// landings. A family's are the first of one net at every size, so that growth is that of one net.
fn sized(kind: &str, size: usize) -> Option<Lists> {
    let first = |lists: Lists| {
        (
            lists.pins[..3 * size].to_vec(),
            lists.macros[..4 * size].to_vec(),
        )
    };
    let (pins, macros) = match kind {
        "random" if size <= 64 => first(half(1)),
        "random" | "family" => first(net(Kind::Largest, 1)),
        "bars" => bars(size as i32),
        "combs" => combs(size as i32),
        "clusters" => clusters(size),
        "walls" => walls(size as i32),
        _ => return None,
    };
    let weights = if kind == "walls" {
        Weights { x: 7, y: 1 }
    } else {
        Weights::ONE
    };
    Some(Lists {
        pins,
        macros,
        weights,
    })
}

/// Long level bars one above the other, their ends staggered, with a pin in each channel.
fn bars(size: i32) -> (Vec<i32>, Vec<i32>) {
    let stagger = |i: i32| i * 37 % 101;
    let macros = |i: i32| [stagger(i), 10 * i, 1_000 + stagger(i + 7), 10 * i + 6];
    let pins = |i: i32| [i * 389 % 1_000, 10 * i + 8, 0];
    (
        (0..size).flat_map(pins).collect(),
        (0..size).flat_map(macros).collect(),
    )
}

/// Tall teeth side by side, with a pin high or low in each gap.
fn combs(size: i32) -> (Vec<i32>, Vec<i32>) {
    let macros = |i: i32| [10 * i, 0, 10 * i + 6, 1_000 + i * 53 % 89];
    let pins = |i: i32| [10 * i + 8, i * 389 % 1_000, 0];
    (
        (0..size).flat_map(pins).collect(),
        (0..size).flat_map(macros).collect(),
    )
}

/// Level walls, far longer than the stack of them is high, every other one moved to a side, with a pin about the middle of each channel.
fn walls(size: i32) -> (Vec<i32>, Vec<i32>) {
    let moved = |i: i32| (i % 2) * 14_000 + i * 1_819 % 8_000;
    let macros = |i: i32| [moved(i) - 18_000, 30 * i, moved(i) + 30_000, 30 * i + 18];
    let pins = |i: i32| [15_000 + i * 389 % 300, 30 * i + 24, 0];
    (
        (0..size).flat_map(pins).collect(),
        (0..size).flat_map(macros).collect(),
    )
}

/// Two halves of a net of small cells, far apart.
fn clusters(size: usize) -> (Vec<i32>, Vec<i32>) {
    let Lists { pins, macros, .. } = sized("random", size).expect("random is a kind");
    let apart = |list: Vec<i32>, width: usize| {
        let near = list.len() / 2 / width * width;
        let moved = |(i, z): (usize, i32)| {
            let x = i % width == 0 || i % width == 2 && width == 4;
            if i < near && x {
                z - 150_000
            } else {
                z
            }
        };
        list.into_iter().enumerate().map(moved).collect()
    };
    (apart(pins, 3), apart(macros, 4))
}

/// The operations that `run` takes. Of a net too large for distances or best trees its first entries are taken; `check_tree` makes the
/// refined tree and checks it; the refused ones are calls that are wrong in what goes with the net.
pub const OPERATIONS: [&str; 12] = [
    "graph",
    "terminal",
    "refined",
    "slid",
    "delay",
    "check_tree",
    "distances",
    "best",
    "bound",
    "delay-refused",
    "price-refused",
    "nothing",
];

/// Runs an operation of the proved program, or of the second one, once: how many entries it gave, or none where there is no such operation.
pub fn run(operation: &str, is_proved: bool, lists: &Lists) -> Option<u64> {
    let (pins, macros, weights) = lists.parts();
    let (m, n) = (pins.len() / 3, pins.len() / 3 + macros.len());
    let technology = |resistance| Technology {
        resistance,
        capacitance: 0.0002,
    };
    let driver = (pins[0], pins[1]);
    let entries = match operation {
        "graph" => {
            let (mut vertices, mut edges) = (vec![0; 2 * n], vec![0; 16 * n]);
            let graph = if is_proved {
                library::graph
            } else {
                operations::graph
            };
            graph(pins, macros, weights, &mut vertices, &mut edges).map(|(v, e)| v + e)
        }
        "terminal" => {
            let tree = if is_proved {
                library::terminal_tree
            } else {
                operations::terminal_tree
            };
            tree(pins, macros, weights, &mut vec![0; 5 * m]).map(|(paths, _)| paths)
        }
        "refined" => refined(is_proved, lists).map(|edges| edges.len() / 4),
        "slid" => {
            let tree = if is_proved {
                library::slid_tree
            } else {
                operations::slid_tree
            };
            tree(pins, macros, weights, &mut vec![0; 8 * (n + m)]).map(|(edges, ..)| edges)
        }
        "check_tree" => refined(is_proved, lists).and_then(|edges| {
            let check = if is_proved {
                library::check_tree
            } else {
                operations::check_tree
            };
            check(pins, macros, weights, &edges).map(|_| 1)
        }),
        "delay" | "delay-refused" => {
            let delay = if is_proved {
                library::delay
            } else {
                operations::delay
            };
            let technology = technology(if operation == "delay" { 0.03 } else { 0.0 });
            let given = delay(pins, macros, weights, driver, technology, &mut vec![0.0; m]);
            if operation == "delay" {
                given
            } else {
                refused(given, 38)
            }
        }
        "price-refused" => {
            let price = if is_proved {
                library::price
            } else {
                operations::price
            };
            refused(price(pins, macros, weights, &[]), 31)
        }
        "distances" => {
            let (pins, macros) = (&pins[..pins.len().min(48)], &macros[..macros.len().min(64)]);
            let distances = if is_proved {
                library::grid_distances
            } else {
                operations::grid_distances
            };
            distances(pins, macros, weights, &mut vec![0; m * m])
        }
        "best" => best(is_proved, lists),
        "bound" => {
            let bound = if is_proved {
                library::lower_bound
            } else {
                operations::lower_bound
            };
            let (mut left, mut rows) = (vec![0; sweeps::LEFT], vec![0; sweeps::ROWS]);
            bound(pins, macros, weights, &mut left, &mut rows).map(|_| 1)
        }
        "nothing" => Ok(0),
        _ => return None,
    };
    Some(entries.expect("the net is allowed and of a size that the operation takes, and the space is what is asked for") as u64)
}

/// A call that must be refused with this number.
fn refused<T: std::fmt::Debug>(given: Result<T, u32>, number: u32) -> Result<usize, u32> {
    assert_eq!(given.expect_err("the call is wrong"), number);
    Ok(1)
}

/// The numbers of the refined tree's edges.
fn refined(is_proved: bool, lists: &Lists) -> Result<Vec<i32>, u32> {
    let (pins, macros, weights) = lists.parts();
    let (m, n) = (pins.len() / 3, pins.len() / 3 + macros.len());
    let tree = if is_proved {
        library::refined_tree
    } else {
        operations::refined_tree
    };
    let mut numbers = vec![0; 4 * (n + m)];
    let (edges, ..) = tree(pins, macros, weights, &mut numbers)?;
    numbers.truncate(4 * edges);
    Ok(numbers)
}

/// A best tree of the net's first five pins and sixteen macros.
fn best(is_proved: bool, lists: &Lists) -> Result<usize, u32> {
    let (pins, macros, weights) = lists.parts();
    let pins = &pins[..pins.len().min(Net::PIN_NUMBERS * best::PINS)];
    let macros = &macros[..macros.len().min(64)];
    let numbers = best::edge_numbers(
        pins.len() / Net::PIN_NUMBERS,
        macros.len() / Net::MACRO_NUMBERS,
    );
    if is_proved {
        let (mut work, mut edges) = (vec![0; best::WORK], vec![0; numbers]);
        library::best_tree(pins, macros, weights, &mut work, &mut edges).map(|(edges, ..)| edges)
    } else {
        operations::best_cost(pins, macros, weights, best::WORK, numbers)
            .map(|cost| usize::from(cost > 0))
    }
}
