//! `match SECONDS [SEED]`: matches the proved router with the second program for a while, and stops at the first difference.

use std::process::ExitCode;
use std::time::{Duration, Instant};

use harness::matching::{any, file, on_grid, routed, Matched};
use reference::generate::{bought, Bought, Ours};
use reference::net::check;

const HELP: &str = "match SECONDS [SEED]: matches the proved router with the second program on random lists for some seconds, from a seed on (0).
It prints how many were matched, or the first difference with its seed and its net.";

/// Lists of edges of every kind, for an allowed net.
fn trees(seed: u64) -> Matched {
    let case = routed(seed);
    let (pins, macros, weights) = case.lists.parts();
    let net = check(pins, macros, weights).expect("routed nets are allowed");
    let ours = Ours::of(&net);
    for &kind in Bought::ALL {
        if let Some(list) = bought(kind, seed, &ours) {
            case.check_tree(kind.name(), &list).map(|_| ())?;
        }
    }
    Ok(())
}

/// Every operation on the input of one seed.
fn all(seed: u64) -> Matched {
    let case = any(seed);
    case.check()?;
    case.graph()?;
    case.write_file()?;
    case.read_back()?;
    file(seed).read_file()?;
    on_grid(seed).grid_distances()?;
    trees(seed)?;
    for case in [case, routed(seed)] {
        case.terminal_tree()?;
        case.refined_tree()?;
        case.slid_tree()?;
        case.wires()?;
        case.price().map(|_| ())?;
        case.delay().map(|_| ())?;
        case.lower_bound().map(|_| ())?;
    }
    Ok(())
}

fn main() -> ExitCode {
    let words: Vec<String> = std::env::args().skip(1).collect();
    let numbers: Option<Vec<u64>> = words.iter().map(|word| word.parse().ok()).collect();
    let (seconds, first) = match numbers.as_deref() {
        Some(&[seconds]) => (seconds, 0),
        Some(&[seconds, first]) => (seconds, first),
        _ => {
            eprintln!("{HELP}");
            return ExitCode::from(2);
        }
    };
    let start = Instant::now();
    let mut said = start;
    let mut seed = first;
    while start.elapsed() < Duration::from_secs(seconds) {
        if let Err(difference) = all(seed) {
            println!("{difference}");
            return ExitCode::from(1);
        }
        seed = seed.wrapping_add(1);
        if said.elapsed() > Duration::from_secs(10) {
            said = Instant::now();
            eprintln!(
                "{} s: {} matched",
                start.elapsed().as_secs(),
                seed.wrapping_sub(first)
            );
        }
    }
    println!("{} matched, from seed {first} on", seed.wrapping_sub(first));
    ExitCode::SUCCESS
}
