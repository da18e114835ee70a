//! `climb OPERATION SECONDS [SEED [SIZE]]`: looks for nets that take long. From a net of walls, of cells or of a file it goes from change to
//! change, keeping each that makes the operation of the proved program take more processor time; the worst net is written to standard output
//! as text, and standard error says what it takes. Seeds give the same changes, but which are kept is up to the clock.

use std::process::ExitCode;
use std::time::{Duration, Instant};

use harness::measured::{net_of, run, OPERATIONS};
use harness::{clock, library};
use reference::lists::Lists;
use reference::net::Weights;
use reference::random::Random;
use reference::text;

const HELP: &str = "\
climb OPERATION SECONDS [SEED [SIZE]]: nets on which the operation takes long, changed a little at a time for so many seconds
SEED begins the changes, 1 if left out; SIZE is the number of pins and macros, 128 if left out";

/// Nets to begin with.
const STARTS: [&str; 5] = ["walls", "bars", "combs", "clusters", "family"];

fn is_allowed(lists: &Lists) -> bool {
    let (pins, macros, weights) = lists.parts();
    library::check(pins, macros, weights).is_ok()
}

/// What the operation takes, the less of two calls.
fn cost(operation: &str, lists: &Lists) -> Duration {
    clock::least(2, || {
        run(operation, true, lists);
    })
}

/// One of the numbers of an entry moved, by a little or a lot.
fn moved(random: &mut Random, list: &mut [i32], width: usize, numbers: usize) {
    let entries = list.len() / width;
    let at = width * random.below(entries) + random.below(numbers);
    let reach = random.choose(&[1, 3, 10, 100, 1_000, 10_000]);
    list[at] = (list[at] + random.between(-reach, reach)).clamp(-1_000_000, 1_000_000);
}

/// A few changes of a net; it need not be allowed any more.
fn changed(random: &mut Random, lists: &Lists) -> Lists {
    let mut next = lists.clone();
    for _ in 0..1 + random.below(6) {
        match random.below(12) {
            0..=4 => moved(random, &mut next.pins, 3, 2),
            5..=9 => moved(random, &mut next.macros, 4, 4),
            10 => {
                next.weights = Weights {
                    x: random.between(1, 8),
                    y: random.between(1, 8),
                }
            }
            // every length along one axis made larger or smaller
            _ => {
                let (axis, by) = (random.below(2), random.choose(&[1, 2, 3]));
                let wider = random.one_in(2);
                let scaled = |z: i32| {
                    if wider {
                        z.saturating_mul(by + 1).clamp(-1_000_000, 1_000_000)
                    } else {
                        z / (by + 1)
                    }
                };
                for pin in next.pins.chunks_mut(3) {
                    pin[axis] = scaled(pin[axis]);
                }
                for side in next.macros.chunks_mut(2) {
                    side[axis] = scaled(side[axis]);
                }
            }
        }
    }
    next
}

/// Climbs from one net until it has not gone up for a while or the time is over: the worst net and what it takes.
fn climbed(
    random: &mut Random,
    operation: &str,
    start: Lists,
    until: Instant,
) -> (Duration, Lists) {
    let mut worst = (cost(operation, &start), start);
    let mut idle = 0;
    while idle < 200 && Instant::now() < until {
        let next = changed(random, &worst.1);
        if !is_allowed(&next) {
            continue;
        }
        let takes = cost(operation, &next);
        idle += 1;
        if takes > worst.0 {
            worst = (takes, next);
            idle = 0;
        }
    }
    worst
}

fn climb(operation: &str, seconds: u64, seed: u64, size: usize) -> Result<(), String> {
    let until = Instant::now() + Duration::from_secs(seconds);
    let mut random = Random::new(seed);
    let mut worst = (Duration::ZERO, Lists::default());
    for start in STARTS.iter().cycle() {
        let found = climbed(&mut random, operation, net_of(start, size)?, until);
        eprintln!("from {start}: {:.4} s", found.0.as_secs_f64());
        if found.0 > worst.0 {
            worst = found;
        }
        if Instant::now() >= until {
            break;
        }
    }
    eprintln!("{operation}: {:.4} s at worst", worst.0.as_secs_f64());
    print!("{}", text::print(&worst.1));
    Ok(())
}

fn main() -> ExitCode {
    let words: Vec<String> = std::env::args().skip(1).collect();
    let number = |at: usize, otherwise: u64| {
        words
            .get(at)
            .map_or(Ok(otherwise), |word| word.parse::<u64>())
    };
    let (Some(operation), Ok(seconds), Ok(seed), Ok(size)) =
        (words.first(), number(1, 0), number(2, 1), number(3, 128))
    else {
        eprintln!("{HELP}");
        return ExitCode::from(2);
    };
    let is_known = OPERATIONS.contains(&operation.as_str());
    if !is_known || words.len() < 2 || words.len() > 4 || !(1..=128).contains(&size) {
        eprintln!("{HELP}");
        return ExitCode::from(2);
    }
    match climb(operation, seconds, seed, size as usize) {
        Ok(()) => ExitCode::SUCCESS,
        Err(said) => {
            eprintln!("climb: {said}");
            ExitCode::FAILURE
        }
    }
}
