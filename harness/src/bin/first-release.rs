//! `first-release OUT`: chooses inputs of every kind and writes what the library and the program answer. harness/first-release/outputs.txt
//! was made by it, once; it writes over no file.

use std::fs::{self, File};
use std::io::{self, Write};
use std::path::Path;
use std::process::ExitCode;

use harness::outputs::{Case, Input};
use reference::generate::{damaged, hostile, net, permuted, Damage, Hostile, Kind};
use reference::lists::{unloaded, Lists};
use reference::text;

const HELP: &str = "first-release OUT: writes the records of 2,000 nets and of some damaged files, with what the library and the program answer
now, to a file that is not there yet.";

const HEAD: &str = "# The outputs of the first release. README.md beside this file says what stands in each line.\n";

/// How many nets there are of each kind: few of the largest, and most where ties and rounds abound.
const ALLOWED: [(Kind, usize); 23] = [
    (Kind::Small, 210),
    (Kind::TinyFour, 150),
    (Kind::TinyEight, 160),
    (Kind::SideBySide, 80),
    (Kind::CornerToCorner, 80),
    (Kind::PinsOnSides, 80),
    (Kind::PinsOnCorners, 80),
    (Kind::OnePin, 80),
    (Kind::NoMacros, 60),
    (Kind::Collinear, 80),
    (Kind::Comb, 80),
    (Kind::Maze, 50),
    (Kind::GridOne, 40),
    (Kind::GridTouching, 60),
    (Kind::Far, 40),
    (Kind::Wide, 40),
    (Kind::Rounds, 80),
    (Kind::Pruned, 70),
    (Kind::Dropped, 80),
    (Kind::DroppedWins, 80),
    (Kind::BoundEnds, 40),
    (Kind::Largest, 10),
    (Kind::LargestMaze, 10),
];

/// Of each kind that is refused, and of each kind of damaged file.
const REFUSED: usize = 16;
const DAMAGED: usize = 6;

/// How many kinds of lists to be refused and of damaged files there were then; kinds that came later stand behind them.
const HOSTILE_THEN: usize = 15;
const DAMAGE_THEN: usize = 16;

/// A record with more bytes has digests of the graph and the wires, if there are any.
const LONGEST_FULL: usize = 5_000;

/// A damaged file whose title and bytes take more text than this is passed over.
const LONGEST_FILE_TEXT: usize = 3_000;

/// The nets chosen so far; none stands there twice.
#[derive(Default)]
struct Chosen {
    cases: Vec<Case>,
}

impl Chosen {
    /// Adds a net, or says that it is there already.
    fn add(&mut self, kind: &str, name: String, lists: Lists) -> bool {
        let lists = Lists {
            pins: places(&lists.pins),
            ..lists
        };
        let input = Input::Net { lists, full: true };
        if self.cases.iter().any(|case| case.input == input) {
            return false;
        }
        self.cases.push(Case {
            number: self.cases.len() + 1,
            kind: kind.to_string(),
            name,
            input,
        });
        true
    }

    /// So many nets of a kind, of the seeds from 0 on.
    fn seeded(&mut self, kind: &str, count: usize, of: impl Fn(u64) -> Lists) {
        let mut seeds = 0..;
        for _ in 0..count {
            seeds
                .find(|&seed| self.add(kind, seed.to_string(), of(seed)))
                .expect("seeds do not end");
        }
    }
}

/// The places of pins, which a record has without their loads; numbers left over stay.
fn places(pins: &[i32]) -> Vec<i32> {
    let place = |pin: &[i32]| pin[..pin.len().min(2)].to_vec();
    pins.chunks(3).flat_map(place).collect()
}

/// The nets of examples/nets, by name.
fn examples() -> io::Result<Vec<(String, Lists)>> {
    let folder = Path::new(env!("CARGO_MANIFEST_DIR")).join("../examples/nets");
    let mut nets = Vec::new();
    for entry in fs::read_dir(folder)? {
        let path = entry?.path();
        let name = path.file_stem().unwrap_or_default().to_string_lossy();
        let lists = text::parse_bytes(&fs::read(&path)?).map_err(|bad| {
            let wrong = format!("{}: {bad}", path.display());
            io::Error::new(io::ErrorKind::InvalidData, wrong)
        })?;
        nets.push((name.into_owned(), lists));
    }
    nets.sort_by(|one, other| one.0.cmp(&other.0));
    Ok(nets)
}

/// Nets at the bounds of what is allowed, and one past each.
fn at_the_bounds() -> [(&'static str, Lists); 8] {
    let end = 1_000_000;
    let row_of_pins = |count: i32| (0..count).flat_map(|i| [i, 0]).collect::<Vec<i32>>();
    let row = |count: i32| (0..count).flat_map(|i| [i, 0, i + 1, 1]).collect();
    let apart = (0..64).flat_map(|i| [3 + 6 * i, 0, 6 + 6 * i, 2]).collect();
    let lists = |pins: &[i32], macros: Vec<i32>| Lists {
        pins: unloaded(pins),
        macros,
        ..Lists::default()
    };
    [
        ("both-ends", lists(&[-end, -end, end, end], vec![])),
        ("past-the-end", lists(&[-end, -end, end, end + 1], vec![])),
        (
            "whole-die",
            lists(&[-end, end, end, -end], vec![-end, -end, end, end]),
        ),
        ("64-pins", lists(&row_of_pins(64), vec![])),
        ("65-pins", lists(&row_of_pins(65), vec![])),
        ("64-macros", lists(&[0, 0, 64, 1], row(64))),
        ("65-macros", lists(&[0, 0, 64, 1], row(65))),
        ("long-ways", lists(&[0, 1, 400, 1], apart)),
    ]
}

/// 2,000 nets. The lists of every other seed are in another order, which changes no answer but the file's.
fn nets() -> io::Result<Vec<Case>> {
    let mut chosen = Chosen::default();
    for (name, lists) in examples()? {
        chosen.add("example", name, lists);
    }
    for (name, lists) in at_the_bounds() {
        chosen.add("bounds", name.to_string(), lists);
    }
    for (kind, count) in ALLOWED {
        chosen.seeded(kind.name(), count, |seed| match seed % 2 {
            0 => net(kind, seed),
            _ => permuted(&net(kind, seed), seed),
        });
    }
    for &kind in &Hostile::ALL[..HOSTILE_THEN] {
        chosen.seeded(kind.name(), REFUSED, |seed| hostile(kind, seed));
    }
    Ok(chosen.cases)
}

/// Damaged files of every kind that are short as text, none of them twice.
fn files() -> Vec<Case> {
    let mut cases: Vec<Case> = Vec::new();
    for &kind in &Damage::ALL[..DAMAGE_THEN] {
        let mut left = DAMAGED;
        for seed in 0..1_000 {
            let case = Case {
                number: cases.len() + 1,
                kind: kind.name().to_string(),
                name: seed.to_string(),
                input: Input::File {
                    bytes: damaged(kind, seed),
                },
            };
            let is_new = cases.iter().all(|other| other.input != case.input);
            if left > 0 && is_new && case.head().len() <= LONGEST_FILE_TEXT {
                cases.push(case);
                left -= 1;
            }
        }
    }
    cases
}

/// The record of a net, in full or with digests.
fn record(mut case: Case) -> String {
    let whole = case.record();
    if let Input::Net { full, .. } = &mut case.input {
        *full = false;
    }
    let digests = case.record();
    if whole.len() <= LONGEST_FULL || whole.len() < digests.len() {
        return whole;
    }
    digests
}

/// Writes all records.
fn write(out: &str) -> io::Result<()> {
    let mut file = File::create_new(out)?;
    let mut text = HEAD.to_string();
    for case in nets()?.into_iter().chain(files()) {
        text += "\n";
        text += &record(case);
    }
    file.write_all(text.as_bytes())
}

fn main() -> ExitCode {
    let words: Vec<String> = std::env::args().skip(1).collect();
    let [out] = &words[..] else {
        eprintln!("{HELP}");
        return ExitCode::from(2);
    };
    match write(out) {
        Ok(()) => ExitCode::SUCCESS,
        Err(error) => {
            eprintln!("{out}: {error}");
            ExitCode::from(1)
        }
    }
}
