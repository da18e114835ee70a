//! Mission demand 3 on the proved router's answers, by every terminal path of small nets, in cost.

use std::collections::BTreeSet;
use std::io::Write;

use harness::library;
use reference::edge::Edge;
use reference::exhaustive::{Every, Given};
use reference::generate::{net, weighted, Kind};
use reference::lists::Lists;
use reference::net::{check, Place};

/// The terminal tree as the proved router gives it.
fn given(lists: &Lists) -> Given {
    let (pins, macros, weights) = lists.parts();
    let mut numbers = vec![0; 5 * (pins.len() / 3)];
    let (count, total) =
        library::terminal_tree(pins, macros, weights, &mut numbers).expect("an allowed net");
    let place = |two: &[i64]| Place {
        x: two[0],
        y: two[1],
    };
    let of_path = |path: &[i64]| (Edge::new(place(&path[..2]), place(&path[2..4])), path[4]);
    Given {
        paths: numbers[..5 * count].chunks_exact(5).map(of_path).collect(),
        total,
    }
}

/// Every terminal path of a net.
fn every_path(lists: &Lists) -> Every {
    let (pins, macros, weights) = lists.parts();
    Every::of(&check(pins, macros, weights).expect("generated nets are allowed"))
}

/// A small net with weights 1 and 1, and for odd seeds with weights of all sorts.
fn small(seed: u64) -> Lists {
    match seed % 2 {
        0 => net(Kind::Small, seed),
        _ => weighted(Kind::Small, seed),
    }
}

#[test]
fn no_joining_and_no_chain_is_shorter() {
    let (mut paths, mut few) = (0, 0);
    for seed in 0..4_000 {
        let lists = small(seed);
        let every = every_path(&lists);
        let faults = every.faults(&given(&lists));
        assert_eq!(faults, BTreeSet::new(), "small {seed}");
        paths += every.paths().len();
        few += usize::from(every.is_few());
    }
    let said = format!("terminal trees of 4000 small nets beside {paths} terminal paths, in {few} nets beside every set of them");
    writeln!(std::io::stderr(), "{said}").unwrap();
    assert!(few >= 800);
}

/// The judge is awake: a total one too great is a longer joining, and one too small is no sum.
#[test]
fn a_wrong_total_is_found() {
    for seed in 0..200 {
        let lists = small(seed);
        let every = every_path(&lists);
        for change in [-1, 1] {
            let mut wrong = given(&lists);
            wrong.total += change;
            let faults = every.faults(&wrong).len();
            assert_eq!(faults, if change > 0 { 2 } else { 1 }, "small {seed}");
        }
    }
}
