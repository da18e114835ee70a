//! The lower bound (rules U1 to U8): worked sweeps, what holds of every net, and how near to an
//! exact tree it comes.

mod common;

use std::collections::BTreeMap;

use reference::exact;
use reference::generate::{loaded, permuted, Shift};
use reference::grid::distances;
use reference::lists::{unloaded, Lists};
use reference::net::{check, Net, Weights};
use reference::operations;
use reference::slide::slid;
use reference::sweeps::{lower_bound, sweeps, LEFT, ROWS};

fn checked(lists: &Lists) -> Net {
    let (pins, macros, weights) = lists.parts();
    check(pins, macros, weights).expect("generated nets are allowed")
}

fn lists(places: &[i32], macros: &[i32], x: i32, y: i32) -> Lists {
    Lists {
        pins: unloaded(places),
        macros: macros.to_vec(),
        weights: Weights { x, y },
    }
}

/// The four sweeps of a net with weights 1 and 1 (by x, by y, and turned round), and what an exact
/// tree costs.
fn worked(places: &[i32], macros: &[i32]) -> ([i64; 4], i64) {
    let net = checked(&lists(places, macros, 1, 1));
    (sweeps(&net), exact::cost(&net))
}

/// One pin is not raised; two pins meet at their distance, round a macro or along weights. Of (0,
/// 0), (4, 0) and (2, 3) by x, the pin on the right is raised by 4. That takes what there is off
/// the way from (0, 0) over (2, 0) to it, and 2 off the way down from (2, 3), but nothing off the
/// way up, so that 3 are left for that pin: 7. With one number for both directions it would be 5.
#[test]
fn worked_sweeps() {
    assert_eq!(worked(&[5, 5], &[0, 0, 2, 2]), ([0; 4], 0));
    assert_eq!(worked(&[0, 5, 10, 5], &[2, 2, 8, 8]), ([16; 4], 16));
    let net = checked(&lists(&[2, -1, 2, 3], &[0, 0, 2, 2, 2, 0, 4, 2], 1, 8));
    assert_eq!(sweeps(&net), [32; 4]);
    assert_eq!(worked(&[0, 0, 4, 0, 2, 3], &[]), ([7; 4], 7));
    let net = checked(&lists(&[0, 0, 4, 0, 2, 3], &[], 2, 3));
    assert_eq!(sweeps(&net), [17; 4]);
}

/// The smallest nets found of which one sweep alone says what an exact tree costs, of which all
/// four differ, and of which all are below it.
#[test]
fn worked_orders() {
    let by_x = [4, 1, 1, 0, 4, 0, 2, 3, 0, 2];
    assert_eq!(worked(&by_x, &[]), ([9, 8, 8, 8], 9));
    let by_y = [4, 5, 0, 3, 2, 0, 5, 2];
    assert_eq!(worked(&by_y, &[]), ([10, 11, 10, 10], 11));
    let from_right = [4, 5, 6, 1, 2, 0, 0, 2];
    assert_eq!(worked(&from_right, &[]), ([11, 11, 12, 11], 12));
    let from_above = [3, 0, 2, 4, 4, 3, 1, 2, 1, 1];
    assert_eq!(worked(&from_above, &[]), ([8, 8, 8, 9], 9));
    let all_differ = [0, 6, 6, 0, 4, 0, 2, 3, 0, 1, 5, 1];
    assert_eq!(worked(&all_differ, &[]), ([15, 14, 13, 12], 15));
    assert_eq!(worked(&[2, 0, 3, 2, 1, 3, 0, 1], &[]), ([6; 4], 7));
    let below = worked(&[0, 0, 3, 1, 1, 3], &[1, 0, 2, 2]);
    assert_eq!(below, ([6; 4], 7));
}

/// Nets of all kinds: no slid tree costs less, which costs no more than the refined one. One pin
/// has 0, two their distance. No sweep is below the largest distance between two pins. The bound is
/// the same for lists in another order, with other loads, and on another site.
#[test]
fn what_holds_of_all_kinds() {
    let mut met = BTreeMap::new();
    for (number, (name, lists)) in common::nets(8).enumerate() {
        let seed = number as u64;
        let net = checked(&lists);
        let bound = lower_bound(&net);
        let slid = slid(&net).total;
        assert!(bound <= slid, "{name}");
        let there = Shift::of(&lists, &[], seed).lists(&loaded(&lists, seed));
        let same = lower_bound(&checked(&permuted(&there, !seed)));
        assert_eq!(same, bound, "{name}");
        let few = lists.first(1 + number % 16, 12);
        let farthest = |net: &Net| distances(net).into_iter().max().expect("a pin");
        let (two, few) = (checked(&lists.first(2, 12)), checked(&few));
        assert_eq!(sweeps(&two), [farthest(&two); 4], "{name}");
        let (numbers, least) = (sweeps(&few), farthest(&few));
        assert!(numbers.iter().all(|&number| number >= least), "{name}");
        let above = |number: &&i64| **number > least;
        for (event, is_met) in [
            ("slid trees that are proved best", bound == slid),
            ("slid trees above the bound", bound < slid),
            (
                "sweeps all above the largest distance",
                numbers.iter().filter(above).count() == 4,
            ),
            (
                "no sweep above the largest distance",
                numbers.iter().all(|n| !above(&n)),
            ),
            ("one pin", net.m() == 1),
            ("two pins apart", least > 0 && two.m() == 2),
        ] {
            *met.entry(event).or_insert(0) += usize::from(is_met);
        }
    }
    println!("{met:#?}");
    assert!(met.values().all(|&times| times >= 8), "{met:?}");
}

/// Up to ten pins: no bound is above what an exact tree costs, most are just that, and each of the
/// four sweeps is now and then the only one.
#[test]
fn never_above_exact_trees() {
    let (mut nets, mut equal, mut below, mut alone) = (0, 0, 0, [0; 4]);
    for (number, (name, lists)) in common::nets(24).enumerate() {
        let net = checked(&lists.first(3 + number % 8, number / 8 % 7));
        let (numbers, exact) = (sweeps(&net), exact::cost(&net));
        let bound = lower_bound(&net);
        assert!(bound <= exact, "{name}");
        let all = numbers.iter().filter(|&&number| number == bound).count();
        for (alone, number) in alone.iter_mut().zip(numbers) {
            *alone += usize::from(all == 1 && number == bound);
        }
        nets += 1;
        equal += usize::from(bound == exact);
        below += usize::from(bound < exact);
    }
    println!("{nets} nets, {equal} bounds equal, {below} below, one sweep alone {alone:?}");
    assert!(
        10 * equal >= 8 * nets && below >= 5,
        "{equal} of {nets}, {below}"
    );
    assert!(alone.iter().all(|&times| times >= 3), "{alone:?}");
}

/// Work of either width one short is 21 and stays; else the numbers asked for are 0 and those
/// behind them stay.
#[test]
fn work_lent() {
    let [net, held] = [&[5, 5][..], &[1, 1]].map(|places| lists(places, &[0, 0, 2, 2], 1, 1));
    for (lists, left, rows, expected) in [
        (&net, LEFT, ROWS, Ok(0)),
        (&net, LEFT + 9, ROWS + 9, Ok(0)),
        (&net, LEFT - 1, ROWS, Err(21)),
        (&net, LEFT, ROWS - 1, Err(21)),
        (&held, LEFT, ROWS, Err(17)),
        (&held, 0, 0, Err(17)),
    ] {
        let (mut left, mut rows) = (vec![7; left], vec![7; rows]);
        let (pins, macros, weights) = lists.parts();
        let bound = operations::lower_bound(pins, macros, weights, &mut left, &mut rows);
        assert_eq!(bound, expected);
        let cleared = if bound.is_ok() { [LEFT, ROWS] } else { [0; 2] };
        let stays = |at: usize, cleared: usize| if at < cleared { 0 } else { 7 };
        let mut narrow = left.iter().enumerate();
        assert!(narrow.all(|(at, &number)| number == stays(at, cleared[0])));
        let mut wide = rows.iter().enumerate();
        assert!(wide.all(|(at, &number)| number == stays(at, cleared[1]) as u64));
    }
}
