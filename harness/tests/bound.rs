//! What the lower bound is lent, which calls of it are refused, and worked bounds. That it is the second program's, one number for every order
//! of the lists, whatever the loads and on every site, and above the cost of no tree, is matched in sweeps.rs.

use harness::counted::Counted;
use harness::library;
use harness::matching::refused;
use reference::generate::{net, weighted, Kind};
use reference::lists::{unloaded, Lists};
use reference::net::{Net, Weights};
use reference::random::Random;
use reference::sweeps::{LEFT, ROWS};
use reference::{operations, text};

/// How many numbers stand behind what is lent, and must stay.
const GUARD: usize = 9;

/// Both lists of work, in the middle of numbers that nobody may touch.
#[derive(Clone, PartialEq)]
struct Work {
    left: Vec<u32>,
    rows: Vec<u64>,
}

impl Work {
    /// So many numbers of each, all of them random.
    fn random(left: usize, rows: usize, seed: u64) -> Work {
        let random = &mut Random::new(seed);
        Work {
            left: (0..left + 2 * GUARD)
                .map(|_| random.bits() as u32)
                .collect(),
            rows: (0..rows + 2 * GUARD).map(|_| random.bits()).collect(),
        }
    }

    /// The same once the first so many numbers within are cleared.
    fn cleared(&self) -> Work {
        let mut cleared = self.clone();
        cleared.left[GUARD..GUARD + LEFT].fill(0);
        cleared.rows[GUARD..GUARD + ROWS].fill(0);
        cleared
    }

    /// The call with what is within.
    fn call(&mut self, lists: &Lists) -> Result<u64, u32> {
        let (pins, macros, weights) = lists.parts();
        let (left, rows) = (self.left.len() - GUARD, self.rows.len() - GUARD);
        let (left, rows) = (&mut self.left[GUARD..left], &mut self.rows[GUARD..rows]);
        library::lower_bound(pins, macros, weights, left, rows)
    }
}

/// What is answered with so much work, which is then cleared, or after a refusal as it was; nothing beside it is touched.
fn bound_with(lists: &Lists, left: usize, rows: usize, seed: u64) -> Result<u64, u32> {
    let before = Work::random(left, rows, seed);
    let mut work = before.clone();
    let said = work.call(lists);
    let expected = match said {
        Ok(_) => before.cleared(),
        Err(_) => before,
    };
    assert!(work == expected, "{left} {rows}\n{}", text::print(lists));
    said
}

/// The bound of an allowed net.
fn bound(lists: &Lists) -> i64 {
    let (pins, macros, weights) = lists.parts();
    let (mut left, mut rows) = (vec![7; LEFT], vec![7; ROWS]);
    let bound = library::lower_bound(pins, macros, weights, &mut left, &mut rows);
    bound.expect("the net is allowed") as i64
}

fn lists(pins: &[i32], macros: &[i32], (x, y): (i32, i32)) -> Lists {
    Lists {
        pins: unloaded(pins),
        macros: macros.to_vec(),
        weights: Weights { x, y },
    }
}

/// One pin, two pins round a macro by both axes, three pins, the weighed net, a cross whose Steiner point no pin is at.
#[test]
fn worked_bounds() {
    for (lists, expected) in [
        (lists(&[5, 5], &[], (1, 1)), 0),
        (lists(&[5, 5], &[0, 0, 2, 2], (8, 8)), 0),
        (lists(&[0, 0, 10, 0], &[4, -2, 6, 3], (1, 1)), 14),
        (lists(&[0, 0, 10, 0], &[4, -2, 6, 3], (2, 3)), 32),
        (lists(&[0, 5, 10, 5], &[2, 2, 8, 8], (1, 1)), 16),
        (lists(&[0, 0, 4, 0, 2, 3], &[], (1, 1)), 7),
        (lists(&[2, -1, 2, 3], &[0, 0, 2, 2, 2, 0, 4, 2], (1, 1)), 4),
        (lists(&[0, 1, 1, 1], &[0, 0, 1, 2], (1, 1)), 3),
        (
            lists(&[-1_000_000, -1_000_000, 1_000_000, 1_000_000], &[], (8, 7)),
            30_000_000,
        ),
    ] {
        assert_eq!(bound(&lists), expected, "{}", text::print(&lists));
    }
}

/// Every length of either list of work from none to more than is asked for, with all lengths of the other that matter.
#[test]
fn every_lent_length() {
    let net = lists(&[0, 0, 10, 0, 3, 9], &[4, -2, 6, 3], (1, 2));
    let expected = bound(&net) as u64;
    let lengths = |asked: usize| {
        let step = asked / 4;
        [
            0,
            1,
            step,
            3 * step,
            asked - 1,
            asked,
            asked + 1,
            asked + step,
        ]
    };
    let mut given = 0;
    for (seed, left) in (0..).zip(lengths(LEFT)) {
        for rows in lengths(ROWS) {
            let answer = match left >= LEFT && rows >= ROWS {
                true => Ok(expected),
                false => Err(21),
            };
            assert_eq!(bound_with(&net, left, rows, seed), answer, "{left} {rows}");
            given += usize::from(answer.is_ok());
        }
    }
    assert_eq!(given, 9);
}

/// 11 to 18 before 21, by the numbers of the check, and nothing lent is altered.
#[test]
fn hostile_lists() {
    let mut met = Counted::new("lower bounds of hostile lists");
    for seed in 0..200 {
        let lists = refused(seed).lists;
        let (pins, macros, weights) = lists.parts();
        let number = operations::check(pins, macros, weights).expect_err("it is hostile");
        let enough = if seed % 8 == 0 {
            (LEFT, ROWS)
        } else {
            (40, 30)
        };
        for (left, rows) in [enough, (0, 0), (40, 0), (0, 40)] {
            assert_eq!(bound_with(&lists, left, rows, seed), Err(number));
        }
        met.add(&format!("refusals {number}"), 1);
    }
    met.all_met(1);
}

/// The largest nets: no more is touched than is asked for.
#[test]
fn the_largest_nets() {
    for lists in [net(Kind::Largest, 1), weighted(Kind::LargestFar, 2)] {
        let said = bound_with(&lists, LEFT, ROWS, 1).expect("an allowed net");
        let (pins, macros, weights) = lists.parts();
        let (m, k) = (
            pins.len() / Net::PIN_NUMBERS,
            macros.len() / Net::MACRO_NUMBERS,
        );
        let mut edges = vec![0; 4 * (2 * m + 4 * k)];
        let refined = library::refined_tree(pins, macros, weights, &mut edges);
        let cost = refined.expect("an allowed net").1 as u64;
        assert!(said <= cost, "{said} above {cost}");
        assert!(said * 10 > cost * 8, "{said} far below {cost}");
    }
}
