//! Bought-in trees by both programs: trees of ours, trees of ours that were damaged in every way, and hostile lists.

use harness::counted::Counted;
use harness::library;
use harness::matching::{refused, routed, Case};
use reference::bought::EDGES;
use reference::generate::{bought, Bought, Ours};
use reference::net::{check, Weights};

/// Both programs' answer, as a number: 0 where it passes.
fn answer(case: &Case, kind: &'static str, list: &[i32]) -> u32 {
    let answer = case.check_tree(kind, list);
    answer
        .unwrap_or_else(|difference| panic!("{difference}"))
        .map_or_else(|number| number, |_| 0)
}

/// Lists of every kind for nets of every kind. A kind whose words name an answer gets it; each kind, and each answer of a kind, is counted.
#[test]
fn twenty_thousand_trees() {
    let mut met = Counted::new("20000 bought-in trees");
    // Kinds that may go either way have gone each way.
    for (kind, answers) in [
        (Bought::Changed, &["passes", "refused 34", "refused 35"][..]),
        (Bought::PinLeftOut, &["passes", "refused 35"]),
        (Bought::Nothing, &["passes", "refused 35"]),
    ] {
        let name = kind.name();
        answers
            .iter()
            .for_each(|said| met.add(&format!("{name}: {said}"), 0));
    }
    let (mut lists, mut seed) = (0, 0);
    while lists < 20_000 {
        let case = routed(seed);
        let (pins, macros, weights) = case.lists.parts();
        let net = check(pins, macros, weights).expect("routed nets are allowed");
        let ours = Ours::of(&net);
        for &kind in Bought::ALL {
            let Some(list) = bought(kind, seed, &ours) else {
                continue;
            };
            let number = answer(&case, kind.name(), &list);
            let said = match number {
                0 => "passes".to_string(),
                number => format!("refused {number}"),
            };
            let about = kind.about();
            let named = about.starts_with("passes") || about.starts_with("refused");
            assert!(
                !named || about.starts_with(&said),
                "{}: {said}",
                kind.name()
            );
            met.add(&format!("{}: {said}", kind.name()), 1);
            lists += 1;
        }
        seed += 1;
    }
    met.all_met(1);
}

/// A net's own number comes before those of any list, whole or not.
#[test]
fn refused_nets_with_any_list() {
    let mut met = Counted::new("refused nets with lists of edges");
    (11..=18).for_each(|number| met.add(&number.to_string(), 0));
    let lists = [
        vec![],
        vec![0, 0, 4],
        vec![0, 0, 0, 0],
        vec![i32::MIN, i32::MAX, 1, 1],
        vec![3; 4 * (EDGES + 1)],
    ];
    for seed in 0..5_000 {
        let case = refused(seed);
        let list = &lists[seed as usize % lists.len()];
        let number = answer(&case, "any list", list);
        let (pins, macros, weights) = case.lists.parts();
        if let Err(own) = library::check(pins, macros, weights) {
            assert_eq!(number, own);
            met.add(&number.to_string(), 1);
        }
    }
    met.all_met(20);
}

/// Lists of every length about the bound, whole or not, of one number over and over.
#[test]
fn every_length_and_number() {
    let numbers = [
        0,
        1,
        -1,
        1_000_000,
        1_000_001,
        -1_000_001,
        i32::MIN,
        i32::MAX,
    ];
    let bound = 4 * EDGES;
    for number in numbers {
        for length in (0..40).chain(bound - 5..bound + 9) {
            let list = vec![number; length];
            let call = |pins: &[i32]| library::check_tree(pins, &[], Weights::ONE, &list);
            let expected = match length {
                0 => Ok((0, 0)),
                _ if length % 4 != 0 || length > bound || number.unsigned_abs() > 1_000_000 => {
                    Err(33)
                }
                _ => Err(34),
            };
            assert_eq!(call(&[5, 5, 0]), expected, "{length} times {number}");
            let expected = if length == 0 { Err(35) } else { expected };
            assert_eq!(
                call(&[5, 5, 0, 6, 6, 0]),
                expected,
                "{length} times {number}"
            );
            assert_eq!(call(&[5]), Err(11));
        }
    }
}

/// As many edges as are taken, at the ends of the range and with the greatest weights: the greatest cost that there is.
#[test]
fn the_dearest_tree() {
    let end = 1_000_000;
    // A fan: from each of two corners of the die to points on the side across, so that every edge is nearly as long as any.
    let pins = [-end, -end, 0, end, end, 0];
    let mut edges = vec![-end, -end, end, end];
    let mut at = [-end, -end];
    for number in 1..EDGES as i32 {
        let next = match number % 2 {
            0 => [-end, -end + number],
            _ => [end, end - number],
        };
        edges.extend([at, next].concat());
        at = next;
    }
    let weights = Weights { x: 8, y: 8 };
    let case = Case {
        kind: "the dearest tree",
        seed: 1,
        lists: reference::lists::Lists {
            pins: pins.to_vec(),
            macros: vec![],
            weights,
        },
    };
    // The last point is bare, so it is refused; with a pin there it passes.
    assert_eq!(answer(&case, "bare at its end", &edges), 35);
    let case = Case {
        lists: reference::lists::Lists {
            pins: [&pins[..], &at, &[0]].concat(),
            ..case.lists
        },
        ..case
    };
    let (cost, metal) = case
        .check_tree("a long way to and fro", &edges)
        .unwrap_or_else(|difference| panic!("{difference}"))
        .expect("it passes");
    assert_eq!(cost, 8 * metal);
    assert!(metal > 5_000_000_000, "{metal}");
}
