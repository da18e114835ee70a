//! Delays to each pin by both programs, bit for bit.

use std::io::Write;

use harness::library;
use harness::matching::{few, refused, routed};
use reference::delay::Technology;
use reference::lists::Lists;
use reference::net::Weights;

/// Small nets of every kind, whole ones and hostile lists by turns, with technologies over the whole range of exponents; each with enough
/// space and too little, and in another order.
#[test]
fn twenty_thousand_nets() {
    let mut counts = [0; 41];
    for seed in 0..20_000 {
        let case = match seed % 200 {
            0..=7 => refused(seed / 8),
            8..=11 => routed(seed),
            _ => few(seed),
        };
        let answer = case
            .delay()
            .unwrap_or_else(|difference| panic!("{difference}"));
        counts[answer.map_or_else(|refusal| refusal as usize, |_| 0)] += 1;
    }
    let [given, technology, driver, infinite] = [0, 38, 39, 40].map(|number| counts[number]);
    let hostile: usize = counts[11..=18].iter().sum();
    let said = format!(
        "delays of 20000 nets: {given} given, {technology} refused by the technology, {driver} by the driver, {infinite} not finite, \
         {hostile} by the check"
    );
    // Past the capture of what a test prints, so that the counts are in the gate's log.
    writeln!(std::io::stderr(), "{said}").unwrap();
    assert!(
        given >= 8_000 && technology >= 500 && driver >= 500 && infinite >= 500 && hostile >= 500,
        "{said}"
    );
}

/// What the library gives from a driver, as bits.
fn bits(pins: &[i32], driver: (i32, i32), r: f64, c: f64, lent: usize) -> Result<Vec<u64>, u32> {
    let mut delays = vec![f64::from_bits(7); lent];
    let technology = Technology {
        resistance: r,
        capacitance: c,
    };
    let given = library::delay(pins, &[], Weights::ONE, driver, technology, &mut delays);
    let all: Vec<u64> = delays.into_iter().map(f64::to_bits).collect();
    match given {
        Ok(m) => {
            assert_eq!(m, pins.len() / 3);
            assert!(all[m..].iter().all(|&number| number == 7));
            Ok(all[..m].to_vec())
        }
        Err(refusal) => {
            assert!(all.iter().all(|&number| number == 7), "{refusal}");
            Err(refusal)
        }
    }
}

/// Four pins in a row from (-1, 0) to (2, 0), the second with a load of 1, listed in another order.
const ROW: [i32; 12] = [2, 0, 0, 0, 0, 1, -1, 0, 0, 1, 0, 0];
const FIRST: (i32, i32) = (-1, 0);

/// 2^-53.
const TINY: f64 = f64::from_bits(0x3ca0_0000_0000_0000);

/// A child's capacitance is added to the edge's before it is added to the sum: the second pin's delay is 1 + 2^-52, not 1.
#[test]
fn the_order_of_adding() {
    let delays = bits(&ROW, FIRST, 1.0, TINY, 4).unwrap();
    assert_eq!(delays[..2], [0, 0x3ff0_0000_0000_0001]);
    assert_eq!(delays[3], 0x3ff0_0000_0000_0002);
    assert_eq!(bits(&ROW, FIRST, 1.0, TINY, 9).unwrap(), delays);
}

/// The driver's own delay is 0, also where it is the only pin, in the middle of the tree or loaded.
#[test]
fn the_drivers_own_delay() {
    assert_eq!(bits(&[5, 5, 7], (5, 5), 1.0, 1.0, 1), Ok(vec![0]));
    for (number, x) in (-1..=2).enumerate() {
        let delays = bits(&ROW, (x, 0), 3.0, 5.0, 4).unwrap();
        assert_eq!(delays[number], 0);
        assert_eq!(delays.iter().filter(|&&delay| delay == 0).count(), 1);
    }
}

/// Not a number, infinity, zero, minus zero and negative as either number are 38; the least subnormal is taken. 38 comes before 39.
#[test]
fn technologies() {
    let wrong = [f64::NAN, f64::INFINITY, 0.0, -0.0, -1.0];
    for wrong in wrong
        .into_iter()
        .chain([f64::NEG_INFINITY, -f64::from_bits(1)])
    {
        assert_eq!(bits(&ROW, FIRST, wrong, 1.0, 4), Err(38));
        assert_eq!(bits(&ROW, FIRST, 1.0, wrong, 4), Err(38));
        assert_eq!(bits(&ROW, (9, 9), 1.0, wrong, 4), Err(38));
    }
    let least = f64::from_bits(1);
    assert!(bits(&ROW, FIRST, least, least, 4).is_ok());
    assert!(bits(&ROW, FIRST, f64::MAX, least, 4).is_ok());
}

/// Fewer numbers than pins are 21, before all others but the net's own; a driver one place off is 39, before 40; an overflow is 40.
#[test]
fn the_order_of_refusals() {
    assert_eq!(bits(&ROW, (-2, 0), f64::NAN, 1.0, 3), Err(21));
    for off in [(-2, 0), (-1, 1), (-1, -1), (3, 0), (i32::MIN, i32::MAX)] {
        assert_eq!(bits(&ROW, off, 1.0, 1.0, 4), Err(39));
        assert_eq!(bits(&ROW, off, f64::MAX, f64::MAX, 4), Err(39));
    }
    assert_eq!(bits(&ROW, FIRST, f64::MAX, 1.0, 4), Err(40));
    assert_eq!(bits(&ROW, FIRST, 1.0, f64::MAX, 4), Err(40));
    assert_eq!(bits(&[0, 0, 0, 0, 0, 0], (0, 0), f64::NAN, 1.0, 0), Err(15));
    assert_eq!(bits(&[], (0, 0), 1.0, 1.0, 0), Err(11));
}

/// Delays are along plain lengths, whatever the weights: with both 8 the tree of these pins is the same.
#[test]
fn plain_lengths() {
    let technology = Technology {
        resistance: 1.0,
        capacitance: 1.0,
    };
    let row = |weights| {
        let mut delays = [0.0; 4];
        library::delay(&ROW, &[], weights, FIRST, technology, &mut delays).unwrap();
        delays
    };
    assert_eq!(row(Weights::ONE), row(Weights { x: 8, y: 8 }));
}

/// A tree as long as they get: pins at both ends of a row of 128 macros. How long it takes is in the gate's log.
#[test]
fn the_longest_way() {
    let lists = Lists {
        pins: vec![0, 1, 3, 800, 1, 5],
        macros: (0..128)
            .flat_map(|i| [3 + 6 * i, 0, 6 + 6 * i, 2])
            .collect(),
        ..Lists::default()
    };
    let (pins, macros, weights) = lists.parts();
    let technology = Technology {
        resistance: 0.1,
        capacitance: 0.3,
    };
    let mut delays = [0.0; 2];
    let start = std::time::Instant::now();
    let given = library::delay(pins, macros, weights, (0, 1), technology, &mut delays);
    let took = start.elapsed();
    assert_eq!(given, Ok(2));
    let mut edges = vec![0; 8 * 1000];
    let start = std::time::Instant::now();
    let (count, ..) = library::refined_tree(pins, macros, weights, &mut edges).unwrap();
    let tree = start.elapsed();
    let said = format!("delays along {count} edges: {took:?}, the tree alone {tree:?}");
    writeln!(std::io::stderr(), "{said}").unwrap();
    assert!(count >= 250, "{said}");
}
