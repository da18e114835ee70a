//! What refuses a call whatever its tree is said before there is one: 21, 38 and 39 for delays, 31 and 37 for a price; and 21 for a lower
//! bound before there is a sweep.

use std::time::Duration;

use harness::{clock, library};
use reference::delay::Technology;
use reference::generate::{net, Kind};

/// How often a tree's time is in that of a call that makes none, at least: it is some hundreds.
const TIMES: u32 = 10;

/// The least processor time of a call, of some.
fn least(call: impl Fn()) -> Duration {
    clock::least(7, call)
}

#[test]
fn refused_before_there_is_a_tree() {
    let lists = net(Kind::LargestMaze, 1);
    let (pins, macros, weights) = lists.parts();
    let (m, driver) = (pins.len() / 3, (pins[0], pins[1]));
    let off = (driver.0, driver.1 + 1);
    assert!(pins.chunks(3).all(|pin| (pin[0], pin[1]) != off));

    let delay = |driver, resistance, lent: usize| {
        let technology = Technology {
            resistance,
            capacitance: 1.0,
        };
        library::delay(
            pins,
            macros,
            weights,
            driver,
            technology,
            &mut vec![0.0; lent],
        )
    };
    let given = least(|| assert_eq!(delay(driver, 1.0, m), Ok(m)));
    for (refusal, driver, resistance, lent) in [
        (21, driver, 1.0, m - 1),
        (38, driver, 0.0, m),
        (39, off, 1.0, m),
    ] {
        let refused = least(|| assert_eq!(delay(driver, resistance, lent), Err(refusal)));
        assert!(refused * TIMES < given, "{refusal}: {refused:?}, {given:?}");
    }

    let (mut left, mut rows) = (vec![0; calzundi::BOUND_LEFT], vec![0; calzundi::BOUND_ROWS]);
    let mut bound =
        |short| library::lower_bound(pins, macros, weights, &mut left[short..], &mut rows);
    let given = clock::of(|| assert!(bound(0).is_ok()));
    let refused = clock::of(|| assert_eq!(bound(1), Err(21)));
    assert!(refused * TIMES < given, "21: {refused:?}, {given:?}");

    let price = |bands: &[u64]| library::price(pins, macros, weights, bands);
    let given = least(|| assert!(price(&[u64::MAX, 1]).is_ok()));
    for (refusal, bands) in [(31, &[7][..]), (31, &[7, 1_000_001]), (37, &[7, 1, 7, 1])] {
        let refused = least(|| assert_eq!(price(bands), Err(refusal)));
        assert!(refused * TIMES < given, "{refusal}: {refused:?}, {given:?}");
    }
}
