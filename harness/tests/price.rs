//! The price by both programs: nets of every kind and lists of bands of every kind, hostile ones among them.

use std::collections::BTreeMap;
use std::io::Write;
use std::sync::Mutex;

use harness::library;
use harness::matching::{each_of, refused, routed, Case};
use reference::generate::{bands, BandList};
use reference::lists::{unloaded, Lists};
use reference::net::{check, Weights};
use reference::operations;
use reference::random::Random;
use reference::refined::refined;

/// Allowed nets of every kind, and hostile lists by turns.
fn case(seed: u64) -> Case {
    if seed.is_multiple_of(8) {
        refused(seed / 8)
    } else {
        routed(seed)
    }
}

/// The metal of an allowed net, by the second program.
fn metal_of(lists: &Lists) -> Option<u64> {
    let (pins, macros, weights) = lists.parts();
    let net = check(pins, macros, weights).ok()?;
    Some(refined(&net).metal.unsigned_abs())
}

/// Every kind of list by turns; every answer must have been met often, or the match says little.
#[test]
fn price_on_twenty_thousand_nets_and_lists() {
    let met = Mutex::new([0; 5]);
    each_of(20_000, |seed| {
        let answer = case(seed).price();
        let place = match answer.unwrap_or_else(|difference| panic!("{difference}")) {
            Ok(_) => 0,
            Err(31) => 2,
            Err(37) => 3,
            Err(32) => 4,
            Err(_) => 1,
        };
        met.lock().unwrap()[place] += 1;
    });
    let met = met.into_inner().unwrap();
    let [charged, of_net, bands, order, reach] = met;
    let said = format!(
        "prices of 20000 nets and lists: {charged} charged, {of_net} nets refused, {bands} lists refused 31, {order} 37, {reach} 32"
    );
    // Past the capture of what a test prints, so that the counts are in the gate's log.
    writeln!(std::io::stderr(), "{said}").unwrap();
    assert!(met.iter().all(|&times| times >= 1_000), "{said}");
}

/// What the library and the second program say of a net with so much metal by a list.
fn by_both(metal: u64, list: &[u64]) -> [Result<u64, u32>; 2] {
    let pins = net_of(metal);
    [library::price, operations::price].map(|price| price(&pins, &[], Weights::ONE, list))
}

/// Lists in order, each broken at one place but for every eighth: the answer of both programs, and the refusal that the kind names.
#[test]
fn twenty_thousand_lists_broken_at_one_place() {
    let kinds = [
        BandList::EqualLimits,
        BandList::FallingLimit,
        BandList::FallingRate,
        BandList::Exchanged,
        BandList::OneBelow,
        BandList::RateAbove,
        BandList::Mistyped,
        BandList::InOrder,
    ];
    let mut met = BTreeMap::new();
    let mut broken = 0;
    for seed in 0..20_000 {
        let kind = kinds[seed as usize % kinds.len()];
        let metal = 1 + Random::new(seed).bits() % APART as u64;
        let list = bands(kind, seed, metal);
        let [ours, theirs] = by_both(metal, &list);
        let said = || format!("{} {seed}: metal {metal} by {list:?}", kind.name());
        assert_eq!(ours, theirs, "{}", said());
        let refused = ours.map_or_else(|number| number, |_| 0);
        if kind.about().starts_with("refused") {
            let named = format!("refused {refused}:");
            assert!(kind.about().starts_with(&named), "{}: {ours:?}", said());
        }
        broken += usize::from(kind != BandList::InOrder);
        *met.entry(refused).or_insert(0) += 1;
    }
    let said = format!("prices by 20000 lists, {broken} of them broken at one place; refusals, 0 for a charge, and how often: {met:?}");
    writeln!(std::io::stderr(), "{said}").unwrap();
    assert!(
        met.values().all(|&times| times >= 1_000) && met.len() == 4,
        "{said}"
    );
}

/// One list for many nets: more metal is never charged less, whatever the list, of all that it charges.
#[test]
fn longer_nets_are_never_charged_less() {
    let mut nets: Vec<(u64, Lists)> = (0..400)
        .filter_map(|seed| {
            let lists = routed(seed).lists;
            metal_of(&lists).map(|metal| (metal, lists))
        })
        .collect();
    nets.sort_by_key(|&(metal, _)| metal);
    let longest = nets.last().map_or(0, |&(metal, _)| metal);
    let in_order = (0..10).map(|seed| (BandList::InOrder, seed));
    let every_kind = BandList::ALL.iter().map(|&kind| (kind, 10));
    for (kind, seed) in in_order.chain(every_kind) {
        let list = bands(kind, seed, longest);
        let mut least = 0;
        for (metal, lists) in &nets {
            let (pins, macros, weights) = lists.parts();
            let Ok(charge) = library::price(pins, macros, weights, &list) else {
                assert!(kind != BandList::InOrder, "{metal} by {list:?}");
                continue;
            };
            assert!(
                charge >= least,
                "metal {metal} is charged {charge} by {list:?}, less metal {least}"
            );
            least = charge;
        }
    }
}

/// Metal is charged and not cost: the same tree under weights 1 and 1 and under 8 and 8, and one under 1 and 3 whose metal is 7 and whose
/// total is 11.
#[test]
fn weights_are_not_charged() {
    let eight = Weights { x: 8, y: 8 };
    for seed in 0..400 {
        let lists = routed(seed).lists;
        let (pins, macros, _) = lists.parts();
        for list in [&[u64::MAX, 1_000_000][..], &[1_000, 7, 1_000_000, 9]] {
            assert_eq!(
                library::price(pins, macros, eight, list),
                library::price(pins, macros, Weights::ONE, list)
            );
        }
    }
    let pins = [3, 1, 0, 0, 0, 0, 2, 0, 0, 0, 2, 0];
    let price = |bands: &[u64]| library::price(&pins, &[], Weights { x: 1, y: 3 }, bands);
    assert_eq!(price(&[7, 1_000]), Ok(7));
    assert_eq!(price(&[6, 1_000]), Err(32));
}

/// The most metal between two pins.
const APART: i32 = 4_000_000;

/// A net with so much metal: two pins, or, where they cannot be that far apart, a grid of pins and one more beside its corner.
fn net_of(metal: u64) -> Vec<i32> {
    let metal = i32::try_from(metal).unwrap();
    if metal <= APART {
        let across = metal.min(2_000_000);
        return unloaded(&[0, 0, across, metal - across].map(|at| at - 1_000_000));
    }
    // 24 steps join the 25 pins of the grid, and the pin beside it is nearer to its corner than a step.
    let (step, left) = (metal / 24, metal % 24);
    let mut pins: Vec<i32> = (0..25).flat_map(|i| [i % 5 * step, i / 5 * step]).collect();
    if left > 0 {
        pins.extend([-left, 0]);
    }
    let moved: Vec<i32> = pins.iter().map(|at| at - 900_000).collect();
    unloaded(&moved)
}

/// A thousandth below each half from 0.5 to 9,999.5 hundredths, at it and a thousandth above: the library, the second program and the rule.
#[test]
fn charges_at_and_beside_every_half() {
    let mut grids = 0;
    for whole in 0..10_000_u64 {
        let even = if whole.is_multiple_of(2) {
            whole
        } else {
            whole + 1
        };
        for (thousandths, charge) in [(499, whole), (500, even), (501, whole + 1)] {
            let thousandths = 1_000 * whole + thousandths;
            // The least rate that leaves metal for two pins; where there is none, the rate 1 and a grid.
            let fits = |rate: &u64| {
                thousandths.is_multiple_of(*rate) && thousandths / rate <= APART as u64
            };
            let rate = (1..4_000).find(fits).unwrap_or(1);
            let (metal, pins) = (thousandths / rate, net_of(thousandths / rate));
            grids += usize::from(pins.len() > 6);
            let list = [metal, rate];
            let said = format!(
                "{metal} at {rate}, {whole} and {} thousandths",
                thousandths % 1_000
            );
            let ours = library::price(&pins, &[], Weights::ONE, &list);
            assert_eq!(ours, Ok(charge), "{said}");
            let theirs = operations::price(&pins, &[], Weights::ONE, &list);
            assert_eq!(theirs, Ok(charge), "{said}, the second program");
        }
    }
    writeln!(
        std::io::stderr(),
        "charges at and beside halves: 30000, {grids} of them of a grid of pins"
    )
    .unwrap();
}

/// The second program's own answer from the lists, as an operation, on a few: the match above works the metal out once for list and answer.
#[test]
fn the_second_program_prices_from_the_lists() {
    for seed in 0..500 {
        let lists = case(seed).lists;
        let (pins, macros, weights) = lists.parts();
        for list in [
            &[u64::MAX, 1_000_000][..],
            &[1_000, 7, 1_000_000, 9],
            &[1_000, 7, 1_000, 9],
            &[1],
        ] {
            assert_eq!(
                library::price(pins, macros, weights, list),
                operations::price(pins, macros, weights, list)
            );
        }
    }
}
