//! Rules L17 and L18 on small nets: no metal in clear steps of a unit, or of a part of one, costs less than the best tree, and some costs
//! just that; and that the judge is awake.

use std::collections::BTreeMap;

use reference::best::{cost, MACROS, PINS};
use reference::generate::crowded;
use reference::lattice::{Least, Steps};
use reference::lists::{unloaded, Lists};
use reference::net::{check, Macro, Net, Place, Weights};
use reference::random::Random;

const UNITS: Steps = Steps {
    parts: 1,
    margin: 1,
};
const HALVES: Steps = Steps {
    parts: 2,
    margin: 1,
};

fn checked(lists: &Lists) -> Net {
    let (pins, macros, weights) = lists.parts();
    check(pins, macros, weights).expect("generated nets are allowed")
}

fn without_macros(lists: &Lists) -> Net {
    checked(&Lists {
        macros: Vec::new(),
        ..lists.clone()
    })
}

/// Whether the boxes of two macros have a point in common.
fn touch(net: &Net) -> bool {
    let both = |one: &Macro, other: &Macro| {
        one.left.max(other.left) <= one.right.min(other.right)
            && one.bottom.max(other.bottom) <= one.top.min(other.top)
    };
    let macros = net.macros();
    let touched = |at: usize| macros[..at].iter().any(|other| both(&macros[at], other));
    (0..macros.len()).any(touched)
}

fn at_the_edge(net: &Net) -> bool {
    let end = i64::from(Net::COORDINATE);
    let corners = net.macros().iter().flat_map(|m| m.corners());
    let mut places = net.pins().iter().copied().chain(corners);
    places.any(|Place { x, y }| x.abs() == end || y.abs() == end)
}

/// The best tree's cost beside that of all metal, on nets of which many have macros in the way: metal without them is cheaper.
#[test]
fn best_trees_beside_all_metal() {
    let mut met = BTreeMap::new();
    for seed in 0..2_000 {
        let lists = crowded(seed);
        let net = checked(&lists);
        assert!(net.m() <= PINS && net.k() <= MACROS, "crowded {seed}");
        let best = cost(&net);
        let whole = UNITS.least(&net);
        let halves = HALVES.least(&net);
        assert_eq!(whole.cost, best, "crowded {seed}");
        assert_eq!(halves.cost, 2 * best, "crowded {seed}");
        let free = UNITS.least(&without_macros(&lists)).cost;
        assert!(free <= best, "crowded {seed}");
        let on_corner = |m: &Macro| net.pins().iter().any(|pin| m.corners().contains(pin));
        let Weights { x, y } = net.weights();
        let events = [
            ("macros in the way", free < best),
            ("weights that differ", x != y),
            ("in the way, weights that differ", free < best && x != y),
            ("least metal off the lines", whole.off_lines > 0),
            (
                "off the lines in halves alone",
                whole.off_lines == 0 && halves.off_lines > 0,
            ),
            ("touching macros", touch(&net)),
            ("pins on corners", net.macros().iter().any(on_corner)),
            ("steps off the die", at_the_edge(&net)),
            ("more than eight macros", net.k() > 8),
            ("five pins", net.m() == PINS),
            (
                "five pins, macros in the way",
                net.m() == PINS && free < best,
            ),
        ];
        for (event, is_met) in events {
            *met.entry(event).or_insert(0) += usize::from(is_met);
        }
    }
    println!("{met:#?}");
    assert!(met.values().all(|&times| times >= 20), "{met:?}");
}

/// Steps of a third and of a fifth of a unit, on fewer nets.
#[test]
fn smaller_parts() {
    for seed in 2_000..2_040 {
        let net = checked(&crowded(seed));
        for parts in [3, 5] {
            let steps = Steps { parts, margin: 0 };
            let said = format!("crowded {seed}, {parts}");
            assert_eq!(steps.least(&net).cost, parts * cost(&net), "{said}");
        }
    }
}

/// Metal that leaves the box comes back for more: a wider one changes nothing.
#[test]
fn wider_boxes() {
    for seed in 2_100..2_200 {
        let net = checked(&crowded(seed));
        let least = UNITS.least(&net);
        for margin in [0, 3] {
            let steps = Steps { parts: 1, margin };
            assert_eq!(steps.least(&net), least, "crowded {seed}");
        }
    }
}

/// On a few units all sets of steps can be tried, one by one.
#[test]
fn every_set_of_steps() {
    let (mut tried, mut in_the_way, mut seed) = (0, 0, 0);
    while tried < 200 {
        seed += 1;
        let random = &mut Random::new(seed);
        let (x, y) = random.choose(&[(2, 2), (3, 2), (2, 3), (1, 5)]);
        let place = |random: &mut Random| [random.between(0, x), random.between(0, y)];
        let places: Vec<i32> = (0..2 + random.below(4))
            .flat_map(|_| place(random))
            .collect();
        let [[left, bottom], [right, top]] = [place(random), place(random)];
        let lists = Lists {
            pins: unloaded(&places),
            macros: vec![left, bottom, right, top],
            weights: Weights {
                x: random.between(1, 8),
                y: random.between(1, 8),
            },
        };
        let (pins, macros, weights) = lists.parts();
        let Ok(net) = check(pins, macros, weights) else {
            continue;
        };
        let steps = Steps {
            parts: 1,
            margin: 0,
        };
        let Some(least) = steps.least_of_sets(&net, 14) else {
            continue;
        };
        assert_eq!(steps.least(&net).cost, least, "seed {seed}");
        in_the_way += usize::from(steps.least(&without_macros(&lists)).cost < least);
        tried += 1;
    }
    println!("{in_the_way} of {tried} nets have a macro in the way");
    assert!(in_the_way >= 20);
}

/// What metal costs in whole steps and in halves, and off the lines.
fn worked(places: &[i32], macros: &[i32], x: i32, y: i32) -> [Least; 2] {
    let lists = Lists {
        pins: unloaded(places),
        macros: macros.to_vec(),
        weights: Weights { x, y },
    };
    [UNITS, HALVES].map(|steps| steps.least(&checked(&lists)))
}

fn costs(places: &[i32], macros: &[i32], x: i32, y: i32) -> [i64; 2] {
    worked(places, macros, x, y).map(|least| least.cost)
}

/// Round a macro, and straight through where it is not there; round one of a unit, which whole steps pass on all sides; between two that
/// touch, along the side they share; along weights. Two pins have the four places within their box off the lines, and 25 with halves.
#[test]
fn worked_metal() {
    assert_eq!(costs(&[0, 5, 10, 5], &[2, 2, 8, 8], 1, 1), [16, 32]);
    assert_eq!(costs(&[0, 5, 10, 5], &[], 1, 1), [10, 20]);
    assert_eq!(costs(&[0, 1, 1, 1], &[0, 0, 1, 2], 1, 1), [3, 6]);
    assert_eq!(costs(&[0, 0, 1, 1], &[0, 0, 1, 1], 2, 3), [5, 10]);
    let touching = [0, 0, 2, 2, 2, 0, 4, 2];
    assert_eq!(costs(&[2, -1, 2, 3], &touching, 1, 8), [32, 64]);
    let five = [2, 0, 1, 3, 0, 1, 3, 1, 0, 0];
    assert_eq!(costs(&five, &[], 1, 1), [7, 14]);
    assert_eq!(costs(&[5, 5], &[], 1, 1), [0, 0]);
    let off_lines = worked(&[0, 0, 3, 3], &[], 1, 1).map(|least| least.off_lines);
    assert_eq!(off_lines, [4, 25]);
}
