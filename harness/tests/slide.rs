//! Slid trees by both programs, with what the second one saw while it bent and slid.

use std::sync::Mutex;

use harness::counted::Counted;
use harness::library;
use harness::matching::{each_of, routed, Case};
use reference::generate::{weighted, Kind};
use reference::lists::Lists;
use reference::net::{check, Weights};
use reference::slide::{slid, Statistics};
use reference::worked::{sliding, Worked};

/// The nets whose trees are worked out, as cases.
fn worked() -> Vec<Case> {
    let case = |worked: Worked| Case {
        kind: worked.name,
        seed: 1,
        lists: worked.lists,
    };
    sliding().into_iter().map(case).collect()
}

/// Kinds whose bars move most, and the chain of chambers behind which bends collide and bars are crossed.
fn combs(seed: u64) -> Case {
    let kinds = [Kind::Bars, Kind::Comb, Kind::Chambers, Kind::Bars];
    let kind = kinds[seed as usize % kinds.len()];
    Case {
        kind: kind.name(),
        seed,
        lists: weighted(kind, seed),
    }
}

/// What can happen, and how often it did.
fn events(lists: &Lists) -> [(&'static str, usize); 18] {
    let (pins, macros, weights) = lists.parts();
    let net = check(pins, macros, weights).expect("an allowed net");
    let Statistics {
        bends,
        y_first,
        given_back,
        moves,
        level_up,
        level_down,
        upright_right,
        upright_left,
        short_by_macro,
        short_by_metal,
        merges,
        merged_pins,
        tied_by_place,
        tied_by_direction,
        held_by_pin,
        equal_sides,
        crossed,
        met_at_far_end,
        bound_ended,
    } = slid(&net).statistics;
    // Each move makes the tree cheaper, and no net is known that needs as many as the tree has points.
    assert!(!bound_ended);
    [
        ("bends", bends),
        ("bends that go y first", y_first),
        (
            "trees given back, both places of a bend taken",
            given_back.into(),
        ),
        ("moves", moves),
        ("moves of a level bar up", level_up),
        ("moves of a level bar down", level_down),
        ("moves of an upright bar to the right", upright_right),
        ("moves of an upright bar to the left", upright_left),
        ("moves short of the far end by a macro", short_by_macro),
        ("moves short of the far end by metal", short_by_metal),
        ("far ends that became one with a point of the bar", merges),
        ("pins among them", merged_pins),
        (
            "rounds where bars tied, settled by their first places",
            tied_by_place,
        ),
        (
            "rounds where bars tied, settled by their direction",
            tied_by_direction,
        ),
        ("bars with a pin", held_by_pin),
        ("bars with equal sides", equal_sides),
        ("bars crossed, with no distance at all", crossed),
        ("moves to a far end where other edges end", met_at_far_end),
    ]
}

/// Nets of every kind, combs and the worked ones, each also in another order, with enough space and too little. Every sentence of [5] must
/// have been met, or the match says little.
#[test]
fn slid_trees_on_nine_thousand_nets() {
    let met = Mutex::new(Counted::new("slid trees of 9000 nets and the worked ones"));
    let matched = |case: &Case| {
        case.slid_tree()
            .unwrap_or_else(|difference| panic!("{difference}"));
        let events = events(&case.lists);
        let mut met = met.lock().unwrap();
        for (event, times) in events {
            met.add(event, times);
        }
    };
    each_of(5_000, |seed| matched(&routed(seed)));
    each_of(4_000, |seed| matched(&combs(seed)));
    worked().iter().for_each(matched);
    met.into_inner().unwrap().all_met(1);
}

/// The totals that are worked out, and the space that is asked for: one number less is 21.
#[test]
fn worked_nets() {
    for Worked {
        name,
        lists,
        refined,
        slid,
    } in sliding()
    {
        let (pins, macros, weights) = lists.parts();
        let (m, n) = (pins.len() / 3, pins.len() / 3 + macros.len());
        let mut edges = vec![7; 8 * (n + m)];
        let given = library::refined_tree(pins, macros, weights, &mut edges);
        assert_eq!(given.map(|(_, total, _)| total), Ok(refined), "{name}");
        let given = library::slid_tree(pins, macros, weights, &mut edges);
        assert_eq!(given.map(|(_, total, _)| total), Ok(slid), "{name}");
        let mut short = vec![7; 8 * (n + m) - 1];
        let given = library::slid_tree(pins, macros, weights, &mut short);
        assert_eq!(given, Err(21), "{name}");
        assert!(short.iter().all(|&number| number == 7), "{name}");
    }
}

/// The first worked net, edge for edge: the upright bar goes to the right, to a far end where two edges ended.
#[test]
fn edges_of_the_first_worked_net() {
    let mut edges = vec![0; 80];
    let (pins, macros) = ([2, 3, 0, 3, 0, 0, 0, 1, 0], [0, 2, 1, 4]);
    let given = library::slid_tree(&pins, &macros, Weights::ONE, &mut edges);
    let expected = [
        [0, 1, 2, 1],
        [2, 1, 2, 2],
        [2, 1, 3, 1],
        [2, 2, 2, 3],
        [3, 0, 3, 1],
    ];
    assert_eq!(given, Ok((expected.len(), 6, 6)));
    assert_eq!(edges[..20], expected.concat());
}
