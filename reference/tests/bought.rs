//! Bought-in trees: each number, the order of numbers, and every kind of list that the generator knows.

mod common;

use std::collections::BTreeMap;

use reference::bought::{check as bought_in, Passed, EDGES};
use reference::generate::{bought, Bought, Ours};
use reference::net::{check, Net, Weights};
use reference::operations::{check_tree, refined_tree, slid_tree};

fn net(pins: &[i32], macros: &[i32]) -> Net {
    check(pins, macros, Weights::ONE).unwrap()
}

/// The cost and the metal of a list under weights 2 and 3, or the number.
fn checked(pins: &[i32], macros: &[i32], edges: &[[i32; 4]]) -> Result<(i64, i64), u32> {
    let weights = Weights { x: 2, y: 3 };
    check_tree(pins, macros, weights, &edges.concat())
}

const THREE: [i32; 9] = [0, 0, 0, 4, 0, 0, 2, 3, 0];
const TREE: [[i32; 4]; 3] = [[0, 0, 2, 0], [2, 0, 2, 3], [2, 0, 4, 0]];

/// Cost weighs the axes, metal does not; either end may come first, and edges in any order.
#[test]
fn cost_and_metal() {
    assert_eq!(checked(&THREE, &[], &TREE), Ok((17, 7)));
    let turned = [[4, 0, 2, 0], [2, 3, 2, 0], [0, 0, 2, 0]];
    assert_eq!(checked(&THREE, &[], &turned), Ok((17, 7)));
    assert_eq!(checked(&[5, 5, 0], &[], &[]), Ok((0, 0)));
}

/// "33, not whole fours", above 1,535 edges, "or a coordinate out of range."
#[test]
fn refused_33() {
    let three = net(&THREE, &[]);
    for numbers in [
        &[0][..],
        &[0, 0, 4],
        &[0, 0, 4, 0, 2],
        &[1_000_001, 0, 0, 0],
        &[0, 0, 0, i32::MIN],
    ] {
        assert_eq!(bought_in(&three, numbers), Err(33), "{numbers:?}");
    }
    // A way of unit steps between two pins has as many edges as are allowed, and then one more.
    for (count, answer) in [(EDGES, None), (EDGES + 1, Some(33))] {
        let end = count as i32;
        let way: Vec<i32> = (0..end).flat_map(|x| [x, 0, x + 1, 0]).collect();
        let passed = Passed {
            cost: end.into(),
            metal: end.into(),
        };
        let expected = answer.map_or(Ok(passed), Err);
        assert_eq!(bought_in(&net(&[0, 0, 0, end, 0, 0], &[]), &way), expected);
    }
}

/// "34, equal ends or ends not clear": also an edge inside a macro, or with one end in it; along its side is clear.
#[test]
fn refused_34() {
    let (pins, macros) = ([0, 0, 0, 10, 0, 0], [4, -2, 6, 3]);
    let around = [[0, 0, 4, -2], [4, -2, 6, -2], [6, -2, 10, 0]];
    assert_eq!(checked(&pins, &macros, &around), Ok((32, 14)));
    for wrong in [
        [0, 0, 10, 0],
        [0, 0, 5, 0],
        [5, 0, 5, 1],
        [4, 0, 6, 0],
        [0, 0, 0, 0],
        [5, 0, 5, 0],
    ] {
        assert_eq!(checked(&pins, &macros, &[wrong]), Err(34), "{wrong:?}");
        let and = [around.to_vec(), vec![wrong]].concat();
        assert_eq!(checked(&pins, &macros, &and), Err(34), "{wrong:?}");
    }
}

/// "35, the rest."
#[test]
fn refused_35() {
    let with = |edges: &[[i32; 4]]| [TREE.to_vec(), edges.to_vec()].concat();
    let lists = [
        ("no edge", vec![]),
        ("two parts", TREE[..2].to_vec()),
        ("twice", with(&[[0, 0, 2, 0]])),
        ("twice, from the other end", with(&[[2, 0, 0, 0]])),
        ("a cycle", with(&[[2, 3, 4, 0]])),
        ("a bare point", with(&[[2, 0, 2, -1]])),
        ("a part of its own", with(&[[9, 9, 9, 8]])),
        // Six points and five edges, three of them a cycle.
        (
            "a cycle and a part",
            vec![
                [0, 0, 4, 0],
                [4, 0, 2, 3],
                [2, 3, 0, 0],
                [9, 9, 9, 8],
                [9, 8, 9, 7],
            ],
        ),
        ("metal that only crosses", vec![[0, 0, 4, 0], [2, 3, 2, -3]]),
    ];
    for (name, edges) in lists {
        assert_eq!(checked(&THREE, &[], &edges), Err(35), "{name}");
    }
    // The fourth pin is left out; a way past it that does not stop there does not reach it.
    let four = [&THREE[..], &[3, 0, 0]].concat();
    assert_eq!(checked(&four, &[], &TREE), Err(35));
    // A lone pin with any edge.
    assert_eq!(checked(&[5, 5, 0], &[], &[[5, 5, 5, 6]]), Err(35));
    assert_eq!(checked(&[5, 5, 0], &[], &[[0, 0, 1, 1]]), Err(35));
}

/// Each test covers the whole list before the next: the net's own numbers, 33, 34, 35.
#[test]
fn the_order_of_numbers() {
    let (equal, twice, far) = ([1, 1, 1, 1], [0, 0, 2, 0], [0, 0, 0, 1_000_001]);
    let pins = [0, 0, 0, 0, 0, 0];
    assert_eq!(checked(&pins, &[], &[far]), Err(15));
    assert_eq!(
        check_tree(&THREE, &[], Weights { x: 9, y: 1 }, &[0]),
        Err(18)
    );
    assert_eq!(checked(&THREE, &[], &[equal, far]), Err(33));
    assert_eq!(checked(&THREE, &[], &[twice, twice, far]), Err(33));
    assert_eq!(checked(&THREE, &[], &[twice, twice, equal]), Err(34));
    // Equal ends given twice.
    assert_eq!(checked(&THREE, &[], &[equal, equal]), Err(34));
    let long = vec![equal; EDGES + 1];
    assert_eq!(checked(&THREE, &[], &long), Err(33));
}

/// The generator's lists for nets of every kind get the answer that their kind names, and each kind is there often.
#[test]
fn kinds_give_what_they_name() {
    let mut made = BTreeMap::new();
    for (number, (name, lists)) in common::nets(6).enumerate() {
        let net = check(&lists.pins, &lists.macros, lists.weights).unwrap();
        let ours = Ours::of(&net);
        for &kind in Bought::ALL {
            let Some(list) = bought(kind, number as u64, &ours) else {
                continue;
            };
            let answer = bought_in(&net, &list);
            let named = match kind.about() {
                about if about.starts_with("passes") => Some(0),
                about => about
                    .strip_prefix("refused ")
                    .map(|rest| rest[..2].parse().unwrap()),
            };
            let number = answer.map_or_else(|number| number, |_| 0);
            assert!(
                named.is_none_or(|named| named == number),
                "{name}: {} gives {answer:?}",
                kind.name()
            );
            *made.entry(kind.name()).or_insert(0) += 1;
        }
    }
    for &kind in Bought::ALL {
        let times = made.get(kind.name()).copied().unwrap_or(0);
        assert!(times >= 40, "{} {times} times", kind.name());
    }
}

/// "Any tree that our refiner or slider gives must pass", with the totals that it was given with.
#[test]
fn our_trees_pass() {
    for (name, lists) in common::nets(8) {
        let (pins, macros, weights) = lists.parts();
        let mut edges = vec![0; 8 * 768];
        for given in [refined_tree, slid_tree] {
            let (count, total, metal) = given(pins, macros, weights, &mut edges).unwrap();
            let checked = check_tree(pins, macros, weights, &edges[..4 * count]);
            assert_eq!(checked, Ok((total, metal)), "{name}");
        }
    }
}
