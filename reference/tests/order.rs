//! The order of the entries in the lists and the loads of the pins change no answer.

mod common;

use reference::generate::{loaded, permuted};
use reference::graph::graph;
use reference::net::check;
use reference::refined::refine;
use reference::terminal::terminal;
use reference::wires::wires;

#[test]
fn permuted_lists_give_the_same_answers() {
    let mut reordered = 0;
    for (number, (name, lists)) in common::nets(16).enumerate() {
        let other = match number % 2 {
            0 => permuted(&lists, number as u64),
            _ => permuted(&loaded(&lists, number as u64), number as u64),
        };
        let net = check(&lists.pins, &lists.macros, lists.weights).unwrap();
        let same = check(&other.pins, &other.macros, other.weights).unwrap();
        assert_eq!(graph(&net), graph(&same), "{name}");
        let (tree, same_tree) = (terminal(&net), terminal(&same));
        assert_eq!(tree, same_tree, "{name}");
        let (laid, same_laid) = (refine(&net, &tree), refine(&same, &same_tree));
        assert_eq!(laid, same_laid, "{name}");
        assert_eq!(wires(&laid.edges), wires(&same_laid.edges), "{name}");
        reordered += usize::from(lists != other);
    }
    assert!(reordered > 200, "{reordered} nets had another order");
}

#[test]
fn permuted_lists_have_the_same_entries() {
    for (name, lists) in common::nets(4) {
        let other = permuted(&lists, 7);
        for (before, after, width) in [
            (&lists.pins, &other.pins, 3),
            (&lists.macros, &other.macros, 4),
        ] {
            let mut before: Vec<&[i32]> = before.chunks(width).collect();
            let mut after: Vec<&[i32]> = after.chunks(width).collect();
            before.sort();
            after.sort();
            assert_eq!(before, after, "{name}");
        }
    }
}
