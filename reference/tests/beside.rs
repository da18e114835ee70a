//! Points beside the tree: worked nets, and what holds of both rules on random ones.

use reference::generate::{chambers, net, Kind};
use reference::net::{check, Net, Weights};
use reference::refined::{refine_by, Rule};
use reference::terminal::terminal;

fn allowed(pins: &[i32], macros: &[i32]) -> Net {
    check(pins, macros, Weights::ONE).unwrap()
}

/// The totals of the terminal tree and of the refined tree by both rules.
fn totals(net: &Net) -> [i64; 3] {
    let terminal = terminal(net);
    let by = |rule| refine_by(rule, net, &terminal).total;
    [terminal.total, by(Rule::OnTree), by(Rule::Beside)]
}

/// A corner that no path uses is a shortcut.
#[test]
fn a_corner_beside_the_tree() {
    let net = allowed(&[4, 0, 0, 4, 7, 0, 8, 4, 0], &[4, 0, 5, 8]);
    assert_eq!(totals(&net), [15, 15, 14]);
}

/// A gain beside the tree can take the round that an on-tree gain would have had, with more from pruning: the new rule is not always the better
/// one.
#[test]
fn not_always_shorter_than_by_the_old_rule() {
    let mut macros = chambers(4);
    macros.extend([-412, 0, -400, 96]);
    let net = allowed(&[-400, 0, 0, -400, 84, 0, -448, 48, 0, 410, 0, 0], &macros);
    assert_eq!(totals(&net), [1150, 990, 1018]);
}

#[test]
fn one_pin_has_no_candidate() {
    assert_eq!(totals(&allowed(&[5, 5, 0], &[])), [0, 0, 0]);
    assert_eq!(totals(&allowed(&[5, 5, 0], &[0, 0, 3, 3])), [0, 0, 0]);
}

/// Neither rule makes the tree longer than the terminal tree.
#[test]
fn never_longer_than_the_terminal_tree() {
    for seed in 0..200 {
        for kind in [Kind::Small, Kind::TinyEight, Kind::SideBySide, Kind::Comb] {
            let lists = net(kind, seed);
            let [terminal, on_tree, beside] = totals(&allowed(&lists.pins, &lists.macros));
            assert!(on_tree <= terminal && beside <= terminal);
        }
    }
}
