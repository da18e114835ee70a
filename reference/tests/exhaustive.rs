//! Mission demand 3 on small nets, by every terminal path there is; and that the judge finds what
//! is wrong.

use std::collections::BTreeSet;

use reference::edge::Edge;
use reference::exhaustive::{Every, Fault, Given};
use reference::generate::{net, weighted, Kind};
use reference::net::{check, Net, Place, Weights};
use reference::terminal::terminal;

/// A small net, every other one with weights of all sorts.
fn small(seed: u64) -> Net {
    let lists = match seed % 2 {
        0 => net(Kind::Small, seed),
        _ => weighted(Kind::Small, seed),
    };
    check(&lists.pins, &lists.macros, lists.weights).expect("generated nets are allowed")
}

/// The terminal tree of the second program, as the call gives it.
fn given(net: &Net) -> Given {
    let tree = terminal(net);
    Given {
        paths: tree.paths.iter().map(|p| (p.bridge, p.cost)).collect(),
        total: tree.total,
    }
}

#[test]
fn no_joining_and_no_chain_is_shorter() {
    let (mut paths, mut most, mut few) = (0, 0, 0);
    for seed in 0..2_000 {
        let net = small(seed);
        let every = Every::of(&net);
        let faults = every.faults(&given(&net));
        assert_eq!(faults, BTreeSet::new(), "small {seed}");
        paths += every.paths().len();
        most = most.max(every.paths().len());
        few += usize::from(every.is_few());
    }
    println!("2000 nets, {paths} terminal paths, at most {most} of one net; every set of {few}");
    assert!(few >= 400, "only {few} nets had every set tried");
    assert!(most >= 1_000, "no net had many paths: at most {most}");
}

/// Counted by hand: from either lower or upper corner on the left the way goes along the macro's
/// left side or does not, then over to the right, and there along its right side or not.
#[test]
fn every_path_of_the_second_worked_net() {
    let net = check(&[0, 0, 0, 10, 0, 0], &[4, -2, 6, 3], Weights::ONE).unwrap();
    let every = Every::of(&net);
    assert_eq!(every.paths().len(), 2 * 2 * 2);
    for (corners, length) in [
        (&[(4, -2), (6, -2)][..], 14),
        (&[(4, 3), (6, 3)][..], 16),
        (&[(4, -2), (4, 3), (6, 3), (6, -2)][..], 24),
    ] {
        let ends = (&[(0, 0)][..], &[(10, 0)][..]);
        let along = [ends.0, corners, ends.1].concat();
        let along: Vec<Place> = along.into_iter().map(|(x, y)| Place { x, y }).collect();
        let found = every.paths().iter().find(|path| path.vertices == along);
        assert_eq!(found.map(|path| path.cost), Some(length), "{corners:?}");
    }
}

/// A total that is made up is found, above and below the sum.
#[test]
fn a_wrong_total_is_found() {
    for seed in 0..200 {
        let net = small(seed);
        let every = Every::of(&net);
        for change in [-1, 1] {
            let mut wrong = given(&net);
            let sum = wrong.total;
            wrong.total += change;
            let said = wrong.total;
            let faults = every.faults(&wrong);
            assert!(faults.contains(&Fault::Total { said, sum }), "small {seed}");
            let shorter = Fault::ShorterJoining { said, found: sum };
            assert_eq!(faults.contains(&shorter), change > 0, "small {seed}");
        }
    }
}

/// A cost that is no path's, a bridge that is no edge, a path left out and one given twice.
#[test]
fn wrong_paths_are_found() {
    let net = check(&[0, 0, 0, 4, 0, 0, 2, 3, 0], &[], Weights::ONE).unwrap();
    let every = Every::of(&net);
    let right = given(&net);
    assert_eq!(every.faults(&right), BTreeSet::new());
    let edge = |a, b, c, d| Edge::new(Place { x: a, y: b }, Place { x: c, y: d });
    let (first, second) = (right.paths[0], right.paths[1]);
    for (paths, fault) in [
        (
            vec![first, (second.0, 4)],
            Fault::NoTerminalPath(second.0, 4),
        ),
        (
            vec![first, (edge(0, 0, 2, 0), 5)],
            Fault::NoTerminalPath(edge(0, 0, 2, 0), 5),
        ),
        (vec![first], Fault::NoJoining),
        (vec![first, first], Fault::NoJoining),
        (vec![first, second, second], Fault::NoJoining),
    ] {
        let total = paths.iter().map(|&(_, length)| length).sum();
        let faults = every.faults(&Given { paths, total });
        assert!(faults.contains(&fault), "{faults:?}");
    }
}

/// A terminal tree that takes its bridges in another order than T12: by the greatest path cost, or
/// by what the bridge alone costs.
fn wrongly_kept(net: &Net, every: &Every, weight: impl Fn(Edge, i64) -> i64) -> Given {
    let mut bridges = Vec::new();
    for &edge in every.edges() {
        let (before, one) = every.root(edge.first());
        let (after, other) = every.root(edge.second());
        if one != other {
            let cost = before + edge.cost(net.weights()) + after;
            bridges.push((edge, cost, one, other));
        }
    }
    bridges.sort_by_key(|&(edge, cost, ..)| (weight(edge, cost), edge));
    let mut groups: Vec<BTreeSet<Place>> = Vec::new();
    let mut paths = Vec::new();
    for (edge, cost, one, other) in bridges {
        if groups
            .iter()
            .any(|g| g.contains(&one) && g.contains(&other))
        {
            continue;
        }
        let touched = |g: &BTreeSet<Place>| g.contains(&one) || g.contains(&other);
        let (joined, apart): (Vec<_>, Vec<_>) = groups.into_iter().partition(touched);
        let mut group: BTreeSet<Place> = joined.into_iter().flatten().collect();
        group.extend([one, other]);
        groups = apart;
        groups.push(group);
        paths.push((edge, cost));
    }
    let total = paths.iter().map(|&(_, cost)| cost).sum();
    Given { paths, total }
}

/// Where a wrong order makes the tree longer, both a shorter joining and a shorter chain are found;
/// with the right order this router has no fault.
#[test]
fn a_longer_tree_is_found() {
    let (mut longest_first, mut own_cost) = (0, 0);
    for seed in 0..600 {
        let net = small(seed);
        let every = Every::of(&net);
        let least = given(&net).total;
        let right = wrongly_kept(&net, &every, |_, cost| cost);
        assert_eq!(right, given(&net), "small {seed}");
        for (wrong, count) in [
            (
                wrongly_kept(&net, &every, |_, cost| -cost),
                &mut longest_first,
            ),
            (
                wrongly_kept(&net, &every, |edge, _| edge.cost(net.weights())),
                &mut own_cost,
            ),
        ] {
            let faults = every.faults(&wrong);
            let said = wrong.total;
            let found = least;
            let shorter = Fault::ShorterJoining { said, found };
            assert_eq!(faults.contains(&shorter), found < said, "small {seed}");
            let chain = |fault: &Fault| matches!(fault, Fault::ShorterChain { .. });
            assert_eq!(faults.iter().any(chain), found < said, "small {seed}");
            *count += usize::from(found < said);
        }
    }
    println!("longer trees found: {longest_first} by longest first, {own_cost} by own cost");
    assert!(longest_first > 100 && own_cost > 10);
}
