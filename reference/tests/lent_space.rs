//! "Refusal by operation": lent space short, just enough and more, on every operation.

mod common;

use std::fmt::Debug;

use reference::generate::{hostile_weighted, net, Hostile, Kind};
use reference::graph::graph;
use reference::lists::Lists;
use reference::net::{check, Net};
use reference::netfile;
use reference::operations;
use reference::refined::refined;
use reference::terminal::terminal;
use reference::wires::wires;

/// What stands in lent space beforehand.
const GUARD: u8 = 77;

/// Lends space one short, just enough and more than enough to an operation with one lent space:
/// 21 and nothing altered, then the answer and the guards behind it.
fn lend<T, A>(
    need: usize,
    answer: &[T],
    said: A,
    name: &str,
    operation: impl Fn(&mut [T]) -> Result<A, u32>,
) where
    T: Copy + PartialEq + Debug + From<u8>,
    A: Copy + PartialEq + Debug,
{
    let guard = T::from(GUARD);
    let mut short = vec![guard; need - 1];
    assert_eq!(operation(&mut short), Err(21), "{name}");
    assert!(short.iter().all(|&number| number == guard), "{name}");
    for length in [need, need + 9] {
        let mut space = vec![guard; length];
        assert_eq!(operation(&mut space), Ok(said), "{name}");
        assert_eq!(space[..answer.len()], *answer, "{name}");
        let rest = &space[answer.len()..];
        assert!(rest.iter().all(|&number| number == guard), "{name}");
    }
}

/// Places of an allowed net's answers as lent numbers.
fn narrow(numbers: impl Iterator<Item = i64>) -> Vec<i32> {
    numbers.map(|c| i32::try_from(c).unwrap()).collect()
}

fn allowed(seeds: u64) -> impl Iterator<Item = (String, Lists, Net)> {
    common::nets(seeds).map(|(name, lists)| {
        let net = check(&lists.pins, &lists.macros, lists.weights).unwrap();
        (name, lists, net)
    })
}

#[test]
fn terminal_tree_space() {
    for (name, l, net) in allowed(4) {
        let tree = terminal(&net);
        let of_path = |p: &reference::terminal::Path| {
            let (a, b) = (p.bridge.first(), p.bridge.second());
            [a.x, a.y, b.x, b.y, p.cost]
        };
        let answer: Vec<i64> = tree.paths.iter().flat_map(of_path).collect();
        let said = (tree.paths.len(), tree.total);
        lend(5 * net.m(), &answer, said, &name, |space| {
            operations::terminal_tree(&l.pins, &l.macros, l.weights, space)
        });
    }
}

#[test]
fn refined_tree_space() {
    for (name, l, net) in allowed(4) {
        let laid = refined(&net);
        let ends = laid.edges.iter().flat_map(|e| [e.first(), e.second()]);
        let answer = narrow(ends.flat_map(|p| [p.x, p.y]));
        let said = (laid.edges.len(), laid.total, laid.metal);
        lend(4 * (net.n() + net.m()), &answer, said, &name, |space| {
            operations::refined_tree(&l.pins, &l.macros, l.weights, space)
        });
    }
}

#[test]
fn wire_space() {
    for (name, l, net) in allowed(4) {
        let drawn = wires(&refined(&net).edges);
        let ends = drawn.iter().flat_map(|wire| [wire.start, wire.end]);
        let answer = narrow(ends.flat_map(|p| [p.x, p.y]));
        lend(
            8 * (net.n() + net.m()),
            &answer,
            drawn.len(),
            &name,
            |space| operations::wires(&l.pins, &l.macros, l.weights, space),
        );
    }
}

#[test]
fn file_space() {
    for (name, l, _) in allowed(4) {
        let file = netfile::write(&l);
        lend(file.len(), &file, file.len(), &name, |space| {
            operations::write_file(&l.pins, &l.macros, l.weights, space)
        });
    }
}

/// Two lent spaces: each may be the short one.
#[test]
fn graph_space() {
    for (name, l, net) in allowed(4) {
        let whole = graph(&net);
        let vertices = narrow(whole.vertices.iter().flat_map(|v| [v.x, v.y]));
        let ends = whole.edges.iter().flat_map(|e| [e.first(), e.second()]);
        let edges = narrow(ends.flat_map(|p| [p.x, p.y]));
        let said = (whole.vertices.len(), whole.edges.len());
        let call =
            |v: &mut [i32], e: &mut [i32]| operations::graph(&l.pins, &l.macros, l.weights, v, e);
        let n = net.n();
        let short = &mut vec![77; 16 * n - 1];
        assert_eq!(call(&mut vec![77; 2 * n], short), Err(21), "{name}");
        assert_eq!(*short, vec![77; 16 * n - 1], "{name}");
        lend(2 * n, &vertices, said, &name, |space| {
            call(space, &mut vec![77; 16 * n])
        });
        lend(16 * n, &edges, said, &name, |space| {
            call(&mut vec![77; 2 * n], space)
        });
    }
}

/// Two lent spaces again; 21 comes before anything is said of the file.
#[test]
fn read_space() {
    for (name, l, net) in allowed(4) {
        let file = netfile::write(&l);
        let said = (net.m(), net.k(), net.weights());
        lend(384, &l.pins, said, &name, |space| {
            operations::read_file(&file, space, &mut [0; 512])
        });
        lend(512, &l.macros, said, &name, |space| {
            operations::read_file(&file, &mut [0; 384], space)
        });
    }
    let (pins, macros) = (&mut [0; 383], &mut [0; 512]);
    assert_eq!(operations::read_file(&[], pins, macros), Err(21));
    // What the reader asked for before [8] is too little now, for any file.
    let (pins, macros) = (&mut [0; 128], &mut [0; 384]);
    assert_eq!(operations::read_file(&[], pins, macros), Err(21));
}

/// The net's own refusals come before 21, with nothing lent and with much, and nothing is altered.
#[test]
fn the_net_comes_before_the_space() {
    for &kind in Hostile::ALL {
        for seed in 0..40 {
            let lists = hostile_weighted(kind, seed);
            let Lists {
                pins,
                macros,
                weights,
            } = lists;
            let Err(number) = operations::check(&pins, &macros, weights) else {
                continue;
            };
            let (small, big) = (&mut [77; 12_000], &mut [77; 12_000]);
            let wide = &mut [77; 12_000];
            let bytes = &mut [77; 12_000];
            let refused = Err(number);
            assert_eq!(
                operations::graph(&pins, &macros, weights, small, big),
                refused
            );
            let none = operations::graph(&pins, &macros, weights, &mut [], &mut []);
            assert_eq!(none, refused);
            let paths = operations::terminal_tree(&pins, &macros, weights, wide);
            assert_eq!(paths.err(), Some(number));
            let edges = operations::refined_tree(&pins, &macros, weights, small);
            assert_eq!(edges.err(), Some(number));
            let wires = operations::wires(&pins, &macros, weights, small);
            assert_eq!(wires, Err(number));
            let price = operations::price(&pins, &macros, weights, &[]);
            assert_eq!(price, Err(number));
            let file = operations::write_file(&pins, &macros, weights, bytes);
            assert_eq!(file, Err(number));
            assert_eq!((*small, *big), ([77; 12_000], [77; 12_000]));
            assert_eq!((*wide, *bytes), ([77; 12_000], [77; 12_000]));
        }
    }
}

/// A refused file alters neither list.
#[test]
fn a_refused_file_alters_nothing() {
    let mut file = netfile::write(&net(Kind::Largest, 1));
    file[513] ^= 1;
    let (pins, macros) = (&mut [77; 384], &mut [77; 512]);
    assert_eq!(operations::read_file(&file, pins, macros), Err(2));
    assert_eq!((*pins, *macros), ([77; 384], [77; 512]));
}
