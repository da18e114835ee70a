//! Loads on pins [11]: the worked cases of both programs, and that loads change nothing but a net's file and delays.

use harness::library;
use harness::matching::{Case, File, Matched};
use reference::generate::{loaded, permuted, weighted, Kind};
use reference::lists::{unloaded, Lists};
use reference::net::Weights;
use reference::netfile::{self, Block, BLOCK_BYTES};
use reference::operations;

fn matched(result: Matched) {
    if let Err(difference) = result {
        panic!("{difference}");
    }
}

/// Pins on a diagonal below squares along another, the last pin with this load and all others with none.
fn net_of(m: i32, k: i32, load: i32) -> Lists {
    let mut pins: Vec<i32> = (0..m).flat_map(|i| [i, i - 9, 0]).collect();
    if let Some(last) = pins.last_mut() {
        *last = load;
    }
    Lists {
        pins,
        macros: (0..k)
            .flat_map(|i| [2 * i, 2 * i, 2 * i + 1, 2 * i + 1])
            .collect(),
        ..Lists::default()
    }
}

/// What both programs read from bytes, which must be the same: the whole lists, or a refusal.
fn read(bytes: &[u8]) -> Result<Lists, u32> {
    let file = |seed| File {
        kind: "worked",
        seed,
        bytes: bytes.to_vec(),
    };
    (0..20).for_each(|seed| matched(file(seed).read_file()));
    let (mut pins, mut macros) = (vec![0; 384], vec![0; 512]);
    let (m, k, weights) = library::read_file(bytes, &mut pins, &mut macros)?;
    pins.truncate(3 * m);
    macros.truncate(4 * k);
    Ok(Lists {
        pins,
        macros,
        weights,
    })
}

/// The kinds and counts of the blocks that the library writes, which must be those of the second program, and too few for a byte less.
fn fronts(lists: &Lists) -> Vec<(u32, u32)> {
    let (pins, macros, weights) = lists.parts();
    let expected = netfile::write(lists);
    let mut bytes = vec![7; expected.len()];
    let short = &mut bytes[1..];
    assert_eq!(library::write_file(pins, macros, weights, short), Err(21));
    let given = library::write_file(pins, macros, weights, &mut bytes);
    assert_eq!(given, Ok(expected.len()));
    assert_eq!(bytes, expected);
    assert_eq!(read(&bytes).as_ref(), Ok(lists));
    let blocks = netfile::blocks_of(&bytes);
    blocks.iter().map(|block| (block[0], block[2])).collect()
}

/// F14, F16, F24 and F25: the kind and the entries of each block, for nets with loads and without.
#[test]
fn files_at_the_bounds_of_blocks() {
    let head = (1, 0);
    let macros = [(3, 30), (3, 30), (3, 30), (3, 30), (3, 8)];
    for load in [1, 1_000_000] {
        assert_eq!(fronts(&net_of(1, 0, load)), [head, (4, 1)]);
        assert_eq!(fronts(&net_of(40, 0, load)), [head, (4, 40)]);
        assert_eq!(fronts(&net_of(41, 0, load)), [head, (4, 40), (4, 1)]);
        assert_eq!(fronts(&net_of(60, 0, load)), [head, (4, 40), (4, 20)]);
        let pins = [head, (4, 40), (4, 40), (4, 40), (4, 8)];
        assert_eq!(fronts(&net_of(128, 0, load)), pins);
        let longest = [&pins[..], &macros].concat();
        assert_eq!(longest.len(), netfile::BLOCKS);
        assert_eq!(fronts(&net_of(128, 128, load)), longest);
    }
    assert_eq!(fronts(&net_of(41, 0, 0)), [head, (2, 41)]);
    assert_eq!(fronts(&net_of(60, 0, 0)), [head, (2, 60)]);
    assert_eq!(fronts(&net_of(61, 0, 0)), [head, (2, 60), (2, 1)]);
    let pins = [head, (2, 60), (2, 60), (2, 8)];
    assert_eq!(fronts(&net_of(128, 128, 0)), [&pins[..], &macros].concat());
}

/// The blocks of a net's file changed, and their sums put right.
fn changed(lists: &Lists, change: impl Fn(&mut Vec<Block>)) -> Vec<u8> {
    let mut blocks = netfile::blocks_of(&netfile::write(lists));
    change(&mut blocks);
    blocks.iter_mut().for_each(netfile::seal);
    netfile::bytes_of(&blocks)
}

/// C3: blocks of kind 4 without any load are refused before any number of the net: by their words, whatever else stands
/// in them.
#[test]
fn kind_4_with_all_loads_0() {
    let last = |load: u32| move |blocks: &mut Vec<Block>| blocks[1][6] = load;
    assert_eq!(read(&changed(&net_of(1, 0, 5), last(0))), Err(3));
    assert_eq!(
        read(&changed(&net_of(1, 0, 5), last(6))),
        Ok(net_of(1, 0, 6))
    );
    assert_eq!(read(&changed(&net_of(1, 0, 5), last(1_000_001))), Err(13));
    assert_eq!(read(&changed(&net_of(1, 0, 5), last(u32::MAX))), Err(13));
    for m in [40, 41, 128, 129, 360] {
        let without = |blocks: &mut Vec<Block>| {
            let full = |block: &&mut Block| block[0] == 4;
            for block in blocks.iter_mut().filter(full) {
                (0..40).for_each(|entry| block[4 + 3 * entry + 2] = 0);
            }
        };
        assert_eq!(read(&changed(&net_of(m, 0, 5), without)), Err(3), "{m}");
        let answer = read(&netfile::write(&net_of(m, 0, 5))).map(|_| ());
        assert_eq!(answer, if m > 128 { Err(11) } else { Ok(()) }, "{m}");
    }
}

/// A pin block of each kind in one file, in either order; a block of kind 4 where there is no pin; a block of 60 entries of kind 4; and
/// what would be right as the other kind.
#[test]
fn blocks_of_the_other_kind() {
    let (with, without) = (net_of(80, 1, 5), net_of(80, 1, 0));
    let all = read(&netfile::write(&with));
    assert_eq!(all.as_ref(), Ok(&with));
    for (lists, number, kind) in [
        (&with, 1, 2),
        (&with, 2, 2),
        (&without, 1, 4),
        (&without, 2, 4),
    ] {
        let bytes = changed(lists, |blocks| blocks[number][0] = kind);
        assert_eq!(read(&bytes), Err(3), "block {number} of kind {kind}");
    }
    let bare = netfile::blocks_of(&netfile::write(&net_of(40, 1, 0)));
    let mixed = changed(&with, |blocks| {
        blocks[2] = bare[1];
        blocks[2][1] = 2;
    });
    assert_eq!(read(&mixed), Err(3));
    for kind in [2, 3, 4] {
        let bytes = changed(&with, |blocks| blocks[3][0] = kind);
        let answer = read(&bytes).map(|_| ());
        assert_eq!(answer, if kind == 3 { Ok(()) } else { Err(3) });
        let none = changed(&with, |blocks| {
            blocks.drain(1..3);
            (blocks[0][4], blocks[1][0], blocks[1][1]) = (0, kind, 1);
        });
        assert_eq!(read(&none), Err(if kind == 3 { 11 } else { 3 }));
    }
    let full = changed(&net_of(60, 0, 5), |blocks| {
        blocks.truncate(2);
        blocks[1][2] = 60;
    });
    assert_eq!(read(&full), Err(3));
}

/// "Up to 10 blocks in all": a right layout of 10 is looked into, one of 11 is 1, of either kind.
#[test]
fn ten_blocks_and_eleven() {
    for (m, k, load, blocks, answer) in [
        (128, 128, 5, 10, None),
        (129, 128, 5, 10, Some(11)),
        (128, 129, 5, 10, Some(12)),
        (360, 0, 5, 10, Some(11)),
        (540, 0, 0, 10, Some(11)),
        (128, 151, 5, 11, Some(1)),
        (361, 0, 5, 11, Some(1)),
        (541, 0, 0, 11, Some(1)),
    ] {
        let lists = net_of(m, k, load);
        let file = netfile::write(&lists);
        assert_eq!(file.len(), blocks * BLOCK_BYTES);
        assert_eq!(read(&file), answer.map_or(Ok(lists), Err), "{m} and {k}");
    }
}

/// "13 covers a load out of range", with whole threes before and equal places, "whatever the load", after it.
#[test]
fn refused_for_their_loads() {
    let check = |pins: &[i32]| {
        let ours = library::check(pins, &[], Weights::ONE);
        assert_eq!(ours, operations::check(pins, &[], Weights::ONE));
        ours
    };
    assert_eq!(check(&[0, 0, 0]), Ok(()));
    assert_eq!(check(&[0, 0, 1_000_000]), Ok(()));
    for load in [-1, 1_000_001, i32::MIN, i32::MAX] {
        assert_eq!(check(&[0, 0, load]), Err(13));
        assert_eq!(check(&[9, 9, 0, 0, 0, load]), Err(13));
        assert_eq!(check(&[0, 0, load, 0, 0, 0]), Err(13));
    }
    assert_eq!(check(&[0, 0]), Err(11));
    assert_eq!(check(&[0, 0, -1, 0]), Err(11));
    assert_eq!(check(&[0, 0, 0, 4, 0, 0, 2]), Err(11));
    assert_eq!(check(&[5, 0, 1, 5, 0, 2]), Err(15));
    assert_eq!(check(&[5, 0, 1, 5, 0, 1]), Err(15));
    assert_eq!(check(&[5, 0, 1, 5, 1, 1]), Ok(()));
}

/// All that an operation gives for an allowed net, but its file.
#[derive(Debug, PartialEq)]
struct Given {
    graph: (Vec<i32>, Vec<i32>, (usize, usize)),
    terminal: (Vec<i64>, (usize, i64)),
    trees: [(Vec<i32>, (usize, i64, i64)); 2],
    wires: (Vec<i32>, usize),
    price: Result<u64, u32>,
    bought: Result<(i64, i64), u32>,
    distances: (Vec<i64>, Result<usize, u32>),
    best: (Vec<i32>, Result<(usize, i64, i64), u32>),
}

fn given(lists: &Lists) -> Given {
    let (pins, macros, w) = lists.parts();
    let (m, n) = (pins.len() / 3, pins.len() / 3 + macros.len());
    let numbers = |count: usize| vec![7; count];
    let (mut vertices, mut edges, mut paths) = (numbers(2 * n), numbers(16 * n), vec![7; 5 * m]);
    let counts = library::graph(pins, macros, w, &mut vertices, &mut edges).unwrap();
    let terminal = library::terminal_tree(pins, macros, w, &mut paths).unwrap();
    let (mut tree, mut slid) = (numbers(4 * (n + m)), numbers(8 * (n + m)));
    let refined = library::refined_tree(pins, macros, w, &mut tree).unwrap();
    let moved = library::slid_tree(pins, macros, w, &mut slid).unwrap();
    let mut drawn = numbers(8 * (n + m));
    let wires = library::wires(pins, macros, w, &mut drawn).unwrap();
    let mut table = vec![7; m * m];
    let distances = library::grid_distances(pins, macros, w, &mut table);
    let lines = m + macros.len() / 2;
    let (mut work, mut least) = (vec![7; 65_536], numbers(4 * lines * lines));
    let best = library::best_tree(pins, macros, w, &mut work, &mut least);
    Given {
        bought: library::check_tree(pins, macros, w, &tree[..4 * refined.0]),
        price: library::price(pins, macros, w, &[100, 7, u64::MAX, 8]),
        graph: (vertices, edges, counts),
        terminal: (paths, terminal),
        trees: [(tree, refined), (slid, moved)],
        wires: (drawn, wires),
        distances: (table, distances),
        best: (least, best),
    }
}

/// "Two allowed nets that differ in loads alone get equal trees", best trees edge for edge too, and equal graphs, wires, prices, tables and
/// answers to bought-in trees; their files are not equal.
#[test]
fn loads_change_nothing_but_the_file() {
    let quick = [
        Kind::TinyEight,
        Kind::SideBySide,
        Kind::PinsOnCorners,
        Kind::Comb,
        Kind::Small,
        Kind::Bars,
        Kind::OnePin,
        Kind::NoMacros,
    ];
    let mut best = 0;
    for kind in quick {
        for seed in 0..25 {
            let without = weighted(kind, seed);
            let (one, other) = (loaded(&without, seed), loaded(&without, !seed));
            let answers = given(&without);
            best += usize::from(answers.best.1.is_ok_and(|(edges, ..)| edges > 1));
            for lists in [&one, &other] {
                assert_eq!(given(lists), answers, "{} {seed}", kind.name());
                assert_ne!(netfile::write(lists), netfile::write(&without));
                let (kind, lists) = (kind.name(), permuted(lists, seed));
                let case = Case { kind, seed, lists };
                matched(case.write_file());
                matched(case.read_back());
            }
        }
    }
    assert!(best > 20, "only {best} best trees of more than an edge");
}

/// "A pin becomes three numbers": six numbers are two pins, whatever they were before.
#[test]
fn six_numbers_are_two_pins() {
    let numbers = [0, 0, 4, 0, 2, 3];
    let terminal = |pins: &[i32]| {
        let mut paths = vec![0; 15];
        library::terminal_tree(pins, &[], Weights::ONE, &mut paths)
    };
    assert_eq!(terminal(&unloaded(&numbers)), Ok((2, 9)));
    assert_eq!(terminal(&numbers), Ok((1, 2)));
}
