//! The example nets of the repository are document 01's worked nets, and the proved router answers as the document says.

use std::path::Path;

use harness::library;
use reference::generate::chambers;
use reference::lists::Lists;
use reference::net::Weights;
use reference::netfile;
use reference::text;

/// The lists of an example net.
fn example(name: &str) -> Lists {
    let file = Path::new(env!("CARGO_MANIFEST_DIR")).join(format!("../examples/nets/{name}.txt"));
    let said = std::fs::read_to_string(&file)
        .unwrap_or_else(|error| panic!("{}: {error}", file.display()));
    text::parse(&said).unwrap_or_else(|bad| panic!("{}: {bad}", file.display()))
}

/// The allowed ones, which have a net file too.
const ALLOWED: [&str; 7] = [
    "one-pin",
    "around-one",
    "three-pins",
    "shared-side",
    "on-sides",
    "on-boundary",
    "loads",
];

/// The bytes of an example net file.
fn example_file(name: &str) -> Vec<u8> {
    let file = Path::new(env!("CARGO_MANIFEST_DIR")).join(format!("../examples/files/{name}.net"));
    std::fs::read(&file).unwrap_or_else(|error| panic!("{}: {error}", file.display()))
}

/// The proved router reads the net that is in the text, and writes the same file of it.
#[test]
fn files_of_the_worked_nets() {
    for name in ALLOWED {
        let (lists, bytes) = (example(name), example_file(name));
        let (mut pins, mut macros) = (vec![0; 384], vec![0; 512]);
        let (m, k, weights) = library::read_file(&bytes, &mut pins, &mut macros).expect(name);
        assert_eq!(pins[..3 * m], lists.pins, "{name}");
        assert_eq!(macros[..4 * k], lists.macros, "{name}");
        assert_eq!(weights, lists.weights, "{name}");
        let mut written = vec![0; bytes.len()];
        assert_eq!(
            library::write_file(&lists.pins, &lists.macros, lists.weights, &mut written),
            Ok(bytes.len()),
            "{name}"
        );
        assert_eq!(written, bytes, "{name}");
    }
}

/// "eight graph edges"
#[test]
fn graph_of_the_second_worked_net() {
    let lists = example("around-one");
    let (pins, macros, weights) = lists.parts();
    let (mut vertices, mut edges) = (vec![0; 12], vec![0; 96]);
    assert_eq!(
        library::graph(pins, macros, weights, &mut vertices, &mut edges),
        Ok((6, 8))
    );
    assert_eq!(edges[..4], [0, 0, 4, -2]);
}

#[test]
fn check_of_the_worked_nets() {
    let answers = [
        ("one-pin", Ok(())),
        ("no-pin", Err(11)),
        ("around-one", Ok(())),
        ("three-pins", Ok(())),
        ("shared-side", Ok(())),
        ("on-sides", Ok(())),
        ("overlapping", Err(16)),
        ("on-boundary", Ok(())),
        ("loads", Ok(())),
        ("in-interior", Err(17)),
        ("twice-in-interior", Err(15)),
        ("no-width", Err(14)),
    ];
    for (name, answer) in answers {
        let lists = example(name);
        let (pins, macros, weights) = lists.parts();
        assert_eq!(library::check(pins, macros, weights), answer, "{name}");
    }
}

/// The paths of the terminal tree with its total, and the edges of the refined tree with its total, its metal and its wires.
#[derive(Debug, PartialEq)]
struct Trees {
    paths: Vec<i64>,
    terminal: i64,
    edges: Vec<i32>,
    refined: i64,
    metal: i64,
    wires: Vec<i32>,
}

/// All three operations under weights 1 and 1.
fn trees(pins: &[i32], macros: &[i32]) -> Result<Trees, u32> {
    weighed(pins, macros, Weights::ONE)
}

/// All three operations in the space that document 01 names; they must agree on a refusal.
fn weighed(pins: &[i32], macros: &[i32], weights: Weights) -> Result<Trees, u32> {
    let (m, n) = (pins.len() / 3, pins.len() / 3 + macros.len());
    let mut paths = vec![0; 5 * m];
    let (mut edges, mut wires) = (vec![0; 4 * (n + m)], vec![0; 8 * (n + m)]);
    let terminal = library::terminal_tree(pins, macros, weights, &mut paths);
    let refined = library::refined_tree(pins, macros, weights, &mut edges);
    let drawn = library::wires(pins, macros, weights, &mut wires);
    assert_eq!(terminal.err(), refined.err());
    assert_eq!(terminal.err(), drawn.err());
    let ((paths_given, terminal), (edges_given, refined, metal)) = (terminal?, refined?);
    paths.truncate(5 * paths_given);
    edges.truncate(4 * edges_given);
    wires.truncate(4 * drawn?);
    Ok(Trees {
        paths,
        terminal,
        edges,
        refined,
        metal,
        wires,
    })
}

/// "Pins (0, 0), (4, 0), (2, 3): terminal 9, refined 7", and the tree that the program prints.
#[test]
fn trees_of_the_third_worked_net() {
    let Lists { pins, macros, .. } = example("three-pins");
    let expected = Trees {
        paths: vec![0, 0, 4, 0, 4, 0, 0, 2, 3, 5],
        terminal: 9,
        edges: vec![0, 0, 2, 0, 2, 0, 2, 3, 2, 0, 4, 0],
        refined: 7,
        metal: 7,
        wires: vec![0, 0, 2, 0, 2, 0, 2, 3, 2, 0, 4, 0],
    };
    assert_eq!(trees(&pins, &macros), Ok(expected));
}

/// The bridges, lengths and totals that the document names.
#[test]
fn trees_of_the_worked_nets() {
    let answers: [(&str, &[i64], i64, i64); 6] = [
        ("one-pin", &[], 0, 0),
        ("around-one", &[4, -2, 6, -2, 14], 14, 14),
        ("shared-side", &[2, 0, 2, 2, 4], 4, 4),
        ("on-sides", &[0, 0, 1, 0, 3], 3, 3),
        ("on-boundary", &[], 0, 0),
        ("three-pins", &[0, 0, 4, 0, 4, 0, 0, 2, 3, 5], 9, 7),
    ];
    for (name, paths, terminal, refined) in answers {
        let Lists { pins, macros, .. } = example(name);
        let laid = trees(&pins, &macros).expect(name);
        assert_eq!(laid.paths, paths, "{name}");
        assert_eq!((laid.terminal, laid.refined), (terminal, refined), "{name}");
        assert_eq!(laid.metal, refined, "{name}");
    }
    let Lists { pins, macros, .. } = example("one-pin");
    let alone = trees(&pins, &macros).unwrap();
    assert_eq!((alone.edges, alone.wires), (vec![], vec![]));
}

#[test]
fn refusals_of_the_worked_nets() {
    for (name, number) in [
        ("no-pin", 11),
        ("overlapping", 16),
        ("in-interior", 17),
        ("twice-in-interior", 15),
        ("no-width", 14),
    ] {
        let Lists { pins, macros, .. } = example(name);
        assert_eq!(trees(&pins, &macros), Err(number), "{name}");
    }
}

/// "Coordinate 1,000,000 passes, 1,000,001 is 13", and by [8] 128 pins pass, 129 are 11; 128 macros pass, 129 are 12.
#[test]
fn trees_at_the_bounds() {
    let ends = [-1_000_000, -1_000_000, 0, 1_000_000, 1_000_000, 0];
    let laid = trees(&ends, &[]).unwrap();
    assert_eq!((laid.terminal, laid.refined), (4_000_000, 4_000_000));
    assert_eq!(
        laid.wires[..4],
        [-1_000_000, -1_000_000, 1_000_000, -1_000_000]
    );
    assert_eq!(trees(&[0, 0, 0, 1_000_001, 0, 0], &[]), Err(13));
    let pins = |count: i32| (0..count).flat_map(|i| [i, 0, 0]).collect::<Vec<i32>>();
    let macros = |count: i32| {
        (0..count)
            .flat_map(|i| [i, 0, i + 1, 1])
            .collect::<Vec<i32>>()
    };
    let laid = trees(&pins(128), &[]).unwrap();
    assert_eq!((laid.terminal, laid.refined), (127, 127));
    assert_eq!(trees(&pins(129), &[]), Err(11));
    let laid = trees(&[0, 0, 0, 128, 1, 0], &macros(128)).unwrap();
    assert_eq!((laid.terminal, laid.refined), (129, 129));
    assert_eq!(trees(&[0, 0, 0], &macros(129)), Err(12));
}

/// A file may have 10 blocks since [11], and with 11 it is 1 whatever it counts. A right layout of 9 with 129 pins or macros is 11 or 12.
#[test]
fn files_at_the_bounds() {
    for (m, k, blocks, answer) in [
        (128, 128, 9, Ok((128, 128, Weights::ONE))),
        (129, 128, 9, Err(11)),
        (128, 129, 9, Err(12)),
        (480, 0, 9, Err(11)),
        (1, 129, 7, Err(12)),
        (128, 151, 10, Err(12)),
        (481, 0, 10, Err(11)),
        (128, 181, 11, Err(1)),
        (541, 0, 11, Err(1)),
    ] {
        // Pins on a diagonal below squares along another.
        let file = netfile::write(&Lists {
            pins: (0..m).flat_map(|i| [i, i - 9, 0]).collect(),
            macros: (0..k)
                .flat_map(|i| [2 * i, 2 * i, 2 * i + 1, 2 * i + 1])
                .collect(),
            ..Lists::default()
        });
        assert_eq!(file.len(), blocks * netfile::BLOCK_BYTES, "{m} and {k}");
        let (mut pins, mut macros) = (vec![0; 384], vec![0; 512]);
        let read = library::read_file(&file, &mut pins, &mut macros);
        assert_eq!(read, answer, "{m} and {k}");
        for (fewer, short) in [((383, 512), "pins"), ((384, 511), "macros")] {
            let read = library::read_file(&file, &mut pins[..fewer.0], &mut macros[..fewer.1]);
            assert_eq!(read, Err(21), "{m} and {k}, too little for {short}");
        }
    }
}

/// The net of the first request: weights 1 and 3, and a round that gains 1 in cost and lays 1 more metal than it removes.
const WEIGHED: [i32; 12] = [3, 1, 0, 0, 0, 0, 2, 0, 0, 0, 2, 0];

#[test]
fn trees_of_the_weighed_net() {
    let laid = weighed(&WEIGHED, &[], Weights { x: 1, y: 3 });
    let expected = Trees {
        paths: vec![0, 0, 2, 0, 2, 2, 0, 3, 1, 4, 0, 0, 0, 2, 6],
        terminal: 12,
        edges: vec![0, 0, 0, 1, 0, 0, 2, 0, 0, 1, 0, 2, 0, 1, 3, 1],
        refined: 11,
        metal: 7,
        wires: vec![0, 0, 0, 1, 0, 0, 2, 0, 0, 1, 0, 2, 0, 1, 3, 1],
    };
    assert_eq!(laid, Ok(expected));
}

/// "18, a weight outside 1 to 8, after 17": 0 and 9, one or both; and a net that overlaps with weight 9 is 16.
#[test]
fn weights_at_the_bounds() {
    for (x, y) in [
        (0, 1),
        (1, 0),
        (9, 1),
        (1, 9),
        (0, 9),
        (-1, 8),
        (i32::MIN, i32::MAX),
    ] {
        let weights = Weights { x, y };
        assert_eq!(
            library::check(&WEIGHED, &[], weights),
            Err(18),
            "{weights:?}"
        );
        assert_eq!(weighed(&WEIGHED, &[], weights), Err(18), "{weights:?}");
    }
    for (x, y) in [(1, 8), (8, 1), (8, 8)] {
        assert_eq!(library::check(&WEIGHED, &[], Weights { x, y }), Ok(()));
    }
    let lists = example("overlapping");
    let nine = Weights { x: 9, y: 1 };
    assert_eq!(weighed(&lists.pins, &lists.macros, nine), Err(16));
    let ends = [-1_000_000, -1_000_000, 0, 1_000_000, 1_000_000, 0];
    let laid = weighed(&ends, &[], Weights { x: 8, y: 8 }).unwrap();
    assert_eq!((laid.terminal, laid.refined), (32_000_000, 32_000_000));
    assert_eq!(laid.metal, 4_000_000);
}

/// F18, and C3 for words that no writer stores: each weight word from 0 to 10, and some far above.
#[test]
fn weight_words_of_the_file() {
    let file = netfile::write(&Lists {
        pins: WEIGHED.to_vec(),
        ..Lists::default()
    });
    for word in (0..=10).chain([256 + 2, 1 << 31, u32::MAX]) {
        for at in [6, 7] {
            let mut blocks = netfile::blocks_of(&file);
            blocks[0][at] = word;
            netfile::seal(&mut blocks[0]);
            let bytes = netfile::bytes_of(&blocks);
            let read = library::read_file(&bytes, &mut [0; 384], &mut [0; 512]);
            let weight = if word == 0 { 1 } else { word as i32 };
            let weights = match at {
                6 => Weights { x: weight, y: 1 },
                _ => Weights { x: 1, y: weight },
            };
            let expected = match word {
                0 | 2..=8 => Ok((4, 0, weights)),
                _ => Err(3),
            };
            assert_eq!(read, expected, "word {at} is {word}");
            if expected.is_ok() {
                let mut written = vec![0; bytes.len()];
                let given = library::write_file(&WEIGHED, &[], weights, &mut written);
                assert_eq!((given, written), (Ok(bytes.len()), bytes));
            }
        }
    }
}

/// A dropped candidate would have won: the net of docs/DECISIONS.md.
#[test]
fn a_dropped_candidate_changes_the_tree() {
    let pins = [0, 9, 0, 2, 11, 0, 3, 18, 0, 4, 10, 0, 9, 15, 0, 13, 11, 0];
    let laid = trees(&pins, &[0, 11, 4, 18, 4, 11, 9, 18]).unwrap();
    assert_eq!(laid.edges[..8], [0, 9, 2, 10, 2, 10, 2, 11]);
    assert_eq!((laid.edges.len(), laid.refined), (40, 29));
}

/// [3]: the corner (5, 8), which no path uses, is joined to (4, 7) over (4, 8) for 2; the edge from (5, 0) to (8, 4) meets it at (5, 4)
/// for 4 more, and the edge from (4, 0) to (4, 7), which is 7, goes.
#[test]
fn a_corner_beside_the_tree() {
    let laid = trees(&[4, 0, 0, 4, 7, 0, 8, 4, 0], &[4, 0, 5, 8]).unwrap();
    assert_eq!((laid.terminal, laid.refined, laid.metal), (15, 14, 14));
    let edges = [
        [4, 0, 5, 0],
        [4, 7, 4, 8],
        [4, 8, 5, 8],
        [5, 0, 5, 4],
        [5, 4, 5, 8],
        [5, 4, 8, 4],
    ];
    assert_eq!(laid.edges, edges.concat());
    assert_eq!(laid.wires, edges.concat());
}

/// The rule of [3] does not always give the shorter tree: by that of document 01 this one is 990.
#[test]
fn a_round_beside_the_tree_takes_a_round_on_it() {
    let mut macros = chambers(4);
    macros.extend([-412, 0, -400, 96]);
    let laid = trees(&[-400, 0, 0, -400, 84, 0, -448, 48, 0, 410, 0, 0], &macros).unwrap();
    assert_eq!((laid.terminal, laid.refined), (1150, 1018));
}

/// With one pin there is no edge and so no candidate, however many vertices stand beside the tree.
#[test]
fn one_pin_with_vertices_beside_it() {
    for macros in [vec![], vec![0, 0, 3, 3], chambers(4)] {
        let laid = trees(&[-5, 5, 0], &macros).unwrap();
        assert_eq!((laid.terminal, laid.refined, laid.metal), (0, 0, 0));
        assert_eq!((laid.edges, laid.wires), (vec![], vec![]));
    }
}
