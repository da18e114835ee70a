//! The proved router and the second program give the same answers and leave the same lent space.

use std::io::Write;

use harness::counted::Counted;
use harness::library;
use harness::matching::{allowed, any, file, refused, routed, Case, File, Matched};
use reference::generate::{hostile, loaded, net, weighted, Hostile, Kind};
use reference::lists::{unloaded, Lists};
use reference::net::{check, Weights};
use reference::netfile::{self, BLOCK_BYTES};
use reference::operations;
use reference::refined::{refined, Statistics};

/// Stops at a difference and prints it.
fn matched(result: Matched) {
    if let Err(difference) = result {
        panic!("{difference}");
    }
}

#[test]
fn check_on_a_hundred_thousand_lists() {
    for seed in 0..100_000 {
        matched(any(seed).check());
    }
}

/// Every answer must have been met often, or the match above says little.
#[test]
fn the_lists_meet_every_answer() {
    let mut met = [0; 19];
    for seed in 0..2_000 {
        let lists = any(seed).lists;
        match operations::check(&lists.pins, &lists.macros, lists.weights) {
            Ok(()) => met[0] += 1,
            Err(number) => met[number as usize] += 1,
        }
    }
    for number in [0, 11, 12, 13, 14, 15, 16, 17, 18] {
        let times = met[number];
        assert!(
            times >= 20,
            "answer {number} was met {times} times in 2,000 lists"
        );
    }
}

/// A net of each kind with each pair of weights from −1 to 10 and with weights at the ends of 32 bits, and nets to be refused with 9.
#[test]
fn check_on_every_pair_of_weights() {
    let ends = [i32::MIN, i32::MIN + 1, 257, 1 << 16, i32::MAX - 1, i32::MAX];
    let values: Vec<i32> = (-1..=10).chain(ends).collect();
    let case = |kind, lists: Lists, weights| Case {
        kind,
        seed: 1,
        lists: Lists { weights, ..lists },
    };
    let quick = [Kind::TinyFour, Kind::Far, Kind::Largest, Kind::OnePin];
    for kind in quick {
        let lists = net(kind, 1);
        for &x in &values {
            for &y in &values {
                let weighed = case(kind.name(), lists.clone(), Weights { x, y });
                matched(weighed.check());
                matched(weighed.write_file());
                matched(weighed.read_back());
            }
        }
    }
    for &kind in Hostile::ALL {
        for seed in 0..50 {
            let weights = Weights { x: 9, y: 1 };
            matched(case(kind.name(), hostile(kind, seed), weights).check());
        }
    }
}

/// 128 pins and 128 macros out to ±1,000,000: the greatest costs that there are, under the greatest weights and under each axis's alone.
#[test]
fn the_largest_nets_with_the_greatest_weights() {
    let mut greatest = 0;
    for seed in 0..2 {
        for (x, y) in [(8, 8), (1, 8), (8, 1)] {
            let lists = Lists {
                weights: Weights { x, y },
                ..net(Kind::LargestFar, seed)
            };
            let (pins, macros, weights) = lists.parts();
            let (_, total) =
                library::terminal_tree(pins, macros, weights, &mut [0; 640]).expect("space enough");
            greatest = greatest.max(total);
            let case = Case {
                kind: Kind::LargestFar.name(),
                seed,
                lists,
            };
            matched(case.graph());
            matched(case.terminal_tree());
            matched(case.refined_tree());
            matched(case.slid_tree());
            matched(case.wires());
            matched(case.price().map(|_| ()));
            matched(case.write_file());
            matched(case.read_back());
        }
    }
    writeln!(
        std::io::stderr(),
        "terminal trees of 128 pins and 128 macros: {greatest} the greatest total"
    )
    .unwrap();
    assert!(greatest > 500_000_000, "{greatest}");
}

/// Each coordinate times its axis's weight, and weights 1 and 1.
fn stretched(lists: &Lists) -> Lists {
    let (pins, macros, Weights { x, y }) = lists.parts();
    let times = |list: &[i32], axes: &[i32]| {
        let axes = axes.iter().cycle();
        list.iter().zip(axes).map(|(c, by)| c * by).collect()
    };
    Lists {
        pins: times(pins, &[x, y, 1]),
        macros: times(macros, &[x, y, x, y]),
        ..Lists::default()
    }
}

/// The edges of the graph, the paths, the edges of the refined tree, and both totals.
#[derive(PartialEq)]
struct Trees {
    graph: Vec<i32>,
    paths: Vec<i64>,
    tree: Vec<i32>,
    totals: [i64; 2],
}

/// What the proved router answers.
fn trees(lists: &Lists) -> Result<Trees, u32> {
    let (pins, macros, weights) = lists.parts();
    let (m, n) = (pins.len() / 3, pins.len() / 3 + macros.len());
    let (mut vertices, mut graph) = (vec![0; 2 * n], vec![0; 16 * n]);
    let (mut paths, mut tree) = (vec![0; 5 * m], vec![0; 4 * (n + m)]);
    let (_, edges) = library::graph(pins, macros, weights, &mut vertices, &mut graph)?;
    let (kept, terminal) = library::terminal_tree(pins, macros, weights, &mut paths)?;
    let (laid, refined, _) = library::refined_tree(pins, macros, weights, &mut tree)?;
    graph.truncate(4 * edges);
    paths.truncate(5 * kept);
    tree.truncate(4 * laid);
    Ok(Trees {
        graph,
        paths,
        tree,
        totals: [terminal, refined],
    })
}

impl Trees {
    /// Each coordinate times its axis's weight; costs are left.
    fn stretched(mut self, Weights { x, y }: Weights) -> Trees {
        let axes = [x, y];
        for list in [&mut self.graph, &mut self.tree] {
            for (at, coordinate) in list.iter_mut().enumerate() {
                *coordinate *= axes[at % 2];
            }
        }
        for path in self.paths.chunks_exact_mut(5) {
            for (at, coordinate) in path[..4].iter_mut().enumerate() {
                *coordinate *= i64::from(axes[at % 2]);
            }
        }
        self
    }
}

/// Weights are a stretch of the die, which changes no order, no clear box and no middle: the proved router gives a net stretched along each
/// axis by its weight the stretched trees, with the same costs, under weights 1 and 1. The second program has no part in this.
#[test]
fn weights_are_a_stretch() {
    let mut compared = 0;
    for seed in 0..3_000 {
        let case = routed(seed);
        let weights = case.lists.weights;
        // A net near the ends of the range does not fit once it is stretched.
        if let Ok(wide) = trees(&stretched(&case.lists)) {
            let ours = trees(&case.lists).expect("routed nets are allowed");
            assert!(ours.stretched(weights) == wide, "{} {seed}", case.kind);
            compared += usize::from(weights != Weights::ONE);
        }
    }
    writeln!(
        std::io::stderr(),
        "weighted nets beside their stretch: {compared}"
    )
    .unwrap();
    assert!(compared > 1_500, "{compared}");
}

/// Lists of every short length, whole or not, filled with each of some numbers.
#[test]
fn check_on_every_short_length() {
    for value in [
        0,
        1,
        -1,
        1_000_000,
        1_000_001,
        -1_000_001,
        i32::MIN,
        i32::MAX,
    ] {
        for pins in 0..400 {
            for macros in [0, 1, 2, 3, 4, 7, 8, 511, 512, 513, 516] {
                let (pins, macros) = (vec![value; pins], vec![value; macros]);
                for weights in [Weights::ONE, Weights { x: 1, y: value }] {
                    let (ours, theirs) = (
                        library::check(&pins, &macros, weights),
                        operations::check(&pins, &macros, weights),
                    );
                    assert_eq!(
                        ours,
                        theirs,
                        "{} and {} times {value}, {weights:?}",
                        pins.len(),
                        macros.len()
                    );
                }
            }
        }
    }
}

/// Nets of every kind up to 128 pins and 128 macros, with lent space short, exact and long.
#[test]
fn graph_on_twenty_thousand_nets() {
    for seed in 0..20_000 {
        matched(allowed(seed).graph());
    }
}

#[test]
fn graph_on_refused_lists() {
    for seed in 0..5_000 {
        matched(refused(seed).graph());
    }
}

/// Nets of every kind, each also with its lists in another order, with lent space exact, longer, too short and none.
#[test]
fn terminal_tree_on_twenty_thousand_nets() {
    for seed in 0..20_000 {
        matched(routed(seed).terminal_tree());
    }
}

#[test]
fn trees_and_wires_on_refused_lists() {
    for seed in 0..5_000 {
        let case = refused(seed);
        matched(case.terminal_tree());
        matched(case.refined_tree());
        matched(case.slid_tree());
        matched(case.wires());
    }
}

#[test]
fn wires_on_five_thousand_nets() {
    for seed in 0..5_000 {
        matched(routed(seed).wires());
    }
}

/// The refined tree, and what the second program saw while it refined: every sentence of document 01 on rounds and of [3] must have
/// been met, or the match says little.
#[test]
fn refined_tree_on_five_thousand_nets() {
    let mut met = Counted::new("refined trees of 5000 nets");
    for case in (0..5_000).map(routed).chain(found_by_trying()) {
        matched(case.refined_tree());
        for (event, times) in events(&case) {
            met.add(event, times);
        }
    }
    met.all_met(1);
}

/// Nets found by trying, for what no kind brings about. In the first two a round puts its s on the place of a vertex and a later one beside
/// the tree is joined there; in the third a candidate beside the tree would win, were it not dropped since its s is on a tree point.
fn found_by_trying() -> [Case; 3] {
    let case = |seed, pins: &[[i32; 2]], macros: &[[i32; 4]], weights| Case {
        kind: "found-by-trying",
        seed,
        lists: Lists {
            pins: unloaded(&pins.concat()),
            macros: macros.concat(),
            weights,
        },
    };
    [
        case(
            0,
            &[
                [6, 3],
                [10, 9],
                [16, -1],
                [11, 20],
                [5, 19],
                [-2, 15],
                [9, 20],
                [19, 2],
                [2, 17],
            ],
            &[
                [0, 9, 10, 17],
                [16, 13, 23, 16],
                [10, 13, 16, 16],
                [6, 1, 16, 3],
                [16, 2, 19, 12],
                [11, 18, 18, 19],
            ],
            Weights::ONE,
        ),
        case(
            1,
            &[[1, 21], [0, 16], [9, 17], [1, 2], [7, 11], [0, 6], [-2, 8]],
            &[
                [2, 13, 5, 21],
                [4, 4, 7, 12],
                [5, 1, 9, 3],
                [6, 17, 9, 24],
                [1, 1, 2, 3],
                [5, 12, 7, 16],
                [0, 8, 1, 10],
                [1, 8, 2, 15],
                [1, 19, 2, 26],
            ],
            Weights::ONE,
        ),
        case(
            2,
            &[[6, 5], [2, 2], [-1, 4], [2, 7]],
            &[
                [0, 2, 2, 3],
                [3, 2, 7, 5],
                [3, 5, 4, 9],
                [5, 5, 9, 9],
                [1, 3, 3, 5],
                [1, 5, 2, 7],
                [3, 0, 5, 2],
                [0, 3, 1, 4],
                [2, 5, 3, 8],
                [0, 0, 2, 2],
                [5, 0, 9, 2],
            ],
            Weights { x: 5, y: 8 },
        ),
    ]
}

/// What can happen while a net is refined, and how often it did. A candidate beside the tree that is dropped for a point of its way never
/// would have won: that point gains more (docs/DECISIONS.md).
fn events(case: &Case) -> [(&'static str, usize); 16] {
    let (pins, macros, weights) = case.lists.parts();
    let net = check(pins, macros, weights).expect("routed nets are allowed");
    let Statistics {
        rounds,
        bound_ended,
        pruned,
        s_at_a,
        s_at_b,
        s_at_u,
        dropped,
        dropped_would_win,
        beside,
        tied,
        joined_at_end,
        s_on_way,
        s_on_tree,
        joined_at_s,
        s_on_way_would_win,
        s_on_tree_would_win,
    } = refined(&net).statistics;
    assert!(!s_on_way_would_win);
    [
        ("rounds", rounds),
        (
            "nets where the bound of m rounds ended the rounds",
            bound_ended.into(),
        ),
        ("nets with something pruned", (pruned > 0).into()),
        ("points pruned", pruned),
        ("rounds with s equal to a", s_at_a),
        ("rounds with s equal to b", s_at_b),
        ("rounds with s equal to u", s_at_u),
        ("candidates dropped", dropped),
        (
            "nets where a dropped candidate would have won",
            dropped_would_win.into(),
        ),
        ("rounds that took a point beside the tree", beside),
        ("rounds where points on the tree and beside it tied", tied),
        (
            "candidates beside the tree dropped, v being a or b",
            joined_at_end,
        ),
        (
            "candidates beside the tree dropped, s being on the way",
            s_on_way,
        ),
        (
            "candidates beside the tree dropped, s being on a tree point",
            s_on_tree,
        ),
        (
            "rounds beside the tree joined at the s of a former one",
            joined_at_s,
        ),
        (
            "nets where one beside the tree would have won, were s not on a tree point",
            s_on_tree_would_win.into(),
        ),
    ]
}

#[test]
fn write_a_file_on_twenty_thousand_nets() {
    for seed in 0..20_000 {
        matched(allowed(seed).write_file());
    }
    for seed in 0..5_000 {
        matched(refused(seed).write_file());
    }
}

#[test]
fn read_a_file_of_twenty_thousand_nets() {
    for seed in 0..20_000 {
        matched(allowed(seed).read_back());
    }
}

#[test]
fn read_a_hundred_thousand_damaged_files() {
    for seed in 0..100_000 {
        matched(file(seed).read_file());
    }
}

/// The bytes of a file that begins as a right one, cut or filled up to a length.
fn cut(bytes: &[u8], length: usize) -> File {
    let mut bytes = bytes.to_vec();
    bytes.resize(length, 0);
    File {
        kind: "cut at a length",
        seed: length as u64,
        bytes,
    }
}

#[test]
fn read_a_file_cut_at_every_length() {
    for kind in [Kind::OnePin, Kind::Largest] {
        for lists in [weighted(kind, 1), loaded(&weighted(kind, 1), 1)] {
            let bytes = netfile::write(&lists);
            for length in 0..=11 * BLOCK_BYTES {
                matched(cut(&bytes, length).read_file());
            }
        }
    }
}

/// Each word of a small file changed, with the sums put right again: by one bit, to zero, to all ones.
#[test]
fn read_a_file_with_each_word_changed() {
    for load in [0, 7] {
        each_word_changed(load);
    }
}

/// Of a file of two pins, the first of them with this load.
fn each_word_changed(load: i32) {
    let lists = Lists {
        pins: vec![3, -4, load, 5, 6, 0],
        macros: vec![-9, -9, -7, -6],
        weights: Weights { x: 3, y: 1 },
    };
    let bytes = netfile::write(&lists);
    for at in 0..bytes.len() / 4 {
        for change in [
            |word: u32| word ^ 1,
            |word| word ^ 0x8000_0000,
            |_| 0,
            |_| u32::MAX,
        ] {
            let mut blocks = netfile::blocks_of(&bytes);
            let (block, word) = (at / 128, at % 128);
            blocks[block][word] = change(blocks[block][word]);
            if word < 126 {
                netfile::seal(&mut blocks[block]);
            }
            let bytes = netfile::bytes_of(&blocks);
            matched(
                File {
                    kind: "a word changed",
                    seed: at as u64,
                    bytes,
                }
                .read_file(),
            );
        }
    }
}

#[test]
fn read_blocks_of_zeros_and_ones() {
    for fill in [0u8, 0xff] {
        for blocks in 0..=11 {
            let bytes = vec![fill; blocks * BLOCK_BYTES];
            matched(
                File {
                    kind: "one byte over and over",
                    seed: blocks as u64,
                    bytes,
                }
                .read_file(),
            );
        }
    }
}
