//! The owned calls beside the second program, on nets of every kind, and refused nets of every kind.

use calzundi::{Band, Edge, Net, Passed, Pin, PinDelay, Place, Refusal, Technology, Wire};
use reference::generate::{hostile_weighted as hostile, loaded, weighted as net, Hostile, Kind};
use reference::lists::Lists;
use reference::operations;

fn made(lists: &Lists) -> Net {
    let pins = lists.pins.chunks_exact(3);
    let pins = pins.map(|p| Pin::new(p[0], p[1]).with_load(p[2]));
    let macros = lists
        .macros
        .chunks_exact(4)
        .map(|m| (m[0], m[1], m[2], m[3]));
    Net::new(pins, macros).with_weights(lists.weights.x, lists.weights.y)
}

fn flat<'a>(edges: impl Iterator<Item = &'a Edge>) -> Vec<i32> {
    let ends = |edge: &Edge| [edge.first.x, edge.first.y, edge.second.x, edge.second.y];
    edges.flat_map(ends).collect()
}

/// So many seeds of a kind, and one of those that take long to make or to route.
fn seeds(kind: Kind, usual: u64) -> u64 {
    use Kind::{BoundEnds, Largest, LargestFar, LargestMaze};
    match kind {
        BoundEnds | Largest | LargestFar | LargestMaze => 1,
        _ => usual,
    }
}

#[test]
fn answers_are_the_second_programs() {
    for &kind in Kind::ALL {
        for seed in 0..seeds(kind, 8) {
            let lists = match seed % 2 {
                0 => net(kind, seed),
                _ => loaded(&net(kind, seed), seed),
            };
            let (pins, macros, weights) = lists.parts();
            let name = format!("{} {seed}", kind.name());
            let net = made(&lists);
            let mut numbers = vec![0; 16 * 640];
            let mut vertices = vec![0; 2 * 640];
            assert_eq!(net.check(), Ok(()), "{name}");

            let graph = net.graph().unwrap();
            let (v, e) =
                operations::graph(pins, macros, weights, &mut vertices, &mut numbers).unwrap();
            let places = graph.vertices.iter().flat_map(|at| [at.x, at.y]);
            assert_eq!(places.collect::<Vec<i32>>(), vertices[..2 * v], "{name}");
            assert_eq!(flat(graph.edges.iter()), numbers[..4 * e], "{name}");

            let tree = net.terminal_tree().unwrap();
            let mut paths = vec![0; 5 * 128];
            let (count, total) =
                operations::terminal_tree(pins, macros, weights, &mut paths).unwrap();
            assert_eq!((tree.paths.len(), tree.total), (count, total), "{name}");
            let bridges = tree
                .paths
                .iter()
                .map(|path| path.bridge)
                .collect::<Vec<Edge>>();
            let costs = tree.paths.iter().map(|path| path.cost);
            let rows = paths[..5 * count].chunks(5);
            let four: Vec<i32> = rows
                .clone()
                .flat_map(|row| row[..4].iter().map(|&n| n as i32))
                .collect();
            assert_eq!(flat(bridges.iter()), four, "{name}");
            assert!(costs.eq(rows.map(|row| row[4])), "{name}");

            let tree = net.refined_tree().unwrap();
            let (count, total, metal) =
                operations::refined_tree(pins, macros, weights, &mut numbers).unwrap();
            assert_eq!(flat(tree.edges.iter()), numbers[..4 * count], "{name}");
            assert_eq!((tree.total, tree.metal), (total, metal), "{name}");
            assert_eq!(tree.metal, tree.edges.iter().map(Edge::length).sum::<i64>());
            assert_eq!(
                tree.total,
                tree.edges
                    .iter()
                    .map(|edge| edge.cost(net.weights))
                    .sum::<i64>()
            );

            let slid = net.slid_tree().unwrap();
            let (count, total, metal) =
                operations::slid_tree(pins, macros, weights, &mut numbers).unwrap();
            assert_eq!(flat(slid.edges.iter()), numbers[..4 * count], "{name}");
            assert_eq!((slid.total, slid.metal), (total, metal), "{name}");
            for tree in [tree, slid] {
                let (cost, metal) = (tree.total, tree.metal);
                assert_eq!(net.check_tree(&tree.edges), Ok(Passed { cost, metal }));
            }

            let wires = net.wires().unwrap();
            let count = operations::wires(pins, macros, weights, &mut numbers).unwrap();
            let ends = |wire: &Wire| [wire.start.x, wire.start.y, wire.end.x, wire.end.y];
            let drawn: Vec<i32> = wires.iter().flat_map(ends).collect();
            assert_eq!(drawn, numbers[..4 * count], "{name}");

            let (resistance, capacitance) = (0.03, 0.0002);
            let technology = Technology {
                resistance,
                capacitance,
            };
            let delays = net.delays(net.pins[0].place, technology).unwrap();
            let mut floats = vec![0.0; delays.len()];
            let technology = reference::delay::Technology {
                resistance,
                capacitance,
            };
            let driver = (pins[0], pins[1]);
            let count =
                operations::delay(pins, macros, weights, driver, technology, &mut floats).unwrap();
            assert_eq!(delays.len(), count, "{name}");
            assert!(delays.is_sorted_by(|a, b| a.place < b.place), "{name}");
            let same = |(ours, theirs): (&PinDelay, &f64)| ours.delay.to_bits() == theirs.to_bits();
            assert!(delays.iter().zip(&floats).all(same), "{name}");

            let file = net.to_file().unwrap();
            let mut bytes = vec![0; calzundi::LONGEST_FILE];
            let given = operations::write_file(pins, macros, weights, &mut bytes).unwrap();
            assert_eq!(file, bytes[..given], "{name}");
            assert_eq!(Net::from_file(&file), Ok(net), "{name}");
        }
    }
}

/// Refused nets of every kind whose lists are whole: each call says the number that the check says.
#[test]
fn every_call_refuses_alike() {
    let bands = [Band {
        limit: u64::MAX,
        rate: 1,
    }];
    let mut met = Vec::new();
    for &kind in Hostile::ALL {
        for seed in 0..5 {
            let lists = hostile(kind, seed);
            let whole = lists.pins.len().is_multiple_of(3) && lists.macros.len().is_multiple_of(4);
            if !whole {
                continue;
            }
            let net = made(&lists);
            let Err(number) = operations::check(&lists.pins, &lists.macros, lists.weights) else {
                continue;
            };
            let refusal = Refusal::from_number(number as i32).unwrap();
            assert_eq!(net.check(), Err(refusal));
            assert_eq!(net.graph(), Err(refusal));
            assert_eq!(net.terminal_tree(), Err(refusal));
            assert_eq!(net.refined_tree(), Err(refusal));
            assert_eq!(net.slid_tree(), Err(refusal));
            assert_eq!(net.lower_bound(), Err(refusal));
            assert_eq!(net.check_tree(&[]), Err(refusal));
            assert_eq!(net.wires(), Err(refusal));
            assert_eq!(net.price(&bands), Err(refusal));
            assert_eq!(net.to_file(), Err(refusal));
            met.push(number);
        }
    }
    for number in 11..=18 {
        assert!(met.contains(&number), "{number} was never met");
    }
}

#[test]
fn prices_and_files() {
    let net = Net::new([(0, 0), (4, 0), (2, 3)], []);
    let band = |limit, rate| Band { limit, rate };
    assert_eq!(net.price(&[band(7, 500)]), Ok(4));
    assert_eq!(net.price(&[band(6, 500)]), Err(Refusal::Reach));
    assert_eq!(net.price(&[]), Err(Refusal::Bands));
    let falls = [band(7, 500), band(7, 500)];
    assert_eq!(net.price(&falls), Err(Refusal::BandOrder));
    assert_eq!(Net::from_file(&[]), Err(Refusal::Length));
    assert_eq!(Net::from_file(&[1; 512]), Err(Refusal::Sums));
    assert_eq!(Net::from_file(&[0; 512]), Err(Refusal::Layout));
}

/// A tree of another router passes or gets its number; either end of an edge may come first.
#[test]
fn trees_of_others() {
    let net = Net::new([(0, 0), (4, 0), (2, 3)], [(0, 1, 1, 3)]).with_weights(2, 3);
    let edge = |a: (i32, i32), b: (i32, i32)| {
        let place = |(x, y)| Place { x, y };
        let (first, second) = (place(a), place(b));
        Edge { first, second }
    };
    let tree = [
        edge((2, 0), (0, 0)),
        edge((2, 0), (2, 3)),
        edge((4, 0), (2, 0)),
    ];
    assert_eq!(net.check_tree(&tree), Ok(Passed { cost: 17, metal: 7 }));
    assert_eq!(net.check_tree(&tree[1..]), Err(Refusal::NotATree));
    let with = |more| [&tree[..], &[more]].concat();
    let through = with(edge((0, 0), (2, 3)));
    assert_eq!(net.check_tree(&through), Err(Refusal::EdgeNotClear));
    let far = with(edge((0, 0), (1_000_001, 0)));
    assert_eq!(net.check_tree(&far), Err(Refusal::EdgeList));
    let many = vec![tree[0]; calzundi::BOUGHT_EDGES + 1];
    assert_eq!(net.check_tree(&many), Err(Refusal::EdgeList));
}

/// A refusal is an error like others: it goes through `?` and says what it means.
#[test]
fn a_refusal_is_an_error() {
    fn metal(net: &Net) -> Result<i64, Box<dyn std::error::Error>> {
        Ok(net.refined_tree()?.metal)
    }
    let two = Net::new([(0, 0), (3, 4)], []);
    assert_eq!(metal(&two).unwrap(), 7);
    let wrong = metal(&Net::default()).unwrap_err();
    assert!(wrong.to_string().starts_with("refused 11: there is no pin"));
    for refusal in Refusal::ALL {
        assert_eq!(Refusal::from_number(refusal.number()), Some(*refusal));
    }
    assert!(Refusal::ALL
        .windows(2)
        .all(|two| two[0].number() < two[1].number()));
    for number in [0, 4, 19, -11] {
        assert_eq!(Refusal::from_number(number), None);
    }
}

/// What a call says to take is enough for it: a thread with the stack that the crate names.
#[test]
fn the_stack_is_enough() {
    let work = || {
        let net = made(&net(Kind::Largest, 1));
        (
            net.refined_tree().unwrap().edges.len(),
            net.wires().unwrap().len(),
        )
    };
    // The crate's own frames come on top of the library's.
    let stack = calzundi::STACK_BYTES + 64 * 1024;
    let thread = std::thread::Builder::new().stack_size(stack).spawn(work);
    let (edges, wires) = thread.unwrap().join().unwrap();
    assert!(edges > 60 && wires >= edges);
}

#[test]
fn costs_are_weighed_by_axis() {
    let place = |x, y| Place { x, y };
    let edge = Edge {
        first: place(-1_000_000, 1_000_000),
        second: place(1_000_000, -1_000_000),
    };
    assert_eq!(edge.length(), 4_000_000);
    assert_eq!(edge.cost(calzundi::Weights { x: 8, y: 3 }), 22_000_000);
}

/// A net's pins may have their loads from the start.
#[test]
fn pins_with_loads() {
    let net = Net::new([(0, 0, 7), (4, 0, 0)], []);
    assert_eq!(net.pins, [Pin::new(0, 0).with_load(7), Pin::new(4, 0)]);
    let same = Net::new([Pin::new(0, 0).with_load(7), Pin::from((4, 0))], []);
    assert_eq!(same, net);
    assert_eq!(Net::from_file(&net.to_file().unwrap()), Ok(net));
}
