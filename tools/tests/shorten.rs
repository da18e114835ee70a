//! The shortened tree: what it never is, which it always is, how good it is; and that no tree is shown which the
//! check did not pass.

mod common;
#[path = "../../harness/src/spread.rs"]
mod spread;

use std::collections::BTreeSet;
use std::fs;
use std::path::PathBuf;

use calzundi::{Edge, Macro, Net, Place, Refusal, BEST_PINS, GRID_MACROS};
use common::json::parse;
use common::{example, folder, made, printed, run, said, word};
use reference::bought::{self, Passed};
use reference::exact;
use reference::generate::{self, Kind};
use reference::lists::Lists;
use reference::net::Weights;
use tools::program::Failure;
use tools::shorten::checked::{Checked, Unchecked};
use tools::shorten::effort::Effort;
use tools::shorten::found::{find, Outcome, Task};
use tools::shorten::search::Ended;
use tools::shorten::shortened::{shortened, shortened_by, Stopped};
use tools::shorten::unsound::failure_in;
use tools::source::source;
use tools::text;

/// Kinds that are no larger than some dozens of pins and macros.
fn small_kinds() -> impl Iterator<Item = Kind> {
    use Kind::{BoundEnds, Chambers, Largest, LargestFar, LargestMaze, Wide};
    let large = [BoundEnds, Chambers, Largest, LargestFar, LargestMaze, Wide];
    Kind::ALL
        .iter()
        .copied()
        .filter(move |kind| !large.contains(kind))
}

/// The second program's net.
fn numbers(net: &Net) -> reference::net::Net {
    let pins = net
        .pins
        .iter()
        .flat_map(|pin| [pin.place.x, pin.place.y, pin.load]);
    let sides = |one: &Macro| [one.left, one.bottom, one.right, one.top];
    let weights = Weights {
        x: net.weights.x,
        y: net.weights.y,
    };
    let (pins, macros): (Vec<i32>, Vec<i32>) =
        (pins.collect(), net.macros.iter().flat_map(sides).collect());
    reference::net::check(&pins, &macros, weights).expect("an allowed net")
}

/// A random net of so many pins and macros.
fn spread(pins: usize, macros: usize, seed: u64) -> Net {
    made(&spread::spread(pins, macros, Weights::ONE, seed))
}

/// The tree that the search itself finds from the router's, on a net that has a best tree too.
fn searched(net: &Net, effort: Effort) -> Vec<Edge> {
    let (slid, refined) = (net.slid_tree().unwrap(), net.refined_tree().unwrap());
    let task = Task {
        net,
        given: &[&slid.edges, &refined.edges],
        effort,
        bound: 0,
    };
    let found = find(&task).expect("the refined tree lies on the grid");
    let checked = Checked::of(net, found.tree).expect("a tree that passes");
    checked.tree().edges.clone()
}

/// It is never dearer than the slid tree, the second program's check passes it too, and a greater effort never makes
/// it dearer.
#[test]
fn never_dearer_and_always_a_tree() {
    for (at, kind) in small_kinds().enumerate() {
        for seed in 0..4 {
            let lists = match at as u64 % 2 == seed % 2 {
                true => generate::net(kind, seed),
                false => generate::weighted(kind, seed),
            };
            let net = made(&lists);
            let mut before = net.slid_tree().unwrap().total;
            for effort in [1, 2, 3, 5, 7] {
                let effort = Effort::of(effort).unwrap();
                let edges = searched(&net, effort);
                let flat: Vec<i32> = edges
                    .iter()
                    .flat_map(|edge| [edge.first, edge.second])
                    .flat_map(|place| [place.x, place.y])
                    .collect();
                let name = format!("{} {seed} {effort:?}", kind.name());
                let passed = bought::check(&numbers(&net), &flat);
                let Passed { cost, metal } =
                    passed.unwrap_or_else(|refused| panic!("{name}: {refused}"));
                assert!(cost <= before, "{name}: {cost} above {before}");
                before = cost;
                let found = shortened(&net, effort, 0).unwrap();
                assert!(found.tree().total <= cost, "{name}");
                if found.ended() != Ended::Best {
                    assert_eq!((found.tree().total, found.tree().metal), (cost, metal));
                }
            }
        }
    }
}

/// Of nets that are small enough it is a best tree; and the search comes to that by itself, with hardly an exception.
#[test]
fn of_few_pins_a_best_tree() {
    let (mut nets, mut as_cheap) = (0, 0);
    for kind in small_kinds() {
        for seed in 10..22 {
            let net = made(&generate::weighted(kind, seed));
            if net.pins.len() > BEST_PINS || net.macros.len() > GRID_MACROS {
                continue;
            }
            let best = net.best_tree().unwrap();
            let found = shortened(&net, Effort::default(), 0).unwrap();
            assert_eq!(found.tree(), &best);
            assert_eq!(found.ended(), Ended::Best);
            let edges = searched(&net, Effort::default());
            let cost: i64 = edges.iter().map(|edge| edge.cost(net.weights)).sum();
            assert!(cost >= best.total);
            nets += 1;
            as_cheap += usize::from(cost == best.total);
        }
    }
    assert!(nets > 50, "{nets}");
    assert!(as_cheap * 100 >= nets * 99, "{as_cheap} of {nets}");
}

/// By how much the trees of some nets are dearer than exact ones, in percent, in the mean; and of how many they are
/// not.
fn above_exact(nets: &[Net], effort: Effort) -> (f64, usize) {
    let above = |net: &Net| {
        let exact = exact::cost(&numbers(net));
        let total = shortened(net, effort, 0).unwrap().tree().total;
        assert!(total >= exact, "{total} below {exact}");
        (total - exact) as f64 * 100.0 / exact as f64
    };
    let above: Vec<f64> = nets.iter().map(above).collect();
    let equal = above.iter().filter(|&&above| above == 0.0).count();
    (above.iter().sum::<f64>() / nets.len() as f64, equal)
}

/// Beside exact trees of the second program it is hardly ever dearer.
#[test]
fn as_good_as_exact_trees() {
    let sizes = [
        (6, 0, 20),
        (8, 0, 20),
        (10, 0, 20),
        (6, 8, 20),
        (8, 8, 20),
        (10, 8, 8),
        (6, 24, 8),
    ];
    let (mut nets, mut equal) = (0, 0);
    for (pins, macros, count) in sizes {
        let all: Vec<Net> = (0..count).map(|seed| spread(pins, macros, seed)).collect();
        let (mean, as_cheap) = above_exact(&all, Effort::default());
        let most = if macros == 0 { 0.3 } else { 1.0 };
        assert!(mean <= most, "{pins} pins, {macros} macros: {mean} %");
        nets += all.len();
        equal += as_cheap;
    }
    assert!(equal * 100 >= nets * 97, "{equal} of {nets}");
}

fn moved(edges: &[Edge], x: i32, y: i32) -> Vec<Edge> {
    let place = |place: Place| Place {
        x: place.x + x,
        y: place.y + y,
    };
    let edge = |edge: &Edge| Edge {
        first: place(edge.first),
        second: place(edge.second),
    };
    edges.iter().map(edge).collect()
}

/// The same net with other loads, its lists in another order, on another site.
fn elsewhere(lists: &Lists, seed: u64) -> (Net, i32, i32) {
    let shift = generate::Shift::of(lists, &[], seed);
    let lists = shift.lists(&generate::permuted(lists, seed));
    (made(&generate::loaded(&lists, seed)), shift.x, shift.y)
}

/// The same tree for every order of the lists, whatever the loads, on every site; and the same with a bound at which
/// the search may stop.
#[test]
fn by_places_alone() {
    for (at, kind) in small_kinds().enumerate() {
        for seed in 30..33 {
            let lists = match at % 2 {
                0 => generate::weighted(kind, seed),
                _ => generate::net(kind, seed),
            };
            let net = made(&lists);
            let edges = searched(&net, Effort::default());
            let (other, x, y) = elsewhere(&lists, seed);
            let there = searched(&other, Effort::default());
            assert_eq!(moved(&edges, x, y), there, "{} {seed}", kind.name());
            let found = shortened(&net, Effort::default(), 0).unwrap();
            let stopped = shortened(&net, Effort::default(), found.tree().total).unwrap();
            assert_eq!(found.tree(), stopped.tree());
            assert!(stopped.steps() <= found.steps());
        }
    }
    // A budget that is spent ends at the same tree too.
    let net = spread(60, 60, 1);
    let effort = Effort::of(1).unwrap();
    let found = shortened(&net, effort, 0).unwrap();
    let reversed = Net {
        pins: net.pins.iter().rev().copied().collect(),
        macros: net.macros.iter().rev().copied().collect(),
        ..net.clone()
    };
    let other = shortened(&reversed, effort, 0).unwrap();
    assert_eq!(found.tree(), other.tree());
    assert_eq!(found.steps(), other.steps());
}

/// As many crossings as the largest net has lines for, 128 pins and 256 sides each way, and some of its slid tree.
const CROSSINGS: u64 = 400 * 400;

/// The least effort ends soon on the largest nets: by its steps, of which some millions take a second.
#[test]
fn the_least_effort_ends() {
    let effort = Effort::of(1).unwrap();
    let kinds = [Kind::Largest, Kind::LargestMaze, Kind::LargestFar];
    for kind in kinds {
        let net = made(&generate::net(kind, 1));
        let slid = net.slid_tree().unwrap().total;
        let found = shortened(&net, effort, 0).unwrap();
        // It is looked at between tables, of which one has no more points than the grid.
        let most = effort.steps(CROSSINGS) + 2 * CROSSINGS;
        assert!(found.steps() <= most, "{}", found.steps());
        assert!(found.tree().total < slid, "{}", kind.name());
    }
}

fn edge(a: (i32, i32), b: (i32, i32)) -> Edge {
    let place = |(x, y)| Place { x, y };
    Edge {
        first: place(a),
        second: place(b),
    }
}

/// Six pins, so that they are searched, and a macro in the way.
fn six_pins() -> Net {
    Net::new(
        [(0, 0), (20, 0), (40, 0), (0, 10), (20, 10), (40, 10)],
        [(5, -5, 15, 5)],
    )
}

/// Lists of edges that are no tree of six pins, each with its refusal.
fn wrong_trees() -> Vec<(&'static str, Vec<Edge>, Refusal)> {
    let net = six_pins();
    let good = net.slid_tree().unwrap().edges;
    let without = |at: usize| [&good[..at], &good[at + 1..]].concat();
    let with = |more: Edge| [&good[..], &[more]].concat();
    vec![
        ("nothing", vec![], Refusal::NotATree),
        ("an edge left out", without(0), Refusal::NotATree),
        ("an edge twice", with(good[0]), Refusal::NotATree),
        (
            "an end that is no pin",
            with(edge((40, 10), (50, 10))),
            Refusal::NotATree,
        ),
        (
            "a part of its own",
            with(edge((60, 60), (70, 60))),
            Refusal::NotATree,
        ),
        (
            "through the macro",
            with(edge((0, 0), (20, 0))),
            Refusal::EdgeNotClear,
        ),
        (
            "no length",
            with(edge((0, 0), (0, 0))),
            Refusal::EdgeNotClear,
        ),
        (
            "off the die",
            with(edge((0, 0), (2_000_000, 0))),
            Refusal::EdgeList,
        ),
        ("too many", vec![good[0]; 1_536], Refusal::EdgeList),
        (
            "another net's",
            vec![edge((1, 1), (2, 1))],
            Refusal::NotATree,
        ),
    ]
}

fn gives(edges: &[Edge]) -> impl Fn(&Task) -> Option<Outcome> + '_ {
    |_: &Task| {
        Some(Outcome {
            tree: Unchecked::of(edges.to_vec()),
            ended: Ended::NothingHelps,
            steps: 1,
        })
    }
}

/// Whatever a search gives, what comes out has passed the check: there is no answer for one that gives a wrong tree.
#[test]
fn a_wrong_tree_is_no_answer() {
    let net = six_pins();
    for (name, edges, refusal) in wrong_trees() {
        let answer = shortened_by(gives(&edges), &net, Effort::default(), 0);
        match answer {
            Err(Stopped::Unsound(not_passed)) => {
                assert_eq!(not_passed.refusal, refusal, "{name}");
            }
            other => panic!("{name}: {other:?}"),
        }
    }
}

/// One that gives a dear tree, or none, gets the slid tree.
#[test]
fn a_dear_tree_is_no_answer() {
    let net = six_pins();
    let slid = net.slid_tree().unwrap().total;
    let around = [
        edge((0, 0), (0, -9)),
        edge((0, -9), (20, -9)),
        edge((20, -9), (20, 0)),
    ];
    let rest = [
        edge((20, 0), (40, 0)),
        edge((40, 0), (40, 10)),
        edge((40, 10), (20, 10)),
        edge((20, 10), (0, 10)),
    ];
    let dear = [&around[..], &rest].concat();
    assert!(net.check_tree(&dear).unwrap().cost > slid);
    let answer = shortened_by(gives(&dear), &net, Effort::default(), 0).unwrap();
    assert_eq!(answer.tree().total, slid);
    let answer = shortened_by(|_| None, &net, Effort::default(), 0).unwrap();
    assert_eq!(answer.tree().total, slid);
}

/// The net of a wrong tree goes to a new file, which is a net that can be read, and what is said names it. No file is
/// written over.
#[test]
fn the_net_of_a_wrong_tree_is_kept() {
    let net = six_pins();
    let folder = folder("unsound");
    let source = source("six.txt".into(), text::print(&net).as_bytes()).unwrap();
    let mut known = BTreeSet::new();
    for (name, edges, refusal) in wrong_trees() {
        let stopped = shortened_by(gives(&edges), &net, Effort::default(), 0).unwrap_err();
        let nowhere = PathBuf::from("no/such/folder");
        let Failure::Wrong { name: of, what } =
            failure_in(&[nowhere, folder.clone()], &source, stopped)
        else {
            panic!("{name}");
        };
        assert_eq!(of.to_string(), "six.txt");
        assert!(what.starts_with("internal error: "), "{what}");
        assert!(what.contains(&refusal.to_string()), "{what}");
        let files: BTreeSet<PathBuf> = fs::read_dir(&folder)
            .unwrap()
            .map(|one| one.unwrap().path())
            .collect();
        let new: Vec<&PathBuf> = files.difference(&known).collect();
        assert_eq!(new.len(), 1, "{name}");
        assert!(what.contains(word(new[0])), "{what}");
        let kept = fs::read(new[0]).unwrap();
        assert_eq!(text::parse(&kept).unwrap().0, net);
        let kept = String::from_utf8(kept).unwrap();
        assert!(edges.iter().all(|one| kept.contains(&format!(
            "# {} {} ",
            one.first.x.min(one.second.x),
            one.first.y
        ))));
        known = files;
    }
    // A search that breaks down is told in the same way.
    let stopped = shortened_by(|_| panic!("on purpose"), &net, Effort::default(), 0).unwrap_err();
    assert_eq!(stopped, Stopped::Broken);
    let Failure::Wrong { what, .. } = failure_in(&[folder], &source, stopped) else {
        panic!("it is an error");
    };
    assert!(what.contains("the search broke down"), "{what}");
    let stopped = shortened_by(gives(&[]), &net, Effort::default(), 0).unwrap_err();
    let Failure::Wrong { what, .. } = failure_in(&[PathBuf::from("no/such")], &source, stopped)
    else {
        panic!("no place to keep it");
    };
    assert!(what.contains("could not be kept"), "{what}");
}

/// What the command prints is a tree that `verify` passes, for the cost that it says.
#[test]
fn as_it_is_printed() {
    let net = example("eight-pins");
    let text = printed(&["shorten", word(&net)], b"");
    assert!(
        text.starts_with("pins 8 macros 5 refined 112 slid 106 shortened 10"),
        "{text}"
    );
    let verdict = printed(&["verify", word(&net), "-"], text.as_bytes());
    let total = text
        .split("shortened ")
        .nth(1)
        .and_then(|rest| rest.split(' ').next())
        .unwrap();
    assert!(verdict.contains(&format!("cost {total} ")), "{verdict}");
    let wires = printed(&["shorten", "--wires", word(&net)], b"");
    let lengths = wires.lines().map(|line| {
        let n: Vec<i64> = line.split(' ').map(|n| n.parse().unwrap()).collect();
        assert!(n[0] == n[2] || n[1] == n[3], "{line}");
        (n[0] - n[2]).abs() + (n[1] - n[3]).abs()
    });
    assert_eq!(lengths.sum::<i64>().to_string(), total);
    let json = parse(&printed(
        &["shorten", "--json", "--effort", "2", word(&net)],
        b"",
    ));
    assert_eq!(json.get("effort").number(), 2.0);
    let batch = printed(&["batch", "--quiet", "--shortened", word(&net)], b"");
    assert!(batch.contains(&format!(" shortened {total}")), "{batch}");
    let picture = printed(&["draw", "--shortened", word(&net)], b"");
    assert!(picture.contains("shortened tree"));
    let page = printed(
        &["draw", "--html", "--shortened", "--effort=9", word(&net)],
        b"",
    );
    assert!(page.contains("shortened tree"));
    let layout = folder("shortened").join("eight-pins.def");
    printed(
        &[
            "export",
            "--def",
            "--shortened",
            word(&net),
            "-o",
            word(&layout),
        ],
        b"",
    );
    let back = run(&["import", "--tree", word(&layout)], b"");
    let tree = String::from_utf8(back.stdout).unwrap();
    let verdict = printed(&["verify", "--split", word(&net), "-"], tree.as_bytes());
    assert!(verdict.contains(&format!("cost {total} ")), "{verdict}");
}

/// Wrong command lines are said.
#[test]
fn wrong_efforts() {
    let net = example("three-pins");
    for effort in ["0", "10", "-1", "x", "", "5.0"] {
        let option = format!("--effort={effort}");
        let wrong = said(&["shorten", &option, word(&net)], b"", 2);
        assert!(
            wrong.contains(&format!("--effort is 1 to 9, not '{effort}'")),
            "{wrong}"
        );
    }
    for command in [&["batch"][..], &["draw"], &["export", "--gds"]] {
        let words = [command, &["--effort=3", word(&net)]].concat();
        let wrong = said(&words, b"", 2);
        assert!(
            wrong.contains("--effort says how much --shortened tries"),
            "{wrong}"
        );
    }
    let wrong = said(&["shorten", "--json", "--wires", word(&net)], b"", 2);
    assert!(wrong.contains("take one of the two"), "{wrong}");
    let wrong = said(&["draw", "--slid", "--shortened", word(&net)], b"", 2);
    assert!(wrong.contains("take one of them"), "{wrong}");
    let wrong = said(
        &["export", "--gds", "--slid", "--shortened", word(&net)],
        b"",
        2,
    );
    assert!(wrong.contains("take one of "), "{wrong}");
}

/// One pin needs no metal, two get a shortest way.
#[test]
fn the_smallest_nets() {
    let text = printed(&["shorten", "-"], b"pin 3 3\n");
    let totals = "pins 1 macros 0 refined 0 slid 0 shortened 0 metal 0 bound 0 over 0.00%\n";
    assert!(text.starts_with(totals), "{text}");
    let text = printed(&["shorten", "-"], b"pin 0 0\npin 4 3\n");
    let totals = "pins 2 macros 0 refined 7 slid 7 shortened 7 metal 7 bound 7 over 0.00%\n";
    assert!(text.starts_with(totals), "{text}");
    assert!(text.contains("this is a shortest tree"), "{text}");
    // As few pins among more macros than a best tree has.
    let mut net = Net::new([(0, 0), (100, 0)], []);
    net.macros = (0..17)
        .map(|at| Macro::new(5 * at + 1, -9, 5 * at + 4, 9 - at % 2))
        .collect();
    let found = shortened(&net, Effort::default(), 0).unwrap();
    assert_eq!(found.tree().total, net.slid_tree().unwrap().total);
    let alone = searched(&Net::new([(0, 0)], []), Effort::default());
    assert!(alone.is_empty());
}
