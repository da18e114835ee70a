//! Best trees by both programs: the second one says what a tree costs, and the tree that is given must come to that, pass the check of
//! bought-in trees, and leave the work cleared.

use harness::counted::Counted;
use harness::library;
use harness::matching::{refused, routed};
use reference::best::{cost_by_edge_sets, edge_numbers, MACROS, PINS, WORK};
use reference::generate::{bought, crowded, permuted, Bought, Ours, Shift};
use reference::lattice::Steps;
use reference::lists::{unloaded, Lists};
use reference::net::{check, Net, Weights};
use reference::operations;
use reference::random::Random;
use reference::text;

/// How many numbers stand behind what is lent, and must stay.
const GUARD: usize = 9;

/// What a call answered, and the work and the edges after it, with what stood there before.
struct Called {
    answer: Result<(usize, i64, i64), u32>,
    work: Vec<u32>,
    work_before: Vec<u32>,
    edges: Vec<i32>,
    edges_before: Vec<i32>,
}

/// A call with so many numbers of work and for edges, all of them random.
fn call(lists: &Lists, work: usize, edges: usize, seed: u64) -> Called {
    let random = &mut Random::new(seed);
    let work_before: Vec<u32> = (0..work + GUARD).map(|_| random.bits() as u32).collect();
    let edges_before: Vec<i32> = (0..edges + GUARD).map(|_| random.bits() as i32).collect();
    let (mut lent, mut given) = (work_before.clone(), edges_before.clone());
    let (pins, macros, weights) = lists.parts();
    let answer = library::best_tree(
        pins,
        macros,
        weights,
        &mut lent[..work],
        &mut given[..edges],
    );
    Called {
        answer,
        work: lent,
        work_before,
        edges: given,
        edges_before,
    }
}

impl Called {
    /// After a refusal nothing is altered; after a success the work is cleared, and the rest of both is as it was.
    fn lent_as_it_should_be(&self, lists: &Lists) {
        let given = match self.answer {
            Ok((count, ..)) => 4 * count,
            Err(_) => {
                assert_eq!(self.work, self.work_before, "{lists:?}");
                assert_eq!(self.edges, self.edges_before, "{lists:?}");
                return;
            }
        };
        assert!(self.work[..WORK].iter().all(|&number| number == 0));
        assert_eq!(self.work[WORK..], self.work_before[WORK..], "{lists:?}");
        assert_eq!(self.edges[given..], self.edges_before[given..], "{lists:?}");
    }

    /// The tree, edge by edge in order and each once, the smaller place first; and both checks pass it with its cost and its metal.
    fn passes(&self, lists: &Lists) {
        let (count, total, metal) = self.answer.expect("a tree");
        let tree = &self.edges[..4 * count];
        let edges: Vec<[(i32, i32); 2]> = tree
            .chunks_exact(4)
            .map(|e| [(e[0], e[1]), (e[2], e[3])])
            .collect();
        assert!(edges.iter().all(|[a, b]| a < b), "{lists:?}");
        assert!(edges.windows(2).all(|two| two[0] < two[1]), "{lists:?}");
        assert!(edges.iter().all(|[a, b]| a.0 == b.0 || a.1 == b.1));
        let (pins, macros, weights) = lists.parts();
        for check in [library::check_tree, operations::check_tree] {
            assert_eq!(check(pins, macros, weights, tree), Ok((total, metal)));
        }
    }
}

/// So many entries of a net that is allowed, from its `part`-th five on: what is left is allowed.
fn cut(lists: &Lists, part: usize, pins: usize, macros: usize) -> Lists {
    let some = |numbers: &[i32], width: usize, most: usize| {
        let entries = numbers.chunks_exact(width);
        let from = part * PINS % entries.len().max(1);
        let many = most.min(entries.len());
        let turned = entries.cycle().skip(from).take(many);
        turned.flatten().copied().collect()
    };
    Lists {
        pins: some(&lists.pins, Net::PIN_NUMBERS, pins),
        macros: some(&lists.macros, Net::MACRO_NUMBERS, macros),
        weights: lists.weights,
    }
}

fn counts(lists: &Lists) -> (usize, usize) {
    (
        lists.pins.len() / Net::PIN_NUMBERS,
        lists.macros.len() / Net::MACRO_NUMBERS,
    )
}

/// What both programs say of the lists with enough space, with more, and with too little of either, also in another order; the tree is the
/// same whatever the space held.
fn matched(lists: &Lists, seed: u64) -> Result<(usize, i64, i64), u32> {
    let (m, k) = counts(lists);
    let asked = edge_numbers(m, k);
    let (pins, macros, weights) = lists.parts();
    let more = Random::new(seed).choose(&[0, 0, 1, 40]);
    let expected = operations::best_cost(pins, macros, weights, WORK, asked);
    let ours = call(lists, WORK + more, asked + more, seed);
    let said = ours.answer.map(|(_, total, _)| total);
    assert_eq!(said, expected, "seed {seed}\n{}", text::print(lists));
    ours.lent_as_it_should_be(lists);
    let there = Shift::of(lists, &[], seed).lists(lists);
    let turned = call(&permuted(&there, !seed), WORK, asked, seed);
    assert_eq!(turned.answer.map(|(_, total, _)| total), expected);
    turned.lent_as_it_should_be(lists);
    for (work, edges) in [(WORK - 1, asked), (WORK, asked.saturating_sub(1)), (0, 0)] {
        let expected = operations::best_cost(pins, macros, weights, work, edges);
        let short = call(lists, work, edges, seed);
        assert_eq!(short.answer.map(|(_, total, _)| total), expected);
        short.lent_as_it_should_be(lists);
    }
    if let Ok((count, ..)) = ours.answer {
        ours.passes(lists);
        if seed % 8 == 7 {
            let again = call(lists, WORK, asked, !seed);
            assert_eq!(again.answer, ours.answer, "{lists:?}");
            assert_eq!(again.edges[..4 * count], ours.edges[..4 * count]);
        }
    }
    ours.answer
}

/// How many nets are cut out of one: large nets take longer to make than small ones to route.
const PARTS: u64 = 8;

/// What the refined tree and the slid tree of an allowed net cost.
fn refined_and_slid(lists: &Lists) -> [i64; 2] {
    let (pins, macros, weights) = lists.parts();
    let (m, k) = counts(lists);
    let mut edges = vec![0; 8 * (2 * m + 4 * k)];
    let refined = library::refined_tree(pins, macros, weights, &mut edges);
    let slid = library::slid_tree(pins, macros, weights, &mut edges);
    [refined, slid].map(|tree| tree.expect("a tree").1)
}

/// Nets of every kind cut to five pins and few macros, some to sixteen, some uncut, and hostile lists. The refined tree and the slid tree
/// are never cheaper.
#[test]
fn five_thousand_nets() {
    let mut met = Counted::new("best trees of 5000 nets");
    let mut whole = Lists::default();
    for seed in 0..5_000 {
        if seed % PARTS == 0 {
            whole = routed(seed / PARTS).lists;
        }
        let (part, pins) = ((seed % PARTS) as usize, 1 + seed as usize / 3 % PINS);
        let lists = match seed % 64 {
            0 => refused(seed / 64).lists,
            1 => whole.clone(),
            2 => cut(&whole, part, PINS, MACROS),
            3 => cut(&whole, part, PINS + 1, 3),
            4 => cut(&whole, part, 2, MACROS + 1),
            _ => cut(&whole, part, pins, seed as usize / 7 % 6),
        };
        let (m, k) = counts(&lists);
        let event = match matched(&lists, seed) {
            Ok((_, total, _)) => {
                let [refined, slid] = refined_and_slid(&lists);
                assert!(total <= refined.min(slid), "{}", text::print(&lists));
                met.add("trees dearer once refined", (total < refined).into());
                met.add("trees dearer once slid", (total < slid).into());
                met.add("trees of the largest size", (m == 5 && k == 16).into());
                format!("trees of {m} pins")
            }
            Err(41) => "nets above the size".to_string(),
            Err(_) => "lists refused by the check".to_string(),
        };
        met.add(&event, 1);
    }
    met.all_met(1);
}

/// Tiny nets whose grid has at most 17 edges, by every set of them.
#[test]
fn five_hundred_tiny_nets_by_every_set_of_edges() {
    let (mut tried, mut seed) = (0, 0_u64);
    while tried < 500 {
        seed += 1;
        let random = &mut Random::new(seed);
        let m = 2 + random.below(4);
        let places: Vec<i32> = (0..2 * m).map(|_| random.between(0, 3)).collect();
        let macros = if random.one_in(2) {
            let (x, y) = (random.between(0, 2), random.between(0, 2));
            vec![x, y, random.between(x + 1, 3), random.between(y + 1, 3)]
        } else {
            Vec::new()
        };
        let weights = Weights {
            x: random.between(1, 3),
            y: random.between(1, 3),
        };
        let lists = Lists {
            pins: unloaded(&places),
            macros,
            weights,
        };
        let (pins, macros, weights) = lists.parts();
        let Ok(net) = check(pins, macros, weights) else {
            continue;
        };
        let Some(least) = cost_by_edge_sets(&net, 17) else {
            continue;
        };
        let (m, k) = counts(&lists);
        let ours = call(&lists, WORK, edge_numbers(m, k), seed);
        let said = ours.answer.map(|(_, total, _)| total);
        assert_eq!(said, Ok(least), "{}", text::print(&lists));
        ours.passes(&lists);
        tried += 1;
    }
}

/// What those bought-in trees of a net cost that pass by both programs, of lists of every kind.
fn bought_in(lists: &Lists, net: &Net, seed: u64) -> Vec<i64> {
    let ours = Ours::of(net);
    let (pins, macros, weights) = lists.parts();
    let cost = |list: Vec<i32>| {
        let answer = library::check_tree(pins, macros, weights, &list);
        assert_eq!(answer, operations::check_tree(pins, macros, weights, &list));
        answer.ok().map(|(cost, _)| cost)
    };
    let all = Bought::ALL.iter();
    let lists = all.filter_map(|&kind| bought(kind, seed, &ours));
    lists.filter_map(cost).collect()
}

/// What the best tree of a small net costs, with the tree passed by both checks.
fn best(lists: &Lists, seed: u64) -> i64 {
    let (m, k) = counts(lists);
    let ours = call(lists, WORK, edge_numbers(m, k), seed);
    ours.passes(lists);
    ours.answer.expect("a tree").1
}

/// L17 and L18: the least metal in clear steps of a unit, or of half a unit, costs what the best tree does, wherever it runs, also off the
/// die; so no refined tree, slid tree or bought-in tree costs less. Without the macros, metal costs less for many a net.
#[test]
fn two_thousand_nets_beside_all_metal() {
    let [units, halves] = [1, 2].map(|parts| Steps { parts, margin: 1 });
    let mut met = Counted::new("best trees of 2000 nets beside all metal");
    for seed in 0..2_000 {
        let lists = crowded(!seed);
        let (pins, macros, weights) = lists.parts();
        let [net, open] = [macros, &[]].map(|macros| check(pins, macros, weights).unwrap());
        let (total, said) = (best(&lists, seed), text::print(&lists));
        let least = units.least(&net);
        assert_eq!(least.cost, total, "{said}");
        assert_eq!(halves.least(&net).cost, 2 * total, "{said}");
        let [refined, slid] = refined_and_slid(&lists);
        let bought = bought_in(&lists, &net, seed);
        let others = bought.iter().chain([&refined, &slid]);
        assert!(others.min() >= Some(&total), "{said}");
        let in_the_way = units.least(&open).cost < total;
        let dearer = bought.iter().filter(|&&cost| total < cost).count();
        for (event, times) in [
            ("nets with macros in the way", in_the_way.into()),
            (
                "of them with weights that differ",
                (in_the_way && weights.x != weights.y).into(),
            ),
            (
                "nets whose least metal may leave the lines",
                (least.off_lines > 0).into(),
            ),
            ("refined trees that cost more", (total < refined).into()),
            ("slid trees that cost more", (total < slid).into()),
            ("bought-in trees that pass and cost more", dearer),
            (
                "bought-in trees that pass and cost as much",
                bought.len() - dearer,
            ),
        ] {
            met.add(event, times);
        }
    }
    met.all_met(20);
}

fn lists(pins: &[i32], macros: &[i32]) -> Lists {
    Lists {
        pins: unloaded(pins),
        macros: macros.to_vec(),
        weights: Weights::ONE,
    }
}

/// Five pins whose refined tree costs 8 and whose best tree 7; one pin; two pins round a macro.
#[test]
fn worked_trees() {
    let five = lists(&[2, 0, 1, 3, 0, 1, 3, 1, 0, 0], &[]);
    let mut edges = vec![0; 4 * (5 + 5)];
    let refined = library::refined_tree(&five.pins, &five.macros, five.weights, &mut edges);
    assert_eq!(refined.map(|(_, total, _)| total), Ok(8));
    let (_, total, metal) = matched(&five, 1).unwrap();
    assert_eq!((total, metal), (7, 7));
    assert_eq!(matched(&lists(&[5, 5], &[]), 2), Ok((0, 0, 0)));
    assert_eq!(matched(&lists(&[5, 5], &[0, 0, 2, 2]), 3), Ok((0, 0, 0)));
    let round = matched(&lists(&[0, 5, 10, 5], &[2, 2, 8, 8]), 4).unwrap();
    assert_eq!((round.1, round.2), (16, 16));
}

/// Five pins and sixteen macros pass, one more of either is 41; 18 before 41 before 21, and 65,535 numbers of work are too few.
#[test]
fn bounds_and_the_order_of_refusals() {
    let pins = |m: i32| (0..m).flat_map(|i| [i, 2 * i]).collect::<Vec<i32>>();
    let macros = |k: i32| (0..k).flat_map(|i| [100 + 2 * i, 0, 101 + 2 * i, 5]);
    let net = |m, k, y| Lists {
        pins: unloaded(&pins(m)),
        macros: macros(k).collect(),
        weights: Weights { x: 1, y },
    };
    let answer = |lists: &Lists, work, edges| {
        let called = call(lists, work, edges, 7);
        called.lent_as_it_should_be(lists);
        called.answer.map(|(_, total, _)| total)
    };
    let largest = edge_numbers(5, 16);
    assert_eq!(largest, 4 * 37 * 37);
    let given = matched(&net(5, 16, 1), 7).map(|(_, total, _)| total);
    assert_eq!(given, Ok(12));
    assert_eq!(answer(&net(5, 16, 1), WORK, largest), Ok(12));
    assert_eq!(answer(&net(5, 16, 1), WORK + 1_000, largest + 5), Ok(12));
    assert_eq!(answer(&net(5, 16, 1), WORK - 1, largest), Err(21));
    assert_eq!(answer(&net(5, 16, 1), WORK, largest - 1), Err(21));
    assert_eq!(answer(&net(6, 0, 1), WORK, largest), Err(41));
    assert_eq!(answer(&net(5, 17, 1), WORK, largest), Err(41));
    assert_eq!(answer(&net(6, 17, 1), 0, 0), Err(41));
    assert_eq!(answer(&net(6, 17, 9), 0, 0), Err(18));
    assert_eq!(answer(&net(0, 17, 9), 0, 0), Err(11));
    assert_eq!(answer(&net(1, 0, 1), WORK, 4), Ok(0));
    assert_eq!(answer(&net(1, 0, 1), WORK, 3), Err(21));
    assert_eq!(answer(&net(1, 0, 1), WORK - 1, 4), Err(21));
}
