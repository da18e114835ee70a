//! Lower bounds by both programs: the same number, the same lent space, and no tree below it.

use harness::counted::Counted;
use harness::library;
use harness::matching::{refused, routed, Case, Difference};
use reference::best::{self, edge_numbers, WORK};
use reference::exact;
use reference::generate::{net, Kind};
use reference::lists::Lists;
use reference::net::{check, Net, Weights};
use reference::sweeps::{LEFT, ROWS};
use reference::text;

/// What both programs say, where they say the same.
fn said(given: Result<Result<u64, u32>, Box<Difference>>) -> Result<i64, u32> {
    let given = given.unwrap_or_else(|difference| panic!("{difference}"));
    given.map(|bound| i64::try_from(bound).expect("a cost"))
}

/// The bound of an allowed net, with enough work.
fn bound(case: &Case) -> i64 {
    said(case.lower_bound_lent([LEFT, ROWS])).expect("an allowed net")
}

fn counts(lists: &Lists) -> (usize, usize) {
    (
        lists.pins.len() / Net::PIN_NUMBERS,
        lists.macros.len() / Net::MACRO_NUMBERS,
    )
}

/// What the refined tree, the slid tree and, where there is one, the best tree of an allowed net cost.
fn trees(lists: &Lists) -> (i64, i64, Option<i64>) {
    let (pins, macros, weights) = lists.parts();
    let (m, k) = counts(lists);
    let mut edges = vec![0; 8 * (2 * m + 4 * k)];
    let refined = library::refined_tree(pins, macros, weights, &mut edges);
    let slid = library::slid_tree(pins, macros, weights, &mut edges);
    let best = (m <= best::PINS && k <= best::MACROS).then(|| {
        let (mut work, mut edges) = (vec![0; WORK], vec![0; edge_numbers(m, k)]);
        library::best_tree(pins, macros, weights, &mut work, &mut edges)
    });
    let cost = |tree: Result<(usize, i64, i64), u32>| tree.expect("a tree").1;
    (cost(refined), cost(slid), best.map(cost))
}

/// Nets of every kind and hostile lists. No bound is above a tree.
#[test]
fn six_hundred_nets() {
    let mut met = Counted::new("lower bounds of 600 nets");
    for seed in 0..600 {
        let case = match seed % 16 {
            15 => refused(seed / 16),
            _ => routed(seed),
        };
        let bound = match said(case.lower_bound()) {
            Ok(bound) => bound,
            Err(21) => {
                met.add("calls with too little work", 1);
                continue;
            }
            Err(_) => {
                met.add("lists refused by the check", 1);
                continue;
            }
        };
        let (refined, slid, best) = trees(&case.lists);
        let net = || format!("seed {seed}\n{}", text::print(&case.lists));
        assert!(bound <= refined && bound <= slid, "{}", net());
        assert!(best.is_none_or(|best| bound <= best), "{}", net());
        let (m, k) = counts(&case.lists);
        for (event, is_met) in [
            ("one pin", m == 1),
            ("100 pins and more", m >= 100),
            ("100 macros and more", k >= 100),
            ("slid trees that are proved best", bound == slid),
            ("slid trees above the bound", bound < slid),
            ("refined trees above the bound", bound < refined),
            (
                "best trees that are as low as the bound",
                best == Some(bound),
            ),
        ] {
            met.add(event, is_met.into());
        }
    }
    met.all_met(2);
}

/// 128 pins and 128 macros out to ±1,000,000 under the greatest weights: the greatest bounds there are.
#[test]
fn a_largest_net_with_the_greatest_weights() {
    let lists = Lists {
        weights: Weights { x: 8, y: 8 },
        ..net(Kind::LargestFar, 0)
    };
    let (refined, slid, _) = trees(&lists);
    let bound = bound(&Case {
        kind: Kind::LargestFar.name(),
        seed: 0,
        lists,
    });
    assert!(bound <= slid && slid <= refined);
    assert!(10 * bound >= 9 * slid, "{bound} {slid}");
}

/// Up to ten pins: no bound is above what an exact tree costs, and most are just that.
#[test]
fn three_hundred_nets_beside_exact_trees() {
    let mut met = Counted::new("lower bounds of 300 nets beside exact trees");
    for seed in 1_000..1_300 {
        let case = routed(seed);
        let lists = case
            .lists
            .first(2 + seed as usize % 9, seed as usize / 9 % 7);
        let (pins, macros, weights) = lists.parts();
        let net = check(pins, macros, weights).expect("an allowed net");
        let case = Case { lists, ..case };
        let bound = bound(&case);
        let exact = exact::cost(&net);
        assert!(bound <= exact, "seed {seed}\n{}", text::print(&case.lists));
        met.add("bounds that are the least cost", (bound == exact).into());
        met.add("bounds below it", (bound < exact).into());
        met.add("nets of ten pins", (net.m() == 10).into());
    }
    met.all_met(3);
}
