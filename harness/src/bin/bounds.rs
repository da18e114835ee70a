//! `bounds [NETS]`: how near trees and lower bounds are to each other. On so many nets of every kind, 2,000 if none are
//! said, on random nets by their size, a hundredth as many of each, and beside exact trees. No bound may be above a
//! best, refined, slid or exact tree. The tables in the README are what it prints.

use harness::gaps::Gaps;
use harness::library;
use harness::matching::routed;
use harness::spread::spread;
use reference::best::{self, edge_numbers, WORK};
use reference::exact;
use reference::lists::Lists;
use reference::net::{check, Net, Weights};
use reference::sweeps::{LEFT, ROWS};

/// What the refined, the slid and, where there is one, the best tree cost, and the lower bound.
struct Costs {
    refined: i64,
    slid: i64,
    best: Option<i64>,
    bound: i64,
}

impl Costs {
    fn of(lists: &Lists) -> Costs {
        let (pins, macros, weights) = lists.parts();
        let (m, k) = counts(lists);
        let mut edges = vec![0; 8 * (2 * m + 4 * k)];
        let refined = library::refined_tree(pins, macros, weights, &mut edges);
        let slid = library::slid_tree(pins, macros, weights, &mut edges);
        let [refined, slid] = [refined, slid].map(|tree| tree.expect("an allowed net").1);
        let is_small = m <= best::PINS && k <= best::MACROS;
        let best = is_small.then(|| {
            let (mut work, mut edges) = (vec![0; WORK], vec![0; edge_numbers(m, k)]);
            let tree = library::best_tree(pins, macros, weights, &mut work, &mut edges);
            tree.expect("a net of that size").1
        });
        let (mut left, mut rows) = (vec![0; LEFT], vec![0; ROWS]);
        let bound = library::lower_bound(pins, macros, weights, &mut left, &mut rows);
        let bound = bound.expect("an allowed net") as i64;
        assert!(bound <= refined && bound <= slid, "{lists:?}");
        assert!(best.is_none_or(|best| bound <= best), "{lists:?}");
        Costs {
            refined,
            slid,
            best,
            bound,
        }
    }
}

fn counts(lists: &Lists) -> (usize, usize) {
    (
        lists.pins.len() / Net::PIN_NUMBERS,
        lists.macros.len() / Net::MACRO_NUMBERS,
    )
}

/// What an exact tree costs, where that does not take long: by the sets of pins and the crossings of the grid.
fn exact_cost(lists: &Lists) -> Option<i64> {
    let (m, k) = counts(lists);
    let crossings = (m + 2 * k).pow(2);
    let (pins, macros, weights) = lists.parts();
    let net = check(pins, macros, weights).expect("an allowed net");
    (m <= 9 && crossings << m <= 1 << 20).then(|| exact::cost(&net))
}

/// Mean and most, and how many of a hundred are the same.
fn said(gaps: &Gaps) -> String {
    let (mean, most, same) = (gaps.mean(), gaps.most(), gaps.same());
    format!("{mean:6.2}% {most:5.1}% {same:5.1}%")
}

/// Nets of every kind in turn, weights and loads among them.
fn all_kinds(nets: u64) {
    let [mut refined, mut slid, mut best, mut under] = [(); 4].map(|()| Gaps::default());
    for seed in 0..nets {
        let lists = routed(seed).lists;
        let costs = Costs::of(&lists);
        refined.above(costs.refined, costs.bound);
        slid.above(costs.slid, costs.bound);
        if let Some(cost) = costs.best {
            best.below(costs.bound, cost);
        }
        if let Some(cost) = exact_cost(&lists) {
            assert!(costs.best.is_none_or(|best| best == cost), "{lists:?}");
            under.below(costs.bound, cost);
        }
    }
    println!("{nets} nets of all kinds: mean, most, the same");
    let (few, small) = (best.count(), under.count());
    println!("refined trees over the bound            {}", said(&refined));
    println!("slid trees over the bound               {}", said(&slid));
    println!("bound under best trees of {few:4} nets     {}", said(&best));
    println!(
        "bound under exact trees of {small:4} nets    {}",
        said(&under)
    );
}

/// Random nets of a size: refined and slid trees over the bound.
fn by_size(nets: u64) {
    println!("\nrandom nets by size, refined and slid trees over the bound: mean");
    println!("pins     0 macros    16 macros    64 macros   128 macros");
    for m in [3, 8, 16, 32, 64, 128] {
        let of = |k: usize| {
            let nets = if m + k >= 192 { nets / 2 } else { nets }.max(1);
            let [mut refined, mut slid] = [(); 2].map(|()| Gaps::default());
            for seed in 0..nets {
                let costs = Costs::of(&spread(m, k, Weights::ONE, seed));
                refined.above(costs.refined, costs.bound);
                slid.above(costs.slid, costs.bound);
            }
            format!("{:5.1} / {:4.1}", refined.mean(), slid.mean())
        };
        println!("{m:4}  {}", [0, 16, 64, 128].map(of).join(" "));
    }
}

/// Random nets of a size beside exact trees.
fn beside_exact(nets: u64) {
    println!("\nrandom nets beside exact trees: refined and slid trees over, bound under");
    println!("pins macros nets   refined: mean most same    slid: mean most same   bound: mean most same");
    for (m, k, share) in SIZES {
        let nets = (nets * share / 20).max(1);
        let [mut refined, mut slid, mut under] = [(); 3].map(|()| Gaps::default());
        for seed in 0..nets {
            let lists = spread(m, k, Weights::ONE, seed);
            let (pins, macros, weights) = lists.parts();
            let cost = exact::cost(&check(pins, macros, weights).expect("an allowed net"));
            let costs = Costs::of(&lists);
            refined.above(costs.refined, cost);
            slid.above(costs.slid, cost);
            under.below(costs.bound, cost);
        }
        let said = [refined, slid, under].map(|gaps| said(&gaps)).join("  ");
        println!("{m:4} {k:6} {nets:4}   {said}");
    }
}

/// Pins, macros, and of twenty nets so many: exact trees take longer the larger they are.
const SIZES: [(usize, usize, u64); 9] = [
    (3, 8, 60),
    (5, 16, 60),
    (8, 8, 60),
    (8, 32, 40),
    (12, 12, 20),
    (14, 14, 8),
    (5, 64, 20),
    (8, 64, 10),
    (12, 0, 20),
];

fn main() {
    let nets = std::env::args().nth(1);
    let nets: u64 = nets.map_or(2_000, |nets| nets.parse().expect("how many nets"));
    all_kinds(nets);
    by_size(nets / 100);
    beside_exact(nets / 100);
}
