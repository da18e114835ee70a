//! `longer [NETS]`: by how much refined and slid trees are dearer than best trees, on so many random nets of 3 to 5 pins without macros and
//! with eight of them. The table in the README is what it prints.

use harness::gaps::Gaps;
use harness::library;
use reference::best::{edge_numbers, WORK};
use reference::lists::{unloaded, Lists};
use reference::net::{check, Net, Weights};
use reference::random::Random;

/// An allowed net of m pins and k macros on a square of 1,000 units.
fn net(random: &mut Random, m: usize, k: usize) -> Lists {
    let mut lists = Lists {
        weights: Weights::ONE,
        ..Lists::default()
    };
    let whole = |lists: &Lists| {
        let (pins, macros, weights) = lists.parts();
        check(pins, macros, weights).is_ok()
    };
    while lists.pins.len() < Net::PIN_NUMBERS * m {
        let before = lists.pins.len();
        let place = [0; 2].map(|_| random.between(0, 1_000));
        lists.pins.extend(unloaded(&place));
        if !whole(&lists) {
            lists.pins.truncate(before);
        }
    }
    while lists.macros.len() < 4 * k {
        let before = lists.macros.len();
        let [x, y] = [0; 2].map(|_| random.between(0, 900));
        let [w, h] = [0; 2].map(|_| random.between(20, 300));
        lists.macros.extend([x, y, x + w, y + h]);
        if !whole(&lists) {
            lists.macros.truncate(before);
        }
    }
    lists
}

/// What the refined, the slid and a best tree cost.
fn costs(lists: &Lists) -> [i64; 3] {
    let (pins, macros, weights) = lists.parts();
    let (m, k) = (
        pins.len() / Net::PIN_NUMBERS,
        macros.len() / Net::MACRO_NUMBERS,
    );
    let mut edges = vec![0; 8 * (2 * m + 4 * k)];
    let refined = library::refined_tree(pins, macros, weights, &mut edges);
    let slid = library::slid_tree(pins, macros, weights, &mut edges);
    let mut edges = vec![0; edge_numbers(m, k)];
    let best = library::best_tree(pins, macros, weights, &mut vec![0; WORK], &mut edges);
    [refined, slid, best].map(|tree| tree.expect("an allowed net of that size").1)
}

fn main() {
    let nets = std::env::args().nth(1);
    let nets: u64 = nets.map_or(1_000, |nets| nets.parse().expect("how many nets"));
    println!("pins macros  refined: mean  most  as best    slid: mean  most  as best");
    for k in [0, 8] {
        for m in 3..=5 {
            let random = &mut Random::new(m as u64 * 100 + k as u64);
            let mut gaps = [Gaps::default(), Gaps::default()];
            for _ in 0..nets {
                let [refined, slid, best] = costs(&net(random, m, k));
                for (gaps, cost) in gaps.iter_mut().zip([refined, slid]) {
                    gaps.above(cost, best);
                }
            }
            let said = gaps.map(|gaps| {
                let (mean, most, same) = (gaps.mean(), gaps.most(), gaps.same());
                format!("{mean:13.2}% {most:4.1}% {same:7.1}%")
            });
            println!("{m:4} {k:6}  {} {}", said[0], said[1]);
        }
    }
}
