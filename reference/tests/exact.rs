//! Exact trees beside the other ways to the same number, and that what is laid is a tree that costs
//! it.

mod common;

use reference::best::{self, cost_by_edge_sets};
use reference::bought;
use reference::edge::Edge;
use reference::exact;
use reference::generate::crowded;
use reference::lists::{unloaded, Lists};
use reference::net::{check, Net, Weights};
use reference::random::Random;
use reference::refined::refined;
use reference::slide::slid;

fn checked(lists: &Lists) -> Net {
    let (pins, macros, weights) = lists.parts();
    check(pins, macros, weights).expect("generated nets are allowed")
}

/// An exact tree's cost, its edges passed by the check of bought-in trees for just that.
fn cost(net: &Net, name: &str) -> i64 {
    let narrow = |z: i64| i32::try_from(z).expect("on the die");
    let ends = |edge: &Edge| [edge.first(), edge.second()];
    let tree = exact::tree(net);
    let places = tree.iter().flat_map(ends);
    let numbers: Vec<i32> = places.flat_map(|at| [at.x, at.y].map(narrow)).collect();
    let passed = bought::check(net, &numbers).expect(name);
    let cost = exact::cost(net);
    assert_eq!(passed.cost, cost, "{name}");
    assert!(tree.windows(2).all(|two| two[0] < two[1]), "{name}");
    cost
}

/// Up to five pins: what a best tree costs, by all shapes of trees.
#[test]
fn best_trees() {
    for seed in 5_000..5_400 {
        let net = checked(&crowded(seed));
        assert_eq!(cost(&net, "crowded"), best::cost(&net), "crowded {seed}");
    }
    for (name, lists) in common::nets(4) {
        let net = checked(&lists.first(best::PINS, 5));
        assert_eq!(cost(&net, &name), best::cost(&net), "{name}");
    }
}

/// More pins than that on a few units, by every set of the grid's edges.
#[test]
fn every_set_of_edges() {
    let (mut tried, mut seed, mut most) = (0, 0, 0);
    while tried < 100 {
        seed += 1;
        let random = &mut Random::new(seed);
        let m = random.between(6, 9);
        let places: Vec<i32> = (0..2 * m).map(|_| random.between(0, 3)).collect();
        let [x, y] = [0; 2].map(|_| random.between(0, 2));
        let own = vec![x, y, random.between(x + 1, 3), random.between(y + 1, 3)];
        let lists = Lists {
            pins: unloaded(&places),
            macros: if random.one_in(3) { Vec::new() } else { own },
            weights: Weights {
                x: random.between(1, 3),
                y: random.between(1, 3),
            },
        };
        let (pins, macros, weights) = lists.parts();
        let Ok(net) = check(pins, macros, weights) else {
            continue;
        };
        let Some(least) = cost_by_edge_sets(&net, 17) else {
            continue;
        };
        assert_eq!(cost(&net, "few units"), least, "seed {seed}");
        most = most.max(net.m());
        tried += 1;
    }
    assert!(most >= 8, "at most {most} pins");
}

/// Up to ten pins: no refined and no slid tree costs less, and many cost more.
#[test]
fn ten_pins() {
    let (mut ten, mut dearer) = (0, 0);
    for (name, lists) in common::nets(4) {
        let net = checked(&lists.first(10, 6));
        let (exact, slid) = (cost(&net, &name), slid(&net).total);
        assert!(exact <= slid && exact <= refined(&net).total, "{name}");
        ten += usize::from(net.m() == 10);
        dearer += usize::from(exact < slid);
    }
    assert!(ten >= 20 && dearer >= 10, "{ten} {dearer}");
}
