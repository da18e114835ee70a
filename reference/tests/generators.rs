//! Each kind of the generator gives what it names.

use reference::generate::{
    bands, damaged, damaged_weighted, hostile, hostile_weighted, net, refusal, weighted, BandList,
    Damage, Hostile, Kind,
};
use reference::lists::Lists;
use reference::net::{check, Macro, Net, Place, Weights};
use reference::price::price;
use reference::slide::slid;

/// So many nets of a kind, checked.
fn nets(kind: Kind, seeds: u64) -> Vec<Net> {
    (0..seeds)
        .map(|seed| {
            let lists = net(kind, seed);
            let checked = check(&lists.pins, &lists.macros, lists.weights);
            checked.unwrap_or_else(|refusal| panic!("{} {seed}: {refusal}", kind.name()))
        })
        .collect()
}

fn numbers(lists: &Lists) -> impl Iterator<Item = i32> + '_ {
    lists.pins.iter().chain(&lists.macros).copied()
}

fn on_boundary(m: &Macro, pin: Place) -> bool {
    let within = m.left <= pin.x && pin.x <= m.right && m.bottom <= pin.y && pin.y <= m.top;
    within && !m.holds(pin)
}

/// The width and height of what two closed rectangles share; negative where they are apart.
fn shared(a: &Macro, b: &Macro) -> (i64, i64) {
    (
        a.right.min(b.right) - a.left.max(b.left),
        a.top.min(b.top) - a.bottom.max(b.bottom),
    )
}

fn any_shared(net: &Net, wanted: impl Fn((i64, i64)) -> bool) -> bool {
    let macros = net.macros();
    (0..macros.len()).any(|i| (0..i).any(|j| wanted(shared(&macros[i], &macros[j]))))
}

#[test]
fn every_kind_is_allowed_and_varies() {
    for &kind in Kind::ALL {
        let slow = matches!(kind, Kind::BoundEnds | Kind::LargestFar);
        let seeds = if slow { 10 } else { 100 };
        let nets = nets(kind, seeds);
        let distinct = nets
            .iter()
            .enumerate()
            .filter(|(i, n)| !nets[..*i].contains(n));
        assert!(distinct.count() > nets.len() / 2, "{}", kind.name());
    }
}

#[test]
fn the_same_seed_gives_the_same() {
    for &kind in Kind::ALL {
        assert_eq!(net(kind, 5), net(kind, 5));
        assert_eq!(weighted(kind, 5), weighted(kind, 5));
    }
    for &kind in Hostile::ALL {
        assert_eq!(hostile(kind, 5), hostile(kind, 5));
        assert_eq!(hostile_weighted(kind, 5), hostile_weighted(kind, 5));
    }
    for &kind in Damage::ALL {
        assert_eq!(damaged(kind, 5), damaged(kind, 5));
        assert_eq!(damaged_weighted(kind, 5), damaged_weighted(kind, 5));
    }
}

#[test]
fn names_find_their_kinds() {
    for &kind in Kind::ALL {
        assert_eq!(Kind::named(kind.name()), Some(kind));
        assert_eq!(Hostile::named(kind.name()), None);
    }
    for &kind in Hostile::ALL {
        assert_eq!(Hostile::named(kind.name()), Some(kind));
    }
    for &kind in Damage::ALL {
        assert_eq!(Damage::named(kind.name()), Some(kind));
    }
}

#[test]
fn tiny_coordinates() {
    for (kind, high) in [(Kind::TinyFour, 4), (Kind::TinyEight, 8)] {
        for seed in 0..200 {
            let lists = net(kind, seed);
            assert!(numbers(&lists).all(|c| (0..=high).contains(&c)));
        }
    }
}

#[test]
fn macros_touch() {
    for net in nets(Kind::SideBySide, 100) {
        assert!(any_shared(&net, |(w, h)| (w == 0 && h > 0) || (w > 0 && h == 0)));
    }
    for net in nets(Kind::CornerToCorner, 100) {
        assert!(any_shared(&net, |both| both == (0, 0)));
    }
    for net in nets(Kind::GridTouching, 100) {
        assert!(any_shared(&net, |(w, h)| w == 0 && h > 0));
        assert!(any_shared(&net, |(w, h)| w > 0 && h == 0));
    }
    for net in nets(Kind::GridOne, 100) {
        assert!(any_shared(&net, |(w, h)| w == -1 && h > 0));
        assert!(any_shared(&net, |(w, h)| w > 0 && h == -1));
        assert!(!any_shared(&net, |(w, h)| w == 0 || h == 0));
    }
}

#[test]
fn pins_stand_on_macros() {
    for net in nets(Kind::PinsOnSides, 100) {
        let on_side = |&pin: &Place| net.macros().iter().any(|m| on_boundary(m, pin));
        assert!(net.pins().iter().all(on_side));
    }
    for net in nets(Kind::PinsOnCorners, 100) {
        let on_corner = |pin: &Place| net.macros().iter().any(|m| m.corners().contains(pin));
        assert!(net.pins().iter().all(on_corner));
    }
}

#[test]
fn far_coordinates() {
    let lists: Vec<Lists> = (0..100).map(|seed| net(Kind::Far, seed)).collect();
    for end in [-Net::COORDINATE, Net::COORDINATE] {
        assert!(lists.iter().all(|l| l.pins.contains(&end)));
        assert!(lists.iter().filter(|l| l.macros.contains(&end)).count() > 50);
    }
}

/// Nets of the most entries reach both ends of the range.
#[test]
fn largest_far_coordinates() {
    for seed in 0..20 {
        let lists = net(Kind::LargestFar, seed);
        let end = Net::COORDINATE;
        let near = |end: i32| numbers(&lists).any(|c| (c - end).abs() <= 250_000);
        assert!(near(end) && near(-end), "{seed}");
    }
    let ends = (0..20).filter(|&seed| {
        let lists = net(Kind::LargestFar, seed);
        lists.macros.contains(&Net::COORDINATE) && lists.macros.contains(&-Net::COORDINATE)
    });
    assert!(ends.count() > 5);
}

#[test]
fn counts() {
    for kind in [Kind::Largest, Kind::LargestMaze, Kind::LargestFar] {
        for net in nets(kind, 50) {
            assert_eq!((net.m(), net.k()), (Net::PINS, Net::MACROS));
        }
    }
    for net in nets(Kind::OnePin, 100) {
        assert_eq!(net.m(), 1);
    }
    for net in nets(Kind::NoMacros, 100) {
        assert_eq!(net.k(), 0);
    }
}

#[test]
fn collinear_pins() {
    for net in nets(Kind::Collinear, 100) {
        let level = net.pins().iter().all(|pin| pin.y == 0);
        let upright = net.pins().iter().all(|pin| pin.x == 0);
        assert!(level || upright);
    }
}

/// In a comb or a maze some way is much longer than its pins are apart.
#[test]
fn walls_make_long_ways() {
    for kind in [Kind::Comb, Kind::Maze] {
        let long = |net: &Net| {
            let paths = reference::terminal::terminal(net).paths;
            paths.iter().any(|path| {
                let apart = path.vertices[0].distance(path.vertices[path.vertices.len() - 1]);
                path.cost >= 3 * apart
            })
        };
        let count = nets(kind, 100).iter().filter(|net| long(net)).count();
        assert!(count > 10, "{}: {count} of 100", kind.name());
    }
}

/// Bars move on nets whose ways bend between macros; behind a chain of chambers bends find the place of another one.
#[test]
fn bars_move_and_bends_collide() {
    let slid = |kind| nets(kind, 200).into_iter().map(|net| slid(&net).statistics);
    let moves: usize = slid(Kind::Bars).map(|said| said.moves).sum();
    assert!(moves > 50, "{moves}");
    let turned = slid(Kind::Chambers).filter(|said| said.y_first > 0 || said.given_back);
    assert!(turned.count() > 2);
}

#[test]
fn wide_dies() {
    for net in nets(Kind::Wide, 100) {
        assert!(net.k() <= 6);
        let far = |pin: &Place| pin.x.abs().max(pin.y.abs()) > 100_000;
        assert!(net.m() < 10 || net.pins().iter().any(far));
    }
}

/// Weights of all sorts are allowed; every weight and many pairs come up, on each kind. Where a
/// kind is not found by search, the lists are those of weights 1 and 1.
#[test]
fn weighted_nets() {
    let mut seen = Vec::new();
    for &kind in Kind::ALL {
        let slow = matches!(kind, Kind::BoundEnds | Kind::Pruned);
        let searched = slow || matches!(kind, Kind::Rounds | Kind::Dropped | Kind::DroppedWins);
        let mut ones = 0;
        let seeds = if slow { 10 } else { 60 };
        for seed in 0..seeds {
            let lists = weighted(kind, seed);
            let checked = check(&lists.pins, &lists.macros, lists.weights);
            assert!(checked.is_ok(), "{} {seed}: {checked:?}", kind.name());
            let plain = net(kind, seed);
            assert_eq!(plain.weights, Weights::ONE);
            let same = (&lists.pins, &lists.macros) == (&plain.pins, &plain.macros);
            assert!(same || searched, "{} {seed}", kind.name());
            ones += usize::from(lists.weights == Weights::ONE);
            let Weights { x, y } = lists.weights;
            if !seen.contains(&(x, y)) {
                seen.push((x, y));
            }
        }
        assert!(ones < seeds as usize / 2, "{}", kind.name());
    }
    assert_eq!(seen.len(), 64);
}

/// Hostile lists with weights of all sorts are still refused with the number of their kind; where
/// it fixes none, 18 comes up as well, and half of the weights are outside 1 to 8.
#[test]
fn hostile_weights() {
    let (mut outside, mut inside) = (0, 0);
    for &kind in Hostile::ALL {
        let mut seen = Vec::new();
        for seed in 0..2_000 {
            let lists = hostile_weighted(kind, seed);
            let result = check(&lists.pins, &lists.macros, lists.weights).err();
            if kind != Hostile::Anything {
                assert_eq!(result, refusal(kind, seed), "{} {seed}", kind.name());
            }
            let Weights { x, y } = lists.weights;
            if [x, y].iter().all(|weight| (1..=8).contains(weight)) {
                inside += 1
            } else {
                outside += 1
            }
            seen.push(result.unwrap_or(0));
        }
        seen.sort();
        seen.dedup();
        if kind == Hostile::Anything {
            assert_eq!(seen, [0, 11, 12, 13, 14, 15, 16, 17, 18]);
        }
    }
    assert!(
        outside > 10_000 && inside > 10_000,
        "{outside} and {inside}"
    );
}

/// Hostile lists are refused with the number their kind names, the least of several.
#[test]
fn hostile_lists_are_refused() {
    for &kind in Hostile::ALL {
        let mut seen = Vec::new();
        for seed in 0..2_000 {
            let lists = hostile(kind, seed);
            let result = check(&lists.pins, &lists.macros, lists.weights).err();
            if kind != Hostile::Anything {
                assert_eq!(result, refusal(kind, seed), "{} {seed}", kind.name());
            }
            let number = result.unwrap_or(0);
            if !seen.contains(&number) {
                seen.push(number);
            }
            let named = format!("refused {number}");
            assert!(!kind.about().starts_with("refused") || kind.about().starts_with(&named));
        }
        seen.sort();
        match kind {
            Hostile::Several => assert_eq!(seen, [11, 12, 13, 14, 15, 16]),
            Hostile::Anything => assert_eq!(seen, [0, 11, 12, 13, 14, 15, 16, 17]),
            _ => assert_eq!(seen.len(), 1, "{}", kind.name()),
        }
    }
}

/// Lists of bands: the answer that each kind names, lists in order that are, and lists broken at one place that are broken there alone.
#[test]
fn lists_of_bands() {
    for &kind in BandList::ALL {
        for seed in 0..300 {
            let metal = seed * seed * seed;
            let list = bands(kind, seed, metal);
            let answer = price(metal, &list);
            let name = kind.name();
            let bands: Vec<&[u64]> = list.chunks(2).collect();
            let falls = |two: &&[&[u64]]| two[0][0] >= two[1][0] || two[0][1] > two[1][1];
            let fallen = || bands.windows(2).filter(falls).count();
            match kind {
                BandList::Short | BandList::OneBelow if metal == 0 => {}
                BandList::InOrder
                | BandList::Half
                | BandList::JustReaches
                | BandList::Huge
                | BandList::Long => {
                    assert!(answer.is_ok(), "{name} {seed}: {answer:?}");
                    assert_eq!(fallen(), 0, "{name} {seed}: {list:?}");
                }
                BandList::EqualLimits
                | BandList::FallingLimit
                | BandList::FallingRate
                | BandList::Exchanged
                | BandList::FallingShort => {
                    assert_eq!(answer, Err(37), "{name} {seed}");
                    assert_eq!(fallen(), 1, "{name} {seed}: {list:?}");
                }
                _ => {
                    let number = answer.err().map(|number| format!("refused {number}:"));
                    let named = kind.about().starts_with("refused");
                    let said = number.is_some_and(|number| kind.about().starts_with(&number));
                    assert!(said || !named, "{name} {seed}: {answer:?}");
                }
            }
        }
    }
}
