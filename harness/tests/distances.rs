//! Distances on the grid by both programs, and by unit steps on small dies.

use std::io::Write;
use std::sync::atomic::{AtomicUsize, Ordering};

use harness::library;
use harness::matching::{each_of, on_grid, refused, routed};
use reference::generate::{weighted, Kind};
use reference::grid::{distances, distances_by_units, MACROS, PINS};
use reference::lists::{unloaded, Lists};
use reference::net::{check, Weights};
use reference::terminal::terminal;

/// What the library gives for a net that is allowed and of that size.
fn table(lists: &Lists) -> Vec<i64> {
    let (pins, macros, weights) = lists.parts();
    let m = pins.len() / 3;
    let mut table = vec![-1; m * m];
    let given = library::grid_distances(pins, macros, weights, &mut table);
    assert_eq!(given, Ok(m * m));
    table
}

/// Nets of every kind cut to sixteen pins and macros, some uncut ones and hostile lists by turns, each with enough space and too little, and
/// in another order.
#[test]
fn twenty_thousand_nets() {
    let met = [0, 0, 0].map(AtomicUsize::new);
    each_of(20_000, |seed| {
        let case = match seed % 16 {
            0 => refused(seed / 16),
            1 => routed(seed),
            _ => on_grid(seed),
        };
        case.grid_distances()
            .unwrap_or_else(|difference| panic!("{difference}"));
        let (pins, macros, weights) = case.lists.parts();
        // Nothing is lent, so that a net of that size is refused by 21 and its table is not worked out once more.
        let answer = match library::grid_distances(pins, macros, weights, &mut []) {
            Err(21) => 0,
            Err(36) => 1,
            Err(_) => 2,
            Ok(_) => panic!("given into no space: {:?}", case.lists),
        };
        met[answer].fetch_add(1, Ordering::Relaxed);
    });
    let [given, above, hostile] = met.map(AtomicUsize::into_inner);
    let said = format!("distances of 20000 nets: {given} given, {above} above the grid's size, {hostile} refused by the check");
    // Past the capture of what a test prints, so that the counts are in the gate's log.
    writeln!(std::io::stderr(), "{said}").unwrap();
    assert!(
        given >= 15_000 && above >= 100 && hostile >= 1_000,
        "{said}"
    );
}

/// Small dies by walks in unit steps, which may leave the lines by three units; the table is the same both ways, 0 in the diagonal, and no
/// kept path of the terminal tree is cheaper.
#[test]
fn two_thousand_small_nets_by_unit_steps() {
    let kinds = [
        Kind::TinyFour,
        Kind::TinyEight,
        Kind::Small,
        Kind::SideBySide,
        Kind::PinsOnSides,
        Kind::GridOne,
    ];
    let (mut stepped, mut seed, mut around) = (0, 0, 0);
    while stepped < 2_000 {
        let kind = kinds[seed as usize % kinds.len()];
        let lists = weighted(kind, seed);
        seed += 1;
        let (pins, macros, weights) = lists.parts();
        let places = pins.chunks(3).flat_map(|pin| &pin[..2]);
        let all: Vec<&i32> = places.chain(macros).collect();
        let spread = *all.iter().max().unwrap() - *all.iter().min().unwrap();
        if pins.len() / 3 > PINS || macros.len() / 4 > MACROS || spread > 40 {
            continue;
        }
        let net = check(pins, macros, weights).expect("an allowed net");
        let ours = table(&lists);
        assert_eq!(ours, distances_by_units(&net, 3), "{lists:?}");
        let mut places = net.pins().to_vec();
        places.sort();
        let m = places.len();
        for (i, &p) in places.iter().enumerate() {
            for (j, &q) in places.iter().enumerate() {
                assert_eq!(ours[i * m + j], ours[j * m + i]);
                around += usize::from(ours[i * m + j] > weights.cost(p, q));
            }
            assert_eq!(ours[i * m + i], 0);
        }
        for path in terminal(&net).paths {
            let ends = [path.vertices[0], path.vertices[path.vertices.len() - 1]];
            let [i, j] = ends.map(|end| places.iter().position(|&p| p == end).expect("a pin"));
            assert!(ours[i * m + j] <= path.cost, "{lists:?}");
        }
        stepped += 1;
    }
    let said = format!(
        "distances of {stepped} small nets by unit steps; {around} entries go round a macro"
    );
    writeln!(std::io::stderr(), "{said}").unwrap();
    assert!(around >= 1_000, "{said}");
}

fn lists(pins: &[i32], macros: &[i32], x: i32, y: i32) -> Lists {
    Lists {
        pins: unloaded(pins),
        macros: macros.to_vec(),
        weights: Weights { x, y },
    }
}

/// Between the first two of four pins 3, where the graph's way is 5; in the order of places (0, 1), (1, 0), (1, 3), (2, 2).
#[test]
fn shorter_than_the_graph() {
    let net = lists(&[1, 0, 1, 3, 0, 1, 2, 2], &[], 1, 1);
    assert_eq!(
        table(&net),
        [0, 2, 3, 3, 2, 0, 3, 3, 3, 3, 0, 2, 3, 3, 2, 0]
    );
}

/// A pin between touching macros: out along the sides that they share. Three macros about a notch: down the sides that they share and not out at the open side. Weights 1 and 8.
#[test]
fn worked_tables() {
    let shared = [0, 0, 2, 2, 2, 0, 4, 2];
    assert_eq!(table(&lists(&[2, 1, 2, 3], &shared, 1, 1)), [0, 2, 2, 0]);
    assert_eq!(table(&lists(&[2, -1, 2, 3], &shared, 1, 8)), [0, 32, 32, 0]);
    assert_eq!(table(&lists(&[2, -1, 2, 3], &shared, 8, 1)), [0, 4, 4, 0]);
    let notch = [0, 0, 2, 6, 4, 0, 6, 6, 2, 0, 4, 2];
    assert_eq!(table(&lists(&[3, 3, 3, -2], &notch, 1, 1)), [0, 7, 7, 0]);
    assert_eq!(table(&lists(&[5, 5], &[], 1, 1)), [0]);
}

/// Sixteen pins and sixteen macros pass, one more of either is 36; 18 before 36 before 21.
#[test]
fn bounds_and_the_order_of_refusals() {
    let pins = |m: i32| (0..m).flat_map(|i| [i, 2 * i, 0]).collect::<Vec<i32>>();
    let macros = |k: i32| {
        (0..k)
            .flat_map(|i| [100 + 2 * i, 0, 101 + 2 * i, 5])
            .collect::<Vec<i32>>()
    };
    let one = Weights::ONE;
    let call = |m, k, weights, lent| {
        library::grid_distances(&pins(m), &macros(k), weights, &mut vec![7; lent])
    };
    assert_eq!(call(16, 16, one, 256), Ok(256));
    assert_eq!(call(17, 16, one, 289), Err(36));
    assert_eq!(call(16, 17, one, 256), Err(36));
    assert_eq!(call(16, 16, one, 255), Err(21));
    assert_eq!(call(17, 17, one, 0), Err(36));
    assert_eq!(call(17, 17, Weights { x: 1, y: 9 }, 0), Err(18));
    assert_eq!(call(129, 17, Weights { x: 0, y: 9 }, 0), Err(11));
    let mut lent = vec![7; 300];
    assert_eq!(
        library::grid_distances(&pins(16), &macros(16), one, &mut lent),
        Ok(256)
    );
    assert!(lent[256..].iter().all(|&number| number == 7));
    let net = check(&pins(16), &macros(16), one).expect("an allowed net");
    assert_eq!(lent[..256], distances(&net));
}
