//! How much stack a call takes, as the header says it: the tables of the router are local, so a caller with small stacks wants to know.

use std::arch::asm;
use std::collections::BTreeMap;
use std::io::Write;
use std::process::{Command, Stdio};
use std::thread;

use calzundi::stack;
use harness::matching::routed;
use harness::{library, program};
use reference::best;
use reference::delay::Technology;
use reference::generate::{net, weighted, Kind};
use reference::lists::Lists;
use reference::net::Weights;
use reference::netfile;

/// What include/calzundi.h says that a call has to itself.
const STACK: usize = calzundi::STACK_BYTES;

/// The stack of each operation, as the header says it.
const OF_EACH: [(&str, usize); 14] = [
    ("check", stack::CHECK),
    ("graph", stack::GRAPH),
    ("terminal tree", stack::TERMINAL_TREE),
    ("refined tree", stack::REFINED_TREE),
    ("slid tree", stack::SLID_TREE),
    ("check tree", stack::CHECK_TREE),
    ("wires", stack::WIRES),
    ("price", stack::PRICE),
    ("grid distances", stack::GRID_DISTANCES),
    ("delay", stack::DELAY),
    ("best tree", stack::BEST_TREE),
    ("lower bound", stack::LOWER_BOUND),
    ("write file", stack::WRITE_FILE),
    ("read file", stack::READ_FILE),
];

/// The lower bound of a net, which takes longer than all the others together.
fn call_bound(lists: &Lists, on: &mut dyn FnMut(&'static str, &mut dyn FnMut())) {
    let (pins, macros, weights) = lists.parts();
    let (mut left, mut rows) = (vec![0; calzundi::BOUND_LEFT], vec![0; calzundi::BOUND_ROWS]);
    on("lower bound", &mut || {
        library::lower_bound(pins, macros, weights, &mut left, &mut rows).unwrap();
    });
}

/// Every other operation on a net, by its name in `OF_EACH`, with the space that it asks for. What is lent is made before, and the call alone
/// is handed on.
fn call_each(lists: &Lists, on: &mut dyn FnMut(&'static str, &mut dyn FnMut())) {
    let (pins, macros, weights) = lists.parts();
    let (m, n) = (pins.len() / 3, pins.len() / 3 + macros.len());
    let mut numbers = vec![0; 16 * n + 8 * m];
    let (mut vertices, mut paths) = (vec![0; 2 * n], vec![0; 5 * m]);
    let (mut table, mut delays) = (vec![0; 256], vec![0.0; m]);
    on("check", &mut || {
        library::check(pins, macros, weights).unwrap()
    });
    on("graph", &mut || {
        library::graph(pins, macros, weights, &mut vertices, &mut numbers).unwrap();
    });
    on("terminal tree", &mut || {
        library::terminal_tree(pins, macros, weights, &mut paths).unwrap();
    });
    on("refined tree", &mut || {
        library::refined_tree(pins, macros, weights, &mut numbers).unwrap();
    });
    let mut edges = 0;
    on("slid tree", &mut || {
        (edges, ..) = library::slid_tree(pins, macros, weights, &mut numbers).unwrap();
    });
    on("check tree", &mut || {
        library::check_tree(pins, macros, weights, &numbers[..4 * edges]).unwrap();
    });
    on("wires", &mut || {
        library::wires(pins, macros, weights, &mut numbers).unwrap();
    });
    on("price", &mut || {
        library::price(pins, macros, weights, &[u64::MAX, 1_000_000]).unwrap();
    });
    let (few_pins, few_macros) = (&pins[..pins.len().min(48)], &macros[..macros.len().min(64)]);
    on("grid distances", &mut || {
        library::grid_distances(few_pins, few_macros, weights, &mut table).unwrap();
    });
    let technology = Technology {
        resistance: 1.0,
        capacitance: 1.0,
    };
    let driver = (pins[0], pins[1]);
    on("delay", &mut || {
        library::delay(pins, macros, weights, driver, technology, &mut delays).unwrap();
    });
    let (pins_five, mut work) = (&few_pins[..few_pins.len().min(15)], vec![0; best::WORK]);
    let mut edges = vec![0; best::edge_numbers(pins_five.len() / 3, few_macros.len() / 4)];
    on("best tree", &mut || {
        library::best_tree(pins_five, few_macros, weights, &mut work, &mut edges).unwrap();
    });
    let mut bytes = vec![0; calzundi::LONGEST_FILE];
    let mut given = 0;
    on("write file", &mut || {
        given = library::write_file(pins, macros, weights, &mut bytes).unwrap();
    });
    let (mut pins, mut macros) = (vec![0; 384], vec![0; 512]);
    on("read file", &mut || {
        library::read_file(&bytes[..given], &mut pins, &mut macros).unwrap();
    });
}

/// How deep a call goes into the stack, by what it writes there: the stack below is painted before, and looked at after.
#[inline(never)]
fn depth(call: &mut dyn FnMut()) -> usize {
    const PAINT: u64 = 0xa5a5_5a5a_c3c3_3c3c;
    const DEEPEST: usize = 640 * 1024;
    const OWN: usize = 256;
    let here: usize;
    // SAFETY: reads the stack pointer.
    unsafe { asm!("mov {}, rsp", out(reg) here, options(nomem, nostack)) };
    let words = || (here - DEEPEST..here - OWN).step_by(8);
    for word in words() {
        // SAFETY: the thread has more stack than this, and nothing below the stack pointer is in use but its first bytes.
        unsafe { (word as *mut u64).write_volatile(PAINT) };
    }
    call();
    // SAFETY: as before.
    let untouched = |word: &usize| unsafe { (*word as *const u64).read_volatile() } == PAINT;
    let first = words().find(|word| !untouched(word)).unwrap_or(here);
    assert!(first > here - DEEPEST, "deeper than was painted");
    here - first
}

/// Pins at both ends of a row of 128 macros: ways of more than two hundred vertices.
fn long_ways() -> Lists {
    Lists {
        pins: vec![0, 1, 0, 800, 1, 0],
        macros: (0..128)
            .flat_map(|i| [3 + 6 * i, 0, 6 + 6 * i, 2])
            .collect(),
        ..Lists::default()
    }
}

/// As many edges as a tree may have: a way of unit steps between two pins.
fn longest_tree() -> ([i32; 6], Vec<i32>) {
    let end = calzundi::BOUGHT_EDGES as i32;
    let steps = (0..end).flat_map(|x| [x, 0, x + 1, 0]);
    ([0, 0, 0, end, 0, 0], steps.collect())
}

/// 128 pins and 128 macros, or ways as long as they get.
fn largest() -> [Lists; 6] {
    [
        net(Kind::Largest, 1),
        net(Kind::LargestMaze, 1),
        weighted(Kind::LargestMaze, 2),
        weighted(Kind::LargestFar, 2),
        weighted(Kind::LargestFar, 3),
        long_ways(),
    ]
}

/// The nets that are tried.
fn nets() -> Vec<Lists> {
    let nets = (0..300).map(|seed| routed(seed).lists);
    nets.chain(largest()).collect()
}

/// Those that are tried for lower bounds: one pin, some of all kinds, and the largest.
fn bounded() -> Vec<Lists> {
    let few = (0..40).map(|seed| routed(seed).lists);
    let few = few.filter(|lists| lists.pins.len() + lists.macros.len() < 200);
    let one = Lists {
        pins: vec![5, 5, 0],
        ..Lists::default()
    };
    few.chain([one, net(Kind::LargestMaze, 1)]).collect()
}

/// A stack overflow would end the test, and with it the gate.
#[test]
fn half_a_mebibyte_is_enough() {
    let nets = nets();
    let (ends, steps) = longest_tree();
    let run = move || {
        for lists in &nets {
            call_each(lists, &mut |_, call| call());
        }
        for lists in bounded() {
            call_bound(&lists, &mut |_, call| call());
        }
        let length = i64::from(ends[3]);
        let passed = library::check_tree(&ends, &[], Weights::ONE, &steps);
        assert_eq!(passed, Ok((length, length)));
    };
    let small = thread::Builder::new().stack_size(STACK).spawn(run);
    small.unwrap().join().unwrap();
}

/// Each operation stays within its own part of that.
#[test]
fn each_operation_has_enough() {
    let nets = nets();
    let (ends, steps) = longest_tree();
    let run = move || {
        let mut deepest: BTreeMap<&str, usize> = BTreeMap::new();
        let mut measure = |name: &'static str, call: &mut dyn FnMut()| {
            let most = deepest.entry(name).or_default();
            *most = depth(call).max(*most);
        };
        for lists in &nets {
            call_each(lists, &mut measure);
        }
        for lists in bounded() {
            call_bound(&lists, &mut measure);
        }
        measure("check tree", &mut || {
            library::check_tree(&ends, &[], Weights::ONE, &steps).unwrap();
        });
        deepest
    };
    let wide = thread::Builder::new().stack_size(2 * STACK).spawn(run);
    let deepest = wide.unwrap().join().unwrap();
    for (name, most) in OF_EACH {
        let taken = deepest[name];
        println!("{name}: {taken} of {most} bytes");
        assert!(taken <= most, "{name} takes {taken} bytes of {most}");
        assert!(most <= STACK, "{name}");
    }
    assert_eq!(deepest.len(), OF_EACH.len());
}

/// The program `route` as a whole, with what it was started with, has no more either.
#[test]
fn half_a_mebibyte_is_enough_for_route() {
    for lists in largest() {
        let mut route = Command::new("sh")
            .args(["-c", "ulimit -s \"$1\" && exec \"$2\"", "sh"])
            .arg((STACK / 1024).to_string())
            .arg(program::path())
            .env_clear()
            .env("PATH", "/usr/bin:/bin")
            .stdin(Stdio::piped())
            .stdout(Stdio::piped())
            .spawn()
            .unwrap();
        let file = netfile::write(&lists);
        route.stdin.take().unwrap().write_all(&file).unwrap();
        let output = route.wait_with_output().unwrap();
        assert!(output.status.success(), "{}", output.status);
        assert!(output.stdout.starts_with(b"pins "), "{lists:?}");
    }
}
