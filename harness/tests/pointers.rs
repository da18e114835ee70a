//! What include/calzundi.h says of pointers: a list or a lent space of none may be null, nothing is touched past what is counted and no
//! list is written, lists may overlap each other, and calls of several threads do not disturb each other.

use std::ffi::{c_int, c_void};
use std::mem::size_of_val;
use std::ptr::{copy_nonoverlapping, null, null_mut};
use std::{slice, thread};

use harness::library;
use harness::matching::routed;
use reference::best;
use reference::generate::{net, weighted, Kind};
use reference::lists::{unloaded, Lists};
use reference::net::Weights;
use reference::netfile;

// The bare calls

/// A list and a lent space, as the bare calls take them: a pointer and a count of numbers.
type List<T> = (*const T, usize);
type Space<T> = (*mut T, usize);

fn none<T>() -> List<T> {
    (null(), 0)
}

fn no_space<T>() -> Space<T> {
    (null_mut(), 0)
}

/// What a call returns, and then its counts, its totals and, for a read, its weights.
type Answer = Vec<i64>;

/// What stands in counts, totals and lent numbers before a call, byte for byte.
const BEFORE: u8 = 0x5a;
const COUNT: usize = 0x5a5a_5a5a_5a5a_5a5a;
const TOTAL: i64 = COUNT as i64;

fn answer(code: i32, counts: &[usize]) -> Answer {
    let counts = counts.iter().map(|&count| count as i64);
    [code.into()].into_iter().chain(counts).collect()
}

fn check(p: List<i32>, q: List<i32>, w: Weights) -> Answer {
    // SAFETY: as for the calls below, a test hands over what the header asks for.
    let code = unsafe { library::calzundi_check(p.0, p.1, q.0, q.1, w.x, w.y) };
    answer(code, &[])
}

fn graph(p: List<i32>, q: List<i32>, w: Weights, v: Space<i32>, e: Space<i32>) -> Answer {
    let (mut vs, mut es) = (COUNT, COUNT);
    let code = unsafe {
        library::calzundi_graph(
            p.0, p.1, q.0, q.1, w.x, w.y, v.0, v.1, e.0, e.1, &mut vs, &mut es,
        )
    };
    answer(code, &[vs, es])
}

fn terminal_tree(p: List<i32>, q: List<i32>, w: Weights, t: Space<i64>) -> Answer {
    let (mut count, mut total) = (COUNT, TOTAL);
    let code = unsafe {
        library::calzundi_terminal_tree(
            p.0, p.1, q.0, q.1, w.x, w.y, t.0, t.1, &mut count, &mut total,
        )
    };
    answer(code, &[count, total as usize])
}

/// The refined or the slid tree, which are called alike.
fn tree(call: library::Tree, p: List<i32>, q: List<i32>, w: Weights, e: Space<i32>) -> Answer {
    let (mut count, mut total, mut metal) = (COUNT, TOTAL, TOTAL);
    let code = unsafe {
        call(
            p.0, p.1, q.0, q.1, w.x, w.y, e.0, e.1, &mut count, &mut total, &mut metal,
        )
    };
    answer(code, &[count, total as usize, metal as usize])
}

fn refined_tree(p: List<i32>, q: List<i32>, w: Weights, e: Space<i32>) -> Answer {
    tree(library::calzundi_refined_tree, p, q, w, e)
}

fn slid_tree(p: List<i32>, q: List<i32>, w: Weights, e: Space<i32>) -> Answer {
    tree(library::calzundi_slid_tree, p, q, w, e)
}

fn best_tree(p: List<i32>, q: List<i32>, w: Weights, work: Space<u32>, e: Space<i32>) -> Answer {
    let (mut count, mut total, mut metal) = (COUNT, TOTAL, TOTAL);
    let code = unsafe {
        library::calzundi_best_tree(
            p.0, p.1, q.0, q.1, w.x, w.y, work.0, work.1, e.0, e.1, &mut count, &mut total,
            &mut metal,
        )
    };
    answer(code, &[count, total as usize, metal as usize])
}

fn lower_bound(
    p: List<i32>,
    q: List<i32>,
    w: Weights,
    left: Space<u32>,
    rows: Space<u64>,
) -> Answer {
    let mut bound = COUNT as u64;
    let code = unsafe {
        library::calzundi_lower_bound(
            p.0, p.1, q.0, q.1, w.x, w.y, left.0, left.1, rows.0, rows.1, &mut bound,
        )
    };
    answer(code, &[bound as usize])
}

fn check_tree(p: List<i32>, q: List<i32>, w: Weights, e: List<i32>) -> Answer {
    let (mut cost, mut metal) = (TOTAL, TOTAL);
    let code = unsafe {
        library::calzundi_check_tree(
            p.0, p.1, q.0, q.1, w.x, w.y, e.0, e.1, &mut cost, &mut metal,
        )
    };
    answer(code, &[cost as usize, metal as usize])
}

fn wires(p: List<i32>, q: List<i32>, w: Weights, d: Space<i32>) -> Answer {
    let mut count = COUNT;
    let code =
        unsafe { library::calzundi_wires(p.0, p.1, q.0, q.1, w.x, w.y, d.0, d.1, &mut count) };
    answer(code, &[count])
}

fn price(p: List<i32>, q: List<i32>, w: Weights, b: List<u64>) -> Answer {
    let mut charge = COUNT as u64;
    let code =
        unsafe { library::calzundi_price(p.0, p.1, q.0, q.1, w.x, w.y, b.0, b.1, &mut charge) };
    answer(code, &[charge as usize])
}

fn write_file(p: List<i32>, q: List<i32>, w: Weights, b: Space<u8>) -> Answer {
    let mut given = COUNT;
    let code =
        unsafe { library::calzundi_write_file(p.0, p.1, q.0, q.1, w.x, w.y, b.0, b.1, &mut given) };
    answer(code, &[given])
}

fn read_file(b: List<u8>, p: Space<i32>, q: Space<i32>) -> Answer {
    let (mut m, mut k, mut x, mut y) = (COUNT, COUNT, NUMBER, NUMBER);
    let code = unsafe {
        library::calzundi_read_file(b.0, b.1, p.0, p.1, q.0, q.1, &mut m, &mut k, &mut x, &mut y)
    };
    answer(code, &[m, k, x as usize, y as usize])
}

/// Every operation; the file is read back from what was written.
fn all(p: List<i32>, q: List<i32>, w: Weights, lent: &mut Lent) -> [Answer; 8] {
    let checked = check(p, q, w);
    let graph = graph(p, q, w, lent.vertices.space(), lent.edges.space());
    let terminal = terminal_tree(p, q, w, lent.paths.space());
    let refined = refined_tree(p, q, w, lent.tree.space());
    let slid = slid_tree(p, q, w, lent.slid.space());
    let wires = wires(p, q, w, lent.wires.space());
    let written = write_file(p, q, w, lent.bytes.space());
    let file = lent.bytes.list();
    let read = read_file(file, lent.pins.space(), lent.macros.space());
    [
        checked, graph, terminal, refined, slid, wires, written, read,
    ]
}

/// The answers of refusals by these numbers: counts, totals, the metal and the weights of a read are as they were.
fn refused(numbers: [i32; 8]) -> [Answer; 8] {
    let counts = [0, 2, 2, 3, 3, 1, 1];
    std::array::from_fn(|i| match counts.get(i) {
        Some(&counts) => answer(numbers[i], &[COUNT; 3][..counts]),
        None => refused_read(numbers[i]),
    })
}

fn refused_read(number: i32) -> Answer {
    let weight = NUMBER as usize;
    answer(number, &[COUNT, COUNT, weight, weight])
}

// Memory between fences

extern "C" {
    fn mmap(
        at: *mut c_void,
        n: usize,
        access: c_int,
        kind: c_int,
        fd: c_int,
        from: i64,
    ) -> *mut c_void;
    fn mprotect(at: *mut c_void, n: usize, access: c_int) -> c_int;
    fn munmap(at: *mut c_void, n: usize) -> c_int;
}

const PAGE: usize = 4096;
const NO_ACCESS: c_int = 0;
const READ: c_int = 1;
const READ_WRITE: c_int = 3;
const PRIVATE_ANONYMOUS: c_int = 0x22;

/// Which fence numbers stand at: whoever touches it ends the process.
#[derive(Clone, Copy, Debug)]
enum At {
    Front,
    Back,
}

/// Pages between two that cannot be touched, with numbers at one end and guards in the rest.
struct Fenced<T> {
    base: *mut u8,
    inner: usize,
    first: *mut T,
    count: usize,
}

impl<T: Copy> Fenced<T> {
    fn of(numbers: &[T], at: At) -> Fenced<T> {
        let size = size_of_val(numbers);
        let inner = size.div_ceil(PAGE).max(1) * PAGE;
        let from = match at {
            At::Front => PAGE,
            At::Back => PAGE + inner - size,
        };
        // SAFETY: the pages are this value's own until it is dropped, and the numbers fit in the inner ones.
        unsafe {
            let base = mmap(
                null_mut(),
                inner + 2 * PAGE,
                NO_ACCESS,
                PRIVATE_ANONYMOUS,
                -1,
                0,
            );
            assert!(base as isize != -1, "no memory");
            let base = base.cast::<u8>();
            assert_eq!(mprotect(base.add(PAGE).cast(), inner, READ_WRITE), 0);
            base.add(PAGE).write_bytes(BEFORE, inner);
            let first = base.add(from).cast::<T>();
            copy_nonoverlapping(numbers.as_ptr(), first, numbers.len());
            let count = numbers.len();
            Fenced {
                base,
                inner,
                first,
                count,
            }
        }
    }

    /// The same, which nobody can write from now on.
    fn read_only(self) -> Fenced<T> {
        // SAFETY: the pages are this value's own.
        let done = unsafe { mprotect(self.base.add(PAGE).cast(), self.inner, READ) };
        assert_eq!(done, 0);
        self
    }

    fn list(&self) -> List<T> {
        (self.first, self.count)
    }

    fn space(&mut self) -> Space<T> {
        (self.first, self.count)
    }

    /// The numbers as bytes; the guards beside them are as they were.
    fn bytes(&self) -> &[u8] {
        // SAFETY: the inner pages are this value's own, and every byte of them was written.
        let (inner, numbers) = unsafe {
            let numbers = slice::from_raw_parts(self.first, self.count);
            (
                slice::from_raw_parts(self.base.add(PAGE), self.inner),
                raw(numbers),
            )
        };
        let from = self.first as usize - self.base as usize - PAGE;
        let guards = inner[..from].iter().chain(&inner[from + numbers.len()..]);
        assert!(
            guards.copied().all(|byte| byte == BEFORE),
            "a guard was written"
        );
        numbers
    }
}

impl<T> Drop for Fenced<T> {
    fn drop(&mut self) {
        // SAFETY: nobody has these pages any more.
        unsafe { munmap(self.base.cast(), self.inner + 2 * PAGE) };
    }
}

/// The bytes of numbers.
fn raw<T: Copy>(numbers: &[T]) -> &[u8] {
    // SAFETY: numbers have no bytes between them that nobody wrote.
    unsafe { slice::from_raw_parts(numbers.as_ptr().cast(), size_of_val(numbers)) }
}

const NUMBER: i32 = COUNT as i32;

/// What every operation is lent, each as much as it asks for and no more.
struct Lent {
    vertices: Fenced<i32>,
    edges: Fenced<i32>,
    paths: Fenced<i64>,
    tree: Fenced<i32>,
    slid: Fenced<i32>,
    wires: Fenced<i32>,
    bytes: Fenced<u8>,
    pins: Fenced<i32>,
    macros: Fenced<i32>,
}

impl Lent {
    fn to(lists: &Lists, at: At) -> Lent {
        let (m, k) = (lists.pins.len() / 3, lists.macros.len() / 4);
        let n = m + 4 * k;
        let numbers = |count| Fenced::of(&vec![NUMBER; count], at);
        Lent {
            vertices: numbers(2 * n),
            edges: numbers(16 * n),
            paths: Fenced::of(&vec![TOTAL; 5 * m], at),
            tree: numbers(4 * (n + m)),
            slid: numbers(8 * (n + m)),
            wires: numbers(8 * (n + m)),
            bytes: Fenced::of(&vec![BEFORE; netfile::write(lists).len()], at),
            pins: numbers(384),
            macros: numbers(512),
        }
    }

    fn bytes(&self) -> Vec<u8> {
        [
            self.vertices.bytes(),
            self.edges.bytes(),
            self.paths.bytes(),
            self.tree.bytes(),
            self.slid.bytes(),
            self.wires.bytes(),
            self.bytes.bytes(),
            self.pins.bytes(),
            self.macros.bytes(),
        ]
        .concat()
    }

    fn untouched(&self) -> bool {
        self.bytes().iter().all(|&byte| byte == BEFORE)
    }
}

/// What the safe calls answer for an allowed net, and what they leave in lent vectors.
fn by_slices(lists: &Lists) -> ([Answer; 8], Vec<u8>) {
    let (pins, macros, weights) = lists.parts();
    let (m, k) = (pins.len() / 3, macros.len() / 4);
    let n = m + 4 * k;
    let numbers = |count| vec![NUMBER; count];
    let (mut vertices, mut edges, mut paths) =
        (numbers(2 * n), numbers(16 * n), vec![TOTAL; 5 * m]);
    let (mut tree, mut drawn) = (numbers(4 * (n + m)), numbers(8 * (n + m)));
    let mut moved = numbers(8 * (n + m));
    let mut file = vec![BEFORE; netfile::write(lists).len()];
    let (mut pins_read, mut macros_read) = (numbers(384), numbers(512));
    library::check(pins, macros, weights).unwrap();
    let (v, e) = library::graph(pins, macros, weights, &mut vertices, &mut edges).unwrap();
    let (p, terminal) = library::terminal_tree(pins, macros, weights, &mut paths).unwrap();
    let (t, refined, metal) = library::refined_tree(pins, macros, weights, &mut tree).unwrap();
    let (l, slid, slid_metal) = library::slid_tree(pins, macros, weights, &mut moved).unwrap();
    let w = library::wires(pins, macros, weights, &mut drawn).unwrap();
    let given = library::write_file(pins, macros, weights, &mut file).unwrap();
    let (a, b, read) = library::read_file(&file, &mut pins_read, &mut macros_read).unwrap();
    assert_eq!(read, weights);
    let answers = [
        answer(0, &[]),
        answer(0, &[v, e]),
        answer(0, &[p, terminal as usize]),
        answer(0, &[t, refined as usize, metal as usize]),
        answer(0, &[l, slid as usize, slid_metal as usize]),
        answer(0, &[w]),
        answer(0, &[given]),
        answer(0, &[a, b, read.x as usize, read.y as usize]),
    ];
    let lent = [
        raw(&vertices),
        raw(&edges),
        raw(&paths),
        raw(&tree),
        raw(&moved),
        raw(&drawn),
        raw(&file),
        raw(&pins_read),
        raw(&macros_read),
    ];
    (answers, lent.concat())
}

fn third_net() -> Lists {
    Lists {
        pins: vec![0, 0, 0, 4, 0, 0, 2, 3, 0],
        ..Lists::default()
    }
}

fn around_one() -> Lists {
    Lists {
        pins: vec![0, 0, 0, 10, 0, 0],
        macros: vec![4, -2, 6, 3],
        weights: Weights { x: 2, y: 3 },
    }
}

fn list(numbers: &[i32]) -> List<i32> {
    (numbers.as_ptr(), numbers.len())
}

// Null

/// Lists and spaces that are null with a count of 0 are those of none: no pin, and where space is asked for first, too little of it.
#[test]
fn null_everywhere() {
    let (p, q, w) = (none(), none(), Weights::ONE);
    let answers = [
        check(p, q, w),
        graph(p, q, w, no_space(), no_space()),
        terminal_tree(p, q, w, no_space()),
        refined_tree(p, q, w, no_space()),
        slid_tree(p, q, w, no_space()),
        wires(p, q, w, no_space()),
        write_file(p, q, w, no_space()),
        read_file(none(), no_space(), no_space()),
    ];
    assert_eq!(answers, refused([11, 11, 11, 11, 11, 11, 11, 21]));
}

#[test]
fn null_spaces() {
    for lists in [third_net(), around_one()] {
        let (p, q, w) = (list(&lists.pins), list(&lists.macros), lists.weights);
        let mut lent = Lent::to(&lists, At::Back);
        let answers = [
            answer(21, &[]),
            graph(p, q, w, no_space(), no_space()),
            terminal_tree(p, q, w, no_space()),
            refined_tree(p, q, w, no_space()),
            slid_tree(p, q, w, no_space()),
            wires(p, q, w, no_space()),
            write_file(p, q, w, no_space()),
            read_file(lent.bytes.list(), no_space(), no_space()),
        ];
        assert_eq!(answers, refused([21; 8]));
        // One of two.
        let short = answer(21, &[COUNT, COUNT]);
        assert_eq!(graph(p, q, w, no_space(), lent.edges.space()), short);
        assert_eq!(graph(p, q, w, lent.vertices.space(), no_space()), short);
        let short = refused_read(21);
        let file = lent.bytes.list();
        assert_eq!(read_file(file, no_space(), lent.macros.space()), short);
        assert_eq!(read_file(file, lent.pins.space(), no_space()), short);
        assert!(lent.untouched());
    }
}

/// A list of none answers the same as null, as an address that may not be touched and as one that is not aligned.
#[test]
fn lists_of_none() {
    let fenced = Fenced::<i32>::of(&[], At::Back);
    let third = third_net();
    let expected = by_slices(&third);
    for address in [
        null(),
        fenced.first.cast_const(),
        null::<u8>().wrapping_add(1).cast(),
    ] {
        let empty = (address, 0);
        for at in [At::Front, At::Back] {
            let mut lent = Lent::to(&third, at);
            let answers = all(list(&third.pins), empty, third.weights, &mut lent);
            assert_eq!((answers, lent.bytes()), expected, "{address:?}");
        }
        let one = around_one();
        let mut lent = Lent::to(&one, At::Back);
        let mut answers = all(empty, list(&one.macros), one.weights, &mut lent);
        // Nothing was written, so what is read is no file.
        answers[7] = read_file((address.cast(), 0), lent.pins.space(), lent.macros.space());
        assert_eq!(
            answers,
            refused([11, 11, 11, 11, 11, 11, 11, 1]),
            "{address:?}"
        );
        assert!(lent.untouched());
    }
}

// What is touched

/// The lists cannot be written, and whatever lies right before or behind lists and lent spaces cannot be touched.
#[test]
fn nothing_else_is_touched() {
    let nets = (0..200).map(|seed| routed(seed).lists);
    let named = [third_net(), around_one(), weighted(Kind::LargestFar, 1)];
    for lists in nets.chain(named) {
        let expected = by_slices(&lists);
        for at in [At::Front, At::Back] {
            let pins = Fenced::of(&lists.pins, at).read_only();
            let macros = Fenced::of(&lists.macros, at).read_only();
            let mut lent = Lent::to(&lists, at);
            let answers = all(pins.list(), macros.list(), lists.weights, &mut lent);
            assert!((answers, lent.bytes()) == expected, "{at:?}: {lists:?}");
        }
    }
}

/// Lists are only read, so they may share numbers: two corners of a macro as pins, the first with a load.
#[test]
fn lists_that_overlap() {
    let corners = vec![0, 0, 2, 2, 2, 0];
    let lists = Lists {
        macros: corners[..4].to_vec(),
        pins: corners,
        ..Lists::default()
    };
    let mut lent = Lent::to(&lists, At::Back);
    let (pins, macros) = (list(&lists.pins), list(&lists.pins[..4]));
    let answers = all(pins, macros, lists.weights, &mut lent);
    assert_eq!((answers, lent.bytes()), by_slices(&lists));
}

/// A refusal leaves all that is lent as it was, counts, totals, the metal and a read's weights too: a weight outside 1 to 8, and a file whose
/// weight word is.
#[test]
fn weights_that_are_refused() {
    for lists in [third_net(), around_one(), net(Kind::Largest, 1)] {
        let (p, q) = (list(&lists.pins), list(&lists.macros));
        for (x, y) in [(0, 1), (1, 9), (i32::MIN, i32::MAX), (-1, -1)] {
            let mut lent = Lent::to(&lists, At::Back);
            let answers = all(p, q, Weights { x, y }, &mut lent);
            // Nothing was written, so what is read has wrong sums.
            assert_eq!(answers, refused([18, 18, 18, 18, 18, 18, 18, 2]), "{x} {y}");
            assert!(lent.untouched());
            let bands = [u64::MAX, 1];
            let charged = price(p, q, Weights { x, y }, (bands.as_ptr(), bands.len()));
            assert_eq!(charged, answer(18, &[COUNT]));
            let checked = check_tree(p, q, Weights { x, y }, p);
            assert_eq!(checked, answer(18, &[COUNT, COUNT]));
        }
        let mut lent = Lent::to(&lists, At::Back);
        let file = netfile::write(&lists);
        for word in [1, 9, u32::MAX] {
            let mut blocks = netfile::blocks_of(&file);
            blocks[0][7] = word;
            netfile::seal(&mut blocks[0]);
            let bytes = netfile::bytes_of(&blocks);
            let bytes = (bytes.as_ptr(), bytes.len());
            let read = read_file(bytes, lent.pins.space(), lent.macros.space());
            assert_eq!(read, refused_read(3), "{word}");
            assert!(lent.untouched());
        }
    }
}

// Threads

/// Eight threads at once, each with lent space of its own, all on the same lists.
#[test]
fn threads_do_not_disturb_each_other() {
    let nets: Vec<Lists> = (0..100).map(|seed| routed(seed).lists).collect();
    let alone: Vec<_> = nets.iter().map(by_slices).collect();
    thread::scope(|scope| {
        for first in 0..8 {
            let (nets, alone) = (&nets, &alone);
            scope.spawn(move || {
                for turn in 0..nets.len() {
                    // Two threads are on the same net at the same time, the others on others.
                    let i = (turn + first / 2 * 25) % nets.len();
                    let (pins, macros, weights) = nets[i].parts();
                    let mut lent = Lent::to(&nets[i], At::Back);
                    let answers = all(list(pins), list(macros), weights, &mut lent);
                    assert!((answers, lent.bytes()) == alone[i], "{:?}", nets[i]);
                }
            });
        }
    });
}

/// A list of bands between fences, which nobody can write: read whole, and nothing beside it.
#[test]
fn bands_are_read_and_nothing_else() {
    let Lists { pins, macros, .. } = net(Kind::Largest, 1);
    let one = Weights::ONE;
    let pins = Fenced::of(&pins, At::Back).read_only();
    let macros = Fenced::of(&macros, At::Back).read_only();
    for at in [At::Front, At::Back] {
        for (bands, code) in [
            (&[u64::MAX, 0][..], 0),
            (&[0, 0, u64::MAX, 0], 0),
            (&[u64::MAX, 1, 5], 31),
            (&[u64::MAX, 1_000_001], 31),
            (&[u64::MAX, 1, u64::MAX, 1], 37),
            (&[0, 1], 32),
            (&[], 31),
        ] {
            let list = Fenced::of(bands, at).read_only();
            let charge = if code == 0 { 0 } else { COUNT };
            let expected = answer(code, &[charge]);
            assert_eq!(
                price(pins.list(), macros.list(), one, list.list()),
                expected
            );
        }
    }
    assert_eq!(price(none(), none(), one, none()), answer(11, &[COUNT]));
    assert_eq!(
        price(pins.list(), none(), one, none()),
        answer(31, &[COUNT]),
        "the pins alone are a net"
    );
}

/// The edges of a tree between fences, which nobody can write: read whole, and nothing beside them; a refusal leaves cost and metal.
#[test]
fn edges_are_read_and_nothing_else() {
    let Lists { pins, macros, .. } = net(Kind::Largest, 1);
    let one = Weights::ONE;
    let mut space = vec![0; 8 * 768];
    let (count, total, metal) = library::slid_tree(&pins, &macros, one, &mut space).unwrap();
    let tree = &space[..4 * count];
    let passed = answer(0, &[total as usize, metal as usize]);
    let refused = |number| answer(number, &[COUNT, COUNT]);
    let longest = vec![0; 4 * 1_535];
    let too_long = vec![0; 4 * 1_536];
    let pins = Fenced::of(&pins, At::Back).read_only();
    let macros = Fenced::of(&macros, At::Back).read_only();
    for at in [At::Front, At::Back] {
        for (edges, expected) in [
            (tree, &passed),
            (&tree[..tree.len() - 1], &refused(33)),
            (&tree[..3], &refused(33)),
            (&too_long, &refused(33)),
            (&longest, &refused(34)),
            (&tree[4..], &refused(35)),
            (&[], &refused(35)),
        ] {
            let list = Fenced::of(edges, at).read_only();
            let checked = check_tree(pins.list(), macros.list(), one, list.list());
            assert_eq!(checked, *expected);
        }
    }
    let alone = [5, 5, 0];
    assert_eq!(check_tree(none(), none(), one, none()), refused(11));
    assert_eq!(
        check_tree(list(&alone), none(), one, none()),
        answer(0, &[0, 0]),
        "a lone pin with no edges"
    );
    // Lists may overlap each other: the net's own pins as edges.
    assert_eq!(
        check_tree(list(&alone), none(), one, list(&alone)),
        refused(33)
    );
}

/// Distances on the grid, into space that ends at the fence: nothing past it is touched, given or refused.
#[test]
fn distances_within_their_space() {
    fn distances(p: List<i32>, q: List<i32>, t: Space<i64>) -> Answer {
        let mut count = COUNT;
        let code = unsafe {
            library::calzundi_grid_distances(p.0, p.1, q.0, q.1, 1, 1, t.0, t.1, &mut count)
        };
        answer(code, &[count])
    }
    for at in [At::Front, At::Back] {
        let pins = Fenced::of(&[1, 0, 0, 1, 3, 0, 0, 1, 0, 2, 2, 0], at).read_only();
        let mut exact = Fenced::of(&[7i64; 16], at);
        let given = distances(pins.list(), none(), exact.space());
        assert_eq!(given, answer(0, &[16]));
        let mut short = Fenced::of(&[7i64; 15], at);
        let refused = distances(pins.list(), none(), short.space());
        assert_eq!(refused, answer(21, &[COUNT]));
    }
}

/// Delays, into space that ends at the fence: nothing past it is touched, given or refused.
#[test]
fn delays_within_their_space() {
    fn delays(p: List<i32>, q: List<i32>, r: f64, d: Space<f64>) -> Answer {
        let mut count = COUNT;
        let code = unsafe {
            library::calzundi_delay(p.0, p.1, q.0, q.1, 1, 1, 0, 1, r, 1.0, d.0, d.1, &mut count)
        };
        answer(code, &[count])
    }
    for at in [At::Front, At::Back] {
        let pins = Fenced::of(&[1, 0, 0, 1, 3, 8, 0, 1, 2, 2, 2, 5], at).read_only();
        let mut exact = Fenced::of(&[7f64; 4], at);
        let given = delays(pins.list(), none(), 1.0, exact.space());
        assert_eq!(given, answer(0, &[4]));
        for (r, code) in [(0.0, 38), (f64::MAX, 40)] {
            let mut space = Fenced::of(&[7f64; 4], at);
            let refused = delays(pins.list(), none(), r, space.space());
            assert_eq!(refused, answer(code, &[COUNT]));
            // SAFETY: the space is of four floats, and nobody else holds it.
            let kept = unsafe { slice::from_raw_parts(space.space().0, 4) };
            assert_eq!(kept, [7.0; 4]);
        }
        let mut short = Fenced::of(&[7f64; 3], at);
        let refused = delays(pins.list(), none(), 1.0, short.space());
        assert_eq!(refused, answer(21, &[COUNT]));
    }
    assert_eq!(
        delays(none(), none(), 1.0, no_space()),
        answer(11, &[COUNT])
    );
}

// Best trees

/// A best tree with fences about all that is handed over: work and edges as much as is asked for, one number less of either, and none.
#[test]
fn best_trees_between_fences() {
    let five = Lists {
        pins: unloaded(&[2, 0, 1, 3, 0, 1, 3, 1, 0, 0]),
        ..Lists::default()
    };
    for (lists, total) in [(five, 7), (around_one(), 32)] {
        let asked = best::edge_numbers(lists.pins.len() / 3, lists.macros.len() / 4);
        for at in [At::Front, At::Back] {
            let pins = Fenced::of(&lists.pins, at).read_only();
            let macros = Fenced::of(&lists.macros, at).read_only();
            let call = |work: usize, edges: usize| {
                let mut work = Fenced::of(&vec![NUMBER as u32; work], at);
                let mut edges = Fenced::of(&vec![NUMBER; edges], at);
                let (work_lent, edges_lent) = (work.space(), edges.space());
                let said = best_tree(
                    pins.list(),
                    macros.list(),
                    lists.weights,
                    work_lent,
                    edges_lent,
                );
                (said, work.bytes().to_vec(), edges.bytes().to_vec())
            };
            let (said, work, _) = call(best::WORK, asked);
            assert_eq!([said[0], said[2]], [0, total]);
            assert!(work.iter().all(|&byte| byte == 0));
            for (work, edges) in [(best::WORK - 1, asked), (best::WORK, asked - 1), (0, 0)] {
                let (said, work, edges) = call(work, edges);
                assert_eq!(said, answer(21, &[COUNT; 3]));
                assert!(work.iter().chain(&edges).all(|&byte| byte == BEFORE));
            }
        }
    }
    let said = best_tree(none(), none(), Weights::ONE, no_space(), no_space());
    assert_eq!(said, answer(11, &[COUNT; 3]));
}

// Lower bounds

/// A lower bound with fences about all that is handed over: either list of work as long as is asked for, one number shorter, and none.
#[test]
fn lower_bounds_between_fences() {
    let (left_asked, rows_asked) = (calzundi::BOUND_LEFT, calzundi::BOUND_ROWS);
    for (lists, bound) in [(third_net(), 7), (around_one(), 32)] {
        for at in [At::Front, At::Back] {
            let pins = Fenced::of(&lists.pins, at).read_only();
            let macros = Fenced::of(&lists.macros, at).read_only();
            let call = |left: usize, rows: usize, w: Weights| {
                let mut left = Fenced::of(&vec![NUMBER as u32; left], at);
                let mut rows = Fenced::of(&vec![COUNT as u64; rows], at);
                let (left_lent, rows_lent) = (left.space(), rows.space());
                let said = lower_bound(pins.list(), macros.list(), w, left_lent, rows_lent);
                (said, [left.bytes(), rows.bytes()].concat())
            };
            let (said, work) = call(left_asked, rows_asked, lists.weights);
            assert_eq!(said, answer(0, &[bound]));
            assert!(work.iter().all(|&byte| byte == 0));
            for (left, rows, w, number) in [
                (left_asked - 1, rows_asked, lists.weights, 21),
                (left_asked, rows_asked - 1, lists.weights, 21),
                (0, 0, lists.weights, 21),
                (left_asked, rows_asked, Weights { x: 0, y: 1 }, 18),
            ] {
                let (said, work) = call(left, rows, w);
                assert_eq!(said, answer(number, &[COUNT]));
                assert!(work.iter().all(|&byte| byte == BEFORE));
            }
        }
    }
    let said = lower_bound(none(), none(), Weights::ONE, no_space(), no_space());
    assert_eq!(said, answer(11, &[COUNT]));
}
