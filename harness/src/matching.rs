//! Both programs on the same seeded input, with weights and loads of all sorts and the same lent space: answers and every lent number must
//! agree.

use std::fmt::{self, Debug};
use std::thread;

use reference::generate::{
    bands, damaged_loaded, damaged_weighted, driver, hostile_weighted, loaded, permuted,
    technology, weighted, BandList, Damage, Hostile, Kind, Shift,
};
use reference::lists::Lists;
use reference::net::{Net, Weights};
use reference::random::Random;
use reference::refined::refined;
use reference::sweeps::{LEFT, ROWS};
use reference::{delay, grid, net as second, netfile, operations, price, text};

use crate::library;

/// An answer in which the two programs differ, with all that is needed to see it again.
#[derive(Debug)]
pub struct Difference {
    operation: &'static str,
    kind: &'static str,
    seed: u64,
    input: String,
    ours: String,
    theirs: String,
}

impl fmt::Display for Difference {
    fn fmt(&self, f: &mut fmt::Formatter) -> fmt::Result {
        let Difference {
            operation,
            kind,
            seed,
            input,
            ours,
            theirs,
        } = self;
        writeln!(f, "{operation} differs on kind {kind} with seed {seed}")?;
        writeln!(f, "the proved router:  {ours}")?;
        writeln!(f, "the second program: {theirs}")?;
        write!(f, "{input}")
    }
}

/// Nothing where both programs say the same, or what they differ in.
pub type Matched = Result<(), Box<Difference>>;

/// Lists of some kind, named.
pub struct Case {
    pub kind: &'static str,
    pub seed: u64,
    pub lists: Lists,
}

/// A case on another site, its lists in another order, and by how much it has moved.
struct Moved {
    case: Case,
    by: Shift,
}

/// Kinds whose nets are found by running the refiner many times are left to the operations that need them.
fn is_searched(kind: &Kind) -> bool {
    matches!(
        kind,
        Kind::Rounds | Kind::Pruned | Kind::Dropped | Kind::BoundEnds | Kind::DroppedWins
    )
}

/// In how many turns a kind comes up once: those that take a tenth of a second to make or to route in one of sixteen, and the largest,
/// which take the second program up to a second, in one of sixty-four.
fn turns(kind: &Kind) -> usize {
    match kind {
        Kind::Largest | Kind::LargestMaze | Kind::LargestFar => 64,
        Kind::Pruned | Kind::BoundEnds => 16,
        _ => 1,
    }
}

/// One of these kinds after the other; where a slow one does not come up in its turn, one of the others instead.
fn in_turn(kinds: &[Kind], seed: u64) -> Kind {
    let (turn, number) = (seed as usize / kinds.len(), seed as usize % kinds.len());
    let quick: Vec<Kind> = kinds
        .iter()
        .copied()
        .filter(|kind| turns(kind) == 1)
        .collect();
    match kinds[number] {
        kind if !turn.is_multiple_of(turns(&kind)) => quick[turn % quick.len()],
        kind => kind,
    }
}

/// One net of three of each kind has loads on its pins.
fn maybe_loaded(lists: Lists, seed: u64) -> Lists {
    if Random::new(!seed).one_in(3) {
        loaded(&lists, seed)
    } else {
        lists
    }
}

/// An allowed net of each kind in turn, its entries in another order.
pub fn allowed(seed: u64) -> Case {
    let kinds: Vec<Kind> = Kind::ALL
        .iter()
        .copied()
        .filter(|kind| !is_searched(kind))
        .collect();
    let kind = in_turn(&kinds, seed);
    Case {
        kind: kind.name(),
        seed,
        lists: permuted(&maybe_loaded(weighted(kind, seed), seed), seed),
    }
}

/// An allowed net of every kind in turn, those included that are found by search.
pub fn routed(seed: u64) -> Case {
    let kind = in_turn(Kind::ALL, seed);
    Case {
        kind: kind.name(),
        seed,
        lists: maybe_loaded(weighted(kind, seed), seed),
    }
}

/// Lists to be refused, of each kind in turn.
pub fn refused(seed: u64) -> Case {
    let kind = Hostile::ALL[seed as usize % Hostile::ALL.len()];
    Case {
        kind: kind.name(),
        seed,
        lists: hostile_weighted(kind, seed),
    }
}

/// The first sixteen pins and macros of the allowed nets of every kind.
pub fn on_grid(seed: u64) -> Case {
    let case = routed(seed);
    let lists = case.lists.first(grid::PINS, grid::MACROS);
    Case { lists, ..case }
}

/// Up to nine pins and six macros of the allowed nets, with loads in two of three.
pub fn few(seed: u64) -> Case {
    let case = allowed(seed);
    let random = &mut Random::new(seed ^ 0xfe3);
    let (m, k) = (1 + random.below(9), random.below(7));
    let lists = case.lists.first(m, k);
    let lists = if random.one_in(3) {
        lists
    } else {
        loaded(&lists, seed)
    };
    Case { lists, ..case }
}

/// Allowed nets and hostile lists by turns.
pub fn any(seed: u64) -> Case {
    if seed.is_multiple_of(2) {
        allowed(seed / 2)
    } else {
        refused(seed / 2)
    }
}

/// A damaged net file of each kind in turn, as often of a net with loads as not.
pub struct File {
    pub kind: &'static str,
    pub seed: u64,
    pub bytes: Vec<u8>,
}

pub fn file(seed: u64) -> File {
    let kind = Damage::ALL[seed as usize % Damage::ALL.len()];
    File {
        kind: kind.name(),
        seed,
        bytes: if Random::new(!seed).one_in(2) {
            damaged_loaded(kind, seed)
        } else {
            damaged_weighted(kind, seed)
        },
    }
}

/// Every number below one, by two threads.
pub fn each_of(count: u64, check: impl Fn(u64) + Sync) {
    let check = &check;
    thread::scope(|scope| {
        for first in 0..2 {
            scope.spawn(move || (first..count).step_by(2).for_each(check));
        }
    });
}

/// Lent space with a guard behind what is lent: none, one short of what is asked for, exact, or longer. The numbers in it are random, so that a
/// number that was not written shows.
struct Lent<T> {
    numbers: Vec<T>,
    lent: usize,
}

const GUARD: usize = 9;

impl<T: Copy> Lent<T> {
    /// So many numbers, and the guard.
    fn of(random: &mut Random, lent: usize, number: impl Fn(u64) -> T) -> Lent<T> {
        let numbers = (0..lent + GUARD).map(|_| number(random.bits())).collect();
        Lent { numbers, lent }
    }

    fn new(random: &mut Random, asked: usize, number: impl Fn(u64) -> T) -> Lent<T> {
        let lent = match random.below(16) {
            0 => 0,
            1..=4 => asked.saturating_sub(1),
            5..=8 => asked + 1 + random.below(40),
            _ => asked,
        };
        Lent::of(random, lent, number)
    }

    /// The part that is lent; the guard stays behind.
    fn part(&mut self) -> &mut [T] {
        &mut self.numbers[..self.lent]
    }
}

/// An operation on two lists with one lent space, one with two, the lower bound, and the reading of a file.
type OneSpace<T, A> = fn(&[i32], &[i32], Weights, &mut [T]) -> Result<A, u32>;
type TwoSpaces = fn(&[i32], &[i32], Weights, &mut [i32], &mut [i32]) -> Result<(usize, usize), u32>;
type Bounding = fn(&[i32], &[i32], Weights, &mut [u32], &mut [u64]) -> Result<u64, u32>;
type Reading = fn(&[u8], &mut [i32], &mut [i32]) -> Result<(usize, usize, Weights), u32>;

/// What a call answered and left in lent space, as text that can be compared and read.
fn said<A: Debug, S: Debug>(answer: A, spaces: &[S]) -> String {
    format!("{answer:?} {spaces:?}")
}

impl Case {
    /// Nothing where the two answers are equal.
    fn same(&self, operation: &'static str, ours: String, theirs: String) -> Matched {
        if ours == theirs {
            return Ok(());
        }
        Err(Box::new(Difference {
            operation,
            kind: self.kind,
            seed: self.seed,
            input: text::print(&self.lists),
            ours,
            theirs,
        }))
    }

    /// n = m + 4k, as the lists have it, whole or not.
    fn points(&self) -> usize {
        self.pins() + self.lists.macros.len() / Net::MACRO_NUMBERS * 4
    }

    /// m, as the list has it, whole or not.
    fn pins(&self) -> usize {
        self.lists.pins.len() / Net::PIN_NUMBERS
    }

    /// "Check a net."
    pub fn check(&self) -> Matched {
        let (pins, macros, weights) = self.lists.parts();
        let expected = format!("{:?}", operations::check(pins, macros, weights));
        for case in [self, &self.moved().case] {
            let (pins, macros, weights) = case.lists.parts();
            let ours = library::check(pins, macros, weights);
            case.same("check", format!("{ours:?}"), expected.clone())?;
        }
        Ok(())
    }

    /// "Graph."
    pub fn graph(&self) -> Matched {
        let answer = |call: TwoSpaces, lists: &Lists, by: Shift| {
            let random = &mut Random::new(self.seed);
            let mut vertices = Lent::new(random, self.points() * 2, |bits| bits as i32);
            let mut edges = Lent::new(random, self.points() * 16, |bits| bits as i32);
            let (pins, macros, weights) = lists.parts();
            let answer = call(pins, macros, weights, vertices.part(), edges.part());
            if let Ok((n, e)) = answer {
                by.places(&mut vertices.numbers[..2 * n]);
                by.places(&mut edges.numbers[..4 * e]);
            }
            said(answer, &[vertices.numbers, edges.numbers])
        };
        let here = Shift::default();
        let ours = answer(library::graph, &self.lists, here);
        self.same("graph", ours, answer(operations::graph, &self.lists, here))?;
        let Moved { case, by } = self.moved();
        let ours = answer(library::graph, &case.lists, here);
        case.same("graph", ours, answer(operations::graph, &self.lists, by))
    }

    /// The same net on another site, with the entries of both lists in another order.
    fn moved(&self) -> Moved {
        self.moved_with(&[])
    }

    /// The same where edges are to stay in range too.
    fn moved_with(&self, edges: &[i32]) -> Moved {
        let by = Shift::of(&self.lists, edges, self.seed);
        let lists = permuted(&by.lists(&self.lists), !self.seed);
        Moved {
            case: Case { lists, ..*self },
            by,
        }
    }

    /// An operation with one lent space, exact or longer, then too little or none: both programs on the lists, and the proved one once more
    /// on the net moved, with its lists in another order, which must move what is given and change nothing else.
    fn one_space<T: Copy + Debug, A: Debug>(
        &self,
        operation: &'static str,
        asked: usize,
        number: fn(u64) -> T,
        [ours, theirs]: [OneSpace<T, A>; 2],
        there: fn(&A, Shift, &mut [T]),
    ) -> Matched {
        let random = &mut Random::new(self.seed);
        let longer = random.choose(&[0, 0, 1, 40]);
        let short = random.choose(&[0, asked / 2, asked.saturating_sub(1)]);
        let Moved { case, by } = self.moved();
        for lent in [asked + longer, short] {
            let answer = |call: OneSpace<T, A>, lists: &Lists| {
                let mut space = Lent::of(&mut Random::new(self.seed), lent, number);
                let (pins, macros, weights) = lists.parts();
                let answer = call(pins, macros, weights, space.part());
                (answer, space.numbers)
            };
            let (expected, mut numbers) = answer(theirs, &self.lists);
            let (found, space) = answer(ours, &self.lists);
            self.same(
                operation,
                said(found, &[space]),
                said(&expected, &[&numbers]),
            )?;
            if let Ok(given) = &expected {
                there(given, by, &mut numbers);
            }
            let (found, space) = answer(ours, &case.lists);
            case.same(
                operation,
                said(found, &[space]),
                said(&expected, &[&numbers]),
            )?;
        }
        Ok(())
    }

    /// "Terminal tree."
    pub fn terminal_tree(&self) -> Matched {
        self.one_space(
            "terminal tree",
            5 * self.pins(),
            |bits| bits as i64,
            [library::terminal_tree, operations::terminal_tree],
            |(paths, _), by, numbers| by.paths(&mut numbers[..5 * paths]),
        )
    }

    /// "Refined tree."
    pub fn refined_tree(&self) -> Matched {
        self.one_space(
            "refined tree",
            4 * (self.points() + self.pins()),
            |bits| bits as i32,
            [library::refined_tree, operations::refined_tree],
            |(edges, ..), by, numbers| by.places(&mut numbers[..4 * edges]),
        )
    }

    /// "Sliding bars."
    pub fn slid_tree(&self) -> Matched {
        self.one_space(
            "slid tree",
            8 * (self.points() + self.pins()),
            |bits| bits as i32,
            [library::slid_tree, operations::slid_tree],
            |(edges, ..), by, numbers| by.places(&mut numbers[..4 * edges]),
        )
    }

    /// "Pass or fail for bought-in trees", of a list of edges; and the proved one once more on another site, with the net's lists and the
    /// edges in another order. The answer.
    pub fn check_tree(
        &self,
        kind: &'static str,
        edges: &[i32],
    ) -> Result<Result<(i64, i64), u32>, Box<Difference>> {
        let (pins, macros, weights) = self.lists.parts();
        let expected = operations::check_tree(pins, macros, weights, edges);
        let moved = self.moved_with(edges);
        let mut there = edges.to_vec();
        moved.by.places(&mut there);
        let turned = turned_edges(&there, self.seed);
        for (case, edges) in [(self, edges.to_vec()), (&moved.case, turned)] {
            let (pins, macros, weights) = case.lists.parts();
            let ours = library::check_tree(pins, macros, weights, &edges);
            case.same("check a tree", format!("{ours:?}"), format!("{expected:?}"))
                .map_err(|mut difference| {
                    difference.input += &format!("# edges, {kind}: {edges:?}\n");
                    difference
                })?;
        }
        Ok(expected)
    }

    /// "Wires."
    pub fn wires(&self) -> Matched {
        self.one_space(
            "wires",
            8 * (self.points() + self.pins()),
            |bits| bits as i32,
            [library::wires, operations::wires],
            |wires, by, numbers| by.places(&mut numbers[..4 * wires]),
        )
    }

    /// "True distance on the grid."
    pub fn grid_distances(&self) -> Matched {
        let m = self.pins();
        self.one_space(
            "distances on the grid",
            m * m,
            |bits| bits as i64,
            [library::grid_distances, operations::grid_distances],
            |_, _, _| (),
        )
    }

    /// The lower bound (U1 to U8), with as much work of both widths as is asked for, with more, or with too little of one. The answer.
    pub fn lower_bound(&self) -> Result<Result<u64, u32>, Box<Difference>> {
        self.lower_bound_lent(match Random::new(self.seed).below(8) {
            0 => [LEFT - 1, ROWS],
            1 => [LEFT, ROWS - 1],
            2 => [LEFT + GUARD, ROWS + 1],
            _ => [LEFT, ROWS],
        })
    }

    /// The same with so much work; and the proved one once more on another site, with the lists in another order, and other loads where it
    /// is an allowed net.
    pub fn lower_bound_lent(&self, lent: [usize; 2]) -> Result<Result<u64, u32>, Box<Difference>> {
        let held = self.seed as u32 | 1;
        let answer = |call: Bounding, lists: &Lists| {
            let mut left = vec![held; LEFT + 2 * GUARD];
            let mut rows = vec![u64::from(held); ROWS + 2 * GUARD];
            let (pins, macros, weights) = lists.parts();
            let (lent_left, lent_rows) = (&mut left[..lent[0]], &mut rows[..lent[1]]);
            let answer = call(pins, macros, weights, lent_left, lent_rows);
            let spaces = [cleared(&left, held), cleared(&rows, held.into())];
            (answer, said(answer, &spaces))
        };
        let (given, expected) = answer(operations::lower_bound, &self.lists);
        let mut moved = self.moved().case;
        if given.is_ok() {
            moved.lists = loaded(&moved.lists, self.seed);
        }
        for case in [self, &moved] {
            let (_, ours) = answer(library::lower_bound, &case.lists);
            case.same("lower bound", ours, expected.clone())?;
        }
        Ok(given)
    }

    /// "Delay to each pin", from a driver and by a technology of all sorts, bit for bit; and the proved one once more on another site, with
    /// the lists in another order. The answer with enough space.
    pub fn delay(&self) -> Result<Result<usize, u32>, Box<Difference>> {
        let random = &mut Random::new(self.seed ^ 0xde1a);
        let (driver, technology) = (driver(random, &self.lists), technology(random));
        let (asked, longer) = (self.pins(), random.choose(&[0, 0, 1, 40]));
        let short = random.choose(&[0, asked / 2, asked.saturating_sub(1)]);
        let moved = self.moved();
        let there = moved.by.place(driver);
        let (pins, macros, weights) = self.lists.parts();
        let tree = second::check(pins, macros, weights).map(|net| (refined(&net).edges, net));
        let at = reference::net::Place {
            x: driver.0.into(),
            y: driver.1.into(),
        };
        let mut answers = Vec::new();
        for lent in [asked + longer, short] {
            let space = || Lent::of(&mut Random::new(self.seed), lent, f64::from_bits);
            let bits = |space: Lent<f64>| space.numbers.into_iter().map(f64::to_bits).collect();
            let given = match &tree {
                Ok((edges, net)) => delay::of_net(net, edges, at, technology, lent),
                Err(refusal) => Err(*refusal),
            };
            let mut theirs = space();
            for (number, delay) in theirs.part().iter_mut().zip(given.iter().flatten()) {
                *number = *delay;
            }
            let given = given.map(|delays| delays.len());
            let theirs: Vec<u64> = bits(theirs);
            let expected = said(given, &[theirs]);
            for (case, driver) in [(self, driver), (&moved.case, there)] {
                let (pins, macros, weights) = case.lists.parts();
                let mut ours = space();
                let answer = library::delay(pins, macros, weights, driver, technology, ours.part());
                let ours: Vec<u64> = bits(ours);
                case.same("delay", said(answer, &[ours]), expected.clone())
                    .map_err(|mut difference| {
                        difference.input += &format!("# driver {driver:?} {technology:?}\n");
                        difference
                    })?;
            }
            answers.push(given);
        }
        Ok(answers[0])
    }

    /// "Price on the job card", by a list of bands of each kind in turn, made for the net's metal where it has any. The answer.
    pub fn price(&self) -> Result<Result<u64, u32>, Box<Difference>> {
        let (pins, macros, weights) = self.lists.parts();
        let kind = BandList::ALL[self.seed as usize % BandList::ALL.len()];
        let net = second::check(pins, macros, weights);
        let metal = net.map(|net| refined(&net).metal.unsigned_abs());
        let list = bands(kind, self.seed, metal.unwrap_or(self.seed));
        let expected = metal.and_then(|metal| price::price(metal, &list));
        for case in [self, &self.moved().case] {
            let (pins, macros, weights) = case.lists.parts();
            let ours = library::price(pins, macros, weights, &list);
            case.same("price", format!("{ours:?}"), format!("{expected:?}"))
                .map_err(|mut difference| {
                    difference.input += &format!("# bands, {}: {list:?}\n", kind.name());
                    difference
                })?;
        }
        Ok(expected)
    }

    /// "Write a net file."
    pub fn write_file(&self) -> Matched {
        let (pins, macros, weights) = self.lists.parts();
        let loaded = pins.chunks_exact(3).any(|pin| pin[2] != 0);
        let stored = self.pins() * if loaded { 3 } else { 2 };
        let blocks = 1 + stored.div_ceil(120) + macros.len().div_ceil(120);
        let both = |call: OneSpace<u8, usize>| {
            let random = &mut Random::new(self.seed);
            let mut bytes = Lent::new(random, blocks * 512, |bits| bits as u8);
            let answer = call(pins, macros, weights, bytes.part());
            said(answer, &[bytes.numbers])
        };
        self.same(
            "write a net file",
            both(library::write_file),
            both(operations::write_file),
        )
    }

    /// "Read a net file", of the file that the second program writes of the lists.
    pub fn read_back(&self) -> Matched {
        let mut bytes = vec![0; netfile::BLOCKS * netfile::BLOCK_BYTES];
        let (pins, macros, weights) = self.lists.parts();
        match operations::write_file(pins, macros, weights, &mut bytes) {
            Ok(length) => File {
                kind: self.kind,
                seed: self.seed,
                bytes: bytes[..length].to_vec(),
            }
            .read_file(),
            Err(_) => Ok(()),
        }
    }
}

/// What has become of a long space that held one number throughout.
fn cleared<T: Copy + PartialEq + Default>(space: &[T], held: T) -> String {
    let zeros = space.iter().take_while(|&&number| number == T::default());
    let zeros = zeros.count();
    let altered = space[zeros..].iter().position(|&number| number != held);
    match altered {
        None => format!("the first {zeros} are 0 and the others as they were"),
        Some(at) => format!("the first {zeros} are 0, and {} was altered", zeros + at),
    }
}

/// Edges in another order, each from its other end; numbers left over stay behind them.
fn turned_edges(edges: &[i32], seed: u64) -> Vec<i32> {
    let whole = edges.chunks_exact(4);
    let rest = whole.remainder();
    let mut fours: Vec<[i32; 4]> = whole.map(|e| [e[2], e[3], e[0], e[1]]).collect();
    Random::new(seed).shuffle(&mut fours);
    [&fours.concat(), rest].concat()
}

impl File {
    /// "Read a net file."
    pub fn read_file(&self) -> Matched {
        let both = |call: Reading| {
            let random = &mut Random::new(self.seed);
            let mut pins = Lent::new(random, Net::PIN_NUMBERS * Net::PINS, |bits| bits as i32);
            let mut macros =
                Lent::new(random, Net::MACRO_NUMBERS * Net::MACROS, |bits| bits as i32);
            let answer = call(&self.bytes, pins.part(), macros.part());
            said(answer, &[pins.numbers, macros.numbers])
        };
        let (ours, theirs) = (both(library::read_file), both(operations::read_file));
        if ours == theirs {
            return Ok(());
        }
        Err(Box::new(Difference {
            operation: "read a net file",
            kind: self.kind,
            seed: self.seed,
            input: format!("{} bytes: {:?}", self.bytes.len(), self.bytes),
            ours,
            theirs,
        }))
    }
}
