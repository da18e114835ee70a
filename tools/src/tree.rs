//! A tree as text: one edge a line, its two places, with its cost behind them or not; so what `route`, `slide` and `best`
//! print is one too.

use std::collections::{BTreeMap, BTreeSet};

use calzundi::{Edge, Net, Place, Refusal, BOUGHT_EDGES, COORDINATE};

use crate::blame::{named, Blame, Entries, Entry, Kind, Reason, Reasons};
use crate::formats::layout;
use crate::line::{each_line, quoted, BadLines};
use crate::name::Name;
use crate::program::Failure;
use crate::source::Source;
use crate::split::{cuts, split};
use crate::text::numbers;

/// A tree that was read: its edges, each as it was given, and the lines on which they stand.
#[derive(Clone, Debug, Default, PartialEq, Eq)]
pub struct Given {
    pub name: Name,
    pub edges: Vec<Edge>,
    lines: Vec<usize>,
}

/// The tree that the bytes of a text give. Any 32-bit numbers and any count of lines pass: what is a tree the router says.
pub fn parse(name: Name, bytes: &[u8]) -> Result<Given, Failure> {
    let mut given = Given {
        name,
        ..Given::default()
    };
    edges(&mut given, bytes).map_err(|bad| match layout(bytes) {
        Some(kind) => {
            let wrong =
                format!("it is {kind}, and `calzundi import --tree --split` makes a tree of it");
            Failure::wrong(&given.name, wrong)
        }
        None => Failure::Lines(given.name.clone(), bad),
    })?;
    Ok(given)
}

fn edges(given: &mut Given, bytes: &[u8]) -> Result<(), BadLines> {
    let mut header = None;
    each_line(bytes, |line, words| {
        match words {
            [] => return Ok(()),
            ["pins", ..] => {
                let first = header.or(given.lines.first().copied());
                if let Some(first) = first {
                    return Err(format!(
                        "a header after line {first}, which begins the tree"
                    ));
                }
                header = Some(line);
                return Ok(());
            }
            _ => {}
        }
        let (places, cost) = words.split_at(words.len().min(4));
        let names = ["the first x", "the first y", "the second x", "the second y"];
        let [a, b, c, d] = numbers("tree's edge", names, places)?;
        match cost {
            [] => {}
            [cost] if cost.parse::<i64>().is_ok() => {}
            [cost] => return Err(format!("{} for its cost is no whole number", quoted(cost))),
            [_, extra, ..] => {
                let extra = quoted(extra);
                return Err(format!("{extra} stands after the end of the tree's edge"));
            }
        }
        let place = |x, y| Place { x, y };
        given.edges.push(Edge {
            first: place(a, b),
            second: place(c, d),
        });
        given.lines.push(line);
        Ok(())
    })
}

impl Given {
    /// Which edges, pins and points a refusal is about.
    pub fn blamed(&self, source: &Source, refusal: Refusal) -> Blame {
        // Pins and macros are named without their lines, which are another file's.
        let entries = Entries {
            net: &source.net,
            lines: None,
        };
        match refusal {
            Refusal::EdgeList if self.edges.len() > BOUGHT_EDGES => {
                let (count, first) = (self.edges.len(), self.named(BOUGHT_EDGES));
                let cause =
                    format!("there are {count} edges, and at most {BOUGHT_EDGES} are allowed");
                let said = format!("{first} is the first that is too many");
                Blame {
                    reasons: vec![Reason::of(said, &[self.entry(BOUGHT_EDGES)])],
                    ..Blame::because(refusal, cause)
                }
            }
            Refusal::EdgeList => Blame {
                reasons: self.out_of_range(),
                ..Blame::because(
                    refusal,
                    format!("a coordinate is not from -{COORDINATE} to {COORDINATE}"),
                )
            },
            Refusal::EdgeNotClear => Blame::new(refusal, self.not_clear(&entries)),
            _ => {
                let (split, tree) = (self.to_split(&entries), self.no_tree(&entries));
                Blame {
                    more: split.more + tree.more,
                    ..Blame::new(refusal, [split.kept, tree.kept].concat())
                }
            }
        }
    }

    /// The same tree as metal lies: cut where an edge ends on another or crosses it, and at pins. Longer lists than are taken stay as they are.
    pub fn split(&self, net: &Net) -> Result<Given, Failure> {
        if self.edges.len() > BOUGHT_EDGES {
            return Ok(self.clone());
        }
        let pieces = split(&self.edges, &pins(net));
        let pieces = pieces.map_err(|wrong| Failure::wrong(&self.name, wrong))?;
        Ok(Given {
            name: self.name.clone(),
            edges: pieces.iter().map(|piece| piece.edge).collect(),
            lines: pieces.iter().map(|piece| self.lines[piece.of]).collect(),
        })
    }

    /// The places between an edge's ends at which it would be cut.
    fn places_on(&self, at: usize, net: &Net) -> Vec<Place> {
        if self.edges.len() > BOUGHT_EDGES {
            return Vec::new();
        }
        let ends = [self.edges[at].first, self.edges[at].second];
        let places = cuts(&self.edges, at, &pins(net)).into_iter();
        places.filter(|place| !ends.contains(place)).collect()
    }

    /// `line 7, edge 3 (0 0 4 0)`.
    fn named(&self, at: usize) -> String {
        let Edge { first, second } = self.edges[at];
        let numbers = format!("{} {} {} {}", first.x, first.y, second.x, second.y);
        named(Some(self.lines[at]), "edge", at, &numbers)
    }

    fn entry(&self, at: usize) -> Entry {
        Entry {
            kind: Kind::Edge,
            at,
            line: Some(self.lines[at]),
        }
    }

    /// What is wrong with an edge.
    fn wrong(&self, at: usize, what: &str) -> Reason {
        Reason::of(format!("{}{what}", self.named(at)), &[self.entry(at)])
    }

    fn each(&self) -> impl Iterator<Item = (usize, Place, Place)> + '_ {
        let edges = self.edges.iter().enumerate();
        edges.map(|(at, edge)| (at, edge.first, edge.second))
    }

    fn out_of_range(&self) -> Vec<Reason> {
        let mut found = Vec::new();
        for (at, first, second) in self.each() {
            let coordinates = [
                ("first x", first.x),
                ("first y", first.y),
                ("second x", second.x),
                ("second y", second.y),
            ];
            let out = |number: i32| number.unsigned_abs() > COORDINATE.unsigned_abs();
            let out = coordinates.iter().filter(|(_, number)| out(*number));
            found.extend(
                out.map(|(name, number)| self.wrong(at, &format!(": the {name} is {number}"))),
            );
        }
        found
    }

    fn not_clear(&self, entries: &Entries) -> Vec<Reason> {
        let mut found = Vec::new();
        for (at, first, second) in self.each() {
            if first == second {
                found.push(self.wrong(at, " has equal ends"));
                continue;
            }
            for (macro_at, one) in entries.net.macros.iter().enumerate() {
                let meets = first.x.min(second.x) < one.right
                    && first.x.max(second.x) > one.left
                    && first.y.min(second.y) < one.top
                    && first.y.max(second.y) > one.bottom;
                if meets {
                    let name = entries.named_macro(macro_at);
                    let mut reason = self.wrong(at, &format!(" is not clear of {name}"));
                    reason.of.push(entries.one(macro_at));
                    found.push(reason);
                }
            }
        }
        found
    }

    /// Where an edge has to be parted for what lies on it to be joined with it.
    fn to_split(&self, entries: &Entries) -> Reasons {
        let mut found = Reasons::default();
        for at in 0..self.edges.len() {
            for Place { x, y } in self.places_on(at, entries.net) {
                found.take(|| {
                    let edge = self.named(at);
                    let said = format!("{x} {y} lies on {edge}: split it there (`--split`)");
                    Reason::of(said, &[self.entry(at)])
                });
            }
        }
        found
    }

    /// Edges given twice, pins at no edge, points with a single edge that are no pins, edges that close a cycle, and parts of their own.
    fn no_tree(&self, entries: &Entries) -> Reasons {
        let mut found = Reasons::default();
        let mut parts = Parts::default();
        let mut given: BTreeMap<(Place, Place), usize> = BTreeMap::new();
        let mut edges: BTreeMap<Place, usize> = BTreeMap::new();
        for (at, first, second) in self.each() {
            let key = (first.min(second), first.max(second));
            match given.get(&key) {
                Some(&before) => found.take(|| {
                    let mut reason = self.wrong(at, &format!(" is {} again", self.named(before)));
                    reason.of.push(self.entry(before));
                    reason
                }),
                None if !parts.joined(first, second) => {
                    found.take(|| self.wrong(at, " closes a cycle of the edges before it"));
                }
                None => {}
            }
            if given.insert(key, *given.get(&key).unwrap_or(&at)).is_none() {
                for end in [first, second] {
                    *edges.entry(end).or_default() += 1;
                }
            }
        }
        let pins: BTreeSet<Place> = entries.net.pins.iter().map(|pin| pin.place).collect();
        for (at, pin) in entries.net.pins.iter().enumerate() {
            if pins.len() > 1 && parts.of(pin.place).is_none() {
                let said = || format!("{} is at no edge's end", entries.named_pin(at));
                found.take(|| Reason::of(said(), &[entries.pin(at)]));
            }
        }
        for (at, first, second) in self.each() {
            for end in [first, second] {
                if !pins.contains(&end) && edges.get(&end) == Some(&1) {
                    let Place { x, y } = end;
                    let what = format!(" ends at {x} {y}, which is no pin and has no other edge");
                    found.take(|| self.wrong(at, &what));
                }
            }
        }
        let mut known = BTreeSet::new();
        for (at, first, _) in self.each() {
            if known.insert(parts.of(first)) && known.len() > 1 {
                let what = format!(" begins a part that is not joined with {}", self.named(0));
                found.take(|| self.wrong(at, &what));
            }
        }
        found
    }
}

fn pins(net: &Net) -> Vec<Place> {
    net.pins.iter().map(|pin| pin.place).collect()
}

/// A tree as text, an edge a line.
pub fn print(edges: &[Edge]) -> String {
    let line = |edge: &Edge| {
        let Edge { first, second } = edge;
        format!("{} {} {} {}\n", first.x, first.y, second.x, second.y)
    };
    edges.iter().map(line).collect()
}

/// Which places are joined, by the number of their part.
#[derive(Default)]
struct Parts {
    part: BTreeMap<Place, usize>,
}

impl Parts {
    fn of(&self, place: Place) -> Option<usize> {
        self.part.get(&place).copied()
    }

    /// Joins two places; whether they were not joined before.
    fn joined(&mut self, one: Place, other: Place) -> bool {
        let new = self.part.len();
        let one = *self.part.entry(one).or_insert(new);
        let new = self.part.len();
        let other = *self.part.entry(other).or_insert(new);
        for part in self.part.values_mut().filter(|part| **part == other) {
            *part = one;
        }
        one != other
    }
}
