//! Which entries a refusal is about. The number is the proved router's; what is to blame is found here, and for 13 to 18 all of it.

use std::collections::BTreeMap;

use calzundi::{Macro, Net, Refusal, Weights};
use calzundi::{BEST_PINS, COORDINATE, GRID_MACROS, GRID_PINS, LOAD, MACROS, PINS, WEIGHT};

use crate::text::{numbers_of, sides, Lines};

/// What kind of entry it is that is to blame.
#[derive(Clone, Copy, Debug, PartialEq, Eq, PartialOrd, Ord)]
pub enum Kind {
    Pin,
    Macro,
    Weights,
    Edge,
    Band,
}

impl Kind {
    pub const fn name(self) -> &'static str {
        match self {
            Kind::Pin => "pin",
            Kind::Macro => "macro",
            Kind::Weights => "weights",
            Kind::Edge => "edge",
            Kind::Band => "band",
        }
    }
}

/// An entry that is to blame: the how many-th of its list, from 0, and its line where it has one.
#[derive(Clone, Copy, Debug, PartialEq, Eq, PartialOrd, Ord)]
pub struct Entry {
    pub kind: Kind,
    pub at: usize,
    pub line: Option<usize>,
}

/// One thing that is wrong: what is said of it, and the entries that it is about.
#[derive(Clone, Debug, PartialEq, Eq)]
pub struct Reason {
    pub said: String,
    pub of: Vec<Entry>,
}

impl Reason {
    pub fn of(said: String, of: &[Entry]) -> Reason {
        let of = of.to_vec();
        Reason { said, of }
    }
}

/// Reasons, of which the first so many are kept and the others counted: a tree may have millions.
#[derive(Clone, Debug, Default, PartialEq, Eq)]
pub struct Reasons {
    pub kept: Vec<Reason>,
    pub more: usize,
}

const KEPT: usize = 100;

impl Reasons {
    /// Takes a reason, which is put into words only where it is kept.
    pub fn take(&mut self, reason: impl FnOnce() -> Reason) {
        if self.kept.len() < KEPT {
            self.kept.push(reason())
        } else {
            self.more += 1
        }
    }
}

/// What is said of a refusal: its number, what that means here, a reason for each thing that is to blame, and the same for the numbers that
/// would come next.
#[derive(Clone, Debug, Default, PartialEq, Eq)]
pub struct Blame {
    pub number: i32,
    pub meaning: String,
    pub reasons: Vec<Reason>,
    /// How many more reasons there are.
    pub more: usize,
    pub next: Vec<Blame>,
}

impl Blame {
    /// A refusal by its meaning.
    pub fn new(refusal: Refusal, reasons: Vec<Reason>) -> Blame {
        Blame {
            reasons,
            ..Blame::because(refusal, refusal.meaning().into())
        }
    }

    /// A refusal by one cause of those that its number has.
    pub fn because(refusal: Refusal, meaning: String) -> Blame {
        Blame {
            number: refusal.number(),
            meaning,
            ..Blame::default()
        }
    }

    /// `refused 15: two pins are at one place`.
    pub fn headline(&self) -> String {
        format!("refused {}: {}", self.number, self.meaning)
    }

    /// All lines, those of the next numbers included.
    pub fn lines(&self) -> Vec<String> {
        let mut lines = self.own(usize::MAX);
        for next in &self.next {
            lines.push(format!("then {}", next.headline()));
            lines.extend(next.own(usize::MAX).into_iter().skip(1));
        }
        lines
    }

    /// The lines for a command that was asked for something else: the first few reasons.
    pub fn few(&self) -> Vec<String> {
        let mut lines = self.own(FEW);
        if let Some(more) = (self.reasons.len() + self.more).checked_sub(FEW + 1) {
            lines.push(format!(
                "  and {} more: `calzundi check` lists them",
                more + 1
            ));
        }
        lines
    }

    fn own(&self, most: usize) -> Vec<String> {
        let reasons = self.said().into_iter().take(most);
        let reasons = reasons.map(|said| format!("  {said}"));
        [self.headline()].into_iter().chain(reasons).collect()
    }

    /// The reasons in words, and how many more there are.
    pub fn said(&self) -> Vec<String> {
        let reasons = self.reasons.iter().map(|reason| reason.said.clone());
        let more = (self.more > 0).then(|| format!("and {} more", self.more));
        reasons.chain(more).collect()
    }

    /// Every entry that is to blame, now or next, once and in order.
    pub fn entries(&self) -> Vec<Entry> {
        let all = [self].into_iter().chain(&self.next);
        let reasons = all.flat_map(|blame| &blame.reasons);
        let mut entries: Vec<Entry> = reasons.flat_map(|reason| reason.of.clone()).collect();
        entries.sort_unstable();
        entries.dedup();
        entries
    }
}

/// How many reasons are said where a command was asked for something else.
const FEW: usize = 4;

/// The refusals of a net whose lists have a right count, in the order of their tests.
const BY_ENTRY: [Refusal; 6] = [
    Refusal::OutOfRange,
    Refusal::FlatMacro,
    Refusal::PinTwice,
    Refusal::MacrosOverlap,
    Refusal::PinInInterior,
    Refusal::Weights,
];

/// What is to blame for a net's refusal.
pub fn blamed(net: &Net, lines: Option<&Lines>, refusal: Refusal) -> Blame {
    let entries = Entries { net, lines };
    match refusal {
        Refusal::PinList => entries.miscounted(refusal, "pin", net.pins.len(), PINS),
        Refusal::MacroList => entries.miscounted(refusal, "macro", net.macros.len(), MACROS),
        Refusal::GridSize if net.pins.len() > GRID_PINS => {
            entries.miscounted(refusal, "pin", net.pins.len(), GRID_PINS)
        }
        Refusal::BestSize if net.pins.len() > BEST_PINS => {
            entries.miscounted(refusal, "pin", net.pins.len(), BEST_PINS)
        }
        Refusal::GridSize | Refusal::BestSize => {
            entries.miscounted(refusal, "macro", net.macros.len(), GRID_MACROS)
        }
        _ => {
            let mut found = BY_ENTRY.iter().filter_map(|&refusal| {
                let reasons = entries.reasons(refusal);
                (!reasons.is_empty()).then(|| Blame::new(refusal, reasons))
            });
            let number = refusal.number();
            let mut first = found
                .find(|blame| blame.number == number)
                .unwrap_or_else(|| Blame::new(refusal, Vec::new()));
            first.next = found.collect();
            first
        }
    }
}

/// A net's entries, each with its name.
pub struct Entries<'a> {
    pub net: &'a Net,
    pub lines: Option<&'a Lines>,
}

impl Entries<'_> {
    /// `line 7, pin 3 (5 5)`, or without its line where it has none.
    pub fn named_pin(&self, at: usize) -> String {
        let line = self.pin(at).line;
        named(line, "pin", at, &numbers_of(&self.net.pins[at]))
    }

    pub fn named_macro(&self, at: usize) -> String {
        let line = self.one(at).line;
        named(line, "macro", at, &sides(&self.net.macros[at]))
    }

    /// A pin as an entry that is to blame.
    pub fn pin(&self, at: usize) -> Entry {
        Entry {
            kind: Kind::Pin,
            at,
            line: self.lines.map(|lines| lines.pins[at]),
        }
    }

    /// A macro as one.
    pub fn one(&self, at: usize) -> Entry {
        Entry {
            kind: Kind::Macro,
            at,
            line: self.lines.map(|lines| lines.macros[at]),
        }
    }

    fn miscounted(&self, refusal: Refusal, kind: &str, count: usize, most: usize) -> Blame {
        if count == 0 {
            return Blame::because(refusal, format!("there is no {kind}"));
        }
        let cause = format!("there are {count} {kind}s, and at most {most} are allowed");
        let mut blame = Blame::because(refusal, cause);
        if count > most {
            let (first, entry) = match kind {
                "pin" => (self.named_pin(most), self.pin(most)),
                _ => (self.named_macro(most), self.one(most)),
            };
            let said = format!("{first} is the first that is too many");
            blame.reasons = vec![Reason::of(said, &[entry])];
        }
        blame
    }

    /// All entries for which a refusal applies.
    fn reasons(&self, refusal: Refusal) -> Vec<Reason> {
        match refusal {
            Refusal::OutOfRange => self.out_of_range(),
            Refusal::FlatMacro => self.flat(),
            Refusal::PinTwice => self.twice(),
            Refusal::MacrosOverlap => self.overlapping(),
            Refusal::PinInInterior => self.inside(),
            Refusal::Weights => self.weights(),
            _ => Vec::new(),
        }
    }

    fn out_of_range(&self) -> Vec<Reason> {
        let mut found = Vec::new();
        let mut look = |name: String, entry: Entry, numbers: &[(&str, i32)]| {
            for (axis, number) in numbers {
                let least = if *axis == "load" { 0 } else { -COORDINATE };
                let most = if *axis == "load" { LOAD } else { COORDINATE };
                if !(least..=most).contains(number) {
                    let said = format!("{name}: {axis} is {number}");
                    found.push(Reason::of(said, &[entry]));
                }
            }
        };
        for (at, pin) in self.net.pins.iter().enumerate() {
            let (x, y) = (("x", pin.place.x), ("y", pin.place.y));
            let numbers = [x, y, ("load", pin.load)];
            look(self.named_pin(at), self.pin(at), &numbers);
        }
        for (at, one) in self.net.macros.iter().enumerate() {
            let (left, bottom) = (("left", one.left), ("bottom", one.bottom));
            let (right, top) = (("right", one.right), ("top", one.top));
            let numbers = [left, bottom, right, top];
            look(self.named_macro(at), self.one(at), &numbers);
        }
        found
    }

    fn flat(&self) -> Vec<Reason> {
        let mut found = Vec::new();
        for (at, one) in self.net.macros.iter().enumerate() {
            let entry = self.named_macro(at);
            let mut push = |said: String| found.push(Reason::of(said, &[self.one(at)]));
            if one.left >= one.right {
                let (left, right) = (one.left, one.right);
                push(format!("{entry}: left {left} is not below right {right}"));
            }
            if one.bottom >= one.top {
                let (bottom, top) = (one.bottom, one.top);
                push(format!("{entry}: bottom {bottom} is not below top {top}"));
            }
        }
        found
    }

    /// Each pin that stands where an earlier one does.
    fn twice(&self) -> Vec<Reason> {
        let mut found = Vec::new();
        let mut first = BTreeMap::new();
        for (at, pin) in self.net.pins.iter().enumerate() {
            let earlier = *first.entry(pin.place).or_insert(at);
            if earlier != at {
                let (one, other) = (self.named_pin(at), self.named_pin(earlier));
                let said = format!("{one} stands where {other} does");
                found.push(Reason::of(said, &[self.pin(at), self.pin(earlier)]));
            }
        }
        found
    }

    fn overlapping(&self) -> Vec<Reason> {
        let macros = &self.net.macros;
        let mut found = Vec::new();
        for (at, one) in macros.iter().enumerate() {
            for (other_at, other) in macros.iter().enumerate().skip(at + 1) {
                if interiors_meet(one, other) {
                    let said = format!(
                        "{} and {}",
                        self.named_macro(at),
                        self.named_macro(other_at)
                    );
                    found.push(Reason::of(said, &[self.one(at), self.one(other_at)]));
                }
            }
        }
        found
    }

    fn weights(&self) -> Vec<Reason> {
        let Weights { x, y } = self.net.weights;
        let line = self.lines.and_then(|lines| lines.weights);
        let entry = Entry {
            kind: Kind::Weights,
            at: 0,
            line,
        };
        let line = line.map_or(String::new(), |line| format!("line {line}, "));
        let outside = [("x", x), ("y", y)].into_iter();
        outside
            .filter(|(_, weight)| !(1..=WEIGHT).contains(weight))
            .map(|(axis, weight)| format!("{line}weights {x} {y}: that of {axis} is {weight}"))
            .map(|said| Reason::of(said, &[entry]))
            .collect()
    }

    fn inside(&self) -> Vec<Reason> {
        let mut found = Vec::new();
        for (at, pin) in self.net.pins.iter().enumerate() {
            for (macro_at, one) in self.net.macros.iter().enumerate() {
                let within = one.left < pin.place.x
                    && pin.place.x < one.right
                    && one.bottom < pin.place.y
                    && pin.place.y < one.top;
                if within {
                    let said = format!("{} in {}", self.named_pin(at), self.named_macro(macro_at));
                    found.push(Reason::of(said, &[self.pin(at), self.one(macro_at)]));
                }
            }
        }
        found
    }
}

/// `line 7, pin 3 (5 5)`, or without its line where it has none.
pub fn named(line: Option<usize>, kind: &str, at: usize, numbers: &str) -> String {
    let entry = format!("{kind} {} ({numbers})", at + 1);
    line.map_or(entry.clone(), |line| format!("line {line}, {entry}"))
}

/// "The greater left below the smaller right, and the greater bottom below the smaller top."
fn interiors_meet(one: &Macro, other: &Macro) -> bool {
    one.left.max(other.left) < one.right.min(other.right)
        && one.bottom.max(other.bottom) < one.top.min(other.top)
}
