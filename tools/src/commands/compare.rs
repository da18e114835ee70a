//! `compare`: whether nets get the same metal.

use std::collections::{BTreeMap, BTreeSet};

use calzundi::Wire;

use crate::fingerprint::{fingerprint, form, moved};
use crate::json::{about, listed, object, quoted, row, short, wire, Field};
use crate::name::Name;
use crate::program::{Command, Failure, Switch, Words, JSON};
use crate::routed::{drawn, wires_text};
use crate::source::open;
use crate::streams::write;

const HELP: &str = "\
calzundi compare A B..: says whether nets get the same metal

A, B and all that follow are nets, text or net files; one of them may be -,
standard input. The same metal is the same wires, as `calzundi route --wires`
prints them; the order of a net's lists does not matter to it. Printed is `same
metal` or `other metal`, for each net how many wires it has, how much metal and
a fingerprint, and where one differs from the first the first wires that only
one of the two has, each with its number.

    --shift   the same metal on another site is the same metal too: where every
              wire of a net is the wire of A moved by one amount in x and in y,
              `same metal, shifted by X Y` is printed; of more than two nets
              each line says by how much. A net whose pins and macros are moved
              so gets its metal so. Wires that only one of two nets has are
              those that are left where most of the others are the same.
    --json    the answer as a JSON object

    calzundi compare ordered.txt delivered.net
    calzundi compare --shift site-*.txt

The fingerprint is short enough for a job card: the first 16 digits of the
SHA-256 of the wires, so that `calzundi route --wires net.txt | sha256sum` shows
the same ones.
Exit status: 0 the same metal; 1 other metal, a refused net, or a file that
cannot be read; 2 a wrong command line.
";

pub const COMMAND: Command = Command {
    name: "compare",
    help: HELP,
    options: &[SHIFT, JSON],
    files: (2, usize::MAX),
    act: compare,
};

const SHIFT: Switch = Switch {
    name: "--shift",
    value: None,
};

/// A net by its wires.
struct Laid {
    name: Name,
    wires: Vec<Wire>,
}

impl Laid {
    fn metal(&self) -> i64 {
        self.wires.iter().map(Wire::length).sum()
    }

    fn line(&self) -> String {
        let print = fingerprint(&wires_text(&self.wires));
        let (name, count, metal) = (&self.name, self.wires.len(), self.metal());
        format!("{name}: wires {count} metal {metal} fingerprint {print}")
    }

    /// The wires that the other one has not where it is moved so, each with its number from 0.
    fn own(&self, other: &Laid, (x, y): (i32, i32)) -> Vec<(usize, &Wire)> {
        let there: BTreeSet<[i32; 4]> = moved(&other.wires, x, y).iter().map(key).collect();
        let wires = self.wires.iter().enumerate();
        let own = wires.filter(|(_, wire)| !there.contains(&key(wire)));
        own.collect()
    }

    /// By how much the other one is to be moved for most of its wires to be these.
    fn nearest(&self, other: &Laid) -> (i32, i32) {
        let mut count: BTreeMap<(i32, i32), usize> = BTreeMap::new();
        let size = |wire: &Wire| (wire.end.x - wire.start.x, wire.end.y - wire.start.y);
        for there in &other.wires {
            let alike = self.wires.iter().filter(|wire| size(wire) == size(there));
            for wire in alike {
                let shift = (wire.start.x - there.start.x, wire.start.y - there.start.y);
                *count.entry(shift).or_default() += 1;
            }
        }
        let most = count.into_iter().max_by_key(|(_, count)| *count);
        most.map_or((0, 0), |(shift, _)| shift)
    }

    /// How this metal is beside the first net's.
    fn beside(&self, first: &Laid, shifts: bool) -> Beside {
        match shift(&first.wires, &self.wires).filter(|_| shifts) {
            _ if self.wires == first.wires => Beside::Same,
            Some((x, y)) => Beside::Shifted(x, y),
            None => Beside::Other,
        }
    }
}

#[derive(Clone, Copy, PartialEq, Eq)]
enum Beside {
    Same,
    Shifted(i32, i32),
    Other,
}

/// By how much in x and in y the second wires are the first ones moved, if they are. A shift keeps their order, so the first of them tells.
fn shift(one: &[Wire], other: &[Wire]) -> Option<(i32, i32)> {
    let (first, there) = (one.first()?, other.first()?);
    let x = there.start.x - first.start.x;
    let y = there.start.y - first.start.y;
    (moved(one, x, y) == other).then_some((x, y))
}

fn key(wire: &Wire) -> [i32; 4] {
    let (start, end) = (wire.start, wire.end);
    [start.x, start.y, end.x, end.y]
}

/// How many wires of each net are shown.
const SHOWN: usize = 3;

fn compare(words: &Words) -> Result<(), Failure> {
    let mut all = Vec::new();
    for file in &words.files {
        let source = open(Some(file))?;
        let wires = source.allowed()?.wires();
        let wires = wires.map_err(|refusal| source.unfit(refusal))?;
        let name = source.name;
        all.push(Laid { name, wires });
    }
    let shifts = words.has(SHIFT.name);
    let beside: Vec<Beside> = all
        .iter()
        .map(|laid| laid.beside(&all[0], shifts))
        .collect();
    let same = !beside.contains(&Beside::Other);
    let said = if words.has(JSON.name) {
        object(&fields(&all, &beside, shifts))
    } else {
        text(&all, &beside, shifts)
    };
    write(None, said.as_bytes(), &[])?;
    if same {
        Ok(())
    } else {
        Err(Failure::No)
    }
}

/// By how much the first net is moved to be held beside another one, and this one beside the first.
fn shifts_between(first: &Laid, other: &Laid, beside: Beside, shifts: bool) -> [(i32, i32); 2] {
    let (x, y) = match beside {
        Beside::Same => (0, 0),
        Beside::Shifted(x, y) => (x, y),
        Beside::Other if shifts => other.nearest(first),
        Beside::Other => (0, 0),
    };
    [(x, y), (-x, -y)]
}

fn text(all: &[Laid], beside: &[Beside], shifts: bool) -> String {
    let same = !beside.contains(&Beside::Other);
    let mut said = match (same, beside) {
        (false, _) => "other metal\n".to_string(),
        (true, [_, Beside::Shifted(x, y)]) => format!("same metal, shifted by {x} {y}\n"),
        (true, two) if two.iter().all(|one| *one == Beside::Same) => "same metal\n".to_string(),
        (true, _) => "same metal, shifted\n".to_string(),
    };
    for (laid, beside) in all.iter().zip(beside) {
        said += &laid.line();
        said += &match beside {
            Beside::Shifted(x, y) if all.len() > 2 => format!(" shifted by {x} {y}\n"),
            Beside::Other if all.len() > 2 => " other metal\n".to_string(),
            _ => "\n".to_string(),
        };
    }
    let others = all.iter().zip(beside);
    if let Some((other, beside)) = others.into_iter().find(|one| *one.1 == Beside::Other) {
        let [there, back] = shifts_between(&all[0], other, *beside, shifts);
        if there != (0, 0) {
            let (name, first, (x, y)) = (&other.name, &all[0].name, there);
            said += &format!("{name} beside {first} shifted by {x} {y}:\n");
        }
        for (one, two, shift) in [(&all[0], other, back), (other, &all[0], there)] {
            let own = one.own(two, shift);
            for (at, wire) in own.iter().take(SHOWN) {
                said += &format!("only in {}: wire {}, {}\n", one.name, at + 1, drawn(wire));
            }
            if own.len() > SHOWN {
                said += &format!("and {} more in {}\n", own.len() - SHOWN, one.name);
            }
        }
    }
    said
}

fn fields(all: &[Laid], beside: &[Beside], shifts: bool) -> Vec<Field> {
    let same = !beside.contains(&Beside::Other);
    let nets = all.iter().zip(beside).map(|(laid, beside)| {
        let [there, _] = shifts_between(&all[0], laid, *beside, shifts);
        let only = laid.own(&all[0], there).into_iter().take(SHOWN);
        let only = only.map(|(_, one)| wire(one));
        let shift = match beside {
            Beside::Same => "[0, 0]".to_string(),
            Beside::Shifted(x, y) => format!("[{x}, {y}]"),
            Beside::Other => "null".to_string(),
        };
        short(&[
            ("net", quoted(laid.name.as_given())),
            ("wires", laid.wires.len().to_string()),
            ("metal", laid.metal().to_string()),
            (
                "fingerprint",
                quoted(&fingerprint(&wires_text(&laid.wires))),
            ),
            ("form", quoted(&form(&laid.wires))),
            ("shift", shift),
            ("only", row(only)),
        ])
    });
    let nets: Vec<String> = nets.collect();
    let mut fields = about("net", &all[0].name);
    fields.push(("same", same.to_string()));
    fields.push(("nets", listed(nets.into_iter())));
    fields
}
