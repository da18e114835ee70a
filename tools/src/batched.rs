//! One net of a batch: its numbers in a line, as text, as comma-separated values or as JSON.

use std::ffi::OsString;

use calzundi::{Net, Refusal, Technology, Weights, Wire};

use crate::bands::{charge, open as open_bands, List};
use crate::bound::Bounded;
use crate::delay::{said, Asked};
use crate::fingerprint::{fingerprint, form};
use crate::json::{self, quoted, Field};
use crate::line::plain;
use crate::name::Name;
use crate::program::{Failure, Words};
use crate::routed::wires_text;
use crate::shorten::effort::{effort_if_shortened, Effort};
use crate::shorten::shortened::shortened;
use crate::shorten::unsound::failure;
use crate::source::{open, Source};
use crate::streams::name;
use crate::told;

/// In which form a row is printed.
#[derive(Clone, Copy, PartialEq, Eq)]
pub enum Form {
    Text,
    Csv,
    JsonLines,
    Json,
}

/// What is wanted of each net beside its trees.
pub struct Wanted {
    form: bool,
    slid: bool,
    best: bool,
    shortened: Option<Effort>,
    bound: bool,
    bands: Option<List>,
    technology: Option<Technology>,
}

impl Wanted {
    /// What a command line asks for. A list of bands that is refused for every net is refused once.
    pub fn of(words: &Words) -> Result<Wanted, Failure> {
        let bands = words.file("--bands").map(open_bands).transpose()?;
        if let Some(list) = &bands {
            charge(&Net::new([(0, 0)], []), list)?;
        }
        Ok(Wanted {
            form: words.has("--form"),
            slid: words.has("--slid"),
            best: words.has("--best"),
            shortened: effort_if_shortened(words)?,
            bound: words.has("--bound"),
            bands,
            technology: words.value("--delay").map(technology).transpose()?,
        })
    }

    /// The names of the columns that are asked for.
    fn columns(&self) -> Vec<&'static str> {
        let own = [
            (self.form, "form"),
            (self.slid, "slid"),
            (self.best, "best"),
            (self.shortened.is_some(), "shortened"),
            (self.bound, "bound"),
            (self.bound, "over"),
            (self.bands.is_some(), "charge"),
            (self.technology.is_some(), "delay"),
        ];
        let own = own.into_iter().filter(|one| one.0);
        own.map(|one| one.1).collect()
    }

    /// The line of names of comma-separated values.
    pub fn names(&self) -> String {
        let names = [&NAMES[..], &self.columns(), &WRONG].concat();
        names.join(",") + "\n"
    }

    /// The further numbers of an allowed net. A best tree of a net that is too large for one is none. So is a number that is refused, and the
    /// first such refusal is told.
    fn more(&self, source: &Source, wires: &[Wire]) -> More {
        let net = &source.net;
        let mut more = More::default();
        if self.form {
            more.take("form", Ok(Value::Word(form(wires))));
        }
        // The cheapest tree of the row is held against the bound.
        let mut least: i64 = wires.iter().map(|wire| wire.cost(net.weights)).sum();
        let mut of_tree = |total: i64| {
            least = least.min(total);
            Value::of(total)
        };
        let wrong = |refusal| source.unfit(refusal);
        if self.slid {
            let slid = net.slid_tree().map(|tree| of_tree(tree.total));
            more.take("slid", slid.map_err(wrong));
        }
        if self.best {
            let best = match net.best_tree() {
                Err(Refusal::BestSize) => Ok(Value::None),
                best => best.map(|tree| of_tree(tree.total)),
            };
            more.take("best", best.map_err(wrong));
        }
        if let Some(effort) = self.shortened {
            let found = shortened(net, effort, 0).map(|found| of_tree(found.tree().total));
            more.take(
                "shortened",
                found.map_err(|stopped| failure(source, stopped)),
            );
        }
        if self.bound {
            let bounded = |bound| Bounded::of(net.weights, least, bound).fields();
            match net.lower_bound().map(bounded) {
                Ok(fields) => fields
                    .into_iter()
                    .for_each(|(name, said)| more.take(name, Ok(Value::Number(said)))),
                Err(refusal) => ["bound", "over"]
                    .into_iter()
                    .for_each(|name| more.take(name, Err(wrong(refusal)))),
            }
        }
        if let Some(list) = &self.bands {
            more.take("charge", charge(net, list).map(Value::of));
        }
        if let Some(technology) = self.technology {
            let driver = net.pins[0].place;
            let asked = Asked { driver, technology };
            let delays = asked.of(net);
            let worst = delays.map(|all| all.iter().map(|one| one.delay).fold(0.0, f64::max));
            let worst = worst.map(|worst| Value::Number(said(worst)));
            let refused = |refusal| Failure::refused(&source.name, asked.blamed(refusal));
            more.take("delay", worst.map_err(refused));
        }
        more
    }
}

/// The further numbers of a net, and why the first of those is missing that are.
#[derive(Default)]
struct More {
    columns: Vec<(&'static str, Value)>,
    but: Option<Failure>,
}

impl More {
    fn take(&mut self, name: &'static str, value: Result<Value, Failure>) {
        let value = value.unwrap_or_else(|failure| {
            self.but.get_or_insert(failure);
            Value::None
        });
        self.columns.push((name, value));
    }
}

fn technology(word: &str) -> Result<Technology, Failure> {
    let wrong = || {
        let word = plain(word);
        Failure::Usage(format!(
            "--delay is R,C, two numbers above zero, not '{word}'"
        ))
    };
    let (resistance, capacitance) = word.split_once(',').ok_or_else(wrong)?;
    let number = |word: &str| {
        let number = word.trim().parse::<f64>().ok();
        number.filter(|number| number.is_finite() && *number > 0.0)
    };
    Ok(Technology {
        resistance: number(resistance).ok_or_else(wrong)?,
        capacitance: number(capacitance).ok_or_else(wrong)?,
    })
}

/// A value of a row.
enum Value {
    Number(String),
    Word(String),
    None,
}

impl Value {
    fn of(number: impl ToString) -> Value {
        Value::Number(number.to_string())
    }

    fn json(&self) -> String {
        match self {
            Value::Number(number) => number.clone(),
            Value::Word(word) => quoted(word),
            Value::None => "null".into(),
        }
    }

    fn text<'a>(&'a self, none: &'a str) -> &'a str {
        match self {
            Value::Number(said) | Value::Word(said) => said,
            Value::None => none,
        }
    }
}

/// What is printed of a net.
pub struct Row {
    net: Name,
    /// How many columns are wanted beside those that every row has.
    wanted: usize,
    answer: Result<Totals, Failure>,
}

/// The numbers of a routed net.
pub struct Totals {
    pins: usize,
    macros: usize,
    weights: Weights,
    terminal: i64,
    refined: i64,
    metal: i64,
    wires: usize,
    fingerprint: String,
    more: More,
}

impl Totals {
    /// Two calls give all of it that is not asked for: a wire's cost and length are those of its part of an edge.
    fn of(source: &Source, wanted: &Wanted) -> Result<Totals, Failure> {
        let net = source.allowed()?;
        let wrong = |refusal| source.unfit(refusal);
        let terminal = net.terminal_tree().map_err(wrong)?.total;
        let wires = net.wires().map_err(wrong)?;
        Ok(Totals {
            pins: net.pins.len(),
            macros: net.macros.len(),
            weights: net.weights,
            terminal,
            refined: wires.iter().map(|wire| wire.cost(net.weights)).sum(),
            metal: wires.iter().map(Wire::length).sum(),
            wires: wires.len(),
            fingerprint: fingerprint(&wires_text(&wires)),
            more: wanted.more(source, &wires),
        })
    }

    fn numbers(&self) -> [i64; 8] {
        let Weights { x, y } = self.weights;
        [
            self.pins as i64,
            self.macros as i64,
            x.into(),
            y.into(),
            self.terminal,
            self.refined,
            self.metal,
            self.wires as i64,
        ]
    }
}

impl Row {
    /// Routes a net of the batch.
    pub fn of(file: &OsString, wanted: &Wanted) -> Row {
        Row {
            net: name(Some(file)),
            wanted: wanted.columns().len(),
            answer: open(Some(file)).and_then(|source| Totals::of(&source, wanted)),
        }
    }

    /// The row in a form; an array's own without an end, since a comma may follow.
    pub fn line(&self, form: Form) -> String {
        match form {
            Form::Text => self.text(),
            Form::Csv => self.csv(),
            Form::JsonLines => self.json() + "\n",
            Form::Json => self.json(),
        }
    }

    fn text(&self) -> String {
        let net = &self.net;
        match &self.answer {
            Ok(totals) => {
                let [m, k, x, y, terminal, refined, metal, wires] = totals.numbers();
                let own = format!(
                    "pins {m} macros {k} weights {x} {y} terminal {terminal} refined {refined} metal {metal} wires {wires}"
                );
                let more = totals.more.columns.iter();
                let more: String = more
                    .map(|(name, value)| format!(" {name} {}", value.text("-")))
                    .collect();
                let print = &totals.fingerprint;
                let but = totals.more.but.as_ref();
                let but = but.map_or(String::new(), |but| format!("; {}", self.reason(but)));
                format!("{net}: {own} fingerprint {print}{more}{but}\n")
            }
            Err(failure) => format!("{net}: {}\n", self.reason(failure)),
        }
    }

    fn csv(&self) -> String {
        let mut fields = vec![field(&self.net.to_string())];
        match &self.answer {
            Ok(totals) => {
                fields.extend(totals.numbers().map(|number| number.to_string()));
                fields.push(totals.fingerprint.clone());
                let more = totals.more.columns.iter();
                fields.extend(more.map(|(_, value)| value.text("").to_string()));
            }
            Err(_) => {
                let none = NAMES.len() - 1 + self.wanted;
                fields.extend((0..none).map(|_| String::new()));
            }
        }
        let wrong = self.wrong();
        fields.push(match wrong {
            Some(Failure::Refused { blame, .. }) => blame.number.to_string(),
            _ => String::new(),
        });
        fields.push(wrong.map_or(String::new(), |wrong| field(&self.reason(wrong))));
        fields.join(",") + "\n"
    }

    fn json(&self) -> String {
        let own: Vec<Field> = match &self.answer {
            Ok(totals) => {
                let [m, k, _, _, terminal, refined, metal, wires] = totals.numbers();
                let numbers = [
                    ("terminal", terminal),
                    ("refined", refined),
                    ("metal", metal),
                    ("wires", wires),
                ];
                let mut own = vec![("pins", m.to_string()), ("macros", k.to_string())];
                own.push(("weights", json::weights(totals.weights)));
                own.extend(numbers.map(|(name, number)| (name, number.to_string())));
                own.push(("fingerprint", quoted(&totals.fingerprint)));
                let more = totals.more.columns.iter();
                own.extend(more.map(|(name, value)| (*name, value.json())));
                own
            }
            Err(_) => Vec::new(),
        };
        let wrong = match self.wrong() {
            None => Vec::new(),
            Some(Failure::Refused { blame, .. }) => json::refused_row(blame),
            Some(Failure::Lines(_, bad)) => {
                let lines = json::row(bad.lines.iter().map(json::bad_line));
                let error = quoted(&bad.all().join("; "));
                vec![("error", error), ("lines", lines)]
            }
            Some(failure) => vec![("error", quoted(&self.reason(failure)))],
        };
        json::short(&[json::about("net", &self.net), own, wrong].concat())
    }

    /// Why a net has no numbers, or one of those that were asked for is missing.
    pub fn wrong(&self) -> Option<&Failure> {
        match &self.answer {
            Ok(totals) => totals.more.but.as_ref(),
            Err(failure) => Some(failure),
        }
    }

    /// What is wrong in a line, without the name of the net.
    fn reason(&self, failure: &Failure) -> String {
        match failure {
            Failure::Refused { blame, .. } => {
                let first = blame.reasons.first().map(|reason| reason.said.clone());
                let lines: Vec<String> = [blame.headline()].into_iter().chain(first).collect();
                lines.join(": ")
            }
            Failure::Lines(_, bad) => bad.all().join("; "),
            Failure::Wrong { what, .. } => what.clone(),
            failure => told::said(failure),
        }
    }
}

/// The columns that every row has, and those of what is wrong.
const NAMES: [&str; 10] = [
    "net",
    "pins",
    "macros",
    "weight_x",
    "weight_y",
    "terminal",
    "refined",
    "metal",
    "wires",
    "fingerprint",
];
const WRONG: [&str; 2] = ["refused", "reason"];

/// A field of comma-separated values, in quotes where it needs them.
fn field(text: &str) -> String {
    if text.contains([',', '"', '\n', '\r']) {
        return format!("\"{}\"", text.replace('"', "\"\""));
    }
    text.to_string()
}
