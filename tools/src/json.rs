//! JSON as it is printed: an object with a field a line, or all of it on one line. docs/calzundi.schema.json says which fields there are.

use calzundi::{Edge, Macro, Net, Pin, Place, Weights, Wire};

use crate::blame::{Blame, Entry};
use crate::line::BadLine;
use crate::name::Name;

/// A field: its name, and its value as JSON.
pub type Field = (&'static str, String);

/// An object, a field a line.
pub fn object(fields: &[Field]) -> String {
    let line = |(name, value): &Field| format!("  {}: {value}", quoted(name));
    let lines: Vec<String> = fields.iter().map(line).collect();
    format!("{{\n{}\n}}\n", lines.join(",\n"))
}

/// An object on one line.
pub fn short(fields: &[Field]) -> String {
    let field = |(name, value): &Field| format!("{}: {value}", quoted(name));
    let fields: Vec<String> = fields.iter().map(field).collect();
    format!("{{{}}}", fields.join(", "))
}

/// A list, an entry a line, as it stands in an object.
pub fn listed(entries: impl Iterator<Item = String>) -> String {
    let entries: Vec<String> = entries.map(|entry| format!("    {entry}")).collect();
    if entries.is_empty() {
        return "[]".into();
    }
    format!("[\n{}\n  ]", entries.join(",\n"))
}

/// A list on one line.
pub fn row(entries: impl Iterator<Item = String>) -> String {
    let entries: Vec<String> = entries.collect();
    format!("[{}]", entries.join(", "))
}

/// Objects as they are printed: one alone, or several as an array.
pub fn several(objects: &[String]) -> String {
    match objects {
        [one] => one.clone(),
        all => {
            let all: Vec<&str> = all.iter().map(|one| one.trim_end()).collect();
            format!("[\n{}\n]\n", all.join(",\n"))
        }
    }
}

/// A JSON string.
pub fn quoted(text: &str) -> String {
    let mut said = String::from("\"");
    for letter in text.chars() {
        match letter {
            '"' => said += "\\\"",
            '\\' => said += "\\\\",
            letter if letter < ' ' => said += &format!("\\u{:04x}", letter as u32),
            letter => said.push(letter),
        }
    }
    said + "\""
}

/// Every object begins with the version and what it is about.
pub fn about(kind: &'static str, name: &Name) -> Vec<Field> {
    vec![
        ("calzundi", quoted(calzundi::VERSION)),
        (kind, quoted(name.as_given())),
    ]
}

pub fn place(place: Place) -> String {
    format!("[{}, {}]", place.x, place.y)
}

pub fn weights(Weights { x, y }: Weights) -> String {
    format!("[{x}, {y}]")
}

/// An edge with its length and its cost.
pub fn edge(edge: &Edge, weights: Weights) -> String {
    short(&[
        ("from", place(edge.first)),
        ("to", place(edge.second)),
        ("length", edge.length().to_string()),
        ("cost", edge.cost(weights).to_string()),
    ])
}

pub fn wire(wire: &Wire) -> String {
    let (start, end) = (wire.start, wire.end);
    format!("[{}, {}, {}, {}]", start.x, start.y, end.x, end.y)
}

/// The entries of a net: its weights, the places of its pins, their loads, its macros.
pub fn net(net: &Net) -> [Field; 4] {
    let sides = |m: &Macro| format!("[{}, {}, {}, {}]", m.left, m.bottom, m.right, m.top);
    let load = |pin: &Pin| pin.load.to_string();
    [
        ("weights", weights(net.weights)),
        ("pins", listed(net.pins.iter().map(|pin| place(pin.place)))),
        ("loads", row(net.pins.iter().map(load))),
        ("macros", listed(net.macros.iter().map(sides))),
    ]
}

/// A refusal: its number, what it means, the reasons in words, the entries that are to blame, and the refusals that would come next.
pub fn refused(blame: &Blame) -> Vec<Field> {
    let next = listed(blame.next.iter().map(|next| short(&refusal(next))));
    [refusal(blame), vec![("next", next)]].concat()
}

/// The same on one line.
pub fn refused_row(blame: &Blame) -> Vec<Field> {
    let next = row(blame.next.iter().map(|next| short(&refusal(next))));
    [refusal(blame), vec![("next", next)]].concat()
}

fn refusal(blame: &Blame) -> Vec<Field> {
    let own = Blame {
        next: Vec::new(),
        ..blame.clone()
    };
    vec![
        ("refused", blame.number.to_string()),
        ("meaning", quoted(&blame.meaning)),
        ("reasons", row(blame.said().iter().map(|said| quoted(said)))),
        ("entries", row(own.entries().iter().map(entry))),
    ]
}

fn entry(entry: &Entry) -> String {
    let line = entry.line.map(|line| ("line", line.to_string()));
    let mut fields = vec![
        ("kind", quoted(entry.kind.name())),
        ("number", (entry.at + 1).to_string()),
    ];
    fields.extend(line);
    short(&fields)
}

/// A line that says nothing.
pub fn bad_line(bad: &BadLine) -> String {
    let wrong = quoted(&bad.wrong);
    short(&[("line", bad.line.to_string()), ("wrong", wrong)])
}
