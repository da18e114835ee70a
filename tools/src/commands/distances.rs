//! `distances`: the cheapest cost between every two pins.

use calzundi::Place;

use crate::json::{about, listed, object, place, row};
use crate::program::{Command, Failure, Words, JSON};
use crate::source::open;
use crate::streams::write;

const HELP: &str = "\
calzundi distances NET: says what metal between every two pins costs at least

NET is text or a net file; for - it is standard input. It has at most 16 pins
and 16 macros. A table goes to standard output: a row and a column for each pin,
named `x,y` and in the order of places, and in it the cheapest cost between the
two by any walk in unit steps that enters no macro's interior. The router's own
trees go along its graph, whose ways are never cheaper.

    --json   the pins and the rows as a JSON object

    calzundi distances net.txt

A refusal prints `refused` and its number, and standard error says what is to
blame.
Exit status: 0 printed; 1 a refused net, or a file that cannot be read; 2 a
wrong command line.
";

pub const COMMAND: Command = Command {
    name: "distances",
    help: HELP,
    options: &[JSON],
    files: (1, 1),
    act: distances,
};

fn distances(words: &Words) -> Result<(), Failure> {
    let source = open(words.files.first())?;
    let net = source.allowed()?;
    let rows = net.grid_distances();
    let rows = rows.map_err(|refusal| source.unfit(refusal))?;
    let mut places: Vec<Place> = net.pins.iter().map(|pin| pin.place).collect();
    places.sort_unstable();
    let fields = || {
        let numbers = |one: &Vec<i64>| row(one.iter().map(i64::to_string));
        let own = vec![
            ("pins", listed(places.iter().map(|&one| place(one)))),
            ("distances", listed(rows.iter().map(numbers))),
        ];
        [about("net", &source.name), own].concat()
    };
    let text = if words.has(JSON.name) {
        object(&fields())
    } else {
        table(&places, &rows)
    };
    write(None, text.as_bytes(), &[])
}

/// The table, each column as wide as its widest word and with one word for its name.
fn table(places: &[Place], rows: &[Vec<i64>]) -> String {
    let names: Vec<String> = places.iter().map(|p| format!("{},{}", p.x, p.y)).collect();
    let widest = names.iter().map(String::len).max().unwrap_or(0);
    let first = widest.max(CORNER.len());
    let column = |at: usize| {
        let numbers = rows.iter().map(|row| row[at].to_string().len());
        numbers.max().unwrap_or(0).max(names[at].len())
    };
    let widths: Vec<usize> = (0..names.len()).map(column).collect();
    let line = |name: &str, cells: Vec<String>| {
        let mut line = format!("{name:first$}");
        for (cell, width) in cells.iter().zip(&widths) {
            line.push_str(&format!("  {cell:>width$}"));
        }
        line + "\n"
    };
    let mut text = line(CORNER, names.clone());
    for (name, row) in names.iter().zip(rows) {
        text.push_str(&line(name, row.iter().map(i64::to_string).collect()));
    }
    text
}

/// What the column of names is called.
const CORNER: &str = "pin";
