//! A text form for the two lists, one entry a line: `pin x y load` and `macro left bottom right top`;
//! a load of 0 may be left out, and is left out in print. At most one line is `weights x y`; without
//! it both are 1. Blank lines are allowed, and `#` makes the rest of its line a comment.

use std::fmt;

use crate::lists::Lists;
use crate::net::{Net, Weights};

/// A line that is no entry, and what is wrong with it. Lines count from 1.
#[derive(Clone, Debug, PartialEq, Eq)]
pub struct BadLine {
    pub line: usize,
    pub wrong: String,
}

impl fmt::Display for BadLine {
    fn fmt(&self, f: &mut fmt::Formatter) -> fmt::Result {
        write!(f, "line {}: {}", self.line, self.wrong)
    }
}

/// The lists and weights that a text gives. Any 32-bit numbers and any count of entries pass, so
/// that refused nets can be written too.
pub fn parse(text: &str) -> Result<Lists, BadLine> {
    let mut lists = Lists::default();
    let mut weights = Vec::new();
    for (number, line) in text.lines().enumerate() {
        entry(line, &mut lists, &mut weights).map_err(|wrong| BadLine {
            line: number + 1,
            wrong,
        })?;
    }
    if let [x, y] = weights[..] {
        lists.weights = Weights { x, y };
    }
    Ok(lists)
}

/// The lists that the bytes of a text give.
pub fn parse_bytes(bytes: &[u8]) -> Result<Lists, BadLine> {
    let text = std::str::from_utf8(bytes).map_err(|error| {
        let before = &bytes[..error.valid_up_to()];
        BadLine {
            line: 1 + before.iter().filter(|&&byte| byte == b'\n').count(),
            wrong: "not UTF-8 text".into(),
        }
    })?;
    parse(text)
}

/// Adds one line's entry to its list; the weights are a list of at most one entry.
fn entry(line: &str, lists: &mut Lists, weights: &mut Vec<i32>) -> Result<(), String> {
    let said = line.split('#').next().unwrap_or("");
    let mut words = said.split_whitespace();
    let Some(kind) = words.next() else {
        return Ok(());
    };
    let (list, names): (&mut Vec<i32>, &[&str]) = match kind {
        "pin" => (&mut lists.pins, &["x", "y", "load"]),
        "macro" => (&mut lists.macros, &["left", "bottom", "right", "top"]),
        "weights" if weights.is_empty() => (weights, &["x", "y"]),
        "weights" => return Err("a second line of weights".into()),
        other => {
            return Err(format!(
                "'{other}' is neither 'pin' nor 'macro' nor 'weights'"
            ))
        }
    };
    for &name in names {
        let word = match words.next() {
            Some(word) => word,
            None if name == "load" => "0",
            None => return Err(format!("{} a number for {name}", needing(kind))),
        };
        let number = word
            .parse()
            .map_err(|_| format!("'{word}' for {name} is no whole number of 32 bits"))?;
        list.push(number);
    }
    match words.next() {
        Some(extra) => Err(format!("'{extra}' stands after the end of the {kind}")),
        None => Ok(()),
    }
}

/// An entry that lacks something, as a sentence begins.
fn needing(kind: &str) -> String {
    match kind {
        "weights" => "weights need".into(),
        _ => format!("a {kind} needs"),
    }
}

/// The text of two lists, which parses back to them; it names the weights unless both are 1.
/// Numbers left over in a list that is not whole entries have no line of their own; a comment
/// names them.
pub fn print(lists: &Lists) -> String {
    let mut text = String::new();
    if lists.weights != Weights::ONE {
        let Weights { x, y } = lists.weights;
        text.push_str(&format!("weights {x} {y}\n"));
    }
    let widths = [
        ("pin", &lists.pins, Net::PIN_NUMBERS),
        ("macro", &lists.macros, Net::MACRO_NUMBERS),
    ];
    for (kind, list, width) in widths {
        for chunk in list.chunks(width) {
            let said = match chunk {
                [x, y, 0] if kind == "pin" => &[*x, *y],
                numbers => numbers,
            };
            let numbers: Vec<String> = said.iter().map(i32::to_string).collect();
            let start = if chunk.len() == width {
                ""
            } else {
                "# left over: "
            };
            text.push_str(&format!("{start}{kind} {}\n", numbers.join(" ")));
        }
    }
    text
}
