//! A net as text, one entry a line: `pin x y load`, `macro left bottom right top` and, at most once, `weights x y`. A load of 0 may be
//! left out, and is left out in print.

use calzundi::{Macro, Net, Pin, Place, Weights};

use crate::line::{each_line, quoted, BadLines};

/// The lines on which a net's entries stand.
#[derive(Clone, Debug, Default, PartialEq, Eq)]
pub struct Lines {
    pub pins: Vec<usize>,
    pub macros: Vec<usize>,
    pub weights: Option<usize>,
}

/// The net that the bytes of a text give, with its lines. Any 32-bit numbers and any count of lines pass: what is allowed the router says.
pub fn parse(bytes: &[u8]) -> Result<(Net, Lines), BadLines> {
    let (mut net, mut lines) = (Net::default(), Lines::default());
    let done = each_line(bytes, |line, words| {
        let Some((kind, rest)) = words.split_first() else {
            return Ok(());
        };
        match *kind {
            "pin" => {
                net.pins.push(pin(rest)?);
                lines.pins.push(line);
            }
            "macro" => {
                let names = ["left", "bottom", "right", "top"];
                let [left, bottom, right, top] = numbers("macro", names, rest)?;
                net.macros.push(Macro::new(left, bottom, right, top));
                lines.macros.push(line);
            }
            "weights" => {
                let [x, y] = numbers("line of weights", ["x", "y"], rest)?;
                if let Some(first) = lines.weights {
                    return Err(format!("the weights stand on line {first} already"));
                }
                net.weights = Weights { x, y };
                lines.weights = Some(line);
            }
            "refused" => return Err("it is a refusal that was printed, and no entry".into()),
            other => {
                let other = quoted(other);
                return Err(format!("{other} is neither 'pin', 'macro' nor 'weights'"));
            }
        }
        Ok(())
    });
    done.map_err(|bad| BadLines {
        is_net: true,
        ..bad
    })?;
    Ok((net, lines))
}

/// A pin of its numbers; a load that is left out is 0.
fn pin(words: &[&str]) -> Result<Pin, String> {
    if let [x, y] = *words {
        return pin(&[x, y, "0"]);
    }
    let [x, y, load] = numbers("pin", ["x", "y", "load"], words)?;
    Ok(Pin::new(x, y).with_load(load))
}

/// So many whole numbers, each with its name.
pub fn numbers<const N: usize>(
    kind: &str,
    names: [&str; N],
    words: &[&str],
) -> Result<[i32; N], String> {
    let mut found = [0; N];
    for (at, name) in names.iter().enumerate() {
        let word = words
            .get(at)
            .ok_or_else(|| format!("a {kind} needs a number for {name}"))?;
        found[at] = word
            .parse()
            .map_err(|_| format!("{} for {name} is no whole number of 32 bits", quoted(word)))?;
    }
    match words.get(N) {
        Some(extra) => Err(format!(
            "{} stands after the end of the {kind}",
            quoted(extra)
        )),
        None => Ok(found),
    }
}

/// The text of a net, which parses back to it. Weights have a line where they are not both 1.
pub fn print(net: &Net) -> String {
    let mut text = String::new();
    let Weights { x, y } = net.weights;
    if net.weights != Weights::default() {
        text += &format!("weights {x} {y}\n");
    }
    for pin in &net.pins {
        text += &format!("pin {}\n", numbers_of(pin));
    }
    for one in &net.macros {
        text += &format!("macro {}\n", sides(one));
    }
    text
}

/// The numbers of a pin, its load where it has one.
pub fn numbers_of(pin: &Pin) -> String {
    let Place { x, y } = pin.place;
    match pin.load {
        0 => format!("{x} {y}"),
        load => format!("{x} {y} {load}"),
    }
}

/// The four numbers of a macro.
pub fn sides(one: &Macro) -> String {
    let Macro {
        left,
        bottom,
        right,
        top,
    } = one;
    format!("{left} {bottom} {right} {top}")
}
