//! `delay`: the Elmore delay from a driver to each pin.

use crate::delay::{said, table, Asked};
use crate::json::{about, listed, object, place, short};
use crate::program::{Command, Failure, Words, JSON};
use crate::source::open;
use crate::streams::write;

const HELP: &str = "\
calzundi delay NET DRIVER R C: the Elmore delay from a driver to each pin

NET is text or a net file; for - it is standard input. DRIVER is the place of a
pin, as `x,y`. R and C are the technology: resistance and capacitance for each
unit of length, finite and above zero. A pin's load is in the same units as the
capacitance. The delays are those of the refined tree. A table goes to standard
output: a line for each pin in the order of places, `x y` and its delay, in the
fewest digits that are read back as the same 64 bits.

    --json   the delays as a JSON object

    calzundi delay net.txt 0,0 0.03 0.0002

A refusal prints `refused` and its number, and standard error says what is to
blame.
Exit status: 0 printed; 1 a refused net, technology or driver, a delay that is
not finite, or a file that cannot be read; 2 a wrong command line.
";

pub const COMMAND: Command = Command {
    name: "delay",
    help: HELP,
    options: &[JSON],
    files: (4, 4),
    act: delay,
};

fn delay(words: &Words) -> Result<(), Failure> {
    let given: Vec<String> = words.files[1..]
        .iter()
        .map(|word| word.to_string_lossy().into_owned())
        .collect();
    let asked = Asked::parse(&given[0], &given[1], &given[2]).map_err(Failure::Usage)?;
    let source = open(words.files.first())?;
    let net = source.allowed()?;
    let delays = asked.of(net);
    let delays = delays.map_err(|refusal| Failure::refused(&source.name, asked.blamed(refusal)))?;
    let fields = || {
        let rows = delays
            .iter()
            .map(|one| short(&[("pin", place(one.place)), ("delay", said(one.delay))]));
        let own = vec![
            ("driver", place(asked.driver)),
            ("resistance", said(asked.technology.resistance)),
            ("capacitance", said(asked.technology.capacitance)),
            ("delays", listed(rows)),
        ];
        [about("net", &source.name), own].concat()
    };
    let text = if words.has(JSON.name) {
        object(&fields())
    } else {
        table(&delays)
    };
    write(None, text.as_bytes(), &[])
}
