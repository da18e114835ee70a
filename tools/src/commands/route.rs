//! `route`: the trees of nets, in one of three forms.

use crate::bound::{asked, BOUND};
use crate::output::{each, Form, Made, Product};
use crate::program::{Command, Failure, Switch, Words, FORCE, JSON, OUTPUT};
use crate::routed::{wires_text, Routed};
use crate::source::open;

const HELP: &str = "\
calzundi route NET..: prints the trees of nets

A NET is text or a net file; for - it is standard input. Printed is what the
program `route` prints: `pins m macros k`, the totals of the terminal and of the
refined tree, the metal to lay, then a line for each edge of the refined tree,
its two places and its cost. A cost is the length, weighed by axis where the net
has weights; metal is always plain length. Before each of several nets stands a
line `# NET`.

    --wires      the wires instead, in the order in which they are drawn: a
                 line for each, its start and its end
    --bound      and a cost that no tree undercuts, with how much the refined
                 tree is over it: `bound B over P%` in the first line, and a
                 comment in words; for the largest nets it takes half a second
    --json       everything as one JSON object: totals, fingerprint, form, pins,
                 loads, macros, bridges, edges and wires; of several nets an
                 array of them
    -o FILE      where it goes; without it to standard output
    -o FOLDER/   of many nets: FOLDER/NAME.tree (.wires, .json) of each
    --force      also over another net

    calzundi route net.txt
    calzundi route --json net.txt | python3 -m json.tool

A refusal prints `refused` and its number, as the program does (with --json an
object that says it), and standard error says what is to blame.
Exit status: 0 printed; 1 a refused net, or something that cannot be read or
written; 2 a wrong command line.
";

const WIRES: Switch = Switch {
    name: "--wires",
    value: None,
};

pub const COMMAND: Command = Command {
    name: "route",
    help: HELP,
    options: &[WIRES, BOUND, JSON, OUTPUT, FORCE],
    files: (1, usize::MAX),
    act: route,
};

fn route(words: &Words) -> Result<(), Failure> {
    let (as_json, as_wires) = (words.has(JSON.name), words.has(WIRES.name));
    if as_json && as_wires {
        let both = "--json has the wires in it; take one of the two";
        return Err(Failure::Usage(both.into()));
    }
    if as_wires && words.has(BOUND.name) {
        let both = "--wires prints wires alone, and --bound is said of a tree; take one of the two";
        return Err(Failure::Usage(both.into()));
    }
    let product = Product {
        command: "route",
        ending: match (as_json, as_wires) {
            (true, _) => "json",
            (_, true) => "wires",
            _ => "tree",
        },
        form: if as_json { Form::Json } else { Form::Text },
    };
    each(words, &product, |net| {
        let source = open(Some(net))?;
        let net = source.allowed()?;
        let wrong = |refusal| source.unfit(refusal);
        if as_wires {
            return Ok(Made::from(wires_text(&net.wires().map_err(wrong)?)));
        }
        let routed = Routed::of(net).map_err(wrong)?;
        let routed = routed.above(asked(words, &source)?);
        Ok(Made::from(if as_json {
            routed.json(&source.name, net, &net.wires().map_err(wrong)?)
        } else {
            routed.text()
        }))
    })
}
