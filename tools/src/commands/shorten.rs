//! `shorten`: trees as short as can be found.

use crate::bound::bound_of;
use crate::output::{each, Form, Made, Product};
use crate::program::{Command, Failure, Switch, Words, FORCE, JSON, OUTPUT};
use crate::routed::wires_text;
use crate::shorten::effort::{effort, EFFORT};
use crate::shorten::shortened::shortened;
use crate::shorten::unsound::failure;
use crate::source::open;

const HELP: &str = "\
calzundi shorten NET..: prints trees of nets as short as can be found

A NET is text or a net file; for - it is standard input. From the slid tree on,
a search takes parts of the tree away and joins what is left anew as cheaply as
that can be done, for as long as that helps. The search is not proved. What it
finds is judged: it has passed the check of `calzundi verify`, which is proved,
or it is not printed. It is never dearer than the slid tree, and of up to 5 pins
and 16 macros it is a best tree. Printed are `pins m macros k`, the totals of
the refined, the slid and the shortened tree, the metal that the last one takes,
a number that no tree undercuts and how far above it the tree is, then a line
for each edge of it, its two places and its cost. Before each of several nets
stands a line `# NET`.

    --effort N   how much is tried, 1 to 9; 5 where it is not said. More effort
                 takes longer, and is made to give no dearer tree
    --wires      the wires instead: a line for each, its start and its end
    --json       everything as one JSON object, with why the search ended
    -o FILE      where it goes; without it to standard output
    -o FOLDER/   of many nets: FOLDER/NAME.tree (.wires, .json) of each
    --force      also over another net

    calzundi shorten net.txt
    calzundi shorten --effort 9 --json net.txt
    calzundi draw --shortened net.txt -o net.svg

The same net gets the same tree on every machine, for every order of its lists
and on every site; but another release may give another one. Where a tree is to
stay as it is for years, take `route`. An effort is a number of steps and not of
seconds: the largest nets take about a second at 5 and minutes at 9, and at most
160 MiB of memory. A refusal prints `refused` and its number, and standard error
says what is to blame.
Exit status: 0 printed; 1 a refused net, something that cannot be read or
written, or a tree that did not pass, which is an error of this program: then
the net goes to a file of its own, and standard error says where; 2 a wrong
command line.
";

const WIRES: Switch = Switch {
    name: "--wires",
    value: None,
};

pub const COMMAND: Command = Command {
    name: "shorten",
    help: HELP,
    options: &[EFFORT, WIRES, JSON, OUTPUT, FORCE],
    files: (1, usize::MAX),
    act: shorten,
};

fn shorten(words: &Words) -> Result<(), Failure> {
    let (as_json, as_wires) = (words.has(JSON.name), words.has(WIRES.name));
    if as_json && as_wires {
        let both = "--json has the wires in it; take one of the two";
        return Err(Failure::Usage(both.into()));
    }
    let effort = effort(words)?;
    let product = Product {
        command: "shorten",
        ending: match (as_json, as_wires) {
            (true, _) => "json",
            (_, true) => "wires",
            _ => "tree",
        },
        form: if as_json { Form::Json } else { Form::Text },
    };
    each(words, &product, |net| {
        let source = open(Some(net))?;
        let net = source.allowed()?;
        let bound = bound_of(&source)?;
        let shortened =
            shortened(net, effort, bound).map_err(|stopped| failure(&source, stopped))?;
        Ok(Made::from(match (as_json, as_wires) {
            (true, _) => shortened.json(&source.name),
            (_, true) => wires_text(&shortened.wires()),
            _ => shortened.text(),
        }))
    })
}
