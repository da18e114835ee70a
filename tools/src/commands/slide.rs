//! `slide`: the slid trees of nets.

use crate::bound::{asked, BOUND};
use crate::output::{each, Made};
use crate::program::{Command, Failure, Words, FORCE, JSON, OUTPUT};
use crate::routed::{tree_product, Routed};
use crate::source::open;

const HELP: &str = "\
calzundi slide NET..: prints the slid trees of nets

A NET is text or a net file; for - it is standard input. The refined tree's
slanted edges are bent into level and upright ones, and bars of it, connected
edges on one line, are moved where that makes it cheaper; it is never dearer
than before. Printed are `pins m macros k`, the totals of the terminal, the
refined and the slid tree, the metal that the slid one takes, then a line for
each edge of it, its two places and its cost. Before each of several nets stands
a line `# NET`.

    --bound      and a cost that no tree undercuts, with how much the slid tree
                 is over it: `bound B over P%` in the first line, and a comment
                 in words; for the largest nets it takes half a second
    --json       the same and the net as one JSON object
    -o FILE      where it goes; without it to standard output
    -o FOLDER/   of many nets: FOLDER/NAME.tree (.json) of each
    --force      also over another net

    calzundi slide net.txt
    calzundi draw --slid net.txt -o net.svg

An edge is level or upright, so it is drawn as it stands. Only where both places
for the bend of a slanted edge are taken is the refined tree given back as it
was; its edges are drawn level first and then upright. A refusal prints
`refused` and its number, and standard error says what is to blame.
Exit status: 0 printed; 1 a refused net, or something that cannot be read or
written; 2 a wrong command line.
";

pub const COMMAND: Command = Command {
    name: "slide",
    help: HELP,
    options: &[BOUND, JSON, OUTPUT, FORCE],
    files: (1, usize::MAX),
    act: slide,
};

fn slide(words: &Words) -> Result<(), Failure> {
    each(words, &tree_product("slide", words), |net| {
        let source = open(Some(net))?;
        let net = source.allowed()?;
        let wrong = |refusal| source.unfit(refusal);
        let routed = Routed::of(net).map_err(wrong)?;
        let routed = routed.above(asked(words, &source)?);
        let slid = net.slid_tree().map_err(wrong)?;
        Ok(Made::from(if words.has(JSON.name) {
            routed.slid_json(&source.name, net, &slid)
        } else {
            routed.slid_text(&slid)
        }))
    })
}
