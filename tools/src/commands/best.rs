//! `best`: best trees of small nets.

use crate::bound::{asked, BOUND};
use crate::output::{each, Made};
use crate::program::{Command, Failure, Words, FORCE, JSON, OUTPUT};
use crate::routed::{tree_product, Routed};
use crate::source::open;

const HELP: &str = "\
calzundi best NET..: prints best trees of nets of up to 5 pins and 16 macros

A NET is text or a net file; for - it is standard input. No level and upright
metal that keeps out of the macros joins the pins for less. Printed are `pins m
macros k`, the totals of the refined and of the slid tree, each with how much
more than the best that is, the total of the best tree and the metal that it
takes, then a line for each edge of it, its two places and its cost. Before each
of several nets stands a line `# NET`.

    --bound      and the lower bound that larger nets have instead of a best
                 tree, with how much the best tree is over it: `bound B over P%`
                 in the first line, and a comment in words
    --json       the same and the net as one JSON object
    -o FILE      where it goes; without it to standard output
    -o FOLDER/   of many nets: FOLDER/NAME.tree (.json) of each
    --force      also over another net

    calzundi best net.txt
    calzundi draw --best net.txt -o net.svg

Several trees may cost the same; which of them is printed is left to the router.
An edge is level or upright, so it is drawn as it stands. A refusal prints
`refused` and its number, and standard error says what is to blame.
Exit status: 0 printed; 1 a refused net, or something that cannot be read or
written; 2 a wrong command line.
";

pub const COMMAND: Command = Command {
    name: "best",
    help: HELP,
    options: &[BOUND, JSON, OUTPUT, FORCE],
    files: (1, usize::MAX),
    act: best,
};

fn best(words: &Words) -> Result<(), Failure> {
    each(words, &tree_product("best", words), |net| {
        let source = open(Some(net))?;
        let net = source.allowed()?;
        let wrong = |refusal| source.unfit(refusal);
        let tree = net.best_tree().map_err(wrong)?;
        let routed = Routed::of(net).map_err(wrong)?;
        let routed = routed.above(asked(words, &source)?);
        let slid = net.slid_tree().map_err(wrong)?;
        Ok(Made::from(if words.has(JSON.name) {
            routed.best_json(&source.name, net, &slid, &tree)
        } else {
            routed.best_text(&slid, &tree)
        }))
    })
}
