//! `verify`: whether a tree of another router passes for a net.

use std::path::Path;

use calzundi::Passed;

use crate::bound::{asked, Bounded, BOUND};
use crate::json::{about, object, quoted, refused};
use crate::output::{named_right, put};
use crate::program::{Command, Failure, Switch, Words, FORCE, JSON, OUTPUT};
use crate::source::open;
use crate::streams::{name, read, write};
use crate::tree::{parse, print};

const HELP: &str = "\
calzundi verify NET TREE: says whether a tree of another router passes for a net

NET is text or a net file. TREE has one edge a line, the four numbers of its two
places, either one first; a cost may stand behind them, and a first line that
begins with `pins` is passed over: so what `route`, `slide`, `best` and
`shorten` print is a tree too. Blank lines are allowed, and # makes the rest of
its line a comment. One of the two may be -, standard input.

    --split      takes the tree as metal lies: cuts an edge where another one
                 ends on it or crosses it and at pins; metal upon metal is
                 taken once, and an edge without length left out
    --bound      and a cost that no tree undercuts, with how much this tree is
                 over it: `bound B over P%`, and a line in words; for the
                 largest nets it takes half a second
    -o FILE      writes the edges of the tree as it was judged
    --force      also over a net
    --json       the answer as a JSON object

    calzundi verify net.txt tree.txt
    calzundi verify --split net.txt tree.txt -o parted.txt
    calzundi route net.txt | calzundi verify net.txt -

It passes when its edges are one tree that holds every pin, the ends of each are
different and clear of each other, and no point but a pin has a single edge.
Then `TREE: passes, edges E cost C metal M` is printed; costs and metal are
worked out, whatever stands in TREE. Otherwise the number of the refusal is, and
below it every edge that is to blame, with its line: 33, a coordinate out of
range or more than 1535 edges; 34, equal ends or ends that are not clear of each
other; 35, no such tree. `calzundi draw --tree` shows it.
Exit status: 0 it passes; 1 it does not, a refused net, a bad line, or a file
that cannot be read; 2 a wrong command line.
";

const SPLIT: Switch = Switch {
    name: "--split",
    value: None,
};

pub const COMMAND: Command = Command {
    name: "verify",
    help: HELP,
    options: &[SPLIT, BOUND, OUTPUT, FORCE, JSON],
    files: (2, 2),
    act: verify,
};

fn verify(words: &Words) -> Result<(), Failure> {
    let (from, tree) = (words.files.first(), words.files.get(1));
    if from == tree {
        return Err(Failure::Usage("the two files are the same one".into()));
    }
    let to = words.file(OUTPUT.name).filter(|word| *word != "-");
    if let Some(file) = to {
        named_right(Path::new(file), "tree")?;
    }
    let source = open(from)?;
    let net = source.allowed()?;
    let mut given = parse(name(tree), &read(tree)?)?;
    if words.has(SPLIT.name) {
        given = given.split(net)?;
    }
    let verdict = net.check_tree(&given.edges);
    let (said, own) = match &verdict {
        Ok(Passed { cost, metal }) => {
            let edges = given.edges.len();
            let mut said = format!("passes, edges {edges} cost {cost} metal {metal}");
            let mut own = vec![
                ("passes", "true".to_string()),
                ("edges", edges.to_string()),
                ("cost", cost.to_string()),
                ("metal", metal.to_string()),
            ];
            if let Some(bound) = asked(words, &source)? {
                let bounded = Bounded::of(net.weights, *cost, bound);
                let (numbers, in_words) = (bounded.text(), bounded.words());
                said += &format!(" {numbers}\n{}: {in_words}", given.name);
                own.extend(bounded.fields());
            }
            (said, own)
        }
        Err(refusal) => {
            let blame = given.blamed(&source, *refusal);
            (blame.lines().join("\n"), refused(&blame))
        }
    };
    if let Some(file) = to {
        put(words, Path::new(file), print(&given.edges).as_bytes())?;
    }
    let said = if words.has(JSON.name) {
        let named = vec![("tree", quoted(given.name.as_given()))];
        object(&[about("net", &source.name), named, own].concat())
    } else {
        format!("{}: {said}\n", given.name)
    };
    write(None, said.as_bytes(), &[])?;
    verdict.map(drop).map_err(|_| Failure::No)
}
