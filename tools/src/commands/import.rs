//! `import`: nets and trees out of layouts.

use std::ffi::OsString;

use calzundi::{Edge, Place};

use super::export::{def_layers, flag, gds_layers, with, MACRO_LAYER, PIN_LAYER, WIRE_LAYER};
use crate::blame::blamed;
use crate::formats::found::{Found, MOST_LAYOUT};
use crate::formats::{def, gds};
use crate::line::plain;
use crate::name::Name;
use crate::output::{each, Form, Made, Product};
use crate::program::{Command, Failure, Words, FORCE, JSON, OUTPUT};
use crate::routed::pair;
use crate::source::{Refused, Source};
use crate::split::split;
use crate::streams::{name, read_most, say};
use crate::text::print;

const HELP: &str = "\
calzundi import LAYOUT..: reads nets, or trees, out of GDSII and DEF

LAYOUT is GDSII stream 6 or DEF 5.8, told apart by its first bytes; for - it
is standard input. Written is the net as text: of GDSII boxes are macros and
texts pins, of DEF blockages on layers are macros and placed pins pins.
Coordinates are the file's own database units.

    --tree           the tree instead, a line for each piece of its wires, as
                     `calzundi verify` takes it: of GDSII from paths, of DEF
                     from routed wires
    --split          cuts the tree where a wire ends on another or crosses it
                     and at pins; metal upon metal is taken once, and a wire
                     without length left out
    --macro-layer L  the layer of macros: 1/0 for GDSII, any for DEF
    --wire-layer L   the layer of wires: 2/0 for GDSII, any for DEF
    --pin-layer L    the layer of pins: 3/0 for GDSII, any for DEF
    --cell NAME      the cell of GDSII, where there are several
    --net NAME       the net of DEF, where there are several
    -o FILE          writes to a file
    -o FOLDER/       writes FOLDER/LAYOUT.txt for each layout
    --force          also over another net
    --json           says what was written where

    calzundi import theirs.def -o net.txt
    calzundi import --tree --split theirs.def -o tree.txt
    calzundi verify net.txt tree.txt

What is passed over is said on standard error. A file that is wrong is told
by its line (DEF) or offset (GDSII), a net that is refused by its number.
Exit status: 0 written; 1 a refused net, or something that cannot be read or
written; 2 a wrong command line.
";

pub const COMMAND: Command = Command {
    name: "import",
    help: HELP,
    options: &[
        flag("--tree"),
        flag("--split"),
        MACRO_LAYER,
        WIRE_LAYER,
        PIN_LAYER,
        with("--cell", "the name of a cell"),
        with("--net", "the name of a net"),
        OUTPUT,
        FORCE,
        JSON,
    ],
    files: (1, usize::MAX),
    act: import,
};

fn import(words: &Words) -> Result<(), Failure> {
    if words.has("--split") && !words.has("--tree") {
        return Err(Failure::Usage(
            "--split is of a tree: --tree --split".into(),
        ));
    }
    each(words, &TEXT, |file| Ok(Made::from(taken(file, words)?)))
}

const TEXT: Product = Product {
    command: "import",
    ending: "txt",
    form: Form::File,
};

/// The text of a layout's net or tree.
fn taken(file: &OsString, words: &Words) -> Result<String, Failure> {
    let said = name(Some(file));
    let found = found(file, words)?;
    for note in &found.notes {
        say(&format!("calzundi import: {said}: {note}"));
    }
    on_layers(&said, &found, words)?;
    if words.has("--tree") {
        tree(&said, &found, words.has("--split"))
    } else {
        net(&said, found)
    }
}

fn found(file: &OsString, words: &Words) -> Result<Found, Failure> {
    let said = name(Some(file));
    let bytes = read_most(Some(file), MOST_LAYOUT)?;
    if gds::is_gds(&bytes) {
        if words.has("--net") {
            let other = "--net is of DEF; of GDSII --cell names what is taken";
            return Err(Failure::Usage(format!("{said} is GDSII, and {other}")));
        }
        let asked = gds::Asked {
            layers: gds_layers(words)?,
            cell: words.value("--cell").map(str::to_string),
        };
        return gds::read(&bytes, &asked).map_err(|bad| Failure::wrong(&said, bad));
    }
    if bytes.contains(&0) || bytes.is_empty() {
        return Err(Failure::wrong(&said, "it is neither GDSII nor DEF"));
    }
    if words.has("--cell") {
        let other = "--cell is of GDSII; of DEF --net names what is taken";
        return Err(Failure::Usage(format!("{said} is no GDSII, and {other}")));
    }
    let asked = def::Asked {
        layers: def_layers(words)?,
        net: words.value("--net").map(str::to_string),
    };
    def::read(&bytes, &asked).map_err(|bad| Failure::wrong(&said, bad))
}

/// A layer that the command line names has something on it, if what is written depends on it: a wrong name would leave out all of a kind.
fn on_layers(said: &Name, found: &Found, words: &Words) -> Result<(), Failure> {
    let is_tree = words.has("--tree");
    let net = &found.net;
    for (option, kind, is_asked, is_empty) in [
        (MACRO_LAYER.name, "macro", !is_tree, net.macros.is_empty()),
        (
            PIN_LAYER.name,
            "pin",
            !is_tree || words.has("--split"),
            net.pins.is_empty(),
        ),
        (WIRE_LAYER.name, "wire", is_tree, found.edges.is_empty()),
    ] {
        if let Some(layer) = words.value(option).filter(|_| is_asked && is_empty) {
            let (layer, title) = (plain(layer), plain(&found.title));
            let mut wrong = format!("{title}: no {kind} is on {layer}, which {option} names");
            if !found.layers.is_empty() {
                wrong += &format!("; there are {}", found.layers.join(", "));
            }
            return Err(Failure::wrong(said, wrong));
        }
    }
    Ok(())
}

/// The net as text, below a comment that says whose it is, where the router allows it.
fn net(said: &Name, found: Found) -> Result<String, Failure> {
    if found.missing > 0 {
        let missing = format!(
            "{}: {} of its pins have no place in the file; those of components are in a LEF, which is not read",
            found.title, found.missing
        );
        return Err(Failure::wrong(said, missing));
    }
    let (net, lines) = (found.net, found.lines);
    let verdict = net.check().map_err(|refusal| Refused {
        refusal,
        blame: blamed(&net, lines.as_ref(), refusal),
    });
    let source = Source {
        name: said.into(),
        net,
        lines,
        verdict,
    };
    let text = print(source.allowed()?);
    Ok(format!("# {}\n{text}", plain(&found.title)))
}

/// The tree as text, an edge a line.
fn tree(said: &Name, found: &Found, is_split: bool) -> Result<String, Failure> {
    let pins: Vec<Place> = found.net.pins.iter().map(|pin| pin.place).collect();
    // A tree without an edge is that of a single place.
    let is_one = found.missing == 0
        && pins
            .first()
            .is_some_and(|one| pins.iter().all(|pin| pin == one));
    if found.edges.is_empty() && !is_one {
        let none = format!(
            "{}: there is no wire in it, and so no tree",
            plain(&found.title)
        );
        return Err(Failure::wrong(said, none));
    }
    let edges = if is_split {
        let pieces = split(&found.edges, &pins).map_err(|wrong| Failure::wrong(said, wrong))?;
        pieces.into_iter().map(|piece| piece.edge).collect()
    } else {
        found.edges.clone()
    };
    let line = |edge: &Edge| format!("{} {}\n", pair(edge.first), pair(edge.second));
    let lines: String = edges.iter().map(line).collect();
    Ok(format!("# {}\n{lines}", plain(&found.title)))
}
