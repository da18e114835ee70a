//! `export`: nets and their wires for people with layout programs.

use std::ffi::OsString;

use calzundi::{Net, Wire};

use crate::formats::drawing::{cell_name, wires, Drawing};
use crate::formats::{def, gds};
use crate::line::quoted;
use crate::output::{each, Form, Made, Product};
use crate::program::{Command, Failure, Switch, Words, FORCE, JSON, OUTPUT};
use crate::shorten::effort::{effort_if_shortened, Effort, EFFORT, SHORTENED};
use crate::shorten::shortened::{shortened, Stopped};
use crate::shorten::unsound::failure;
use crate::source::{open, Source};

const HELP: &str = "\
calzundi export --gds|--def NET..: writes nets and their wires as layouts

NET is text or a net file; for - it is standard input. A layout has the
macros, the wires of the refined tree and the pins with labels p1, p2, ..
Without -o the layout of a single net goes to standard output.

    --gds            GDSII stream 6: macros are boundaries, wires paths, pins
                     texts
    --def            DEF 5.8: macros are blockages, wires routed, pins placed
    --slid           the wires of the slid tree
    --best           the wires of a best tree, of up to 5 pins and 16 macros
    --shortened      the wires of the tree that `calzundi shorten` finds
    --effort N       how much is tried for it, 1 to 9
    --unrouted       no wires: the net alone
    --macro-layer L  the layer of macros: 1/0 for GDSII, M1 for DEF
    --wire-layer L   the layer of wires: 2/0 for GDSII, M1 for DEF
    --pin-layer L    the layer of pins: 3/0 for GDSII, M1 for DEF
    --width N        how wide a wire is, an even number of units; 0, a line,
                     where it is not said. In DEF it is the size of pins
    --per-micron N   how many units of the net a micron has; 1000
    -o FILE          writes to a file
    -o FOLDER/       writes FOLDER/NET.gds or FOLDER/NET.def for each net
    --force          also over another net
    --json           says what was written where

    calzundi export --gds net.txt -o net.gds
    calzundi export --def --slid nets/*.net -o layouts/
    calzundi import net.gds

Loads and weights are kept as properties; docs/FORMATS.md says how. A net
that is refused prints `refused` and its number, and the others are written.
Exit status: 0 written; 1 a refused net, or something that cannot be read or
written; 2 a wrong command line.
";

pub const COMMAND: Command = Command {
    name: "export",
    help: HELP,
    options: &[
        flag("--gds"),
        flag("--def"),
        flag("--slid"),
        flag("--best"),
        SHORTENED,
        EFFORT,
        flag("--unrouted"),
        MACRO_LAYER,
        WIRE_LAYER,
        PIN_LAYER,
        with("--width", "a number"),
        with("--per-micron", "a number"),
        OUTPUT,
        FORCE,
        JSON,
    ],
    files: (1, usize::MAX),
    act: export,
};

/// The layers of a layout, of which `import` takes the same.
pub const MACRO_LAYER: Switch = with("--macro-layer", "a layer");
pub const WIRE_LAYER: Switch = with("--wire-layer", "a layer");
pub const PIN_LAYER: Switch = with("--pin-layer", "a layer");

/// An option without a value, and one with it.
pub const fn flag(name: &'static str) -> Switch {
    Switch { name, value: None }
}

pub const fn with(name: &'static str, value: &'static str) -> Switch {
    Switch {
        name,
        value: Some(value),
    }
}

/// Which tree's wires are written.
#[derive(Clone, Copy, Debug, PartialEq, Eq)]
enum Tree {
    Refined,
    Slid,
    Best,
    Shortened(Effort),
    None,
}

/// The format with its layers.
enum Format {
    Gds(gds::Layers),
    Def(def::Layers),
}

struct Asked {
    format: Format,
    tree: Tree,
    width: i32,
    per_micron: i32,
}

fn export(words: &Words) -> Result<(), Failure> {
    let asked = Asked::of(words)?;
    let product = match asked.format {
        Format::Gds(_) => GDS,
        Format::Def(_) => DEF,
    };
    each(words, &product, |net| {
        let bytes = asked.layout(net)?;
        Ok(Made { bytes, but: None })
    })
}

const GDS: Product = Product {
    command: "export",
    ending: "gds",
    form: Form::File,
};

const DEF: Product = Product {
    command: "export",
    ending: "def",
    form: Form::File,
};

impl Asked {
    fn of(words: &Words) -> Result<Asked, Failure> {
        let format = match (words.has("--gds"), words.has("--def")) {
            (true, false) => Format::Gds(gds_layers(words)?),
            (false, true) => Format::Def(def_layers(words)?),
            _ => return Err(Failure::Usage("take one of --gds and --def".into())),
        };
        let asked = Asked {
            tree: tree(words)?,
            width: number(words, "--width", 0, (0, 2_000_000))?,
            per_micron: number(words, "--per-micron", 1000, (1, 1_000_000))?,
            format,
        };
        if asked.width % 2 != 0 {
            let odd = "--width is an even number, so that both sides are whole";
            return Err(Failure::Usage(odd.into()));
        }
        if matches!(asked.format, Format::Def(_)) && !def::PER_MICRON.contains(&asked.per_micron) {
            let few = def::PER_MICRON.map(|number| number.to_string()).join(", ");
            return Err(Failure::Usage(format!(
                "DEF has {few} units a micron, and no other number"
            )));
        }
        Ok(asked)
    }

    /// The bytes of a net's layout.
    fn layout(&self, file: &OsString) -> Result<Vec<u8>, Failure> {
        let source = open(Some(file))?;
        let drawing = Drawing {
            name: cell_name(file),
            net: source.allowed()?,
            wires: self.wires(&source)?,
            width: self.width,
            per_micron: self.per_micron,
        };
        Ok(match &self.format {
            Format::Gds(layers) => gds::write(&drawing, layers),
            Format::Def(layers) => def::write(&drawing, layers).into_bytes(),
        })
    }

    fn wires(&self, source: &Source) -> Result<Vec<Wire>, Failure> {
        let laid = laid(source.allowed()?, self.tree);
        laid.map_err(|stopped| failure(source, stopped))
    }
}

fn laid(net: &Net, tree: Tree) -> Result<Vec<Wire>, Stopped> {
    Ok(match tree {
        Tree::Refined => net.wires()?,
        Tree::Slid => wires(&net.slid_tree()?.edges),
        Tree::Best => wires(&net.best_tree()?.edges),
        Tree::Shortened(effort) => shortened(net, effort, 0)?.wires(),
        Tree::None => Vec::new(),
    })
}

fn tree(words: &Words) -> Result<Tree, Failure> {
    let all = [
        ("--slid", Tree::Slid),
        ("--best", Tree::Best),
        ("--unrouted", Tree::None),
    ];
    let shortened = effort_if_shortened(words)?.map(Tree::Shortened);
    let chosen: Vec<Tree> = all
        .iter()
        .filter(|(option, _)| words.has(option))
        .map(|(_, tree)| *tree)
        .chain(shortened)
        .collect();
    match chosen[..] {
        [] => Ok(Tree::Refined),
        [tree] => Ok(tree),
        _ => Err(Failure::Usage(
            "take one of --slid, --best, --shortened and --unrouted".into(),
        )),
    }
}

fn number(
    words: &Words,
    option: &str,
    usual: i32,
    (least, most): (i32, i32),
) -> Result<i32, Failure> {
    let Some(word) = words.value(option) else {
        return Ok(usual);
    };
    let number = word
        .parse()
        .ok()
        .filter(|number| (least..=most).contains(number));
    number.ok_or_else(|| {
        let word = quoted(word);
        Failure::Usage(format!(
            "{option} is a whole number from {least} to {most}, not {word}"
        ))
    })
}

/// The layers of GDSII that the command line names.
pub fn gds_layers(words: &Words) -> Result<gds::Layers, Failure> {
    let layer = |option: &str, usual: gds::Layer| match words.value(option) {
        Some(word) => gds::Layer::parse(word).map_err(Failure::Usage),
        None => Ok(usual),
    };
    let usual = gds::Layers::default();
    Ok(gds::Layers {
        macros: layer(MACRO_LAYER.name, usual.macros)?,
        wires: layer(WIRE_LAYER.name, usual.wires)?,
        pins: layer(PIN_LAYER.name, usual.pins)?,
    })
}

/// The layers of DEF that the command line names: one word each.
pub fn def_layers(words: &Words) -> Result<def::Layers, Failure> {
    let layer = |option: &str| match words.value(option) {
        Some(word)
            if word.is_empty()
                || word.contains(|c: char| c.is_whitespace() || "();+#\"".contains(c)) =>
        {
            let word = quoted(word);
            Err(Failure::Usage(format!(
                "{word} is no name of a layer in DEF"
            )))
        }
        word => Ok(word.map(str::to_string)),
    };
    Ok(def::Layers {
        macros: layer(MACRO_LAYER.name)?,
        wires: layer(WIRE_LAYER.name)?,
        pins: layer(PIN_LAYER.name)?,
    })
}
