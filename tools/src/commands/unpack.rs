//! `unpack`: nets become text.

use crate::json;
use crate::output::{each, Form, Made, Product};
use crate::program::{Command, Failure, Switch, Words, FORCE, JSON, OUTPUT};
use crate::source::{open, Source};
use crate::text::print;

const HELP: &str = "\
calzundi unpack NET..: writes nets as text

A NET is a net file or text; for - it is standard input. The text has one entry
a line, `pin x y load` or `macro left bottom right top`, in the order of the
net, without the load where it is 0, and a line `weights x y` where they are not
both 1.

    -o FILE      where the text goes; without it to standard output
    -o FOLDER/   of many nets: FOLDER/NAME.txt of each
    --force      also over another net
    --refused    a refused net too, as far as it can be read; comments at the
                 front say why it is refused
    --json       the entries as one JSON object

    calzundi unpack net.net -o net.txt
    calzundi unpack --refused net.net -o mended.txt

A net that is refused prints `refused` and the number, and standard error says
what is to blame; no file is written then.
Exit status: 0 written; 1 a refused net, or a file that cannot be read or
written; 2 a wrong command line.
";

const REFUSED: Switch = Switch {
    name: "--refused",
    value: None,
};

pub const COMMAND: Command = Command {
    name: "unpack",
    help: HELP,
    options: &[OUTPUT, FORCE, REFUSED, JSON],
    files: (1, usize::MAX),
    act: unpack,
};

fn unpack(words: &Words) -> Result<(), Failure> {
    let as_json = words.has(JSON.name);
    if as_json && words.has(REFUSED.name) {
        let both = "--json has no comments; take one of --json and --refused";
        return Err(Failure::Usage(both.into()));
    }
    let product = Product {
        command: "unpack",
        ending: if as_json { "json" } else { "txt" },
        // One text after the other would be another net.
        form: if as_json { Form::Json } else { Form::File },
    };
    each(words, &product, |net| {
        let source = open(Some(net))?;
        if words.has(REFUSED.name) {
            return Ok(Made::from(comments(&source) + &print(&source.net)));
        }
        let net = source.allowed()?;
        let fields = || [&json::about("net", &source.name)[..], &json::net(net)].concat();
        Ok(Made::from(if as_json {
            json::object(&fields())
        } else {
            print(net)
        }))
    })
}

/// Why a net is refused, as comments.
fn comments(source: &Source) -> String {
    let refused = source.verdict.as_ref().err();
    let lines = refused.map_or(Vec::new(), |refused| refused.blame.lines());
    lines.iter().map(|line| format!("# {line}\n")).collect()
}
