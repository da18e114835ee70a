//! `pack`: nets become net files.

use crate::output::{each, Form, Made, Product};
use crate::program::{Command, Failure, Words, FORCE, JSON, OUTPUT};
use crate::source::open;

const HELP: &str = "\
calzundi pack NET..: makes net files of nets

A NET is text, one `pin x y load` or `macro left bottom right top` a line and at
most one `weights x y`, or a net file; for - it is standard input. A load of 0
may be left out.

    -o FILE      where the net file goes; without it to standard output
    -o FOLDER/   of many nets: FOLDER/NAME.net of each
    --force      also over another net
    --json       says what was written where

    calzundi pack net.txt -o net.net
    calzundi pack *.txt -o files/
    calzundi pack net.txt | calzundi route -

A bad line is reported with its number. A net that is refused prints `refused`
and the number, and standard error says what is to blame; no file is written
then.
Exit status: 0 written; 1 a bad line, a refused net, or a file that cannot be
read or written; 2 a wrong command line.
";

pub const COMMAND: Command = Command {
    name: "pack",
    help: HELP,
    options: &[OUTPUT, FORCE, JSON],
    files: (1, usize::MAX),
    act: pack,
};

const PRODUCT: Product = Product {
    command: "pack",
    ending: "net",
    form: Form::File,
};

fn pack(words: &Words) -> Result<(), Failure> {
    each(words, &PRODUCT, |net| {
        let source = open(Some(net))?;
        let bytes = source.allowed()?.to_file();
        let bytes = bytes.map_err(|refusal| source.unfit(refusal))?;
        Ok(Made { bytes, but: None })
    })
}
