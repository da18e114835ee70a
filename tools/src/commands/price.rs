//! `price`: what a bureau charges for a net, by its list of bands.

use crate::bands::{amount, charge};
use crate::json::{about, object, quoted};
use crate::program::{Command, Failure, Words, JSON};
use crate::source::open;
use crate::streams::write;

const HELP: &str = "\
calzundi price NET BANDS: says what a bureau charges for the metal of a net

NET is text or a net file. BANDS has one band a line, `limit rate`: the most
metal that the band reaches, and its rate in hundredths of the currency per
1,000 units of metal; blank lines are allowed, and # makes the rest of its line
a comment. One of them may be -, standard input.

    --json   the charge as a JSON object

    calzundi price net.txt bands.txt

The rate is that of the first band that reaches the metal to lay. `charge`, the
charge in hundredths and the same as an amount of the currency go to standard
output, as `charge 1234 12.34`; half way between two hundredths, the even one.
Down the list limits rise strictly and rates never fall, or it is refused (37).
So more metal is never charged less by one list.

A bad line is reported with its number. A net or a list that is refused prints
`refused` and the number, and standard error has the lines that are to blame.
Exit status: 0 printed; 1 a bad line, a refused net or list, or a file that
cannot be read; 2 a wrong command line.
";

pub const COMMAND: Command = Command {
    name: "price",
    help: HELP,
    options: &[JSON],
    files: (2, 2),
    act: price,
};

fn price(words: &Words) -> Result<(), Failure> {
    let (net, list) = (&words.files[0], &words.files[1]);
    if net == list {
        return Err(Failure::Usage("the two files are the same one".into()));
    }
    let source = open(Some(net))?;
    let net = source.allowed()?;
    let list = crate::bands::open(list)?;
    let charge = charge(net, &list)?;
    let fields = || {
        let own = vec![
            ("bands", quoted(list.name.as_given())),
            ("charge", charge.to_string()),
            ("amount", quoted(&amount(charge))),
        ];
        [about("net", &source.name), own].concat()
    };
    let said = if words.has(JSON.name) {
        object(&fields())
    } else {
        format!("charge {charge} {}\n", amount(charge))
    };
    write(None, said.as_bytes(), &[])
}
