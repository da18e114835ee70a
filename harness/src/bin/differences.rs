//! `differences OUT`: writes in what the library and the program now differ from the stored outputs of the first
//! release with the rules of \[1\] and \[11\] and the files of differences of \[3\] and \[8\].
//! harness/first-release/beside.txt was made by it when \[3\] landed, twice.txt when \[8\] did and loads.txt when
//! \[11\] did; it writes over no file.

use std::fs::{self, File};
use std::io::{self, Write};
use std::path::Path;
use std::process::ExitCode;

use harness::outputs::{records, Case};
use harness::requests::{loads, weights, Change, Differences};

const HELP: &str = "differences OUT: writes in what each record of harness/first-release/outputs.txt, with what [1], [3], [8] and
the rule of [11] changed, differs from what the library and the program answer now, to a file that is not there yet.";

const HEAD: &str =
    "# What [11], loads on pins, changes in the outputs of the first release besides its rule. \
    README.md beside this file says what stands here.\n";

/// Writes the differences of all records that have any.
fn write(out: &str) -> io::Result<()> {
    let mut file = File::create_new(out)?;
    let folder = Path::new(env!("CARGO_MANIFEST_DIR")).join("first-release");
    let of = |name: &str| -> io::Result<Differences> {
        Ok(Differences::parse(&fs::read_to_string(folder.join(name))?))
    };
    let (beside, twice) = (of("beside.txt")?, of("twice.txt")?);
    let mut text = HEAD.to_string();
    for record in records(&fs::read_to_string(folder.join("outputs.txt"))?) {
        let case = Case::parse(&record).expect("the stored records are read by a test");
        let third = beside.apply(&weights(&record)).map_err(io::Error::other)?;
        let before = loads(&twice.apply(&third).map_err(io::Error::other)?);
        let changes = Change::between(&before, &case.record());
        if !changes.is_empty() {
            let title = record.lines().next().unwrap_or_default();
            text += "\n";
            text += &Differences::text(title, &changes);
        }
    }
    file.write_all(text.as_bytes())
}

fn main() -> ExitCode {
    let words: Vec<String> = std::env::args().skip(1).collect();
    let [out] = &words[..] else {
        eprintln!("{HELP}");
        return ExitCode::from(2);
    };
    match write(out) {
        Ok(()) => ExitCode::SUCCESS,
        Err(error) => {
            eprintln!("{out}: {error}");
            ExitCode::from(1)
        }
    }
}
