//! `check`: whether nets are allowed, and if not, all that is to blame.

use calzundi::Weights;

use crate::json::{about, object, refused, several, weights};
use crate::program::{Command, Failure, Words, JSON};
use crate::source::{open, Source};
use crate::streams::{say, write};
use crate::told::{printed, words as told};

const HELP: &str = "\
calzundi check NET..: says whether nets are allowed

A NET is text or a net file; for - it is standard input. For each one a line is
printed, `NET: allowed, pins m macros k`, with the weights where they are not
both 1, or the number of the refusal and, below it, every entry that is to
blame, with its line where the net is text. The refusals that would come next
stand below, so that all can be mended at once. Lines that are no entries are
said on standard error, up to 100 of each net.

    --json   an object for each net; of several nets an array of them

    calzundi check net.txt

Exit status: 0 all are allowed; 1 one is refused or cannot be read; 2 a wrong
command line.
";

pub const COMMAND: Command = Command {
    name: "check",
    help: HELP,
    options: &[JSON],
    files: (1, usize::MAX),
    act: check,
};

fn check(words: &Words) -> Result<(), Failure> {
    let (mut answer, mut objects) = (Ok(()), Vec::new());
    let as_json = words.has(JSON.name);
    for file in &words.files {
        let (allowed, said) = match open(Some(file)) {
            Ok(source) if as_json => (source.verdict.is_ok(), fields(&source)),
            Ok(source) => (source.verdict.is_ok(), said(&source)),
            // The nets after one that cannot be read are looked at all the same.
            Err(failure) => {
                unread(&failure);
                let object = printed(&failure).filter(|_| as_json);
                (false, object.unwrap_or_default())
            }
        };
        if as_json {
            objects.push(said)
        } else {
            write(None, said.as_bytes(), &[])?
        }
        if !allowed {
            answer = Err(Failure::No);
        }
    }
    if as_json {
        write(None, several(&objects).as_bytes(), &[])?;
    }
    answer
}

/// Says why a net could not be read: every line that is no entry.
fn unread(failure: &Failure) {
    match failure {
        Failure::Lines(name, bad) => {
            say(&format!(
                "calzundi check: {name}: {}",
                bad.all().join("\n  ")
            ));
        }
        failure => told("check", failure),
    }
}

fn said(source: &Source) -> String {
    let name = &source.name;
    match &source.verdict {
        Ok(()) => {
            let (m, k) = (source.net.pins.len(), source.net.macros.len());
            let Weights { x, y } = source.net.weights;
            let weights = if source.net.weights == Weights::default() {
                String::new()
            } else {
                format!(" weights {x} {y}")
            };
            format!("{name}: allowed, pins {m} macros {k}{weights}\n")
        }
        Err(refused) => format!("{name}: {}\n", refused.blame.lines().join("\n")),
    }
}

fn fields(source: &Source) -> String {
    let own = match &source.verdict {
        Ok(()) => vec![
            ("allowed", "true".to_string()),
            ("pins", source.net.pins.len().to_string()),
            ("macros", source.net.macros.len().to_string()),
            ("weights", weights(source.net.weights)),
        ],
        Err(verdict) => refused(&verdict.blame),
    };
    object(&[about("net", &source.name), own].concat())
}
