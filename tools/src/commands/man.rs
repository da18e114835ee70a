//! `man`: a command's page.

use crate::commands;
use crate::line::quoted;
use crate::manual::{page, program};
use crate::program::{Command, Failure, Words};
use crate::streams::write;

const HELP: &str = "\
calzundi man [COMMAND]: prints the man page of calzundi or of a command

The page is what `man` shows, made of the same text as --help.

    calzundi man route | man -l -
    calzundi man batch >calzundi-batch.1

Exit status: 0 printed; 1 it could not be written; 2 a wrong command line.
";

pub const COMMAND: Command = Command {
    name: "man",
    help: HELP,
    options: &[],
    files: (0, 1),
    act: man,
};

fn man(words: &Words) -> Result<(), Failure> {
    let text = match words.files.first() {
        None => program(),
        Some(word) => {
            let known = commands::ALL.iter().find(|command| *word == *command.name);
            let none = || format!("there is no command {}", quoted(&word.to_string_lossy()));
            page(known.ok_or_else(|| Failure::Usage(none()))?)
        }
    };
    write(None, text.as_bytes(), &[])
}
