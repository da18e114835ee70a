//! `completion`: what a shell completes.

use crate::completion::{bash, fish, zsh};
use crate::line::quoted;
use crate::program::{Command, Failure, Words};
use crate::streams::write;

const HELP: &str = "\
calzundi completion SHELL: prints what completes words of calzundi in a shell

SHELL is bash, zsh or fish. Commands, options and files are completed.

    source <(calzundi completion bash)
    calzundi completion zsh >~/.zfunc/_calzundi
    calzundi completion fish >~/.config/fish/completions/calzundi.fish

Exit status: 0 printed; 1 it could not be written; 2 a wrong command line.
";

pub const COMMAND: Command = Command {
    name: "completion",
    help: HELP,
    options: &[],
    files: (1, 1),
    act: completion,
};

fn completion(words: &Words) -> Result<(), Failure> {
    let shell = words.files[0].to_string_lossy();
    let text = match shell.as_ref() {
        "bash" => bash(),
        "zsh" => zsh(),
        "fish" => fish(),
        other => {
            let other = quoted(other);
            return Err(Failure::Usage(format!(
                "{other} is neither bash, zsh nor fish"
            )));
        }
    };
    write(None, text.as_bytes(), &[])
}
