//! The program: its commands, its command line, and how it ends.

use std::ffi::{OsStr, OsString};
use std::fmt::Display;
use std::os::unix::ffi::{OsStrExt, OsStringExt};
use std::process::ExitCode;
use std::thread;

use crate::blame::Blame;
use crate::commands;
use crate::line::{quoted, BadLines};
use crate::name::Name;
use crate::near::nearest;
use crate::streams::{say, write};
use crate::told::{status, tell};

/// Why a command did not do what it was asked for.
#[derive(Debug)]
pub enum Failure {
    /// The command line is wrong: exit status 2.
    Usage(String),
    /// Something that was read or written is: exit status 1, as for all that follow.
    Input(String),
    /// The same, of what has a name.
    Wrong { name: Name, what: String },
    /// Lines of a text are no entries.
    Lines(Name, BadLines),
    /// A net, a list or a tree is refused; only a few reasons are said where something else was asked for.
    Refused {
        name: Name,
        blame: Box<Blame>,
        few: bool,
    },
    /// The answer is no, and has been said.
    No,
    /// Nobody reads what is printed any more, and nothing is said.
    Gone,
}

impl Failure {
    /// Something is wrong with what has a name.
    pub fn wrong(name: impl Into<Name>, what: impl Display) -> Failure {
        let (name, what) = (name.into(), what.to_string());
        Failure::Wrong { name, what }
    }

    /// Something with a name is refused, for all these reasons.
    pub fn refused(name: impl Into<Name>, blame: Blame) -> Failure {
        Failure::Refused {
            name: name.into(),
            blame: Box::new(blame),
            few: false,
        }
    }
}

/// A command: what it is called, its help, the options that it takes and what it does. The help begins with `calzundi NAME WORDS: `.
pub struct Command {
    pub name: &'static str,
    pub help: &'static str,
    pub options: &'static [Switch],
    /// How many files it takes, at the least and at the most.
    pub files: (usize, usize),
    pub act: fn(&Words) -> Result<(), Failure>,
}

/// An option, with the name of its value where it has one.
pub struct Switch {
    pub name: &'static str,
    pub value: Option<&'static str>,
}

/// What the value of an option is called that is a file to read.
pub const A_FILE: &str = "a file";

/// Where what is made goes; `-o` is short for it.
pub const OUTPUT: Switch = Switch {
    name: "--output",
    value: Some("a file, or a folder/"),
};

/// A net may be written over.
pub const FORCE: Switch = Switch {
    name: "--force",
    value: None,
};

/// The answer as JSON.
pub const JSON: Switch = Switch {
    name: "--json",
    value: None,
};

/// A command line, sorted.
#[derive(Debug, Default)]
pub struct Words {
    pub files: Vec<OsString>,
    options: Vec<Given>,
}

/// An option that is given, its value as it was and as text, and whether that is a file to read.
#[derive(Debug)]
struct Given {
    name: &'static str,
    value: OsString,
    text: String,
    reads: bool,
}

impl Words {
    /// Whether an option is there.
    pub fn has(&self, name: &str) -> bool {
        self.given(name).is_some()
    }

    /// The value of an option; the last one counts.
    pub fn value(&self, name: &str) -> Option<&str> {
        self.given(name).map(|given| given.text.as_str())
    }

    /// The same as the name of a file, byte for byte.
    pub fn file(&self, name: &str) -> Option<&OsString> {
        self.given(name).map(|given| &given.value)
    }

    /// Every file that is read, those that options name included.
    pub fn inputs(&self) -> impl Iterator<Item = &OsString> {
        let read = self.options.iter().filter(|given| given.reads);
        self.files.iter().chain(read.map(|given| &given.value))
    }

    fn given(&self, name: &str) -> Option<&Given> {
        let mut options = self.options.iter().rev();
        options.find(|given| given.name == name)
    }
}

/// A word that looks like an option, parted at its first `=`.
fn parted(word: &OsStr) -> (String, Option<OsString>) {
    let bytes = word.as_bytes();
    let (name, value) = match bytes.iter().position(|&byte| byte == b'=') {
        Some(at) => (
            &bytes[..at],
            Some(OsString::from_vec(bytes[at + 1..].to_vec())),
        ),
        None => (bytes, None),
    };
    (String::from_utf8_lossy(name).into_owned(), value)
}

impl Command {
    /// Sorts the words of a command line. `--` ends the options, and a number below zero is none.
    fn words(&self, given: &[OsString]) -> Result<Words, Failure> {
        let mut words = Words::default();
        let mut given = given.iter();
        let mut plain = false;
        while let Some(word) = given.next() {
            if plain || !is_option(&word.to_string_lossy()) {
                words.files.push(word.clone());
                continue;
            }
            if word == "--" {
                plain = true;
                continue;
            }
            let (name, attached) = parted(word);
            let option = self.option(&name)?;
            let value = match (option.value, attached) {
                (None, None) => OsString::new(),
                (None, Some(_)) => return Err(Failure::Usage(format!("{name} takes no value"))),
                (Some(_), Some(value)) => value,
                (Some(wanted), None) => {
                    let next = given.next().cloned();
                    next.ok_or_else(|| Failure::Usage(format!("{name} needs {wanted}")))?
                }
            };
            words.options.push(Given {
                name: option.name,
                text: value.to_string_lossy().into_owned(),
                reads: option.value == Some(A_FILE),
                value,
            });
        }
        self.counted(&words)?;
        if words.inputs().filter(|word| *word == "-").count() > 1 {
            let twice = "standard input can be read only once";
            return Err(Failure::Usage(twice.into()));
        }
        Ok(words)
    }

    fn option(&self, name: &str) -> Result<&'static Switch, Failure> {
        let long = if name == "-o" { OUTPUT.name } else { name };
        let found = self.options.iter();
        let mut found = found.filter(|option| [name, long].contains(&option.name));
        found.next().ok_or_else(|| {
            let names = self.options.iter().map(|option| option.name);
            Failure::Usage(format!(
                "there is no option {}{}",
                quoted(name),
                nearest(name, names)
            ))
        })
    }

    /// As many words as are wanted; the first that is missing is named as the help does.
    fn counted(&self, words: &Words) -> Result<(), Failure> {
        let count = words.files.len();
        if count < self.files.0 {
            let missing = self.wanted().nth(count).unwrap_or("a file");
            return Err(Failure::Usage(format!("{missing} is missing")));
        }
        if count > self.files.1 {
            return Err(Failure::Usage("too many words".into()));
        }
        Ok(())
    }

    /// The words that the first line of the help asks for: `NET`, `DRIVER`.
    fn wanted(&self) -> impl Iterator<Item = &'static str> {
        let usage = self.help.split(':').next().unwrap_or("");
        let words = usage.split(' ').skip(2);
        let words = words.filter(|word| word.starts_with(|first: char| first.is_ascii_uppercase()));
        words.map(|word| word.trim_end_matches('.'))
    }

    /// Runs a command; its exit status.
    fn run(&self, given: &[OsString]) -> u8 {
        let (json, done) = if asks(given, &["--help", "-h"]) {
            (false, write(None, self.help.as_bytes(), &[]))
        } else if asks(given, &["--version", "-V"]) {
            (false, version())
        } else {
            match self.words(given) {
                Ok(words) => (words.has(JSON.name), (self.act)(&words)),
                Err(failure) => (false, Err(failure)),
            }
        };
        match done {
            Ok(()) => 0,
            Err(failure) => tell(self.name, json, &failure),
        }
    }
}

/// Whether a word is an option: it begins with `-`, but is neither that alone nor a number below zero.
fn is_option(word: &str) -> bool {
    let rest = word.strip_prefix('-');
    rest.is_some_and(|rest| !rest.is_empty() && !rest.starts_with(|c: char| c.is_ascii_digit()))
}

/// Whether one of some words stands in a command line, before `--`.
fn asks(given: &[OsString], wanted: &[&str]) -> bool {
    let options = given.iter().take_while(|word| *word != "--");
    options
        .into_iter()
        .any(|word| wanted.iter().any(|wanted| word == wanted))
}

pub const HELP: &str = "\
calzundi COMMAND ..: a tree router with a proof behind every tree

    check NET..            allowed, or why not, with the lines to blame
    route NET..            totals and edges of the trees; --wires, and --bound:
                           how far from the least, as in slide, best, verify
    slide NET..            the slid tree: level and upright edges, bars moved
    best NET..             a best tree of up to 5 pins and 16 macros
    shorten NET..          a tree as short as can be found, and checked
    verify NET TREE        whether a tree of another router passes; --split
    draw NET..             a picture, or with --html a page; --slid, --best,
                           --shortened, --tree, --delay
    compare A B..          whether nets get the same metal; --shift
    batch NET..            a line for each of many nets; --csv, --jsonl, --shard
    price NET BANDS        what a bureau charges for the metal
    distances NET          what metal between every two pins costs at least
    delay NET DRIVER R C   the Elmore delay from a driver to each pin
    pack NET..             net files of nets
    unpack NET..           nets as text
    export NET..           layouts with macros, wires and pins: --gds, --def
    import LAYOUT..        nets, and with --tree trees, out of GDSII and DEF
    man [COMMAND]          the man page of calzundi or of a command
    completion SHELL       what bash, zsh or fish complete

`calzundi COMMAND --help` and `calzundi help COMMAND` say more. Every command
but man and completion takes --json. What is made goes to standard output, or to
-o FILE; of many nets to -o FOLDER/. No file that is read is written over, none
that is write-protected, and no other net without --force. What is written to a
file is whole or not there.

A NET is text, one `pin x y load` or `macro left bottom right top` a line, or a
net file; for - it is standard input. A load, 0 to 1000000, may be left out
where it is 0; no tree depends on it. A line `weights x y`, 1 to 8 each, says
what a unit of metal costs along each axis; without it both are 1. Blank lines
are allowed, and # makes the rest of its line a comment.

    printf 'pin 0 0\\npin 4 0\\npin 2 3\\n' | calzundi route -

A refusal prints `refused` and its number; standard error says what is to blame.
Exit status: 0 done; 1 refused, different, or something that is read or written
is wrong; 2 a wrong command line.
";

/// Runs the program. It has a thread of its own, since a call of the library wants its stack whatever the shell's limit.
pub fn run() -> ExitCode {
    let thread = thread::Builder::new()
        .stack_size(STACK)
        .spawn(|| command(&std::env::args_os().skip(1).collect::<Vec<OsString>>()));
    match thread.map(|thread| thread.join()) {
        Ok(Ok(status)) => ExitCode::from(status),
        _ => ExitCode::from(1),
    }
}

/// What the library asks for, and what is around it.
pub const STACK: usize = calzundi::STACK_BYTES + (1 << 20);

/// The version is the header's, by the crate.
fn version() -> Result<(), Failure> {
    let line = format!("calzundi {}\n", calzundi::VERSION);
    write(None, line.as_bytes(), &[])
}

/// The exit status of a command line.
fn command(given: &[OsString]) -> u8 {
    let Some((first, rest)) = given.split_first() else {
        say("calzundi: a command is missing; `calzundi --help` lists them");
        return 2;
    };
    let done = match (first.to_str(), rest.first()) {
        (Some("help"), Some(asked)) => match found(asked) {
            Ok(command) => write(None, command.help.as_bytes(), &[]),
            Err(failure) => Err(failure),
        },
        (Some("--help" | "-h" | "help"), _) => write(None, HELP.as_bytes(), &[]),
        (Some("--version" | "-V"), _) => version(),
        _ => match found(first) {
            Ok(command) => return command.run(rest),
            Err(failure) => Err(failure),
        },
    };
    match done {
        Ok(()) => 0,
        Err(failure) => {
            tell("", false, &failure);
            status(&failure)
        }
    }
}

/// The command of a name.
fn found(word: &OsStr) -> Result<&'static Command, Failure> {
    let mut all = commands::ALL.iter();
    all.find(|command| word == command.name).ok_or_else(|| {
        let word = word.to_string_lossy();
        let names = commands::ALL.iter().map(|command| command.name);
        Failure::Usage(format!(
            "there is no command {}{}",
            quoted(&word),
            nearest(&word, names)
        ))
    })
}
