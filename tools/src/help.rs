//! What a command's help says, taken apart: the same text gives the help, the man pages and the completion of shells.

use crate::commands;
use crate::program::Command;

/// The parts of a help text: `calzundi NAME WORDS: what it does`, paragraphs, options and examples.
#[derive(Clone, Debug, PartialEq, Eq)]
pub struct Help {
    /// `calzundi NAME WORDS`.
    pub usage: String,
    /// What it does, in a line.
    pub about: String,
    /// What follows, as it stands: paragraphs, and blocks of lines that are set in.
    pub blocks: Vec<Block>,
}

/// Lines between blank ones.
#[derive(Clone, Debug, PartialEq, Eq)]
pub enum Block {
    Paragraph(Vec<String>),
    Options(Vec<Described>),
    Lines(Vec<String>),
}

/// An option with what is said of it.
#[derive(Clone, Debug, PartialEq, Eq)]
pub struct Described {
    /// `--list FILE`.
    pub words: String,
    pub about: String,
}

/// How far lines are set in that are no paragraph.
const INDENT: &str = "    ";

/// The parts of a text.
pub fn help(text: &str) -> Help {
    let mut lines = text.lines();
    let (mut head, mut rest) = (String::new(), Vec::new());
    // The first line may go on over the next ones, up to the first blank one.
    for line in lines.by_ref().take_while(|line| !line.is_empty()) {
        head += if head.is_empty() { "" } else { " " };
        head += line.trim();
    }
    let mut block = Vec::new();
    for line in lines.chain([""]) {
        if !line.is_empty() {
            block.push(line.to_string());
        } else if !block.is_empty() {
            rest.extend(parted(std::mem::take(&mut block)));
        }
    }
    let (usage, about) = head.split_once(": ").unwrap_or((&head, ""));
    Help {
        usage: usage.into(),
        about: about.into(),
        blocks: rest,
    }
}

/// A block, or two where what is set in and what is not stand upon each other.
fn parted(lines: Vec<String>) -> Vec<Block> {
    let is_in = |line: &String| line.starts_with(INDENT);
    let first = lines.first().is_some_and(is_in);
    let end = lines.iter().position(|line| is_in(line) != first);
    let rest = lines[end.unwrap_or(lines.len())..].to_vec();
    let lines = lines[..end.unwrap_or(lines.len())].to_vec();
    let block = match first {
        false => Block::Paragraph(lines),
        true if lines[0].trim_start().starts_with('-') => Block::Options(options(&lines)),
        true => Block::Lines(
            lines
                .iter()
                .map(|line| line[INDENT.len()..].into())
                .collect(),
        ),
    };
    if rest.is_empty() {
        vec![block]
    } else {
        [vec![block], parted(rest)].concat()
    }
}

/// Options, each `--name VALUE` and, two blanks further, what it does, which may go on over the next lines.
fn options(lines: &[String]) -> Vec<Described> {
    let mut found: Vec<Described> = Vec::new();
    for line in lines {
        let said = line.trim();
        let set_in = line.len() - line.trim_start().len();
        match found.last_mut() {
            Some(last) if set_in > INDENT.len() || !said.starts_with('-') => {
                last.about += if last.about.is_empty() { "" } else { " " };
                last.about += said;
            }
            _ => {
                let (words, about) = said.split_once("  ").unwrap_or((said, ""));
                found.push(Described {
                    words: words.into(),
                    about: about.trim().into(),
                });
            }
        }
    }
    found
}

impl Help {
    /// What is said of an option, up to its first full stop, colon or semicolon; the first time that it is said.
    pub fn about_option(&self, name: &str) -> String {
        let all = self.blocks.iter().filter_map(|block| match block {
            Block::Options(options) => Some(options),
            _ => None,
        });
        // `--output` is described by its letter.
        let letter = if name == "--output" { "-o" } else { name };
        let is_it = |option: &&Described| {
            let mut words = option.words.split([' ', ',', '=']);
            words.any(|word| word == name || word == letter)
        };
        let found = all.flatten().find(is_it);
        let about = found.map_or("", |option| &option.about);
        about.split([';', ':', '.']).next().unwrap_or("").into()
    }
}

/// The commands with their helps.
pub fn all() -> impl Iterator<Item = (&'static Command, Help)> {
    commands::ALL
        .iter()
        .map(|command| (command, help(command.help)))
}
