//! Man pages, made of the helps.

use crate::help::{all, help, Block, Help};
use crate::program::{Command, HELP};

/// The page of the program itself.
pub fn program() -> String {
    let mut text = title("CALZUNDI");
    text += ".SH NAME\ncalzundi \\- a tree router with a proof behind every tree\n";
    text += ".SH SYNOPSIS\n.B calzundi\n.I COMMAND\n[\\fIOPTION\\fR]\\&.. \\fIFILE\\fR\\&..\n.SH DESCRIPTION\n";
    for block in help(HELP).blocks {
        match block {
            Block::Lines(lines) if is_list(&lines) => {
                text += ".PP\nThe commands are these; each has a page of its own.\n";
                for (command, help) in all() {
                    let (name, about) = (command.name, roff(&help.about));
                    text += &format!(".TP\n\\fBcalzundi\\-{name}\\fR(1)\n{about}\n");
                }
            }
            block => text += &shown(&block),
        }
    }
    text
}

/// Whether lines are the list of commands.
fn is_list(lines: &[String]) -> bool {
    lines
        .iter()
        .any(|line| all().any(|(command, _)| line.starts_with(&format!("{} ", command.name))))
}

/// The page of a command.
pub fn page(command: &Command) -> String {
    let Help {
        usage,
        about,
        blocks,
    } = help(command.help);
    let name = command.name;
    let mut text = title(&format!("CALZUNDI-{}", name.to_uppercase()));
    text += &format!(
        ".SH NAME\ncalzundi\\-{name} \\- {}\n.SH SYNOPSIS\n.B calzundi {name}\n{}\n.SH DESCRIPTION\n",
        roff(&about),
        roff(&synopsis(command, &usage))
    );
    for block in &blocks {
        text += &shown(block);
    }
    text + ".SH SEE ALSO\n.BR calzundi (1)\n"
}

/// The words behind the command's name, with a place for options where it has some.
fn synopsis(command: &Command, usage: &str) -> String {
    let words = usage.strip_prefix("calzundi ").unwrap_or(usage);
    let words = words.strip_prefix(command.name).unwrap_or(words).trim();
    if command.options.is_empty() {
        words.into()
    } else {
        format!("[OPTION].. {words}")
    }
}

fn title(name: &str) -> String {
    let (name, version) = (roff(name), calzundi::VERSION);
    format!(".TH \"{name}\" 1 \"\" \"calzundi {version}\" \"Tree router\"\n.nh\n.ad l\n")
}

fn shown(block: &Block) -> String {
    match block {
        Block::Paragraph(lines) => paragraph(lines),
        Block::Options(options) => {
            let each = options.iter().map(|option| {
                let (words, about) = (roff(&option.words), roff(&option.about));
                format!(".TP\n\\fB{words}\\fR\n{about}\n")
            });
            each.collect()
        }
        Block::Lines(lines) => {
            let lines: Vec<String> = lines.iter().map(|line| roff(line)).collect();
            format!(".PP\n.RS 4\n.nf\n{}\n.fi\n.RE\n", lines.join("\n"))
        }
    }
}

/// A paragraph; what it says of the exit status has a heading of its own.
fn paragraph(lines: &[String]) -> String {
    let mut text = String::from(".PP\n");
    for line in lines {
        text += &match line.split_once("Exit status: ") {
            Some((before, rest)) => {
                let before = roff(before.trim_end());
                format!("{before}\n.SH EXIT STATUS\n{}\n", roff(rest))
            }
            None => roff(line) + "\n",
        };
    }
    let text = text.replace("\n\n", "\n");
    text.replace(".PP\n.SH", ".SH")
}

/// A line as roff takes it: backslashes, hyphens and what would be a request at its start.
fn roff(line: &str) -> String {
    let said = line.replace('\\', "\\e").replace('-', "\\-");
    let said = said
        .replace('`', "\\(ga")
        .replace('^', "\\(ha")
        .replace('~', "\\(ti");
    if said.starts_with(['.', '\'']) {
        format!("\\&{said}")
    } else {
        said
    }
}
