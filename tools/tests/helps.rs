//! Man pages and completion are made of the table of commands and of the helps: nothing of these is left out.

mod common;

use std::fs;
use std::process::Command;

use common::{folder, printed, said, word, CALZUNDI};
use tools::commands::ALL;
use tools::help::{all, help, Block};

/// Every option of the table is described in its command's help, and every command says what it does.
#[test]
fn helps_describe_the_table() {
    for (command, help) in all() {
        let name = command.name;
        assert!(
            help.usage.starts_with(&format!("calzundi {name}")),
            "{help:?}"
        );
        assert!(!help.about.is_empty(), "{name}");
        for option in command.options {
            let about = help.about_option(option.name);
            assert_ne!(about, "", "{name} {}", option.name);
        }
    }
}

#[test]
fn a_help_is_taken_apart() {
    let text =
        "calzundi x NET: does\n  it\n\nOne.\n\n    --a       first; more\n              still\n\
                \x20   --b, -c N  second\n\n    calzundi x y\n\nTwo\nExit status: 0 done.\n";
    let help = help(text);
    assert_eq!(
        (help.usage.as_str(), help.about.as_str()),
        ("calzundi x NET", "does it")
    );
    assert_eq!(help.about_option("--a"), "first");
    assert_eq!(help.about_option("-c"), "second");
    assert_eq!(help.about_option("--d"), "");
    let [Block::Paragraph(_), Block::Options(options), Block::Lines(lines), Block::Paragraph(_)] =
        &help.blocks[..]
    else {
        panic!("{help:?}");
    };
    assert_eq!((options.len(), lines.len()), (2, 1));
}

/// A page for the program and one for each command, with every option, and no line that roff would take for a request.
#[test]
fn pages_have_everything() {
    let program = printed(&["man"], b"");
    for command in ALL {
        let name = command.name;
        assert!(
            program.contains(&format!("\\fBcalzundi\\-{name}\\fR(1)\n")),
            "{name}"
        );
        let page = printed(&["man", name], b"");
        assert!(page.starts_with(".TH \"CALZUNDI\\-"), "{page}");
        let own = command.options.iter();
        for option in own.filter(|option| option.name != "--output") {
            let option = option.name.replace('-', "\\-");
            assert!(page.contains(&option), "{name} {option}");
        }
        for heading in ["NAME", "SYNOPSIS", "DESCRIPTION", "EXIT STATUS", "SEE ALSO"] {
            assert!(
                page.contains(&format!("\n.SH {heading}\n")),
                "{name} {heading}"
            );
        }
        let requests = [
            "TH", "nh", "ad", "SH", "B ", "BR", "PP", "TP", "RS", "RE", "nf", "fi",
        ];
        for line in page.lines().filter_map(|line| line.strip_prefix('.')) {
            assert!(
                requests.iter().any(|request| line.starts_with(request)),
                "{name}: .{line}"
            );
        }
    }
    assert!(said(&["man", "rout"], b"", 2).contains("there is no command 'rout'"));
}

/// What bash would complete of some words, the last of which is begun.
fn completed(words: &[&str]) -> Vec<String> {
    let script = folder("completion").join("calzundi.bash");
    fs::write(&script, printed(&["completion", "bash"], b"")).unwrap();
    let line = "source \"$1\"; shift; COMP_WORDS=(\"$@\"); COMP_CWORD=$(($# - 1)); _calzundi; printf '%s\\n' \"${COMPREPLY[@]}\"";
    let output = Command::new("bash")
        .args(["-c", line, "bash", word(&script), "calzundi"])
        .args(words)
        .output()
        .unwrap();
    assert_eq!(String::from_utf8_lossy(&output.stderr), "");
    let said = String::from_utf8(output.stdout).unwrap();
    said.lines()
        .filter(|line| !line.is_empty())
        .map(str::to_string)
        .collect()
}

#[test]
fn bash_completes() {
    let commands = completed(&[""]);
    for command in ALL {
        assert!(
            commands.iter().any(|word| word == command.name),
            "{}",
            command.name
        );
        let options = completed(&[command.name, "--"]);
        for option in command
            .options
            .iter()
            .filter(|option| option.name.starts_with("--"))
        {
            assert!(
                options.iter().any(|word| word == option.name),
                "{} {}",
                command.name,
                option.name
            );
        }
        assert!(options.contains(&"--help".to_string()));
    }
    assert_eq!(completed(&["comp"]), ["compare", "completion"]);
    assert_eq!(completed(&["export", "--g"]), ["--gds"]);
    // Files are left to bash, also behind an option that has a value.
    assert!(completed(&["route", "ne"]).is_empty());
    assert!(completed(&["batch", "--list", "-"]).is_empty());
}

/// The other two shells' scripts have every command and every option; the shells themselves are asked in tools/with-clients.
#[test]
fn zsh_and_fish_are_told_all() {
    let (zsh, fish) = (
        printed(&["completion", "zsh"], b""),
        printed(&["completion", "fish"], b""),
    );
    assert!(zsh.starts_with("#compdef calzundi\n"));
    for command in ALL {
        let name = command.name;
        assert!(zsh.contains(&format!("\n        '{name}:")), "{name}");
        assert!(
            fish.contains(&format!("__fish_use_subcommand -f -a {name} -d '")),
            "{name}"
        );
        for option in command.options {
            let option = option.name;
            assert!(zsh.contains(&format!("'{option}[")), "{name} {option}");
            let letter = match option.strip_prefix("--") {
                Some(long) => format!("-l {long}"),
                None => format!("-s {}", &option[1..]),
            };
            let line = format!("__fish_seen_subcommand_from {name}' {letter}");
            assert!(fish.contains(&line), "{line}");
        }
    }
    assert!(said(&["completion", "tcsh"], b"", 2).contains("'tcsh' is neither bash, zsh nor fish"));
    assert!(said(&["completion"], b"", 2).contains(" is missing"));
    assert!(CALZUNDI.ends_with("calzundi"));
}
