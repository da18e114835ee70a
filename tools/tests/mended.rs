//! What was found wrong by people at the bench, each with the test that failed before it was mended.

mod common;

use std::fs;
use std::os::unix::fs::{symlink, PermissionsExt};
use std::process::Command;
use std::time::{Duration, Instant};

use common::json::parse;
use common::{example, folder, printed, refused, root, run, said, shell, word, COMMANDS};

/// Words that make each command print something.
fn words_of(command: &str) -> Vec<String> {
    let net = word(&example("three-pins")).to_string();
    let more = match command {
        "compare" => vec![net.clone()],
        "price" => vec![word(&root().join("examples/bands.txt")).to_string()],
        "verify" => vec![word(&root().join("examples/tree.txt")).to_string()],
        "batch" => vec!["--quiet".to_string()],
        "delay" => ["0,0", "1", "1"].map(str::to_string).to_vec(),
        _ => vec![],
    };
    [vec![command.to_string(), net], more].concat()
}

/// `pack`, `unpack` and `draw` with standard output closed, and `route` with a full one, ended with 0 and without a word.
#[test]
fn output_that_is_lost_is_said() {
    for command in COMMANDS {
        let words = words_of(command);
        let words: Vec<&str> = words.iter().map(String::as_str).collect();
        for line in ["exec \"$0\" \"$@\" >&-", "exec \"$0\" \"$@\" >/dev/full"] {
            let (status, wrong) = shell(line, &words);
            assert_eq!(status, Some(1), "{line} {words:?}");
            let expected = format!("calzundi {command}: standard output: ");
            assert!(wrong.starts_with(&expected), "{line} {words:?}: {wrong}");
        }
    }
    for flag in ["--help", "--version"] {
        assert_eq!(shell("exec \"$0\" \"$@\" >&-", &[flag]).0, Some(1));
    }
}

/// `pack nosuch 2>/dev/full` ended with 101, as a program does that breaks down.
#[test]
fn standard_error_that_is_lost_is_no_breakdown() {
    for line in ["exec \"$0\" \"$@\" 2>/dev/full", "exec \"$0\" \"$@\" 2>&-"] {
        for (words, status) in [(["pack", "no/such"], 1), (["pack", "--fast"], 2)] {
            assert_eq!(shell(line, &words).0, Some(status), "{line}");
        }
    }
}

/// A write that failed left half a file where the old one had been. With the signal for files that are too large ignored, a write fails.
#[test]
fn a_failed_write_leaves_the_old_file() {
    let folder = folder("failed-write");
    let to = folder.join("net.net");
    fs::write(&to, "what was there").unwrap();
    let line = "trap '' XFSZ; ulimit -f 0; exec \"$0\" \"$@\"";
    let net = example("three-pins");
    for command in ["pack", "unpack", "draw"] {
        let (status, wrong) = shell(line, &[command, word(&net), "-o", word(&to)]);
        assert_eq!(status, Some(1), "{wrong}");
        assert!(wrong.contains("net.net: "), "{wrong}");
        assert_eq!(fs::read(&to).unwrap(), b"what was there");
        let entries = fs::read_dir(&folder).unwrap().count();
        assert_eq!(entries, 1, "nothing is left beside it");
    }
}

/// Writing goes through links and keeps who may read a file; a device is written to and stays one.
#[test]
fn a_write_replaces_the_file_that_is_meant() {
    let folder = folder("replaced");
    let (real, link) = (folder.join("real"), folder.join("link"));
    fs::write(&real, "old").unwrap();
    fs::set_permissions(&real, fs::Permissions::from_mode(0o640)).unwrap();
    symlink("real", &link).unwrap();
    let net = example("three-pins");
    printed(&["unpack", word(&net), "-o", word(&link)], b"");
    assert!(fs::symlink_metadata(&link).unwrap().is_symlink());
    assert!(fs::read_to_string(&real).unwrap().starts_with("pin "));
    let mode = fs::metadata(&real).unwrap().permissions().mode();
    assert_eq!(mode & 0o777, 0o640);
    printed(&["unpack", word(&net), "-o", "/dev/null"], b"");
    assert!(!fs::metadata("/dev/null").unwrap().is_file());
    let wrong = said(&["unpack", word(&net), "-o", "/dev/full"], b"", 1);
    assert!(wrong.starts_with("calzundi unpack: /dev/full: "), "{wrong}");
}

/// `pack x x`, `unpack x x` and `draw net routed net` wrote over what they had read.
#[test]
fn input_is_never_overwritten() {
    let folder = folder("overwritten");
    let (net, link, other) = (folder.join("x"), folder.join("link"), folder.join("y"));
    let text = fs::read(example("three-pins")).unwrap();
    fs::write(&net, &text).unwrap();
    fs::hard_link(&net, &link).unwrap();
    let routed = folder.join("routed");
    fs::write(&routed, printed(&["route", word(&net)], b"")).unwrap();
    let spelled = folder.join("../overwritten/x");
    for to in [&net, &link, &spelled] {
        for command in ["pack", "unpack", "draw"] {
            let wrong = said(&[command, word(&net), "-o", word(to)], b"", 2);
            assert!(wrong.contains("it is not written over"), "{wrong}");
        }
    }
    let by = ["draw", "--routed", word(&routed), word(&net), "-o"];
    let words = [&by[..], &[word(&routed)]].concat();
    assert!(said(&words, b"", 2).contains("it is not written over"));
    // Standard input is known by its file too.
    let line = format!("exec \"$0\" \"$@\" <{}", word(&net));
    assert_eq!(shell(&line, &["pack", "-", "-o", word(&net)]).0, Some(2));
    assert_eq!(fs::read(&net).unwrap(), text);
    printed(&["pack", word(&net), "-o", word(&other)], b"");
}

/// `draw` took another net's tree and drew metal through a macro.
#[test]
fn draw_takes_no_other_nets_tree() {
    let folder = folder("other-tree");
    let (net, routed) = (folder.join("net"), folder.join("routed"));
    fs::write(&net, "pin 0 0\npin 10 0\nmacro 4 -2 6 3\n").unwrap();
    fs::write(
        &routed,
        "pins 2 macros 1 terminal 10 refined 10\n0 0 10 0 10\n",
    )
    .unwrap();
    let words = ["draw", "--routed", word(&routed), word(&net)];
    let wrong = said(&words, b"", 1);
    assert!(wrong.contains("line 1: it is not this net's"), "{wrong}");
    let right = printed(&["route", word(&net)], b"");
    let cut = right.lines().take(2).collect::<Vec<&str>>().join("\n");
    for (text, line) in [
        (cut, 3),
        (right.clone() + "0 0 1 1 2\n", 5),
        (String::new(), 1),
    ] {
        fs::write(&routed, text).unwrap();
        let wrong = said(&words, b"", 1);
        assert!(
            wrong.contains(&format!("line {line}: it is not")),
            "{wrong}"
        );
    }
    fs::write(&routed, right).unwrap();
    assert!(printed(&words, b"").starts_with("<svg "));
}

/// With 64 macros "two macros' interiors meet" helped nobody: now the lines are named, all of them.
#[test]
fn refusals_name_their_lines() {
    let checked = |text: &str| {
        let output = run(&["check", "-"], text.as_bytes());
        assert_eq!(output.status.code(), Some(1), "{text}");
        assert_eq!(output.stderr, b"");
        let said = String::from_utf8(output.stdout).unwrap();
        said.replace("standard input: ", "")
    };
    assert_eq!(
        checked(
            "pin 9 9\n# a comment\nmacro 0 0 2 2\nmacro 5 5 6 6\nmacro 1 1 3 3\nmacro 0 0 2 2\n"
        ),
        "refused 16: two macros' interiors meet\n\
         \u{20} line 3, macro 1 (0 0 2 2) and line 5, macro 3 (1 1 3 3)\n\
         \u{20} line 3, macro 1 (0 0 2 2) and line 6, macro 4 (0 0 2 2)\n\
         \u{20} line 5, macro 3 (1 1 3 3) and line 6, macro 4 (0 0 2 2)\n"
    );
    assert_eq!(
        checked("pin 0 1000001\nmacro -1000001 0 1 1\npin -2147483648 0\n"),
        "refused 13: a coordinate is not from -1000000 to 1000000, or a load not from 0 to 1000000\n\
         \u{20} line 1, pin 1 (0 1000001): y is 1000001\n\
         \u{20} line 3, pin 2 (-2147483648 0): x is -2147483648\n\
         \u{20} line 2, macro 1 (-1000001 0 1 1): left is -1000001\n"
    );
    assert_eq!(
        checked("pin 0 0 -1\npin 5 5 1000000\npin 9 9 1000001\npin 5 5\n"),
        "refused 13: a coordinate is not from -1000000 to 1000000, or a load not from 0 to 1000000\n\
         \u{20} line 1, pin 1 (0 0 -1): load is -1\n\
         \u{20} line 3, pin 3 (9 9 1000001): load is 1000001\n\
         then refused 15: two pins are at one place\n\
         \u{20} line 4, pin 4 (5 5) stands where line 2, pin 2 (5 5 1000000) does\n"
    );
    assert_eq!(
        checked("macro 3 0 3 5\nmacro 0 9 1 8\npin 1 1\npin 1 1\npin 1 1\nmacro 0 0 2 2\n"),
        "refused 14: a macro's left is not below its right, or its bottom not below its top\n\
         \u{20} line 1, macro 1 (3 0 3 5): left 3 is not below right 3\n\
         \u{20} line 2, macro 2 (0 9 1 8): bottom 9 is not below top 8\n\
         then refused 15: two pins are at one place\n\
         \u{20} line 4, pin 2 (1 1) stands where line 3, pin 1 (1 1) does\n\
         \u{20} line 5, pin 3 (1 1) stands where line 3, pin 1 (1 1) does\n\
         then refused 17: a pin is in a macro's interior\n\
         \u{20} line 3, pin 1 (1 1) in line 6, macro 3 (0 0 2 2)\n\
         \u{20} line 4, pin 2 (1 1) in line 6, macro 3 (0 0 2 2)\n\
         \u{20} line 5, pin 3 (1 1) in line 6, macro 3 (0 0 2 2)\n"
    );
}

/// 11 lumped three causes together.
#[test]
fn refusals_say_their_cause() {
    let first = |text: String| {
        let output = run(&["check", "-"], text.as_bytes());
        String::from_utf8(output.stdout).unwrap()
    };
    assert_eq!(
        first("macro 0 0 1 1\n".into()),
        "standard input: refused 11: there is no pin\n"
    );
    let many: String = (0..140).map(|x| format!("\npin {x} 0")).collect();
    assert_eq!(
        first(many),
        "standard input: refused 11: there are 140 pins, and at most 128 are allowed\n  \
         line 130, pin 129 (128 0) is the first that is too many\n"
    );
    let many: String = (0..129)
        .map(|x| format!("macro {x} 0 {} 1\n", x + 1))
        .collect();
    assert_eq!(
        first(format!("pin 0 5\n{many}")),
        "standard input: refused 12: there are 129 macros, and at most 128 are allowed\n  \
         line 130, macro 129 (128 0 129 1) is the first that is too many\n"
    );
}

/// The other commands say some of the lines, and where the rest is.
#[test]
fn other_commands_say_some_of_it() {
    let all: String = (0..9).map(|x| format!("macro {x} 0 20 9\n")).collect();
    let wrong = refused(&["pack", "-"], format!("pin 0 20\n{all}").as_bytes(), 16);
    let lines: Vec<&str> = wrong.lines().collect();
    assert_eq!(
        lines[0],
        "calzundi pack: standard input: refused 16: two macros' interiors meet"
    );
    assert_eq!(lines.len(), 6);
    assert_eq!(lines[5], "  and 32 more: `calzundi check` lists them");
}

/// `pack --help` showed `pack net.txt | route`, which reaches another program of that name.
#[test]
fn help_shows_what_can_be_run() {
    for command in COMMANDS {
        let help = printed(&[command, "--help"], b"");
        for line in help
            .lines()
            .filter(|line| line.starts_with("    calzundi "))
        {
            for part in line.split('|').map(str::trim) {
                let first = part.split(' ').next().unwrap();
                assert!(["calzundi", "python3"].contains(&first), "{line}");
            }
        }
        assert!(!help.contains("| route"), "{help}");
    }
}

/// A byte order mark and control characters were echoed raw.
#[test]
fn nothing_of_an_input_reaches_the_terminal_raw() {
    assert!(printed(&["unpack", "-"], b"\xef\xbb\xbfpin 0 0\n").starts_with("pin 0 0\n"));
    for (input, shown) in [
        (&b"p\x1b[31mn 0 0\n"[..], "'p\\u{1b}[31mn' is neither"),
        (b"pin \x07 0\n", "'\\u{7}' for x is no"),
        ("pin 0 \u{feff}0\n".as_bytes(), "'\\u{feff}0' for y is no"),
        ("pin 0 \u{202e}0\n".as_bytes(), "'\\u{202e}0' for y is no"),
    ] {
        let wrong = said(&["check", "-"], input, 1);
        assert!(wrong.contains(shown), "{wrong}");
        let is_plain = |letter: char| letter == '\n' || !letter.is_control();
        assert!(wrong.chars().all(is_plain), "{wrong:?}");
    }
    let wrong = said(&["check", "no\x1bsuch"], b"", 1);
    assert!(wrong.contains("no\\u{1b}such: "), "{wrong:?}");
    let long = "x".repeat(100_000);
    assert!(said(&["check", "-"], long.as_bytes(), 1).len() < 200);
}

/// An input without end was read for ever.
#[test]
fn endless_input_is_refused() {
    for (line, word) in [
        ("exec timeout 20 \"$0\" check /dev/zero", "longer than"),
        ("yes 'pin 0 0' | timeout 20 \"$0\" check -", "longer than"),
        (
            "exec timeout 20 \"$0\" price \"$1\" /dev/zero",
            "longer than",
        ),
    ] {
        let start = Instant::now();
        let (status, wrong) = shell(line, &[word_of_example()]);
        assert_eq!(status, Some(1), "{line}: {wrong}");
        assert!(wrong.contains(word), "{line}: {wrong}");
        assert!(start.elapsed() < Duration::from_secs(20));
    }
}

fn word_of_example() -> &'static str {
    concat!(
        env!("CARGO_MANIFEST_DIR"),
        "/../examples/nets/three-pins.txt"
    )
}

/// `./run nosuch` built for minutes before it said so, and `./run FILE >/dev/full` ended with 0. Here `rt` and `cargo` do nothing: what
/// they make is there.
#[test]
fn run_says_what_is_wrong_at_once() {
    let folder = folder("run");
    for name in ["rt", "cargo"] {
        let tool = folder.join(name);
        fs::write(&tool, "#!/bin/sh\necho called >>\"$0.called\"\n").unwrap();
        fs::set_permissions(&tool, fs::Permissions::from_mode(0o755)).unwrap();
    }
    let path = format!("{}:{}", word(&folder), std::env::var("PATH").unwrap());
    let run = |line: &str| {
        let mut command = Command::new("bash");
        command
            .args(["-c", line])
            .current_dir(root())
            .env("PATH", &path);
        command.output().unwrap()
    };
    let output = run("./run no/such/net");
    assert_eq!(output.status.code(), Some(1));
    let wrong = String::from_utf8(output.stderr).unwrap();
    assert!(
        wrong.starts_with("run: no/such/net: there is no such file"),
        "{wrong}"
    );
    assert!(!folder.join("rt.called").exists());
    let output = run("./run");
    assert!(
        output.status.success(),
        "{}",
        String::from_utf8_lossy(&output.stderr)
    );
    assert!(output
        .stdout
        .starts_with(b"pins 3 macros 0 terminal 9 refined 7"));
    assert!(folder.join("rt.called").exists());
    let output = run("./run examples/nets/eight-pins.txt >/dev/full");
    assert_eq!(output.status.code(), Some(1));
    assert_eq!(run("./run a b").status.code(), Some(2));
}

/// A tree of edges upon edges has millions of reasons, which took gigabytes: the first hundred of a kind are said, and the others counted.
#[test]
fn reasons_are_counted() {
    let net = folder("reasons").join("net.txt");
    fs::write(&net, "pin 0 0\npin 60 0\n").unwrap();
    let tree: String = (1..=60).map(|x| format!("0 0 {x} 0\n")).collect();
    let words = ["verify", word(&net), "-"];
    let output = run(&words, tree.as_bytes());
    assert_eq!(output.status.code(), Some(1));
    let text = String::from_utf8(output.stdout).unwrap();
    let of = |part: &str| text.lines().filter(|line| line.contains(part)).count();
    assert_eq!(of("lies on"), 100, "{text}");
    assert_eq!(of("ends at"), 59);
    // On an edge of length x lie the ends of those that are shorter.
    let more = (1..=60).map(|x| x - 1).sum::<usize>() - 100;
    assert!(text.ends_with(&format!("\n  and {more} more\n")), "{text}");
    let output = run(&["verify", "--json", word(&net), "-"], tree.as_bytes());
    let value = parse(&String::from_utf8(output.stdout).unwrap());
    let reasons = value.get("reasons").list();
    assert_eq!(reasons.len(), 160);
    assert_eq!(reasons[159].text(), format!("and {more} more"));
}

/// The bad lines of a tree and of a price list were said to be listed by `check`, which reads neither.
#[test]
fn check_lists_the_lines_of_nets() {
    let net = example("three-pins");
    let bad = "no line\n".repeat(9);
    for (words, more) in [
        (
            vec!["route", "-"],
            "and 5 more: `calzundi check` lists them\n",
        ),
        (vec!["verify", word(&net), "-"], "and 5 more\n"),
        (vec!["price", word(&net), "-"], "and 5 more\n"),
    ] {
        let wrong = said(&words, bad.as_bytes(), 1);
        assert!(wrong.ends_with(more), "{wrong}");
    }
}
