//! The binary: what it prints, and its exit codes.

use std::io::Write;
use std::process::{Command, Output, Stdio};

const NET: &str = "pin 0 0\npin 4 0\npin 2 3\n";

/// Runs the binary with words and an input.
fn run(words: &[&str], input: &[u8]) -> Output {
    let mut child = Command::new(env!("CARGO_BIN_EXE_reference"))
        .args(words)
        .stdin(Stdio::piped())
        .stdout(Stdio::piped())
        .stderr(Stdio::piped())
        .spawn()
        .unwrap();
    // A command that takes no input may be gone before it is written.
    let _ = child.stdin.take().unwrap().write_all(input);
    child.wait_with_output().unwrap()
}

/// What a command that succeeds prints.
fn printed(words: &[&str], input: &[u8]) -> Vec<u8> {
    let output = run(words, input);
    assert_eq!(output.status.code(), Some(0), "{words:?}");
    assert_eq!(output.stderr, b"", "{words:?}");
    output.stdout
}

fn text(words: &[&str], input: &[u8]) -> String {
    String::from_utf8(printed(words, input)).unwrap()
}

#[test]
fn answers() {
    let net = NET.as_bytes();
    assert_eq!(
        text(&["check"], net),
        "allowed: pins 3 macros 0 weights 1 1\n"
    );
    assert_eq!(
        text(&["graph"], net),
        "vertices 3\n0 0\n2 3\n4 0\nedges 3\n0 0 2 3 5\n0 0 4 0 4\n2 3 4 0 5\n"
    );
    assert_eq!(
        text(&["terminal"], net),
        "paths 2\n\
         bridge 0 0 4 0 cost 4 vertices 0 0, 4 0\n\
         bridge 0 0 2 3 cost 5 vertices 0 0, 2 3\n\
         total 9\n"
    );
    assert_eq!(
        text(&["refined"], net),
        "edges 3\n0 0 2 0 2\n2 0 2 3 3\n2 0 4 0 2\ntotal 7\nmetal 7\n\
         rounds 1 of at most 3\na further gain was there: no\n\
         s at a 0 at b 0 at u 0\ncandidates dropped 0\n\
         a dropped one would have won: no\npoints pruned 0\n"
    );
    assert_eq!(
        text(&["slid"], net),
        "edges 3\n0 0 2 0 2\n2 0 2 3 3\n2 0 4 0 2\ntotal 7\nmetal 7\nbends 0 y first 0\nmoves 0 merges 0\nstopped by a macro 0 by metal 0\n"
    );
    assert_eq!(
        text(&["wires"], net),
        "wires 3\n0 0 2 0\n2 0 2 3\n2 0 4 0\n"
    );
}

#[test]
fn files() {
    let file = printed(&["pack"], NET.as_bytes());
    assert_eq!(file.len(), 1024);
    assert_eq!(text(&["unpack"], &file), NET);
    assert_eq!(
        text(&["route"], &file),
        "pins 3 macros 0 terminal 9 refined 7 metal 7\n0 0 2 0 2\n2 0 2 3 3\n2 0 4 0 2\n"
    );
}

#[test]
fn refusals_are_answers() {
    for command in [
        "check", "graph", "terminal", "refined", "slid", "wires", "pack",
    ] {
        assert_eq!(text(&[command], b""), "refused 11\n");
        assert_eq!(text(&[command], b"pin 0 0\npin 0 0\n"), "refused 15\n");
    }
    for command in ["route", "unpack"] {
        assert_eq!(text(&[command], b""), "refused 1\n");
        let file = printed(&["damage", "net-refused", "3"], b"");
        assert!(text(&[command], &file).starts_with("refused 1"));
    }
}

#[test]
fn generated_text_is_read_back() {
    let kinds = text(&["kinds"], b"");
    assert!(kinds.contains("tiny-four") && kinds.contains("pin-twice"));
    assert!(kinds.contains("bit-flipped"));
    let net = text(&["generate", "maze", "12"], b"");
    assert!(net.starts_with("# maze 12\npin "));
    assert!(text(&["check"], net.as_bytes()).starts_with("allowed: "));
    let lists = text(&["generate", "pin-twice", "12"], b"");
    assert_eq!(text(&["check"], lists.as_bytes()), "refused 15\n");
    let file = printed(&["damage", "bit-flipped", "12"], b"");
    assert_eq!(text(&["route"], &file), "refused 2\n");
}

#[test]
fn weights_on_the_command_line() {
    let net = format!("weights 1 3\n{NET}");
    let allowed = "allowed: pins 3 macros 0 weights 1 3\n";
    assert_eq!(text(&["check"], net.as_bytes()), allowed);
    let file = printed(&["pack"], net.as_bytes());
    assert_eq!(text(&["unpack"], &file), net);
    let routed = text(&["route"], &file);
    assert!(routed.starts_with("pins 3 macros 0 terminal 15 refined 13 metal 7\n"));
    assert_eq!(text(&["check"], b"weights 9 1\npin 0 0\n"), "refused 18\n");
    let net = text(&["generate", "maze", "12", "weighted"], b"");
    assert!(net.starts_with("# maze 12 weighted\nweights "));
    assert!(text(&["check"], net.as_bytes()).starts_with("allowed: "));
    let lists = text(&["generate", "weight-outside", "12"], b"");
    assert_eq!(text(&["check"], lists.as_bytes()), "refused 18\n");
    let file = printed(&["damage", "bit-flipped", "12", "weighted"], b"");
    assert_eq!(text(&["route"], &file), "refused 2\n");
}

#[test]
fn loads_on_the_command_line() {
    let net = "pin 0 0 7\npin 4 0\npin 2 3\n";
    let file = printed(&["pack"], net.as_bytes());
    assert_eq!(text(&["unpack"], &file), net);
    let bare = printed(&["pack"], NET.as_bytes());
    assert_ne!(file, bare);
    assert_eq!(text(&["route"], &file), text(&["route"], &bare));
    assert_eq!(text(&["check"], b"pin 0 0 -1\n"), "refused 13\n");
    let net = text(&["generate", "one-pin", "12", "loaded"], b"");
    assert!(net.starts_with("# one-pin 12 loaded\n"));
    assert!(text(&["check"], net.as_bytes()).starts_with("allowed: "));
    assert_eq!(printed(&["pack"], net.as_bytes())[512], 4);
    let file = printed(&["damage", "loads-zero", "12", "loaded"], b"");
    assert_eq!(text(&["route"], &file), "refused 3\n");
}

#[test]
fn help_names_every_command() {
    let help = text(&["help"], b"");
    for command in [
        "check", "graph", "terminal", "refined", "slid", "wires", "route", "pack", "unpack",
        "generate", "damage", "kinds", "help",
    ] {
        assert!(help.contains(&format!("\n  {command} ")), "{command}");
    }
}

#[test]
fn bad_lines_exit_with_1() {
    for (input, said) in [
        (
            &b"pin 0 0\npin 1\n"[..],
            "line 2: a pin needs a number for y",
        ),
        (&b"pin 0 0\n\xff\n"[..], "line 2: not UTF-8 text"),
    ] {
        let output = run(&["check"], input);
        assert_eq!(output.status.code(), Some(1));
        assert_eq!(output.stdout, b"");
        let wrong = String::from_utf8(output.stderr).unwrap();
        assert_eq!(wrong, format!("reference: {said}\n"));
    }
}

#[test]
fn bad_usage_exits_with_2() {
    for (words, said) in [
        (&[][..], "no command"),
        (&["rout"][..], "no command 'rout'"),
        (
            &["check", "x"][..],
            "'check' with other arguments than it takes",
        ),
        (
            &["generate", "maze"][..],
            "'generate' with other arguments than it takes",
        ),
        (
            &["damage", "cut", "1", "weight"][..],
            "'damage' with other arguments than it takes",
        ),
        (&["generate", "maze", "-1"][..], "'-1' is no seed"),
        (&["generate", "cut", "1"][..], "no kind 'cut' here"),
        (&["damage", "maze", "1"][..], "no kind 'maze' here"),
    ] {
        let output = run(words, b"");
        assert_eq!(output.status.code(), Some(2), "{words:?}");
        assert_eq!(output.stdout, b"", "{words:?}");
        let wrong = String::from_utf8(output.stderr).unwrap();
        assert!(wrong.starts_with(&format!("reference: {said}")), "{wrong}");
    }
}
