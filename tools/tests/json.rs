//! JSON: everything is in it, every command gives it, and docs/calzundi.schema.json says what it is.

mod common;

use std::fs;

use common::json::{parse, wrong, Json};
use common::{example, folder, printed, root, run, word, COMMANDS};
use tools::commands::ALL;
use tools::program::{Command, JSON};

fn schema() -> Json {
    parse(include_str!("../../docs/calzundi.schema.json"))
}

/// A value is what the schema says of a name.
fn holds(name: &str, value: &Json) {
    let schema = schema();
    let own = schema.get("$defs").get(name);
    if let Some(why) = wrong(own, &schema, value) {
        panic!("{name}: {why}");
    }
}

/// What a command prints, as JSON, and its exit status.
fn asked(words: &[&str], input: &[u8]) -> (Json, Option<i32>) {
    let output = run(words, input);
    let text = String::from_utf8(output.stdout).unwrap();
    assert!(text.ends_with('\n'), "{words:?}: {text}");
    (parse(&text), output.status.code())
}

/// The words of each command for a net, with a file to write where it writes one.
fn words_of<'a>(command: &'a str, net: &'a str, files: &'a [String; 3]) -> Vec<&'a str> {
    let [bands, tree, out] = files;
    let more: Vec<&str> = match command {
        "compare" => vec![net],
        "price" => vec![bands],
        "verify" => vec![tree],
        "delay" => vec!["0,0", "1", "1"],
        "draw" | "pack" | "import" => vec!["-o", out, "--force"],
        "export" => vec!["--gds", "-o", out, "--force"],
        "batch" => vec!["--quiet"],
        _ => vec![],
    };
    [&[command, "--json", net], &more[..]].concat()
}

fn files(name: &str) -> [String; 3] {
    [
        root().join("examples/bands.txt"),
        root().join("examples/tree.txt"),
        folder(name).join("made"),
    ]
    .map(|file| word(&file).to_string())
}

/// Every command answers in JSON, and as the schema says.
#[test]
fn every_command_has_it() {
    let (net, files) = (example("three-pins"), files("json"));
    let layout = folder("json-layout").join("three-pins.gds");
    printed(&["export", "--gds", word(&net), "-o", word(&layout)], b"");
    let takes_json = |command: &&Command| {
        let mut options = command.options.iter();
        options.any(|option| option.name == JSON.name)
    };
    let all: Vec<&str> = ALL.iter().filter(takes_json).map(|one| one.name).collect();
    assert!(COMMANDS.iter().all(|command| all.contains(command)));
    for command in all {
        let net = match command {
            "import" => &layout,
            _ => &net,
        };
        let (value, status) = asked(&words_of(command, word(net), &files), b"");
        assert_eq!(status, Some(0), "{command}");
        let value = match command {
            "batch" => value.list()[0].clone(),
            _ => value,
        };
        holds(command, &value);
        assert_eq!(value.get("net").text(), word(net), "{command}");
    }
    let written = parse(&printed(
        &["pack", "--json", word(&net), "-o", &files[2], "--force"],
        b"",
    ));
    assert_eq!(written.get("written").text(), files[2]);
    assert_eq!(written.get("bytes").number(), 1024.0);
}

/// Refusals, lines that are no entries and files that are missing are objects too.
#[test]
fn what_is_wrong_is_in_it() {
    let files = files("json-wrong");
    let bad = folder("json-bad").join("bad.txt");
    fs::write(&bad, "pin 0\npin 0 0\npan 1 1\n").unwrap();
    for command in COMMANDS {
        let overlapping = example("overlapping");
        for (net, field) in [
            (word(&overlapping), "refused"),
            (word(&bad), "lines"),
            ("no/such/net", "error"),
        ] {
            let (value, status) = asked(&words_of(command, net, &files), b"");
            assert_eq!(status, Some(1), "{command}");
            let (value, name) = match command {
                "batch" => (value.list()[0].clone(), "batch"),
                _ => (value, "failure"),
            };
            holds(name, &value);
            let found = value.get(field);
            match field {
                "refused" => {
                    assert_eq!(found.number(), 16.0);
                    assert_eq!(value.get("meaning").text(), "two macros' interiors meet");
                    let entries = value.get("entries").list();
                    let of = |entry: &Json, name: &str| entry.get(name).number();
                    assert_eq!(entries.len(), 2);
                    assert_eq!(entries[1].get("kind").text(), "macro");
                    assert_eq!(
                        (of(&entries[1], "number"), of(&entries[1], "line")),
                        (2.0, 4.0)
                    );
                }
                "lines" => {
                    assert_eq!(found.list().len(), 2);
                    assert_eq!(found.list()[1].get("line").number(), 3.0);
                    let why = found.list()[0].get("wrong").text();
                    assert_eq!(why, "a pin needs a number for y");
                }
                _ => assert!(found.text().starts_with("No such file"), "{found:?}"),
            }
        }
    }
    // A list, a tree, a driver: what is refused is named.
    let net = example("three-pins");
    let bands = folder("json-bands").join("bands.txt");
    fs::write(&bands, "5 1\n").unwrap();
    let (value, _) = asked(&["price", "--json", word(&net), word(&bands)], b"");
    holds("failure", &value);
    assert_eq!(value.get("bands").text(), word(&bands));
    assert_eq!(value.get("refused").number(), 32.0);
    let (value, _) = asked(
        &["verify", "--json", word(&net), "-"],
        b"0 0 4 0\n2 0 2 3\n",
    );
    holds("failure", &value);
    assert_eq!(value.get("tree").text(), "standard input");
    assert_eq!(value.get("entries").list()[0].get("kind").text(), "edge");
    let (value, _) = asked(&["delay", "--json", word(&net), "9,9", "1", "1"], b"");
    holds("failure", &value);
    assert_eq!(value.get("refused").number(), 39.0);
}

/// The text of the net that is in an object.
fn text_of(value: &Json) -> String {
    let numbers = |entry: &Json| -> String {
        let numbers = entry
            .list()
            .iter()
            .map(|number| number.number().to_string());
        numbers.collect::<Vec<String>>().join(" ")
    };
    let mut text = format!("weights {}\n", numbers(value.get("weights")));
    let loads = value.get("loads").list();
    for (pin, load) in value.get("pins").list().iter().zip(loads) {
        text += &format!("pin {} {}\n", numbers(pin), load.number());
    }
    for one in value.get("macros").list() {
        text += &format!("macro {}\n", numbers(one));
    }
    text
}

/// A net that went through JSON lost its loads.
#[test]
fn a_net_goes_through_it_whole() {
    for name in ["loads", "weights", "eight-pins"] {
        let net = example(name);
        let wanted = printed(&["unpack", word(&net)], b"");
        for command in ["route", "slide", "shorten", "unpack"] {
            let (value, _) = asked(&[command, "--json", word(&net)], b"");
            let back = printed(&["unpack", "-"], text_of(&value).as_bytes());
            assert_eq!(back, wanted, "{command} {name}");
        }
    }
}

/// Several nets are an array, in their order, those that fail among them.
#[test]
fn several_are_an_array() {
    let (three, overlapping) = (example("three-pins"), example("overlapping"));
    let nets = [word(&three), word(&overlapping), "no/such"];
    for command in ["check", "route", "slide", "best", "shorten", "unpack"] {
        let (value, status) = asked(&[&[command, "--json"], &nets[..]].concat(), b"");
        assert_eq!(status, Some(1));
        let all = value.list();
        assert_eq!(all.len(), 3, "{command}");
        holds(command, &all[0]);
        holds("failure", &all[1]);
        holds("failure", &all[2]);
    }
}

/// A batch as an object a line, and as an array of the same.
#[test]
fn a_batch_by_lines() {
    let nets = ["three-pins", "eight-pins", "overlapping", "loads"].map(example);
    let nets: Vec<&str> = nets.iter().map(|net| word(net)).collect();
    let bands = root().join("examples/bands.txt");
    let more = [
        "--form",
        "--slid",
        "--best",
        "--shortened",
        "--delay=1,1",
        "--bands",
        word(&bands),
    ];
    let words = |form: &'static str| [&["batch", "--quiet", form], &more[..], &nets].concat();
    let output = run(&words("--jsonl"), b"");
    let text = String::from_utf8(output.stdout).unwrap();
    let lines: Vec<Json> = text.lines().map(parse).collect();
    assert_eq!(lines.len(), nets.len());
    for line in &lines {
        holds("batch", line);
    }
    assert_eq!(lines[1].get("best"), &Json::Null);
    assert_eq!(lines[0].get("best").number(), 7.0);
    assert_eq!(lines[2].get("refused").number(), 16.0);
    let array = run(&words("--json"), b"").stdout;
    assert_eq!(parse(&String::from_utf8(array).unwrap()), Json::List(lines));
}

/// With --bound the bound and how much a tree is over it are there, and else they are not.
#[test]
fn bounds_are_in_it() {
    let five = b"pin 2 0\npin 1 3\npin 0 1\npin 3 1\npin 0 0\n";
    for (command, over) in [("route", 14.29), ("slide", 14.29), ("best", 0.0)] {
        let (value, _) = asked(&[command, "--json", "--bound", "-"], five);
        holds(command, &value);
        assert_eq!(value.get("bound").number(), 7.0);
        assert_eq!(value.get("over").number(), over);
        let plain = printed(&[command, "--json", "-"], five);
        assert!(!plain.contains("bound") && !plain.contains("over"));
    }
    let words = ["batch", "--json", "--quiet", "--bound", "-"];
    let value = asked(&words, five).0.list()[0].clone();
    holds("batch", &value);
    assert_eq!(value.get("bound").number(), 7.0);
    assert_eq!(value.get("over").number(), 14.29);
}
