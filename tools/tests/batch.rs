//! Many nets at a time.

mod common;

use std::fs;
use std::path::PathBuf;

use common::{folder, made, printed, run, said, seeds, word};
use reference::generate::{hostile, weighted as net, Hostile, Kind};
use reference::lists::Lists;
use reference::text::print;
use tools::routed::Routed;

/// A few dozen nets, some of them refused, one unreadable and one with an awkward name.
fn nets(folder: &str) -> Vec<PathBuf> {
    let folder = common::folder(folder);
    let mut files = Vec::new();
    let mut put = |name: String, text: String| {
        let file = folder.join(name);
        fs::write(&file, text).unwrap();
        files.push(file);
    };
    for seed in 0..40 {
        let kinds = [Kind::TinyEight, Kind::Comb, Kind::Maze, Kind::Wide];
        let lists: Lists = net(kinds[seed as usize % 4], seed);
        put(format!("{seed:02}.txt"), print(&lists));
    }
    put("overlap.txt".into(), print(&hostile(Hostile::Overlap, 1)));
    put("a, \"b\".txt".into(), "pin 0 0\npan 1 1\n".into());
    files.push(folder.join("no-such.txt"));
    files
}

fn words<'a>(options: &[&'a str], files: &'a [PathBuf]) -> Vec<&'a str> {
    let files = files.iter().map(|file| word(file));
    [&["batch", "--csv", "--quiet"], options]
        .concat()
        .into_iter()
        .chain(files)
        .collect()
}

/// A line for each net in their order, whatever the threads; those that are not routed say why.
#[test]
fn a_line_for_each_net() {
    let files = nets("batch");
    let output = run(&words(&[], &files), b"");
    assert_eq!(output.status.code(), Some(1));
    assert_eq!(output.stderr, b"");
    let text = String::from_utf8(output.stdout).unwrap();
    let lines: Vec<&str> = text.lines().collect();
    assert_eq!(lines.len(), 1 + files.len());
    assert_eq!(
        lines[0],
        "net,pins,macros,weight_x,weight_y,terminal,refined,metal,wires,fingerprint,refused,reason"
    );
    for (line, file) in lines[1..].iter().zip(&files).take(40) {
        let read = fs::read(file).unwrap();
        let (net, _) = tools::text::parse(&read).unwrap();
        let routed = Routed::of(&net).unwrap();
        let (m, k) = (net.pins.len(), net.macros.len());
        let (t, r, metal) = (
            routed.terminal.total,
            routed.refined.total,
            routed.refined.metal,
        );
        let wires = net.wires().unwrap().len();
        let (x, y) = (net.weights.x, net.weights.y);
        let expected = format!(
            "{},{m},{k},{x},{y},{t},{r},{metal},{wires},",
            file.display()
        );
        assert!(
            line.starts_with(&expected) && line.ends_with(",,"),
            "{line}"
        );
    }
    assert!(lines[41].contains(",16,\"refused 16: two macros' interiors meet: line "));
    assert!(
        lines[42].contains("a, \"\"b\"\".txt\",,,,,,,,,,,\"line 2: 'pan' is neither"),
        "{}",
        lines[42]
    );
    assert!(
        lines[43].contains(",,,,,,,,,,,No such file"),
        "{}",
        lines[43]
    );
    for jobs in ["1", "7"] {
        let again = run(&words(&["--jobs", jobs], &files), b"");
        assert_eq!(String::from_utf8(again.stdout).unwrap(), text);
    }
}

/// The shards' lines put together are those of one run.
#[test]
fn shards_put_together() {
    let files = nets("shards");
    let whole = run(&words(&[], &files), b"").stdout;
    let mut parts: Vec<String> = Vec::new();
    for shard in ["--shard=1/4", "--shard=2/4", "--shard=3/4", "--shard=4/4"] {
        let output = run(&words(&[shard], &files), b"");
        let text = String::from_utf8(output.stdout).unwrap();
        parts.extend(text.lines().map(str::to_string));
    }
    let mut whole: Vec<String> = String::from_utf8(whole)
        .unwrap()
        .lines()
        .map(str::to_string)
        .collect();
    whole.sort();
    parts.sort();
    assert_eq!(parts, whole);
    for shard in ["0/4", "5/4", "1", "a/b", "1/0"] {
        let wrong = said(&["batch", "--shard", shard, "x"], b"", 2);
        assert!(
            wrong.contains("--shard is I/N with I from 1 to N"),
            "{wrong}"
        );
    }
    assert!(said(&["batch", "--jobs", "0", "x"], b"", 2).contains("--jobs is 1 to 1024"));
}

/// Names from a list, text lines instead of values, and a word on progress at the end.
#[test]
fn lists_and_progress() {
    let folder = folder("list");
    let (net, list) = (folder.join("net.txt"), folder.join("list"));
    fs::write(&net, "pin 0 0\npin 4 0\npin 2 3\n").unwrap();
    fs::write(&list, format!("{0}\n{0}\n", net.display())).unwrap();
    let line = format!(
        "{}: pins 3 macros 0 weights 1 1 terminal 9 refined 7 metal 7 wires 3 fingerprint 314d-ed04-9810-bef2\n",
        net.display()
    );
    let text = printed(&["batch", "--quiet", "--list", word(&list)], b"");
    assert_eq!(text, line.repeat(2));
    let names = fs::read(&list).unwrap();
    let output = run(&["batch", "--list", "-"], &names);
    assert_eq!(String::from_utf8(output.stdout).unwrap(), text);
    let progress = String::from_utf8(output.stderr).unwrap();
    assert!(
        progress.starts_with("calzundi batch: 2 of 2 nets, 2 routed, 0 not, "),
        "{progress}"
    );
    assert!(said(&["batch"], b"", 2).contains("NET is missing"));
}

/// What a batch sums up from the wires is what the trees' own calls say.
#[test]
fn wires_add_up_to_the_tree() {
    for &kind in Kind::ALL {
        for seed in 0..seeds(kind, 6) {
            let net = made(&net(kind, seed));
            let (tree, wires) = (net.refined_tree().unwrap(), net.wires().unwrap());
            let metal: i64 = wires.iter().map(|wire| wire.length()).sum();
            let cost: i64 = wires.iter().map(|wire| wire.cost(net.weights)).sum();
            assert_eq!((metal, cost), (tree.metal, tree.total), "{}", kind.name());
        }
    }
}
