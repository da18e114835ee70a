//! The program `route`, byte for byte beside the second program.

use std::fs::File;
use std::io::Write;
use std::path::Path;
use std::process::{Command, Output, Stdio};
use std::thread;
use std::time::{Duration, Instant};

use harness::matching::{each_of, file, routed};
use harness::program::path as program;
use reference::generate::{loaded, net, weighted, Kind};
use reference::lists::Lists;
use reference::netfile;
use reference::route::route;
use reference::text;

fn command() -> Command {
    let mut command = Command::new(program());
    command.stdout(Stdio::piped()).stderr(Stdio::piped());
    command
}

/// What the program does with bytes on its standard input, in pieces of a size, with a pause after each where they are small.
fn run(bytes: &[u8], piece: usize) -> Output {
    let mut child = command().stdin(Stdio::piped()).spawn().unwrap();
    let mut input = child.stdin.take().unwrap();
    for part in bytes.chunks(piece) {
        // A program that has read enough may be gone.
        let _ = input.write_all(part);
        if piece < bytes.len() {
            thread::sleep(Duration::from_micros(200));
        }
    }
    drop(input);
    child.wait_with_output().unwrap()
}

/// What it printed; it must have ended well, with nothing on standard error.
fn printed(output: Output, name: &str) -> String {
    assert!(output.status.success(), "{name}: {}", output.status);
    assert_eq!(output.stderr, b"", "{name}");
    String::from_utf8(output.stdout).unwrap()
}

/// Both programs on the same bytes.
fn matched(bytes: &[u8], name: &str) {
    let ours = printed(run(bytes, usize::MAX), name);
    let theirs = route(bytes);
    assert!(
        ours == theirs,
        "{name}\nthe proved program:\n{ours}\nthe second program:\n{theirs}\nthe file: {bytes:?}"
    );
}

#[test]
fn five_thousand_net_files() {
    each_of(5_000, |seed| {
        let case = routed(seed);
        let name = format!("{} {seed}", case.kind);
        matched(&netfile::write(&case.lists), &name);
    });
}

#[test]
fn fifty_thousand_damaged_files() {
    each_of(50_000, |seed| {
        let damaged = file(seed);
        matched(&damaged.bytes, &format!("{} {seed}", damaged.kind));
    });
}

/// "For the third net it prints, whole".
#[test]
fn the_printed_example() {
    let lists = text::parse("pin 0 0\npin 4 0\npin 2 3\n").unwrap();
    let whole = "\
pins 3 macros 0 terminal 9 refined 7 metal 7
0 0 2 0 2
2 0 2 3 3
2 0 4 0 2
";
    let bytes = netfile::write(&lists);
    assert_eq!(printed(run(&bytes, usize::MAX), "the third net"), whole);
}

/// P2 and P3: the header ends with the metal, in plain length, and an edge's line with its cost.
#[test]
fn the_weighed_net() {
    let lists = text::parse("weights 1 3\npin 3 1\npin 0 0\npin 2 0\npin 0 2\n").unwrap();
    let whole = "\
pins 4 macros 0 terminal 12 refined 11 metal 7
0 0 0 1 3
0 0 2 0 2
0 1 0 2 3
0 1 3 1 3
";
    let bytes = netfile::write(&lists);
    assert_eq!(printed(run(&bytes, usize::MAX), "the weighed net"), whole);
    let mut blocks = netfile::blocks_of(&bytes);
    for word in [1, 9] {
        blocks[0][6] = word;
        netfile::seal(&mut blocks[0]);
        let bytes = netfile::bytes_of(&blocks);
        let name = format!("head word 6 is {word}");
        assert_eq!(printed(run(&bytes, usize::MAX), &name), "refused 3\n");
    }
}

/// The bytes that `third-net` (crates/report/proofs/WorkedRoute.antt) speaks of are those of the example, and of what the gate runs.
#[test]
fn the_proved_example() {
    let mut bytes = vec![0; 1_024];
    for (at, byte) in [(0, 1), (16, 3), (504, 4), (508, 236), (509, 1)] {
        bytes[at] = byte;
    }
    for (at, byte) in [(512, 2), (516, 1), (520, 3), (536, 4), (544, 2), (548, 3)] {
        bytes[at] = byte;
    }
    for (at, byte) in [(1_016, 15), (1_020, 24), (1_021, 7)] {
        bytes[at] = byte;
    }
    let root = Path::new(env!("CARGO_MANIFEST_DIR")).join("..");
    for name in ["examples/files/three-pins.net", "crates/route/stdin"] {
        assert_eq!(std::fs::read(root.join(name)).unwrap(), bytes, "{name}");
    }
}

#[test]
fn the_worked_nets() {
    for name in [
        "one-pin",
        "around-one",
        "three-pins",
        "shared-side",
        "on-sides",
        "on-boundary",
        "loads",
        "eight-pins",
    ] {
        let path =
            Path::new(env!("CARGO_MANIFEST_DIR")).join(format!("../examples/files/{name}.net"));
        matched(&std::fs::read(path).unwrap(), name);
    }
    let none = netfile::write(&Lists::default());
    assert_eq!(printed(run(&none, usize::MAX), "no pin"), "refused 11\n");
}

/// A pipe gives what it has; the program reads on.
#[test]
fn input_in_small_pieces() {
    for lists in [
        weighted(Kind::Largest, 1),
        net(Kind::TinyEight, 3),
        net(Kind::NoMacros, 2),
    ] {
        let bytes = netfile::write(&lists);
        for piece in [1, 7, 100, 511, 512, 513, 1_000, 3_071] {
            let name = format!("pieces of {piece}");
            assert_eq!(printed(run(&bytes, piece), &name), route(&bytes), "{name}");
        }
    }
}

/// Nothing, a byte less or more than whole blocks, and much more than ten blocks.
#[test]
fn inputs_of_every_length() {
    let largest = netfile::write(&loaded(&net(Kind::Largest, 1), 1));
    for length in [
        0, 1, 511, 512, 513, 3_071, 3_072, 3_073, 4_608, 5_119, 5_120, 5_121, 5_631, 5_632, 65_536,
        1_000_000,
    ] {
        let mut bytes = largest.clone();
        bytes.resize(length, 0);
        matched(&bytes, &format!("{length} bytes"));
        // The next blocks are right ones too.
        let bytes: Vec<u8> = largest.iter().copied().cycle().take(length).collect();
        matched(&bytes, &format!("{length} bytes, the file over and over"));
    }
}

/// Standard input that cannot be read holds no file: it is as an empty one.
#[test]
fn inputs_that_cannot_be_read() {
    let closed = Command::new("sh")
        .args(["-c", "exec \"$1\" <&-", "sh"])
        .arg(program())
        .output()
        .unwrap();
    assert_eq!(printed(closed, "closed"), "refused 1\n");
    let nothing = command().stdin(Stdio::null()).output().unwrap();
    assert_eq!(printed(nothing, "nothing"), "refused 1\n");
    let folder = command().stdin(File::open("/").unwrap()).output().unwrap();
    assert_eq!(printed(folder, "a folder"), "refused 1\n");
}

/// Standard output that cannot be written: standard error says so. The status is 0 even then.
#[test]
fn outputs_that_cannot_be_written() {
    let said = "route: the answer could not be written to standard output\n";
    for name in ["three-pins", "eight-pins"] {
        let path =
            Path::new(env!("CARGO_MANIFEST_DIR")).join(format!("../examples/files/{name}.net"));
        let full = Command::new(program())
            .stdin(File::open(&path).unwrap())
            .stdout(File::options().write(true).open("/dev/full").unwrap())
            .output()
            .unwrap();
        let closed = Command::new("sh")
            .args(["-c", "exec \"$1\" >&-", "sh"])
            .arg(program())
            .stdin(File::open(&path).unwrap())
            .output()
            .unwrap();
        for output in [full, closed] {
            assert_eq!(String::from_utf8(output.stderr).unwrap(), said, "{name}");
            assert!(output.status.success(), "{name}: {}", output.status);
        }
    }
}

/// An input without end is longer than ten blocks, and the answer does not wait for more.
#[test]
fn an_endless_input() {
    let zeros = File::open("/dev/zero").unwrap();
    let mut child = command().stdin(zeros).spawn().unwrap();
    let start = Instant::now();
    while child.try_wait().unwrap().is_none() {
        if start.elapsed() > Duration::from_secs(60) {
            child.kill().unwrap();
            panic!("no answer in a minute");
        }
        thread::sleep(Duration::from_millis(5));
    }
    let output = child.wait_with_output().unwrap();
    assert_eq!(printed(output, "endless"), "refused 1\n");
}
