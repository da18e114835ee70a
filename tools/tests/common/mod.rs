//! What the tests of the program share.
#![allow(dead_code)]

pub mod json;

use std::fs;
use std::io::Write;
use std::path::{Path, PathBuf};
use std::process::{Command, Output, Stdio};

use calzundi::Net;
use reference::generate::Kind;
use reference::lists::Lists;

pub const CALZUNDI: &str = env!("CARGO_BIN_EXE_calzundi");
pub const COMMANDS: [&str; 14] = [
    "check",
    "route",
    "slide",
    "best",
    "shorten",
    "verify",
    "draw",
    "compare",
    "batch",
    "price",
    "distances",
    "delay",
    "pack",
    "unpack",
];

/// Runs the program with words and an input.
pub fn run(words: &[&str], input: &[u8]) -> Output {
    let mut child = Command::new(CALZUNDI)
        .args(words)
        .stdin(Stdio::piped())
        .stdout(Stdio::piped())
        .stderr(Stdio::piped())
        .spawn()
        .unwrap();
    // A program that reads a file instead may be gone before its input is written.
    let _ = child.stdin.take().unwrap().write_all(input);
    child.wait_with_output().unwrap()
}

/// What the program prints where it succeeds.
pub fn written(words: &[&str], input: &[u8]) -> Vec<u8> {
    let output = run(words, input);
    let wrong = String::from_utf8_lossy(&output.stderr).into_owned();
    assert_eq!(output.status.code(), Some(0), "{words:?}: {wrong}");
    assert_eq!(wrong, "", "{words:?}");
    output.stdout
}

pub fn printed(words: &[&str], input: &[u8]) -> String {
    String::from_utf8(written(words, input)).unwrap()
}

/// What the program says where it fails, with nothing printed.
pub fn said(words: &[&str], input: &[u8], status: i32) -> String {
    let output = run(words, input);
    let wrong = String::from_utf8(output.stderr).unwrap();
    assert_eq!(output.status.code(), Some(status), "{words:?}: {wrong}");
    assert_eq!(output.stdout, b"", "{words:?}");
    wrong
}

/// What the program says where something is refused: the number stands on standard output.
pub fn refused(words: &[&str], input: &[u8], number: i32) -> String {
    let output = run(words, input);
    let wrong = String::from_utf8(output.stderr).unwrap();
    assert_eq!(output.status.code(), Some(1), "{words:?}: {wrong}");
    let printed = String::from_utf8(output.stdout).unwrap();
    assert_eq!(printed, format!("refused {number}\n"), "{words:?}");
    wrong
}

/// A shell line that has the program as "$0"; what it says on standard error, and its status.
pub fn shell(line: &str, words: &[&str]) -> (Option<i32>, String) {
    let output = Command::new("sh")
        .args(["-c", line, CALZUNDI])
        .args(words)
        .stdin(Stdio::null())
        .output()
        .unwrap();
    let wrong = String::from_utf8_lossy(&output.stderr).into_owned();
    (output.status.code(), wrong)
}

pub fn root() -> PathBuf {
    Path::new(env!("CARGO_MANIFEST_DIR")).join("..")
}

/// A folder of a test's own, empty.
pub fn folder(name: &str) -> PathBuf {
    let folder = Path::new(env!("CARGO_TARGET_TMPDIR")).join(name);
    let _ = fs::remove_dir_all(&folder);
    fs::create_dir_all(&folder).unwrap();
    folder
}

pub fn word(path: &Path) -> &str {
    path.to_str().unwrap()
}

/// An example as text.
pub fn example(name: &str) -> PathBuf {
    root().join(format!("examples/nets/{name}.txt"))
}

/// A generated net by the crate's own kind.
pub fn made(lists: &Lists) -> Net {
    let pins = lists.pins.chunks_exact(3);
    let macros = lists
        .macros
        .chunks_exact(4)
        .map(|m| (m[0], m[1], m[2], m[3]));
    let pins = pins.map(|p| (p[0], p[1], p[2]));
    Net::new(pins, macros).with_weights(lists.weights.x, lists.weights.y)
}

/// So many seeds of a kind, and one of those that take long to make or to route.
pub fn seeds(kind: Kind, usual: u64) -> u64 {
    use Kind::{BoundEnds, Largest, LargestFar, LargestMaze};
    match kind {
        BoundEnds | Largest | LargestFar | LargestMaze => 1,
        _ => usual,
    }
}
