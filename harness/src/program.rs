//! The proved program `route`.

use std::io::Write;
use std::path::{Path, PathBuf};
use std::process::{Command, Output, Stdio};

/// Where tools/library puts the program; CALZUNDI_ROUTE names another place.
pub fn path() -> PathBuf {
    let made = Path::new(env!("CARGO_MANIFEST_DIR")).join("../target/bin/route");
    let path = std::env::var_os("CALZUNDI_ROUTE").map_or(made, PathBuf::from);
    let name = path.display();
    assert!(
        path.exists(),
        "{name} is not there: `tools/library` makes it"
    );
    path
}

/// What the program does with bytes on its standard input.
pub fn run(bytes: &[u8]) -> Output {
    let mut child = Command::new(path())
        .stdin(Stdio::piped())
        .stdout(Stdio::piped())
        .stderr(Stdio::piped())
        .spawn()
        .unwrap();
    // A program that has read enough may be gone. No answer is begun before that, so nothing waits for room in a pipe.
    let _ = child.stdin.take().unwrap().write_all(bytes);
    child.wait_with_output().unwrap()
}
