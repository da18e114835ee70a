//! The Python module: its words are the crate's, and where python3 is there, its answers the program's. The test with 1,000 nets is in
//! tools/with-clients.

mod common;

use std::process::Command;

use calzundi::Refusal;
use common::{folder, root, word};

/// Refusals are said in the same words.
#[test]
fn words_are_the_crates() {
    let module = include_str!("../../python/calzundi.py");
    let table = module.split("MEANINGS = {").nth(1).unwrap();
    let table = table.split('}').next().unwrap();
    assert_eq!(
        table.lines().filter(|line| line.contains(':')).count(),
        Refusal::ALL.len()
    );
    for refusal in Refusal::ALL {
        let said = refusal.to_string();
        let meaning = said.split_once(": ").unwrap().1;
        let line = format!("    {}: \"{meaning}\",", refusal.number());
        assert!(table.contains(&line), "{line}");
    }
}

#[test]
fn answers_are_the_programs() {
    let has_python = Command::new("python3").arg("--version").output();
    if !has_python.is_ok_and(|output| output.status.success()) {
        eprintln!("skipped: python3 is missing");
        return;
    }
    let folder = folder("python");
    let made = Command::new(root().join("python/wheel"))
        .arg(&folder)
        .output()
        .unwrap();
    assert!(
        made.status.success(),
        "{}",
        String::from_utf8_lossy(&made.stderr)
    );
    let test = root().join("tools/clients/python_test.py");
    let route = root().join("target/bin/route");
    let output = Command::new("python3")
        .args([word(&test), word(&folder), word(&route), "40"])
        .output()
        .unwrap();
    let wrong = String::from_utf8_lossy(&output.stderr);
    assert!(output.status.success(), "{wrong}");
    let said = String::from_utf8_lossy(&output.stdout);
    assert!(said.ends_with(": 40 nets equal to route\n"), "{said}");
}
