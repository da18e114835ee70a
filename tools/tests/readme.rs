//! The README's lines are pasted as they stand, into a shell in the repository's root, and must print what it says that they print.

mod common;

use std::process::Command;

use common::root;

/// The blocks of a language, in order.
fn blocks(text: &str, language: &str) -> Vec<String> {
    let mut found = Vec::new();
    let mut lines = text.lines();
    while let Some(line) = lines.next() {
        if line == format!("```{language}") {
            let block = lines.by_ref().take_while(|line| *line != "```");
            found.push(block.map(|line| format!("{line}\n")).collect());
        }
    }
    found
}

#[test]
fn its_lines_can_be_pasted() {
    let readme = include_str!("../../README.md");
    let pasted = blocks(readme, "sh");
    // The first block proves and tests everything: this test is part of it. The example in Rust is run by the crate's tests.
    assert!(pasted[0].starts_with("./run "), "{}", pasted[0]);
    assert!(pasted.len() >= 4);
    let lines = pasted[1..].concat();
    let lines: String = lines
        .lines()
        .filter(|line| !line.starts_with("cargo "))
        .map(|line| format!("{line}\n"))
        .collect();
    let output = Command::new("bash")
        .args(["-e", "-c", &lines])
        .current_dir(root())
        .output()
        .unwrap();
    let wrong = String::from_utf8_lossy(&output.stderr);
    assert!(output.status.success(), "{wrong}\n{lines}");
    let printed = String::from_utf8(output.stdout).unwrap();
    for block in blocks(readme, "text") {
        assert!(printed.contains(&block), "{block} is not in\n{printed}");
    }
    for word in ["charge ", "same metal\n", "net,pins,macros,"] {
        assert!(printed.contains(word), "{word} is not in\n{printed}");
    }
}

/// Every page and every picture that the documents for newcomers link to is there.
#[test]
fn its_links_lead_somewhere() {
    for page in [
        "README.md",
        "docs/LIBRARY.md",
        "docs/ROOMS.md",
        "docs/PROVED.md",
    ] {
        let file = root().join(page);
        let text = std::fs::read_to_string(&file).unwrap();
        let links = text
            .split("](")
            .skip(1)
            .filter_map(|rest| rest.split(')').next());
        for link in links.filter(|link| !link.contains("://")) {
            let path = link.split('#').next().unwrap();
            let target = file.parent().unwrap().join(path);
            assert!(path.is_empty() || target.exists(), "{page}: {link}");
        }
    }
}
