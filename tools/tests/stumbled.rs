//! What people at the bench stumbled on: each of these was wrong, or said nothing.

mod common;

use std::fs;

use common::json::{parse, Json};
use common::{folder, printed, refused, run, said, word};

/// `--split` cut less in `verify` and `draw` than in `import`: crossings stayed, and metal upon metal counted twice.
#[test]
fn one_meaning_of_split() {
    let folder = folder("one-split");
    let [net, tree, layout] = ["net.txt", "tree.txt", "net.def"].map(|name| folder.join(name));
    fs::write(&net, "pin 0 0\npin 4 0\npin 2 3\npin 2 -2\n").unwrap();
    fs::write(&tree, "0 0 4 0\n2 3 2 -2\n3 0 0 0\n4 0 4 0\n").unwrap();
    let split = printed(&["verify", "--split", word(&net), word(&tree)], b"");
    assert!(
        split.ends_with(": passes, edges 5 cost 9 metal 9\n"),
        "{split}"
    );
    let told = run(&["verify", word(&net), word(&tree)], b"");
    assert_eq!(told.status.code(), Some(1));
    let drawn = printed(&["draw", "--split", "--tree", word(&tree), word(&net)], b"");
    assert!(drawn.contains(">tree of another router 9<"));
    let def = "VERSION 5.8 ;\nDESIGN d ;\nUNITS DISTANCE MICRONS 1000 ;\nNETS 1 ;\n\
        - n + ROUTED M1 ( 0 0 ) ( 4 0 ) NEW M1 ( 2 3 ) ( 2 -2 ) NEW M1 ( 3 0 ) ( 0 0 ) ;\nEND NETS\nEND DESIGN\n";
    fs::write(&layout, def).unwrap();
    let imported = printed(&["import", "--tree", "--split", word(&layout)], b"");
    let parted = folder.join("parted.txt");
    let words = [
        "verify",
        "--split",
        word(&net),
        word(&tree),
        "-o",
        word(&parted),
    ];
    printed(&words, b"");
    let lines = |text: &str| -> Vec<String> {
        let mut lines: Vec<String> = text
            .lines()
            .skip_while(|line| line.starts_with('#'))
            .map(String::from)
            .collect();
        lines.sort_unstable();
        lines
    };
    // The pin at 3 0 is no pin here, so the pieces of `import` are cut at the end of the third wire, as those of `verify` are.
    assert_eq!(
        lines(&imported),
        lines(&fs::read_to_string(&parted).unwrap())
    );
}

/// A refused net of more than 1,000 entries was not drawn, and nothing said why.
#[test]
fn too_many_to_draw() {
    let many: String = (0..1001).map(|x| format!("pin {x} 0\n")).collect();
    let told = refused(&["draw", "-"], many.as_bytes(), 11);
    assert!(
        told.contains("it is not drawn: it has 1001 entries"),
        "{told}"
    );
    let told = refused(&["draw", "--html", "-"], b"# nothing\n", 11);
    assert!(told.contains("there is nothing to draw"), "{told}");
}

/// A charge that no band reaches left a whole row of a batch empty.
#[test]
fn a_column_alone_is_refused() {
    let folder = folder("column");
    let [short, long, bands] = ["short.txt", "long.txt", "bands.txt"].map(|name| folder.join(name));
    fs::write(&short, "pin 0 0\npin 4 0\n").unwrap();
    fs::write(&long, "pin 0 0\npin 400 0\n").unwrap();
    fs::write(&bands, "100 10\n").unwrap();
    let by = [
        "batch",
        "--quiet",
        "--bands",
        word(&bands),
        "--form",
        word(&short),
        word(&long),
    ];
    let output = run(&by, b"");
    assert_eq!(output.status.code(), Some(1));
    let text = String::from_utf8(output.stdout).unwrap();
    let line = text.lines().nth(1).unwrap();
    assert!(
        line.contains(" metal 400 wires 1 ") && line.contains(" charge -; refused 32: "),
        "{line}"
    );
    let csv = String::from_utf8(run(&[&by[..], &["--csv"]].concat(), b"").stdout).unwrap();
    let cells: Vec<&str> = csv.lines().nth(2).unwrap().split(',').collect();
    assert_eq!(cells[1..8], ["2", "0", "1", "1", "400", "400", "400"]);
    assert_eq!(cells[11..13], ["", "32"], "{csv}");
    let json = String::from_utf8(run(&[&by[..], &["--jsonl"]].concat(), b"").stdout).unwrap();
    let row = json.lines().nth(1).unwrap();
    assert!(
        row.contains("\"metal\": 400") && row.contains("\"charge\": null, \"refused\": 32"),
        "{row}"
    );
}

/// Of many nets some were written before a name stopped the others.
#[test]
fn names_are_looked_at_first() {
    let folder = folder("first");
    let [one, two] = ["one.txt", "two.txt"].map(|name| folder.join(name));
    fs::write(&one, "pin 0 0\npin 4 0\n").unwrap();
    fs::write(&two, "pin 0 0\npin 5 0\n").unwrap();
    let there = folder.join("there");
    fs::create_dir(&there).unwrap();
    // The second net would be written over what is read.
    let read = there.join("two.svg");
    fs::write(&read, "0 0 5 0\n").unwrap();
    let into = format!("{}/", word(&there));
    let words = [
        "draw",
        "--tree",
        word(&read),
        word(&one),
        word(&two),
        "-o",
        &into,
    ];
    let told = said(&words, b"", 2);
    assert!(told.contains("is read; it is not written over"), "{told}");
    assert!(!there.join("one.svg").exists(), "the first one was written");
    // Where a net fails, it is said how many files there are.
    fs::write(&two, "pin 0 0\npin 0 0\n").unwrap();
    let told = refused(&["route", word(&one), word(&two), "-o", &into], b"", 15);
    assert!(
        told.ends_with("calzundi route: 1 of 2 files written\n"),
        "{told}"
    );
}

/// In JSON a name was as it is said, with what a terminal would act on written out, so that no program could open it.
#[test]
fn names_in_json_are_names() {
    let folder = folder("names");
    let odd = folder.join("a\tb \\ \u{301}\".txt");
    fs::write(&odd, "pin 0 0\npin 4 0\n").unwrap();
    for words in [
        &["check", "--json"][..],
        &["route", "--json"],
        &["batch", "--quiet", "--jsonl"],
    ] {
        let text = printed(&[words, &[word(&odd)]].concat(), b"");
        assert_eq!(named(&text, "net"), word(&odd), "{words:?}");
    }
    let text = printed(&["check", word(&odd)], b"");
    assert!(text.contains("a\\tb "), "{text}");
    fs::write(&odd, "pin 0\n").unwrap();
    let text = String::from_utf8(run(&["check", "--json", word(&odd)], b"").stdout).unwrap();
    assert_eq!(named(&text, "file"), word(&odd));
}

/// The text of a field of an object.
fn named(text: &str, field: &str) -> String {
    match parse(text) {
        Json::Object(fields) => match &fields[field] {
            Json::Text(name) => name.clone(),
            other => panic!("{other:?}"),
        },
        other => panic!("{other:?}"),
    }
}

/// Who gave a layout to a command that takes nets was told of bad lines, or of a length.
#[test]
fn layouts_are_known() {
    let folder = folder("layouts");
    let net = folder.join("net.txt");
    fs::write(&net, "pin 0 0\npin 4 0\n").unwrap();
    let [gds, def] = ["net.gds", "net.def"].map(|name| folder.join(name));
    printed(&["export", "--gds", word(&net), "-o", word(&gds)], b"");
    printed(&["export", "--def", word(&net), "-o", word(&def)], b"");
    for command in ["route", "check", "draw"] {
        let told = run(&[command, word(&gds)], b"");
        let told = [told.stdout, told.stderr].concat();
        let told = String::from_utf8(told).unwrap();
        assert!(
            told.contains("it is GDSII, and `calzundi import` makes a net of it"),
            "{told}"
        );
        let told = said(&[command, word(&def)], b"", 1);
        assert!(
            told.contains("it is DEF, and `calzundi import` makes a net of it"),
            "{told}"
        );
    }
    let told = said(&["verify", word(&net), word(&def)], b"", 1);
    assert!(
        told.contains("`calzundi import --tree --split` makes a tree of it"),
        "{told}"
    );
    // Also where it is longer than any net.
    let mut long = fs::read(&def).unwrap();
    long.extend(b"# more\n".repeat(200_000));
    fs::write(&def, long).unwrap();
    let told = said(&["check", word(&def)], b"", 1);
    assert!(
        told.contains("it is DEF, which `calzundi import` reads"),
        "{told}"
    );
    // Other bad text is told by its lines.
    let told = said(&["check", "-"], b"VERSIONS 5.8 ;\n", 1);
    assert!(told.contains("line 1: "), "{told}");
}

/// Only `draw` looked at the ending of a name, and only at a few.
#[test]
fn endings_are_kept_apart() {
    let folder = folder("endings");
    let net = folder.join("net.txt");
    fs::write(&net, "pin 0 0\npin 4 0\n").unwrap();
    for (words, ending, expected) in [
        (&["draw"][..], "gds", "a picture is SVG: name it .svg"),
        (&["draw", "--html"], "json", "a page is HTML: name it .html"),
        (
            &["export", "--gds"],
            "def",
            "a layout is GDSII: name it .gds, or take --def",
        ),
        (
            &["export", "--def"],
            "GDS",
            "a layout is DEF: name it .def, or take --gds",
        ),
        (&["pack"], "svg", "a net file is no text: name it .net"),
        (&["route"], "svg", "what is written is text: name it .tree"),
        (
            &["route", "--json"],
            "def",
            "what is written is JSON: name it .json",
        ),
        (&["unpack"], "def", "what is written is text: name it .txt"),
    ] {
        let out = folder.join(format!("out.{ending}"));
        let told = said(&[words, &[word(&net), "-o", word(&out)]].concat(), b"", 2);
        assert!(told.contains(expected), "{told}");
        assert!(!out.exists());
    }
    for (words, name) in [
        (&["route"][..], "out.txt"),
        (&["route"], "out"),
        (&["unpack"], "copy.net"),
        (&["draw"], "picture"),
        (&["draw"], "picture.xml"),
        (&["export", "--gds"], "layout.GDS"),
        (&["pack"], "packed.bin"),
    ] {
        let out = folder.join(name);
        printed(&[words, &[word(&net), "-o", word(&out)]].concat(), b"");
        assert!(out.exists(), "{name}");
    }
}

/// With `--shift` nets on two sites that differ in one wire had every wire listed as of one net alone.
#[test]
fn a_shift_with_one_other_wire() {
    let folder = folder("one-wire");
    let [one, two] = ["one.txt", "two.txt"].map(|name| folder.join(name));
    fs::write(&one, "pin 0 0\npin 40 0\npin 20 30\npin 20 -7\n").unwrap();
    fs::write(
        &two,
        "pin 1000 500\npin 1040 500\npin 1020 531\npin 1020 493\n",
    )
    .unwrap();
    let output = run(&["compare", "--shift", word(&one), word(&two)], b"");
    assert_eq!(output.status.code(), Some(1));
    let text = String::from_utf8(output.stdout).unwrap();
    let (a, b) = (one.display(), two.display());
    assert!(
        text.contains(&format!("{b} beside {a} shifted by 1000 500:\n")),
        "{text}"
    );
    assert_eq!(text.matches(&format!("only in {a}: ")).count(), 1, "{text}");
    assert_eq!(text.matches(&format!("only in {b}: ")).count(), 1, "{text}");
    // The same metal on another site has no wire of its own.
    fs::write(
        &two,
        "pin 1000 500\npin 1040 500\npin 1020 530\npin 1020 493\n",
    )
    .unwrap();
    let json = printed(
        &["compare", "--shift", "--json", word(&one), word(&two)],
        b"",
    );
    assert_eq!(json.matches("\"only\": []").count(), 2, "{json}");
}
