//! The pictures: those in docs are made anew and compared byte for byte, and what every picture must have is looked for in nets of each
//! kind and in those that were hard to read.

mod common;

use std::fs;

use calzundi::{Net, Technology};
use common::{example, folder, made, printed, refused, root, said, seeds, word};
use reference::generate::{weighted as net, Kind};
use tools::commands::html;
use tools::delay::Asked;
use tools::picture::sheet::sheet;
use tools::picture::Subject;

/// Stored beside the documents; `calzundi draw` made them.
#[test]
fn stored_pictures() {
    let folder = folder("stored");
    for (name, picture) in [
        ("three-pins", "third_net.svg"),
        ("eight-pins", "eight_pins.svg"),
    ] {
        let anew = folder.join(picture);
        printed(&["draw", word(&example(name)), "-o", word(&anew)], b"");
        let stored = fs::read(root().join("docs").join(picture)).unwrap();
        assert!(
            fs::read(&anew).unwrap() == stored,
            "docs/{picture} is not what `calzundi draw examples/nets/{name}.txt` makes; {} is",
            anew.display()
        );
    }
}

/// The value of an attribute in a line.
fn attribute(line: &str, name: &str) -> f64 {
    let start = line.find(&format!(" {name}=\"")).expect(line) + name.len() + 3;
    let end = start + line[start..].find('"').unwrap();
    line[start..end].parse().expect(line)
}

/// A text with its room: left, top, right, bottom.
fn texts(picture: &str) -> Vec<(String, [f64; 4])> {
    let mut size = 0.0;
    let mut found = Vec::new();
    for line in picture.lines() {
        if line.contains("font-size") {
            size = attribute(line, "font-size");
        }
        if line.contains("<text ") {
            let (x, y) = (attribute(line, "x"), attribute(line, "y"));
            let words = line[line.find('>').unwrap() + 1..line.rfind('<').unwrap()].to_string();
            let width = words.chars().count() as f64 * size * 0.61;
            found.push((words, [x, y - 0.8 * size, x + width, y + 0.2 * size]));
        }
    }
    found
}

fn overlap(a: &[f64; 4], b: &[f64; 4]) -> bool {
    a[0] < b[2] && b[0] < a[2] && a[1] < b[3] && b[1] < a[3]
}

/// Every disc of a pin: its spot in the picture, panel after panel.
fn discs(picture: &str) -> Vec<(f64, f64)> {
    let lines = picture
        .lines()
        .filter(|line| line.contains("<circle ") && line.contains("<title>"));
    lines
        .map(|line| (attribute(line, "cx"), attribute(line, "cy")))
        .collect()
}

/// What holds of every picture: nothing is cut off, no words stand over others, each macro and each pin is seen in both panels, pins apart
/// from each other, and the metal to lay is said.
fn seen(net: &Net, name: &str) {
    let subject = Subject::of(net).unwrap();
    drawn(&subject, subject.routed.refined.metal, name);
    let asked = Asked {
        driver: net.pins[0].place,
        technology: Technology {
            resistance: 0.03,
            capacitance: 0.0002,
        },
    };
    let delays = asked.of(net).unwrap();
    let delayed = subject.clone().delayed(&asked, &delays);
    drawn(&delayed, subject.routed.refined.metal, name);
    let slid = net.slid_tree().unwrap();
    let metal = slid.metal;
    drawn(&subject.beside("slid tree", slid), metal, name);
}

fn drawn(subject: &Subject, metal: i64, name: &str) {
    let picture = sheet(subject);
    let head = picture.lines().next().unwrap();
    let (width, height) = (attribute(head, "width"), attribute(head, "height"));
    let all = texts(&picture);
    for (words, room) in &all {
        let within = room[0] >= 0.0 && room[1] >= 0.0 && room[2] <= width && room[3] <= height;
        assert!(within, "{name}: '{words}' is cut off");
    }
    for (at, (words, one)) in all.iter().enumerate() {
        for (other, room) in &all[..at] {
            assert!(
                !overlap(one, room),
                "{name}: '{words}' stands over '{other}'"
            );
        }
    }
    let (m, k) = (subject.net.pins.len(), subject.net.macros.len());
    let by = subject.other.as_ref();
    let by = by.map_or(String::new(), |other| format!(" by the {}", other.name));
    let metal = format!("metal to lay {}{by}", tools::picture::grouped(metal));
    assert!(
        all.iter().any(|(words, _)| *words == metal),
        "{name}: {metal}"
    );
    let macros = picture.lines();
    let macros: Vec<&str> = macros
        .filter(|line| line.contains("<rect ") && line.contains("<title>macro "))
        .collect();
    assert_eq!(macros.len(), 2 * k, "{name}");
    for line in &macros {
        let (width, height) = (attribute(line, "width"), attribute(line, "height"));
        assert!(width >= 7.5 && height >= 7.5, "{name}: {line}");
    }
    let pins = discs(&picture);
    assert_eq!(pins.len(), 2 * m, "{name}");
    for (at, one) in pins.iter().enumerate() {
        for other in &pins[..at] {
            let apart = (one.0 - other.0).abs().max((one.1 - other.1).abs());
            assert!(apart >= 13.0, "{name}: two pins are drawn {apart} apart");
        }
    }
    let terminal = subject.paths.concat();
    let (_, none) = subject.other_points(&terminal);
    assert_eq!(none, vec![], "{name}: the terminal tree has corners only");
    let other = subject.other.as_ref();
    let trees = [
        &subject.routed.refined.edges,
        other.map_or(&terminal, |other| &other.tree.edges),
    ];
    let points = trees.map(|edges| subject.other_points(edges));
    let count = |what: &str| picture.matches(what).count();
    let [corners, steiner] = [
        points[0].0.len() + points[1].0.len(),
        points[0].1.len() + points[1].1.len(),
    ];
    assert_eq!(count("<title>corner "), corners, "{name}");
    assert_eq!(count("<title>Steiner point "), steiner, "{name}");
}

#[test]
fn nothing_is_missing_or_cut_off() {
    for &kind in Kind::ALL {
        for seed in 0..seeds(kind, 10) {
            seen(&made(&net(kind, seed)), &format!("{} {seed}", kind.name()));
        }
    }
}

/// Nets that could not be read: macros that vanished, pins that hid the metal, pins on one line.
#[test]
fn what_could_not_be_seen() {
    let none: [(i32, i32, i32, i32); 0] = [];
    let thin = (-100, -1_000_000, 100, 900_000);
    let ends = [(-1_000_000, -1_000_000), (1_000_000, 1_000_000)];
    seen(&Net::new(ends, [thin]), "a macro 200 wide on two million");
    let line = (0..128).map(|x| (x, 0));
    seen(&Net::new(line, none), "128 pins on a line");
    let column = (0..128).map(|y| (-1_000_000, -1_000_000 + y * 15_500));
    seen(&Net::new(column, none), "128 pins on an upright line");
    let near = (0..127).map(|at| (7 * at % 128, 11 * at % 61));
    let far = near.chain([(1_000_000, 1_000_000)]);
    seen(
        &Net::new(far, none),
        "127 pins near one place and one far away",
    );
    let slits = (0..20).map(|at| (at * 2, 0, at * 2 + 1, 1_000_000));
    let pins = [(-1_000_000, 5), (1_000_000, 6)];
    seen(&Net::new(pins, slits), "twenty macros with slits of one");
    seen(&Net::new([(5, 5)], none), "one pin");
}

/// The terminal paths in a picture are those of the second program, vertex for vertex.
#[test]
fn terminal_paths_are_the_routers() {
    for &kind in Kind::ALL {
        for seed in 0..seeds(kind, 12) {
            let lists = net(kind, seed);
            let subject = Subject::of(&made(&lists)).unwrap();
            let checked = reference::net::check(&lists.pins, &lists.macros, lists.weights).unwrap();
            let tree = reference::terminal::terminal(&checked);
            assert_eq!(subject.paths.len(), tree.paths.len());
            for (ours, theirs) in subject.paths.iter().zip(&tree.paths) {
                let weights = subject.net.weights;
                let cost: i64 = ours.iter().map(|edge| edge.cost(weights)).sum();
                assert_eq!(cost, theirs.cost, "{} {seed}", kind.name());
                let mut places: Vec<(i64, i64)> = Vec::new();
                for edge in ours {
                    for end in [edge.first, edge.second] {
                        places.push((end.x.into(), end.y.into()));
                    }
                }
                places.sort_unstable();
                places.dedup();
                let mut right: Vec<(i64, i64)> =
                    theirs.vertices.iter().map(|v| (v.x, v.y)).collect();
                right.sort_unstable();
                assert_eq!(places, right, "{} {seed}", kind.name());
            }
        }
    }
}

/// The page has every layer and every entry once in its table and once in the picture, and asks for nothing from elsewhere.
#[test]
fn the_page_is_whole() {
    for (kind, seed) in [(Kind::Comb, 1), (Kind::Largest, 1), (Kind::OnePin, 2)] {
        let net = made(&net(kind, seed));
        let page = html("a <net> & more", &net).unwrap();
        let subject = Subject::of(&net).unwrap();
        for layer in ["graph", "terminal", "refined", "wires", "slid", "numbers"] {
            assert_eq!(page.matches(&format!("<g class=\"{layer}\"")).count(), 1);
            assert_eq!(page.matches(&format!("data-layer=\"{layer}\"")).count(), 1);
        }
        for (kind, count) in [
            ("edge", subject.routed.refined.edges.len()),
            ("path", subject.paths.len()),
            ("wire", subject.wires.len()),
            ("slid", net.slid_tree().unwrap().edges.len()),
            ("pin", net.pins.len()),
            ("macro", net.macros.len()),
        ] {
            for number in 1..=count {
                let id = format!("data-id=\"{kind}-{number}\"");
                assert_eq!(page.matches(&id).count(), 2, "{id}");
            }
            assert!(!page.contains(&format!("data-id=\"{kind}-{}\"", count + 1)));
        }
        assert!(page.contains("<title>a &lt;net&gt; &amp; more: metal to lay "));
        let outside = page.replace("http://www.w3.org/2000/svg", "");
        for asked in ["http:", "https:", "src=", "url(", "@TITLE@", "@SVG@"] {
            assert!(!outside.contains(asked), "{asked}");
        }
    }
}

/// `draw --slid` has the refined and the slid tree; `draw --tree` a tree of another router, and only where it passes for the net.
#[test]
fn another_tree_beside_the_refined_one() {
    let folder = folder("beside");
    let [net, tree, picture] = ["net.txt", "tree.txt", "net.svg"].map(|name| folder.join(name));
    fs::write(&net, "pin 2 3\npin 3 0\npin 0 1\nmacro 0 2 1 4\n").unwrap();
    let slid = printed(&["draw", "--slid", word(&net)], b"");
    for words in [
        ">refined tree 7<",
        ">slid tree 6<",
        ">metal to lay 6 by the slid tree<",
    ] {
        assert!(slid.contains(words), "{words}");
    }
    assert!(!slid.contains(">terminal tree"));
    let best = printed(&["draw", "--best", word(&net)], b"");
    for words in [
        ">refined tree 7<",
        ">best tree 6<",
        ">metal to lay 6 by the best tree<",
    ] {
        assert!(best.contains(words), "{words}");
    }
    fs::write(&tree, "3 0 3 1\n3 1 2 1\n2 1 0 1\n2 1 2 3\n").unwrap();
    let by = ["draw", "--tree", word(&tree), word(&net), "-o"];
    let words = [&by[..], &[word(&picture)]].concat();
    assert_eq!(printed(&words, b""), "");
    let drawn = fs::read_to_string(&picture).unwrap();
    assert!(drawn.contains(">tree of another router 6<"), "{drawn}");
    fs::remove_file(&picture).unwrap();
    fs::write(&tree, "0 1 2\n").unwrap();
    let wrong = said(&words, b"", 1);
    let expected = format!("calzundi draw: {}: line 1: ", tree.display());
    assert!(wrong.starts_with(&expected), "{wrong}");
    assert!(!picture.exists());
    fs::write(&tree, printed(&["route", word(&net)], b"")).unwrap();
    let over = [&by[..], &[word(&tree)]].concat();
    assert!(said(&over, b"", 2).contains("is not written over"));
    for (words, expected) in [
        (["--slid", "--tree=x"], "take one of "),
        (["--best", "--slid"], "take one of "),
        (["--slid", "--beside=x"], "take --html"),
    ] {
        let wrong = said(&["draw", words[0], words[1], word(&net)], b"", 2);
        assert!(wrong.contains(expected), "{wrong}");
    }
}

/// `draw --delay` has the delays at the refined tree's pins, and refuses what `delay` refuses.
#[test]
fn delays_at_the_pins() {
    let net = b"pin 2 0\npin 0 0 1\npin -1 0\npin 1 0\n";
    let picture = printed(&["draw", "--delay", "-1,0,1,1", "-"], net);
    for words in [">-1, 0: 0<", ">0, 0: 3.5<", ">2, 0: 5.5<", ">0, 0<"] {
        assert!(picture.contains(words), "{words}");
    }
    let wrong = refused(&["draw", "--delay", "-2,0,1,1", "-"], net, 39);
    assert!(wrong.contains("refused 39: "), "{wrong}");
    for words in [
        ["--delay=0,0,1", "--routed=x"],
        ["--delay=0,0,1,1", "--slid"],
    ] {
        said(&["draw", words[0], words[1], "-"], net, 2);
    }
}
