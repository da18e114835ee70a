//! Pictures are true, and what is refused can be seen: nets and trees with what is to blame in red.

mod common;

use std::fs;
use std::path::PathBuf;

use common::{example, folder, printed, refused, root, run, said, word};

const RED: &str = "#c8102e";

/// A net of a best tree with many points on straight metal.
const CROSSED: &str = "pin 0 0\npin 40 0\npin 20 30\npin 7 19\nmacro 10 5 15 25\nmacro 20 1 30 9\n";

fn net(name: &str, text: &str) -> PathBuf {
    let file = folder(name).join("net.txt");
    fs::write(&file, text).unwrap();
    file
}

/// The edges that a tree's text has, as places.
fn edges(text: &str) -> Vec<[(i32, i32); 2]> {
    let lines = text.lines().filter(|line| !line.starts_with("pins"));
    let edge = |line: &str| {
        let n: Vec<i32> = line.split(' ').map(|word| word.parse().unwrap()).collect();
        [(n[0], n[1]), (n[2], n[3])]
    };
    lines.map(edge).collect()
}

/// Points where metal goes straight on were diamonds: of a best tree nearly all.
#[test]
fn straight_metal_has_no_diamonds() {
    let file = net("straight", CROSSED);
    let tree = edges(&printed(&["best", word(&file)], b""));
    let mut wanted = Vec::new();
    let mut places: Vec<(i32, i32)> = tree.iter().flatten().copied().collect();
    places.sort_unstable();
    places.dedup();
    let fixed = |place: &(i32, i32)| {
        let pins = [(0, 0), (40, 0), (20, 30), (7, 19)];
        let corners = [10, 15].iter().flat_map(|&x| [5, 25].map(|y| (x, y)));
        let more = [20, 30].iter().flat_map(|&x| [1, 9].map(|y| (x, y)));
        pins.contains(place) || corners.chain(more).any(|one| one == *place)
    };
    for place in places.into_iter().filter(|place| !fixed(place)) {
        let own: Vec<(i32, i32)> = tree
            .iter()
            .filter(|edge| edge.contains(&place))
            .map(|edge| {
                let far = if edge[0] == place { edge[1] } else { edge[0] };
                ((far.0 - place.0).signum(), (far.1 - place.1).signum())
            })
            .collect();
        let straight = own.len() == 2 && own[0].0 == -own[1].0 && own[0].1 == -own[1].1;
        if !straight {
            wanted.push(place);
        }
    }
    assert!(
        tree.len() > wanted.len() + 6,
        "most points are on straight metal"
    );
    let picture = printed(&["draw", "--best", word(&file)], b"");
    // The second panel has the best tree; what the first has of the same kind is the refined tree's.
    let title = "<title>Steiner point or bend ";
    let second = picture.find(">best tree ").unwrap();
    let drawn = picture[second..].matches(title).count();
    assert_eq!(drawn, wanted.len());
}

/// Lengths stood at parts of straight metal whose ends cannot be seen.
#[test]
fn lengths_are_of_what_is_seen() {
    let folder = folder("lengths");
    let [net, tree] = ["net.txt", "tree.txt"].map(|name| folder.join(name));
    fs::write(&net, "pin 0 0\npin 100 0\npin 30 50\n").unwrap();
    fs::write(
        &tree,
        "0 0 11 0\n11 0 30 0\n30 0 52 0\n52 0 100 0\n30 0 30 17\n30 17 30 50\n",
    )
    .unwrap();
    let picture = printed(&["draw", "--tree", word(&tree), word(&net)], b"");
    let second = &picture[picture.find(">tree of another router ").unwrap()..];
    for (length, is_there) in [
        (30, true),
        (70, true),
        (50, true),
        (11, false),
        (48, false),
        (33, false),
    ] {
        let found = second.contains(&format!(">{length}</text>"));
        assert_eq!(found, is_there, "{length}");
    }
}

/// With more than 24 points delays stand in the table, and the caption said that they stand at the pins; it did not say from where.
#[test]
fn captions_of_delays_fit() {
    let few = printed(&["draw", "--delay", "0,0,0.5,2", "-"], CROSSED.as_bytes());
    for words in [
        ">at the refined tree's pins, after the colon: the delay, to five digits<",
        ">delays are from 0, 0 by resistance 0.5 and capacitance 2<",
    ] {
        assert!(few.contains(words), "{words}");
    }
    let many: String = (0..40)
        .map(|x| format!("pin {x} {}\n", x * 7 % 40))
        .collect();
    let many = printed(&["draw", "--delay", "0,0,0.5,2", "-"], many.as_bytes());
    let words = ">in the table below, after the colon: the delay, to five digits<";
    assert!(many.contains(words));
    assert!(!many.contains(">at the refined tree's pins"));
}

/// A sheet did not say which net it is of.
#[test]
fn every_sheet_has_name_and_fingerprint() {
    let file = example("three-pins");
    let tree = root().join("examples/tree.txt");
    let mark = "three-pins.txt: fingerprint 314d-ed04-9810-bef2";
    for more in [
        &[][..],
        &["--slid"],
        &["--best"],
        &["--tree", word(&tree)],
        &["--delay=0,0,1,1"],
    ] {
        let words = [&["draw", word(&file)], more].concat();
        let picture = printed(&words, b"");
        assert!(picture.contains(&format!(">{mark}")), "{more:?}");
        let title = picture.lines().nth(1).unwrap();
        assert!(
            title.contains("<title>three-pins.txt: metal to lay "),
            "{title}"
        );
    }
    let long = folder("long-name").join(format!("{}.txt", "n".repeat(200)));
    fs::write(&long, CROSSED).unwrap();
    let picture = printed(&["draw", word(&long)], b"");
    assert!(picture.contains(&format!(">{}...: fingerprint ", "n".repeat(60))));
}

/// A file named .png held SVG.
#[test]
fn names_of_other_pictures_are_refused() {
    let file = example("three-pins");
    let folder = folder("endings");
    for (name, html, wanted) in [
        ("net.png", false, "a picture is SVG: name it .svg"),
        ("net.PDF", false, "a picture is SVG: name it .svg"),
        (
            "net.html",
            false,
            "a picture is SVG: name it .svg, or take --html",
        ),
        ("net.svg", true, "a page is HTML: name it .html"),
        ("net.pdf", true, "a page is HTML: name it .html"),
    ] {
        let out = folder.join(name);
        let html: &[&str] = if html { &["--html"] } else { &[] };
        let words = [&["draw", word(&file), "-o", word(&out)], html].concat();
        let wrong = said(&words, b"", 2);
        assert!(wrong.contains(wanted), "{wrong}");
        assert!(!out.exists());
    }
    for name in ["net.svg", "net", "net.xml"] {
        printed(&["draw", word(&file), "-o", word(&folder.join(name))], b"");
    }
}

/// The page by keys: the first control comes first, rows of a table are one stop, the picture takes keys, with limits.
#[test]
fn the_page_goes_by_keys() {
    let page = printed(&["draw", "--html", word(&example("eight-pins"))], b"");
    let body = &page[page.find("<body>").unwrap()..];
    let first = ["<input", "<button", "tabindex=\"0\"", "<summary", "<a "]
        .iter()
        .filter_map(|what| Some((body.find(what)?, *what)))
        .min();
    assert_eq!(first.unwrap().1, "<input", "the layers come first");
    let tables = body.matches("<tbody>").count();
    assert_eq!(
        body.matches("<tr data-id=").count() - body.matches("tabindex=\"-1\"").count(),
        tables
    );
    for key in [
        "\"+\": nearer",
        "\"-\": further",
        "\"0\": whole",
        "ArrowLeft:",
        "ArrowDown:",
    ] {
        assert!(body.contains(key), "{key}");
    }
    assert!(body.contains("svg.setAttribute(\"tabindex\", \"0\")"));
    assert!(body.contains("between(start[2] / 100 / view[2], by, start[2] * 2 / view[2])"));
}

/// Shapes had no names for those who hear a picture.
#[test]
fn shapes_have_names() {
    let file = example("eight-pins");
    for words in [&["draw", word(&file)][..], &["draw", "--html", word(&file)]] {
        let picture = printed(words, b"");
        for name in ["pin 1: ", "macro 1: ", "edge "] {
            let label = format!("role=\"img\" aria-label=\"{name}");
            assert!(picture.contains(&label), "{words:?} {name}");
        }
    }
    let page = printed(&["draw", "--html", word(&file)], b"");
    for layer in ["refined tree", "wires", "graph"] {
        assert!(page.contains(&format!("role=\"group\" aria-label=\"{layer}\"")));
    }
}

/// A refused net could not be seen: now with what is to blame in red, in the picture and on the page, and the exit status is 1.
#[test]
fn refused_nets_are_drawn() {
    let folder = folder("refused");
    for (name, text, number, blamed) in [
        ("13", "pin 0 0\npin 2000000 5\n", 13, "pin 2"),
        ("14", "pin 9 9\nmacro 3 0 3 5\n", 14, "macro 1"),
        ("15", "pin 5 0\npin 1 1\npin 5 0\n", 15, "pin 3"),
        (
            "16",
            "pin 9 9\nmacro 0 0 2 2\nmacro 1 1 3 3\n",
            16,
            "macro 2",
        ),
        ("17", "pin 1 1\nmacro 0 0 2 2\n", 17, "macro 1"),
    ] {
        let (net, picture, page) = (
            folder.join(format!("{name}.txt")),
            folder.join(format!("{name}.svg")),
            folder.join(format!("{name}.html")),
        );
        fs::write(&net, text).unwrap();
        for (out, html) in [(&picture, &[][..]), (&page, &["--html"])] {
            let words = [&["draw", word(&net), "-o", word(out)], html].concat();
            let wrong = refused(&words, b"", number);
            assert!(
                wrong.contains(&format!("{name}.txt: refused {number}: ")),
                "{wrong}"
            );
            let drawn = fs::read_to_string(out).unwrap();
            assert!(drawn.contains(&format!("refused {number}: ")), "{drawn}");
            assert!(drawn.contains(&format!(">{blamed}<")), "{name}: {blamed}");
            assert!(drawn.contains(RED), "{name}");
        }
        let page = fs::read_to_string(&page).unwrap();
        assert!(
            page.contains("<tr data-id=\"") && page.contains("class=\"red\""),
            "{name}"
        );
    }
    // To standard output goes the picture, and to standard error the refusal.
    let output = run(&["draw", "-"], b"pin 5 0\npin 5 0\n");
    assert_eq!(output.status.code(), Some(1));
    assert!(output.stdout.starts_with(b"<svg ") && output.stdout.ends_with(b"</svg>\n"));
    let wrong = String::from_utf8(output.stderr).unwrap();
    assert!(
        wrong.starts_with("calzundi draw: standard input: refused 15: "),
        "{wrong}"
    );
    // An allowed net has nothing in red.
    assert!(!printed(&["draw", word(&example("eight-pins"))], b"").contains(RED));
    // Where nothing can be read, or too much, there is no picture.
    refused(&["draw", "-"], b"", 1);
    let many: String = (0..2_000).map(|x| format!("pin {x} 0\n")).collect();
    refused(&["draw", "-"], many.as_bytes(), 11);
    let many: String = (0..140).map(|x| format!("pin {x} 0\n")).collect();
    assert!(run(&["draw", "-"], many.as_bytes())
        .stdout
        .starts_with(b"<svg "));
}

/// A tree that does not pass could not be seen.
#[test]
fn failing_trees_are_drawn() {
    let folder = folder("failing");
    let [net, tree, picture, page] =
        ["net.txt", "tree.txt", "net.svg", "net.html"].map(|name| folder.join(name));
    fs::write(&net, "pin 0 0\npin 10 0\nmacro 4 -2 6 3\n").unwrap();
    for (edges, number, red) in [
        ("0 0 4 -2\n0 0 10 0\n5 9 5 9\n", 34, 2),
        ("0 0 4 -2\n4 -2 6 -2\n6 -2 10 0\n10 0 10 5\n", 35, 1),
        ("10 0 6 -2\n", 35, 1),
        ("0 0 10 2000000\n", 33, 1),
    ] {
        fs::write(&tree, edges).unwrap();
        let by = ["draw", "--tree", word(&tree), word(&net), "-o"];
        let wrong = refused(&[&by[..], &[word(&picture)]].concat(), b"", number);
        assert!(
            wrong.contains(&format!("tree.txt: refused {number}: ")),
            "{wrong}"
        );
        let drawn = fs::read_to_string(&picture).unwrap();
        assert!(drawn.contains(">tree of another router, which does not pass<"));
        let group = format!("<g fill=\"none\" stroke=\"{RED}\" stroke-width=\"2.5\"");
        let start = drawn.find(&group).expect("edges in red");
        let end = start + drawn[start..].find("</g>").unwrap();
        let count = drawn[start..end].matches("<path ").count();
        assert_eq!(count, red, "{edges}");
        refused(&[&by[..], &[word(&page), "--html"]].concat(), b"", number);
        let drawn = fs::read_to_string(&page).unwrap();
        let layer = drawn.find("<g class=\"tree\"").unwrap();
        let layer = &drawn[layer..layer + drawn[layer..].find("</g>").unwrap()];
        assert_eq!(layer.matches("class=\"red\"").count(), red, "{edges}");
    }
    // On the page a tree that passes has its layer too.
    fs::write(&tree, "0 0 4 -2\n4 -2 6 -2\n6 -2 10 0\n").unwrap();
    let passed = printed(&["draw", "--html", "--tree", word(&tree), word(&net)], b"");
    assert!(passed.contains("data-layer=\"tree\"") && passed.contains("data-id=\"tree-3\""));
    assert!(!passed.contains("class=\"red\""));
    let slid = printed(&["draw", "--html", "--slid", word(&net)], b"");
    assert!(
        slid.contains("data-layer=\"slid\" checked") && slid.contains("data-id=\"slid-1\""),
        "the slid tree is a layer"
    );
}

/// Wires of other routers end upon each other: `verify` says where to part them, and `--split` does.
#[test]
fn trees_are_split() {
    let folder = folder("split");
    let [net, tree, parted] = ["net.txt", "tree.txt", "parted.txt"].map(|name| folder.join(name));
    fs::write(&net, "pin 0 0\npin 4 0\npin 2 3\npin 2 1\n").unwrap();
    fs::write(&tree, "4 0 0 0\n2 3 2 0\n").unwrap();
    let output = run(&["verify", word(&net), word(&tree)], b"");
    assert_eq!(output.status.code(), Some(1));
    let text = String::from_utf8(output.stdout).unwrap();
    for line in [
        "\n  2 0 lies on line 1, edge 1 (4 0 0 0): split it there (`--split`)\n",
        "\n  2 1 lies on line 2, edge 2 (2 3 2 0): split it there (`--split`)\n",
    ] {
        assert!(text.contains(line), "{text}");
    }
    let words = [
        "verify",
        "--split",
        word(&net),
        word(&tree),
        "-o",
        word(&parted),
    ];
    let passed = printed(&words, b"");
    assert!(
        passed.ends_with(": passes, edges 4 cost 7 metal 7\n"),
        "{passed}"
    );
    let edges = fs::read_to_string(&parted).unwrap();
    assert_eq!(edges, "4 0 2 0\n2 0 0 0\n2 3 2 1\n2 1 2 0\n");
    let again = printed(&["verify", word(&net), word(&parted)], b"");
    assert!(
        again.ends_with(": passes, edges 4 cost 7 metal 7\n"),
        "{again}"
    );
    let drawn = printed(&["draw", "--split", "--tree", word(&tree), word(&net)], b"");
    assert!(drawn.contains(">tree of another router 7<"));
    // A crossing joins nothing unless it is split.
    fs::write(&tree, "0 0 4 0\n2 3 2 -1\n").unwrap();
    fs::write(&net, "pin 0 0\npin 4 0\npin 2 3\npin 2 -1\n").unwrap();
    let output = run(&["verify", word(&net), word(&tree)], b"");
    assert_eq!(output.status.code(), Some(1));
    let joined = printed(&["verify", "--split", word(&net), word(&tree)], b"");
    assert!(
        joined.ends_with(": passes, edges 4 cost 8 metal 8\n"),
        "{joined}"
    );
}

/// A refused net file could not be looked into.
#[test]
fn refused_nets_are_unpacked() {
    let file = fs::read(root().join("examples/files/eight-pins.net")).unwrap();
    let text = printed(&["unpack", "-"], &file);
    let mut damaged = file.clone();
    damaged[528] ^= 4;
    refused(&["unpack", "-"], &damaged, 2);
    let shown = printed(&["unpack", "--refused", "-"], &damaged);
    assert!(shown.starts_with("# refused 2: "), "{shown}");
    assert!(shown.contains("#   block 1: word 126 is "), "{shown}");
    let entries = shown.lines().filter(|line| !line.starts_with('#'));
    assert_eq!(entries.count(), text.lines().count());
    let overlapping = "pin 9 9\nmacro 0 0 2 2\nmacro 1 1 3 3\n";
    let shown = printed(&["unpack", "--refused", "-"], overlapping.as_bytes());
    assert!(shown.ends_with(overlapping), "{shown}");
    // An allowed net has no comments.
    assert_eq!(printed(&["unpack", "--refused", "-"], &file), text);
}
