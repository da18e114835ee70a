//! The commands: what they write, what they say where something is wrong, and their exit status.

mod common;

use std::fs;

use calzundi::{Net, Refusal};
use common::{
    example, folder, made, printed, refused, root, run, said, seeds, word, written, COMMANDS,
};
use reference::generate::{
    bought, damaged_loaded, damaged_weighted, loaded, weighted as net, Bought, Damage, Kind, Ours,
};
use reference::lists::Lists;
use reference::netfile;
use reference::route::route;
use reference::worked::sliding;
use tools::routed::{wires_text, Routed};
use tools::source::source;
use tools::{text, tree};

/// Text to net to text, and net to file to net, for nets of every kind; the second program reads the same texts alike.
#[test]
fn round_trips() {
    for &kind in Kind::ALL {
        for seed in 0..seeds(kind, 10) {
            let lists = match seed % 2 {
                0 => net(kind, seed),
                _ => loaded(&net(kind, seed), seed),
            };
            let net = made(&lists);
            let said = text::print(&net);
            assert_eq!(text::parse(said.as_bytes()).unwrap().0, net);
            assert_eq!(reference::text::parse(&said), Ok(lists));
            let bytes = net.to_file().unwrap();
            let read = source("a net".into(), &bytes).unwrap();
            assert_eq!(read.net, net, "{}", kind.name());
            assert_eq!(read.verdict, Ok(()));
        }
    }
    for kind in [Kind::TinyFour, Kind::Largest, Kind::Far] {
        for lists in [net(kind, 3), loaded(&net(kind, 3), 3)] {
            let said = text::print(&made(&lists)).into_bytes();
            let bytes = written(&["pack", "-"], &said);
            assert_eq!(written(&["unpack", "-"], &bytes), said);
            assert_eq!(written(&["pack", "-", "-o", "-"], &bytes), bytes);
        }
    }
}

/// `route` prints what the second program's does, and so what the program `route` prints; text and net file alike.
#[test]
fn route_prints_what_the_program_prints() {
    for &kind in Kind::ALL {
        for seed in 0..seeds(kind, 8) {
            let net = made(&match seed % 2 {
                0 => net(kind, seed),
                _ => loaded(&net(kind, seed), seed),
            });
            let expected = route(&net.to_file().unwrap());
            assert_eq!(
                Routed::of(&net).unwrap().text(),
                expected,
                "{}",
                kind.name()
            );
        }
    }
    let name = example("eight-pins");
    let file = root().join("examples/files/eight-pins.net");
    let expected = route(&fs::read(&file).unwrap());
    assert_eq!(printed(&["route", word(&name)], b""), expected);
    assert_eq!(printed(&["route", word(&file)], b""), expected);
    let bytes = fs::read(&file).unwrap();
    assert_eq!(printed(&["route", "-"], &bytes), expected);
}

/// A refusal is printed as the program prints it, and standard error says more.
#[test]
fn route_refuses() {
    let output = run(&["route", word(&example("overlapping"))], b"");
    assert_eq!(output.status.code(), Some(1));
    assert_eq!(output.stdout, b"refused 16\n");
    let wrong = String::from_utf8(output.stderr).unwrap();
    assert!(
        wrong.contains("line 3, macro 1 (0 0 2 2) and line 4, macro 2"),
        "{wrong}"
    );
    let output = run(&["route", "--json", word(&example("no-pin"))], b"");
    assert_eq!(output.status.code(), Some(1));
    let object = String::from_utf8(output.stdout).unwrap();
    assert!(object.contains("\"refused\": 11,"), "{object}");
}

#[test]
fn route_as_wires_and_as_json() {
    let name = example("three-pins");
    assert_eq!(
        printed(&["route", "--wires", word(&name)], b""),
        "0 0 2 0\n2 0 2 3\n2 0 4 0\n"
    );
    let object = printed(&["route", "--json", word(&name)], b"");
    for part in [
        "\"terminal\": 9,",
        "\"refined\": 7,",
        "\"metal\": 7,",
        "\"weights\": [1, 1],",
        "\"fingerprint\": \"314d-ed04-9810-bef2\",",
        "\"macros\": [],",
        "{\"from\": [2, 0], \"to\": [2, 3], \"length\": 3, \"cost\": 3}",
        "    [2, 0, 4, 0]\n  ]\n}\n",
    ] {
        assert!(object.contains(part), "{part} is not in\n{object}");
    }
    let wrong = said(&["route", "--json", "--wires", word(&name)], b"", 2);
    assert!(wrong.contains("take one of the two"), "{wrong}");
}

/// The example files are what `pack` makes of the example texts, by names and by standard input.
#[test]
fn examples_are_packed() {
    let folder = folder("packed");
    let mut count = 0;
    for entry in fs::read_dir(root().join("examples/files")).unwrap() {
        let file = entry.unwrap().path();
        let name = file.file_stem().unwrap().to_str().unwrap();
        let (from, to) = (example(name), folder.join(name));
        assert_eq!(written(&["pack", word(&from), "-o", word(&to)], b""), b"");
        let bytes = fs::read(&file).unwrap();
        assert_eq!(fs::read(&to).unwrap(), bytes, "{name}");
        assert_eq!(written(&["pack", "-"], &fs::read(&from).unwrap()), bytes);
        let back = written(&["unpack", word(&file)], b"");
        assert_eq!(written(&["unpack", word(&from)], b""), back, "{name}");
        assert_eq!(written(&["pack", "-"], &back), bytes, "{name}");
        count += 1;
    }
    assert!(count >= 6);
}

#[test]
fn bad_lines_are_numbered() {
    let folder = folder("bad-lines");
    for (input, wrong) in [
        (
            &b"pin 0 0\n\n# a comment\npin 1\n"[..],
            "line 4: a pin needs a number for y",
        ),
        (
            b"pin 0 0\npan 1 1\n",
            "line 2: 'pan' is neither 'pin', 'macro' nor 'weights'",
        ),
        (
            b"macro 0 0 1 1 1\n",
            "line 1: '1' stands after the end of the macro",
        ),
        (
            b"pin 0 99999999999\n",
            "line 1: '99999999999' for y is no whole number of 32 bits",
        ),
        (b"pin 0 0\npin \xff 1\n", "line 2: not UTF-8 text"),
        (
            b"weights 1 1\npin 0 0\nweights 1 1\n",
            "line 3: the weights stand on line 1 already",
        ),
    ] {
        let expected = format!("calzundi pack: standard input: {wrong}\n");
        assert_eq!(said(&["pack", "-"], input, 1), expected);
        let (from, to) = (folder.join("net.txt"), folder.join("net.net"));
        fs::write(&from, input).unwrap();
        let expected = format!("calzundi pack: {}: {wrong}\n", from.display());
        assert_eq!(
            said(&["pack", word(&from), "-o", word(&to)], b"", 1),
            expected
        );
        assert!(!to.exists());
    }
}

/// The file of so many pins with a load of 1, a word of a block changed and the sums right.
fn with_loads(m: i32, (block, word): (usize, usize), number: u32) -> Vec<u8> {
    let lists = Lists {
        pins: (0..m).flat_map(|x| [x, 0, 1]).collect(),
        ..Lists::default()
    };
    let mut blocks = netfile::blocks_of(&netfile::write(&lists));
    blocks[block][word] = number;
    netfile::seal(&mut blocks[block]);
    netfile::bytes_of(&blocks)
}

/// Net files that are refused, with the block and the word that are wrong.
#[test]
fn bad_files_are_explained() {
    let three = fs::read(root().join("examples/files/three-pins.net")).unwrap();
    let mut flipped = three.clone();
    flipped[536] ^= 1;
    let sums = "word 126 is 15 and should be 16";
    for (bytes, number, reason) in [
        (vec![0; 3_585], 1, "it has 3585 bytes"),
        (three[..700].to_vec(), 1, "it has 700 bytes"),
        (flipped, 2, sums),
        (
            vec![0; 512],
            3,
            "block 0: word 0, the kind, is 0 and should be 1",
        ),
        (
            three[..512].to_vec(),
            3,
            "the head's 3 pins and 0 macros have 2 blocks, and the file has 1",
        ),
        (
            with_loads(1, (1, 6), 0),
            3,
            "block 1: its kind is 4, for pins with loads, and all loads are 0",
        ),
        (
            with_loads(41, (2, 0), 2),
            3,
            "block 2: word 0, the kind, is 2 and should be 4",
        ),
        (with_loads(1, (1, 6), 1_000_001), 13, "load is 1000001"),
    ] {
        let wrong = refused(&["unpack", "-"], &bytes, number);
        let expected = format!("calzundi unpack: standard input: refused {number}: ");
        assert!(wrong.starts_with(&expected), "{wrong}");
        assert!(wrong.contains(reason), "{wrong}");
    }
    // Every damage that the generator knows is refused by the router and explained here, and none of the two falls over.
    for &kind in Damage::ALL {
        for seed in 0..40 {
            let bytes = match seed % 2 {
                0 => damaged_weighted(kind, seed),
                _ => damaged_loaded(kind, seed),
            };
            let Ok(read) = source("a net".into(), &bytes) else {
                continue;
            };
            let Err(verdict) = &read.verdict else {
                continue;
            };
            let lines = verdict.blame.lines();
            let lone = verdict.refusal == Refusal::PinList;
            assert!(lines.len() > 1 || lone, "{}: {lines:?}", kind.name());
        }
    }
}

/// Several nets in one call: each has its answer, also after one that cannot be read.
#[test]
fn check_takes_several() {
    let (three, overlapping) = (example("three-pins"), example("overlapping"));
    let words = ["check", word(&three), "no/such", word(&overlapping)];
    let output = run(&words, b"");
    assert_eq!(output.status.code(), Some(1));
    let text = String::from_utf8(output.stdout).unwrap();
    assert!(
        text.contains("three-pins.txt: allowed, pins 3 macros 0\n"),
        "{text}"
    );
    assert!(text.contains("overlapping.txt: refused 16: "), "{text}");
    let wrong = String::from_utf8(output.stderr).unwrap();
    assert!(wrong.starts_with("calzundi check: no/such: "), "{wrong}");
    printed(&["check", word(&three), word(&three)], b"");
}

/// A line of weights: at most one, told by `check`, kept by `pack` and `unpack`, left out where both are 1, and refused by 18 with its
/// line.
#[test]
fn weights_of_a_net() {
    let three = "pin 0 0\npin 4 0\npin 2 3\n";
    let weighed = format!("weights 1 3\n{three}");
    let answer = printed(&["route", "-"], weighed.as_bytes());
    let net = Net::new([(0, 0), (4, 0), (2, 3)], []).with_weights(1, 3);
    assert_eq!(answer, route(&net.to_file().unwrap()));
    assert!(
        answer.starts_with("pins 3 macros 0 terminal 15 refined 13 metal 7\n"),
        "{answer}"
    );
    assert!(answer.contains("\n2 0 2 3 9\n"), "{answer}");
    let bytes = written(&["pack", "-"], weighed.as_bytes());
    assert_eq!(printed(&["unpack", "-"], &bytes), weighed);
    let ones = format!("{three}weights 1 1\n");
    assert_eq!(printed(&["unpack", "-"], ones.as_bytes()), three);
    let said = printed(&["check", "-"], weighed.as_bytes());
    assert_eq!(
        said,
        "standard input: allowed, pins 3 macros 0 weights 1 3\n"
    );
    let output = run(&["check", "-"], format!("{three}weights 0 9\n").as_bytes());
    assert_eq!(
        String::from_utf8(output.stdout).unwrap(),
        "standard input: refused 18: a weight is not from 1 to 8\n  \
         line 4, weights 0 9: that of x is 0\n  line 4, weights 0 9: that of y is 9\n"
    );
    let object = printed(&["route", "--json", "-"], weighed.as_bytes());
    let edge = "{\"from\": [2, 0], \"to\": [2, 3], \"length\": 3, \"cost\": 9}";
    assert!(
        object.contains("\"weights\": [1, 3],") && object.contains(edge),
        "{object}"
    );
    // A written 1 is refused as 3; it is told apart from other words of the head.
    let mut block: Vec<u32> = vec![0; 128];
    (block[0], block[4], block[6]) = (1, 3, 1);
    let mut sums = (0u32, 0u32);
    for word in &block[..126] {
        sums.0 = sums.0.wrapping_add(*word);
        sums.1 = sums.1.wrapping_add(sums.0);
    }
    (block[126], block[127]) = sums;
    let head: Vec<u8> = block.iter().flat_map(|word| word.to_le_bytes()).collect();
    let file = [&head, &bytes[512..]].concat();
    let output = run(&["check", "-"], &file);
    let text = String::from_utf8(output.stdout).unwrap();
    assert!(text.contains("refused 3: "), "{text}");
    assert!(
        text.contains("words 6 and 7, the weights, are 1 and 0"),
        "{text}"
    );
}

#[test]
fn compare_says_what_differs() {
    let folder = folder("compare");
    let (one, other) = (folder.join("one"), folder.join("other"));
    fs::write(&one, "pin 0 0\npin 4 0\npin 2 3\n").unwrap();
    fs::write(&other, "pin 2 3\npin 4 0\npin 0 0\n").unwrap();
    let same = printed(&["compare", word(&one), word(&other)], b"");
    let line = "wires 3 metal 7 fingerprint 314d-ed04-9810-bef2";
    let (a, b) = (one.display(), other.display());
    assert_eq!(same, format!("same metal\n{a}: {line}\n{b}: {line}\n"));
    fs::write(&other, "pin 2 3\npin 5 0\npin 0 0\n").unwrap();
    let output = run(&["compare", word(&one), word(&other)], b"");
    assert_eq!(output.status.code(), Some(1));
    let text = String::from_utf8(output.stdout).unwrap();
    assert!(text.starts_with("other metal\n"), "{text}");
    assert!(
        text.contains(&format!("only in {a}: wire 3, 2 0 4 0\n")),
        "{text}"
    );
    assert!(
        text.contains(&format!("only in {b}: wire 3, 2 0 5 0\n")),
        "{text}"
    );
    let wrong = refused(&["compare", word(&one), "-"], b"pin 0 0\npin 0 0\n", 15);
    assert!(wrong.contains("refused 15"), "{wrong}");
}

/// A net on another site, its lists in another order; one that only nearly is; and nets with no wires, which no shift tells apart.
#[test]
fn compare_knows_a_shift() {
    let folder = folder("shift");
    let (one, other) = (folder.join("one"), folder.join("other"));
    fs::write(&one, "pin 0 0\npin 4 0\npin 2 3\nmacro 1 1 3 2\n").unwrap();
    fs::write(
        &other,
        "pin -98 -2\npin -96 -5\nmacro -99 -4 -97 -3\npin -100 -5\n",
    )
    .unwrap();
    let shifted = printed(&["compare", "--shift", word(&one), word(&other)], b"");
    let line = "same metal, shifted by -100 -5\n";
    assert!(shifted.starts_with(line), "{shifted}");
    let plain = run(&["compare", word(&one), word(&other)], b"");
    assert_eq!(plain.status.code(), Some(1));
    assert!(plain.stdout.starts_with(b"other metal\n"));
    let same = printed(&["compare", "--shift", word(&one), word(&one)], b"");
    assert!(same.starts_with("same metal\n"), "{same}");
    let back = printed(&["compare", "--shift", word(&other), word(&one)], b"");
    assert!(back.starts_with("same metal, shifted by 100 5\n"), "{back}");
    fs::write(
        &other,
        "pin -98 -2\npin -96 -5\nmacro -99 -4 -97 -3\npin -100 -6\n",
    )
    .unwrap();
    let nearly = run(&["compare", "--shift", word(&one), word(&other)], b"");
    assert_eq!(nearly.status.code(), Some(1));
    assert!(nearly.stdout.starts_with(b"other metal\n"));
    fs::write(&one, "pin 0 0\n").unwrap();
    fs::write(&other, "pin 7 7\n").unwrap();
    let none = printed(&["compare", "--shift", word(&one), word(&other)], b"");
    assert!(none.starts_with("same metal\n"), "{none}");
}

/// The order of the lists is not the metal's, and the fingerprint is the wires' alone.
#[test]
fn fingerprints_are_of_wires() {
    for kind in [Kind::TinyFour, Kind::Comb, Kind::Small] {
        for seed in 0..10 {
            let lists = net(kind, seed);
            let turned = reference::generate::permuted(&lists, seed);
            let wires = |lists: &Lists| wires_text(&made(lists).wires().unwrap());
            assert_eq!(wires(&lists), wires(&turned));
        }
    }
}

/// `delay` prints a line for each pin in the order of places, in digits that are read back as the same bits; a driver or a number that
/// begins with a minus is no option.
#[test]
fn delays_are_a_table() {
    let row = b"pin 2 0\npin 0 0 1\npin -1 0\npin 1 0\n";
    let tiny = "1.1102230246251565e-16";
    let table =
        "-1 0  0\n0 0   1.0000000000000002\n1 0   1.0000000000000004\n2 0   1.0000000000000004\n";
    assert_eq!(printed(&["delay", "-", "-1,0", "1", tiny], row), table);
    let halves = "-1 0  0\n0 0   3.5\n1 0   5\n2 0   5.5\n";
    assert_eq!(printed(&["delay", "-", "-1,0", "1", "1"], row), halves);
    for (words, number, line) in [
        (
            ["-1,0", "0", "-1"],
            38,
            "refused 38: a resistance or capacitance is not finite, or not above zero\n  the resistance is 0\n  the capacitance is -1",
        ),
        (["-2,0", "1", "1"], 39, "refused 39: the driver is no pin\n  no pin is at -2 0"),
        (["-1,0", "1e308", "1e308"], 40, "refused 40: a delay is not finite"),
        (["-1,0", "NaN", "inf"], 38, "refused 38: a resistance or capacitance is not finite, or not above zero\n  the resistance is NaN\n  the capacitance is inf"),
    ] {
        let wrong = refused(&["delay", "-", words[0], words[1], words[2]], row, number);
        assert_eq!(wrong, format!("calzundi delay: standard input: {line}\n"));
    }
    for words in [["0", "1", "1"], ["0,0", "one", "1"], ["0,0", "1", ""]] {
        said(&["delay", "-", words[0], words[1], words[2]], row, 2);
    }
}

/// `distances` prints the cost between every two pins, the pins in the order of places; the graph's way between the third and the fourth is 5.
#[test]
fn distances_are_a_table() {
    let net = b"pin 1 0\npin 1 3\npin 0 1\npin 2 2\n";
    let table = "pin  0,1  1,0  1,3  2,2
0,1    0    2    3    3
1,0    2    0    3    3
1,3    3    3    0    2
2,2    3    3    2    0
";
    assert_eq!(printed(&["distances", "-"], net), table);
    let many: String = (0..17).map(|x| format!("pin {x} 0\n")).collect();
    let wrong = refused(&["distances", "-"], many.as_bytes(), 36);
    let expected = "refused 36: there are 17 pins, and at most 16 are allowed\n  \
                   line 17, pin 17 (16 0) is the first that is too many";
    assert_eq!(
        wrong,
        format!("calzundi distances: standard input: {expected}\n")
    );
    let many: String = (0..17)
        .map(|x| format!("macro {x} 0 {} 1\n", x + 1))
        .collect();
    let many = format!("pin 0 9\n{many}");
    let wrong = refused(&["distances", "-"], many.as_bytes(), 36);
    assert!(
        wrong.contains("refused 36: there are 17 macros, and at most 16"),
        "{wrong}"
    );
}

/// The first worked net of [5]: its upright bar moves, and the tree is one cheaper.
const SLIDING: &[u8] = b"pin 2 3\npin 3 0\npin 0 1\nmacro 0 2 1 4\n";

/// `slide` prints the slid tree as `route` does the refined one; a refusal as `route` does.
#[test]
fn slide_prints_the_slid_tree() {
    let tree = "pins 3 macros 1 terminal 8 refined 7 slid 6 metal 6
0 1 2 1 2
2 1 2 2 1
2 1 3 1 1
2 2 2 3 1
3 0 3 1 1
";
    assert_eq!(printed(&["slide", "-"], SLIDING), tree);
    for worked in sliding() {
        let net = made(&worked.lists);
        let said = printed(&["slide", "-"], text::print(&net).as_bytes());
        let totals = format!(" refined {} slid {} metal ", worked.refined, worked.slid);
        assert!(said.contains(&totals), "{}: {said}", worked.name);
    }
    let output = run(&["slide", "-"], b"pin 0 0\npin 0 0\n");
    assert_eq!(output.status.code(), Some(1));
    assert_eq!(output.stdout, b"refused 15\n");
}

/// `best` prints a best tree, and how much more the refined and the slid one cost; a larger net is told with what is to blame.
#[test]
fn best_prints_a_best_tree() {
    let five = b"pin 2 0\npin 1 3\npin 0 1\npin 3 1\npin 0 0\n";
    let tree = printed(&["best", "-"], five);
    let header = tree.lines().next().unwrap();
    let start = "pins 5 macros 0 refined 8 +14.3% slid ";
    assert!(header.starts_with(start), "{header}");
    assert!(header.ends_with(" best 7 metal 7"), "{header}");
    let folder = folder("best");
    let net = folder.join("net.txt");
    fs::write(&net, five).unwrap();
    let passed = printed(&["verify", word(&net), "-"], tree.as_bytes());
    assert!(passed.ends_with("cost 7 metal 7\n"), "{passed}");
    let one = "pins 1 macros 0 refined 0 +0.0% slid 0 +0.0% best 0 metal 0\n";
    assert_eq!(printed(&["best", "-"], b"pin 5 5\n"), one);
    let many: String = (0..6).map(|x| format!("pin {x} 0\n")).collect();
    let output = run(&["best", "-"], many.as_bytes());
    assert_eq!(output.status.code(), Some(1));
    assert_eq!(output.stdout, b"refused 41\n");
    let wrong = String::from_utf8(output.stderr).unwrap();
    let refused = "refused 41: there are 6 pins, and at most 5 are allowed\n  \
                   line 6, pin 6 (5 0) is the first that is too many";
    assert_eq!(wrong, format!("calzundi best: standard input: {refused}\n"));
    let output = run(&["best", "-"], b"pin 0 0\npin 0 0\n");
    assert_eq!(output.stdout, b"refused 15\n");
}

/// `verify` passes what `route` and `slide` print, and edges alone, from either end; costs are worked out.
#[test]
fn verify_passes_trees() {
    let folder = folder("verify");
    let net = folder.join("net.txt");
    fs::write(&net, SLIDING).unwrap();
    let passes = |tree: &[u8], said: &str| {
        let answer = printed(&["verify", word(&net), "-"], tree);
        assert_eq!(answer, format!("standard input: passes, {said}\n"));
    };
    passes(
        &written(&["route", word(&net)], b""),
        "edges 4 cost 7 metal 7",
    );
    passes(
        &written(&["slide", word(&net)], b""),
        "edges 5 cost 6 metal 6",
    );
    let own = b"# mine\n3 0 3 1\n\n3 1 2 1 99 # any cost\n2 1 0 1\n2 1 2 3\n";
    passes(own, "edges 4 cost 6 metal 6");
    let tree = folder.join("tree.txt");
    fs::write(&tree, own).unwrap();
    let answer = printed(&["verify", "-", word(&tree)], SLIDING);
    let expected = format!("{}: passes, edges 4 cost 6 metal 6\n", tree.display());
    assert_eq!(answer, expected);
    let weighed = [&b"weights 2 3\n"[..], SLIDING].concat();
    let answer = printed(&["verify", "-", word(&tree)], &weighed);
    assert!(answer.ends_with("cost 15 metal 6\n"), "{answer}");
    let (three, tree_of_another) = (example("three-pins"), root().join("examples/tree.txt"));
    let answer = printed(&["verify", word(&three), word(&tree_of_another)], b"");
    assert!(
        answer.ends_with("passes, edges 2 cost 9 metal 9\n"),
        "{answer}"
    );
    fs::write(&tree, "").unwrap();
    let answer = printed(&["verify", "-", word(&tree)], b"pin 5 5\n");
    assert!(
        answer.ends_with("passes, edges 0 cost 0 metal 0\n"),
        "{answer}"
    );
}

/// A tree that does not pass: the number, and each edge that is to blame with its line.
#[test]
fn verify_says_what_is_wrong() {
    let folder = folder("verify-wrong");
    let net = folder.join("net.txt");
    fs::write(&net, "pin 0 0\npin 10 0\nmacro 4 -2 6 3\n").unwrap();
    let around = "0 0 4 -2\n4 -2 6 -2\n6 -2 10 0\n";
    let tree_35 =
        "35: the edges and the pins are not one tree, or a point with a single edge is no pin";
    for (more, number, reasons) in [
        (
            "0 0 1000001 0\n",
            "33: a coordinate is not from -1000000 to 1000000",
            "line 4, edge 4 (0 0 1000001 0): the second x is 1000001",
        ),
        (
            "10 0 0 0\n5 5 5 5\n",
            "34: an edge has equal ends, or ends that are not clear of each other",
            "line 4, edge 4 (10 0 0 0) is not clear of macro 1 (4 -2 6 3)\n  line 5, edge 5 (5 5 5 5) has equal ends",
        ),
        (
            "4 -2 0 0\n",
            tree_35,
            "line 4, edge 4 (4 -2 0 0) is line 1, edge 1 (0 0 4 -2) again",
        ),
        (
            "# bare\n4 -2 4 -9\n",
            tree_35,
            "line 5, edge 4 (4 -2 4 -9) ends at 4 -9, which is no pin and has no other edge",
        ),
        (
            "0 0 4 -9\n4 -9 4 -2\n",
            tree_35,
            "line 5, edge 5 (4 -9 4 -2) closes a cycle of the edges before it",
        ),
        (
            "9 9 9 8\n9 8 8 8\n8 8 9 9\n",
            tree_35,
            "line 6, edge 6 (8 8 9 9) closes a cycle of the edges before it\n  \
             line 4, edge 4 (9 9 9 8) begins a part that is not joined with line 1, edge 1 (0 0 4 -2)",
        ),
    ] {
        let output = run(
            &["verify", word(&net), "-"],
            format!("{around}{more}").as_bytes(),
        );
        assert_eq!(output.status.code(), Some(1), "{more}");
        assert_eq!(output.stderr, b"", "{more}");
        let expected = format!("standard input: refused {number}\n  {reasons}\n");
        assert_eq!(String::from_utf8(output.stdout).unwrap(), expected);
    }
    let output = run(
        &["verify", word(&net), "-"],
        b"0 0 4 -2\n4 -2 0 -9\n0 -9 0 0\n",
    );
    let text = String::from_utf8(output.stdout).unwrap();
    let pin = "pin 2 (10 0) is at no edge's end";
    assert!(text.contains(pin), "{text}");
    let many = "0 0 4 -2\n".repeat(1_536);
    let output = run(&["verify", word(&net), "-"], many.as_bytes());
    let text = String::from_utf8(output.stdout).unwrap();
    let first = "33: there are 1536 edges, and at most 1535 are allowed\n  line 1536, edge 1536 (0 0 4 -2) is the first that is too many\n";
    assert!(text.ends_with(first), "{text}");
    // Bad lines, and the net's own refusal, which comes first.
    for (tree, wrong) in [
        (
            "0 0 4\n",
            "line 1: a tree's edge needs a number for the second y",
        ),
        (
            "0 0 4 a\n",
            "line 1: 'a' for the second y is no whole number of 32 bits",
        ),
        ("0 0 4 0 x\n", "line 1: 'x' for its cost is no whole number"),
        (
            "\n0 0 4 0 4 9\n",
            "line 2: '9' stands after the end of the tree's edge",
        ),
        (
            "0 0 4 0\npins 2\n",
            "line 2: a header after line 1, which begins the tree",
        ),
        (
            "refused 11\n",
            "line 1: 'refused' for the first x is no whole number of 32 bits",
        ),
    ] {
        let said = said(&["verify", word(&net), "-"], tree.as_bytes(), 1);
        assert_eq!(said, format!("calzundi verify: standard input: {wrong}\n"));
    }
    fs::write(&net, "pin 0 0\npin 0 0\n").unwrap();
    let wrong = refused(&["verify", word(&net), "-"], b"0 0 4\n", 15);
    assert!(wrong.contains("net.txt: refused 15: "), "{wrong}");
}

/// Every kind of list that the generator knows: `verify` says the router's number, and a reason for each.
#[test]
fn verify_explains_every_refusal() {
    for (number, kind) in [Kind::Small, Kind::PinsOnSides, Kind::Comb, Kind::Bars]
        .into_iter()
        .enumerate()
    {
        let lists = net(kind, number as u64);
        let (pins, macros, weights) = lists.parts();
        let second = reference::net::check(pins, macros, weights).unwrap();
        let ours = Ours::of(&second);
        let source = source("a net".into(), text::print(&made(&lists)).as_bytes()).unwrap();
        for &kind in Bought::ALL {
            let list = bought(kind, number as u64, &ours).unwrap_or_default();
            let lines = list
                .chunks_exact(4)
                .map(|e| format!("{} {} {} {}\n", e[0], e[1], e[2], e[3]));
            let given = tree::parse("a tree".into(), lines.collect::<String>().as_bytes()).unwrap();
            if let Err(refusal) = source.net.check_tree(&given.edges) {
                let lines = given.blamed(&source, refusal).lines();
                assert!(lines.len() > 1, "{}: {lines:?}", kind.name());
            }
        }
    }
}

/// `price` says the charge of a net by a list of bands, either one from standard input.
#[test]
fn price_charges_by_a_list() {
    let folder = folder("price");
    let (net, list) = (folder.join("net.txt"), folder.join("bands.txt"));
    let three = b"pin 0 0\npin 4 0\npin 2 3\n";
    fs::write(&net, three).unwrap();
    for (bands, charge) in [
        // Metal 7: 3.5 hundredths and 24.5, each half way: the even one.
        ("7 500\n", "charge 4 0.04\n"),
        ("7 3500\n", "charge 24 0.24\n"),
        // The first band is too short, the last one is not looked at.
        (
            "# limit rate\n6 1\n\n  100 999999 # dear\n200 1000000",
            "charge 7000 70.00\n",
        ),
        ("18446744073709551615 0\r\n", "charge 0 0.00\n"),
    ] {
        fs::write(&list, bands).unwrap();
        assert_eq!(printed(&["price", word(&net), word(&list)], b""), charge);
        assert_eq!(printed(&["price", "-", word(&list)], three), charge);
        let by_input = printed(&["price", word(&net), "-"], bands.as_bytes());
        assert_eq!(by_input, charge);
    }
}

/// Bad lines and refusals of the net and of the list, each with the file and the lines that it is of.
#[test]
fn price_says_what_is_wrong() {
    let folder = folder("price-wrong");
    let (net, list) = (folder.join("net.txt"), folder.join("bands.txt"));
    fs::write(&net, "pin 0 0\npin 4 0\npin 2 3\n").unwrap();
    for (bands, wrong) in [
        (&b""[..], "refused 31: there is no band"),
        (
            b"7 1000000\n\n8 1000001\n",
            "refused 31: a rate is above 1000000\n  line 3, band 2 (8 1000001)",
        ),
        (
            b"5 1\n6 1\n",
            "refused 32: no band's limit reaches the metal\n  the metal is 7, and line 2, band 2 (6 1) is the last",
        ),
        // Every band that falls back, and from which; also where none reaches the metal.
        (
            b"# limit rate\n7 5\n\n7 4 # again\n8 9\n3 9\n",
            "refused 37: a band's limit is not above the one before it, or its rate is below\n  \
             line 4, band 2 (7 4) has a limit not above that of line 2, band 1 (7 5)\n  \
             line 4, band 2 (7 4) has a rate below that of line 2, band 1 (7 5)\n  \
             line 6, band 4 (3 9) has a limit not above that of line 5, band 3 (8 9)",
        ),
        (
            b"3 1\n2 1\n",
            "refused 37: a band's limit is not above the one before it, or its rate is below\n  \
             line 2, band 2 (2 1) has a limit not above that of line 1, band 1 (3 1)",
        ),
        (b"7 500\n8\n", "line 2: a band needs a limit and a rate"),
        (b"7 500 9\n", "line 1: '9' stands after the end of the band"),
        (
            b"\n7 -1\n",
            "line 2: '-1' for rate is no whole number of 0 to 2^64 - 1",
        ),
        (
            b"18446744073709551616 1\n",
            "line 1: '18446744073709551616' for limit is no whole number of 0 to 2^64 - 1",
        ),
        (
            b"+7 1\n",
            "line 1: '+7' for limit is no whole number of 0 to 2^64 - 1",
        ),
        (b"7 500\n\xff 1\n", "line 2: not UTF-8 text"),
    ] {
        fs::write(&list, bands).unwrap();
        let expected = format!("calzundi price: {}: {wrong}\n", list.display());
        let words = ["price", word(&net), word(&list)];
        let number = wrong.strip_prefix("refused ").map(|rest| rest[..2].parse());
        match number {
            Some(number) => assert_eq!(refused(&words, b"", number.unwrap()), expected),
            None => assert_eq!(said(&words, b"", 1), expected),
        }
    }
    // The net's own refusal comes first, and is of the net.
    fs::write(&net, "pin 0 0\npin 0 0\n").unwrap();
    fs::write(&list, "").unwrap();
    let wrong = refused(&["price", word(&net), word(&list)], b"", 15);
    let expected = format!("calzundi price: {}: refused 15: ", net.display());
    assert!(wrong.starts_with(&expected), "{wrong}");
}

#[test]
fn version_of_the_header() {
    let header = include_str!("../../include/calzundi.h");
    let said = printed(&["--version"], b"");
    let version = said.strip_prefix("calzundi ").unwrap().trim_end();
    let line = format!("#define CALZUNDI_VERSION \"{version}\"\n");
    assert!(header.contains(&line), "{said}");
    for command in COMMANDS {
        assert_eq!(printed(&[command, "--version"], b""), said);
    }
}

#[test]
fn help_and_usage() {
    let help = printed(&["--help"], b"");
    for command in COMMANDS {
        assert!(help.contains(&format!("\n    {command} ")), "{help}");
        for words in [[command, "--help"], [command, "-h"], ["help", command]] {
            let help = printed(&words, b"");
            assert!(help.starts_with(&format!("calzundi {command} ")), "{help}");
            assert!(help.contains("Exit status: 0 "), "{help}");
        }
        let wrong = said(&[command, "--swiftly"], b"", 2);
        let expected = format!("calzundi {command}: there is no option '--swiftly'; ");
        assert!(wrong.starts_with(&expected), "{wrong}");
        let wrong = said(&[command], b"", 2);
        let missing = if command == "compare" { "A" } else { "NET" };
        assert!(
            wrong.contains(&format!(": {missing} is missing; ")),
            "{wrong}"
        );
    }
    for (command, count) in [("verify", 2), ("price", 2), ("distances", 1), ("delay", 4)] {
        let words = [&[command], &["a", "b", "c", "d", "e"][..=count]].concat();
        let wrong = said(&words, b"", 2);
        assert!(wrong.contains(": too many words; "), "{wrong}");
    }
    for command in COMMANDS.into_iter().filter(|command| *command != "batch") {
        let mut words = vec![command, "no/such/file"];
        words.extend(match command {
            "delay" => &["0,0", "1", "1"][..],
            "compare" | "price" | "verify" => &["no/such/other"],
            _ => &[],
        });
        let wrong = said(&words, b"", 1);
        let expected = format!("calzundi {command}: no/such/file: ");
        assert!(wrong.starts_with(&expected), "{wrong}");
    }
    assert!(said(&[], b"", 2).contains("a command is missing"));
    for command in ["price", "verify"] {
        assert!(said(&[command, "a", "a"], b"", 2).contains("the same one"));
    }
    let to = folder("usage").join("no/such/folder");
    let wrong = said(&["pack", "-", "-o", word(&to)], b"pin 0 0\n", 1);
    assert!(wrong.contains("no/such/folder: "), "{wrong}");
    // After `--` a word is a file, whatever it looks like.
    assert!(said(&["check", "--", "--help"], b"", 1).contains("--help: "));
}
