//! The lower bound for people: in the first line, in words, in a batch, in pictures and pages.

mod common;

use std::fs;

use calzundi::{Net, Weights};
use common::{folder, printed, said, word};
use tools::bound::Bounded;

/// Five pins whose refined tree costs 8, whose best tree 7.
const FIVE: &str = "pin 2 0\npin 1 3\npin 0 1\npin 3 1\npin 0 0\n";
const THREE: &str = "pin 0 0\npin 4 0\npin 2 3\n";

fn bounded(cost: i64, bound: i64) -> Bounded {
    Bounded::of(Weights::default(), cost, bound)
}

/// Percents are rounded up, so that nothing is said to be closer to the least than it is, and none only where both are equal.
#[test]
fn percents_are_never_too_small() {
    for (cost, bound, over, words) in [
        (112, 109, "2.76", "at most 2.8 % longer"),
        (1_001, 1_000, "0.10", "at most 0.1 % longer"),
        (1_000_001, 1_000_000, "0.01", "at most 0.1 % longer"),
        (
            30_000_000_000,
            29_999_999_999,
            "0.01",
            "at most 0.1 % longer",
        ),
        (200, 100, "100.00", "at most 100.0 % longer"),
        (9, 4, "125.00", "at most 125.0 % longer"),
    ] {
        assert_eq!(bounded(cost, bound).over(), over);
        let said = bounded(cost, bound).words();
        assert!(said.ends_with(words), "{said}");
    }
    for cost in [0, 7, 1_000_000] {
        assert_eq!(bounded(cost, cost).over(), "0.00");
    }
}

#[test]
fn words_for_people() {
    let close = bounded(4_180, 4_022);
    let words = "4,180, and no tree has less than 4,022: at most 4.0 % longer";
    assert_eq!(close.words(), words);
    let least = "4,180, and no tree has less: this is a shortest tree";
    assert_eq!(bounded(4_180, 4_180).words(), least);
    assert_eq!(close.best().words(), least);
    let weighed = Bounded::of(Weights { x: 1, y: 3 }, 112, 109);
    let words = "cost 112, and no tree costs less than 109: at most 2.8 % dearer";
    assert_eq!(weighed.words(), words);
    let words = "cost 112, and no tree costs less: this is a cheapest tree";
    assert_eq!(weighed.best().words(), words);
}

/// The bound stands at the end of the first line, and in words below it; all else is as without it.
#[test]
fn trees_with_their_bound() {
    let net = THREE.as_bytes();
    let routed = printed(&["route", "--bound", "-"], net);
    let right = "\
pins 3 macros 0 terminal 9 refined 7 metal 7 bound 7 over 0.00%
# 7, and no tree has less: this is a shortest tree
0 0 2 0 2
2 0 2 3 3
2 0 4 0 2
";
    assert_eq!(routed, right);
    let five = FIVE.as_bytes();
    for (command, words) in [
        (
            "route",
            "# 8, and no tree has less than 7: at most 14.3 % longer\n",
        ),
        (
            "slide",
            "# 8, and no tree has less than 7: at most 14.3 % longer\n",
        ),
        (
            "best",
            "# 7, and no tree has less: this is a shortest tree\n",
        ),
    ] {
        let plain = printed(&[command, "-"], five);
        let with = printed(&[command, "--bound", "-"], five);
        let over = if command == "best" { "0.00" } else { "14.29" };
        let (header, edges) = plain.split_once('\n').unwrap();
        assert_eq!(
            with,
            format!("{header} bound 7 over {over}%\n{words}{edges}")
        );
    }
    let one = printed(&["slide", "--bound", "-"], b"pin 5 5\n");
    assert!(
        one.contains("metal 0 bound 0 over 0.00%\n# 0, and no tree has less"),
        "{one}"
    );
    let weighed = format!("weights 1 3\n{THREE}");
    let weighed = printed(&["route", "--bound", "-"], weighed.as_bytes());
    let line = "refined 13 metal 7 bound 13 over 0.00%\n# cost 13, and no tree costs less: this is a cheapest tree\n";
    assert!(weighed.contains(line), "{weighed}");
}

/// What is printed with the bound is a tree for `verify` and for `draw --routed` as it is without.
#[test]
fn what_is_printed_can_be_read_again() {
    let folder = folder("bounds-read");
    let [net, tree] = ["net.txt", "net.tree"].map(|name| folder.join(name));
    fs::write(&net, FIVE).unwrap();
    printed(&["route", "--bound", word(&net), "-o", word(&tree)], b"");
    let judged = printed(&["verify", word(&net), word(&tree)], b"");
    let passes = format!("{}: passes, edges 4 cost 8 metal 8", tree.display());
    assert_eq!(judged, format!("{passes}\n"));
    let judged = printed(&["verify", "--bound", word(&net), word(&tree)], b"");
    let words = "8, and no tree has less than 7: at most 14.3 % longer";
    let bounded = format!(
        "{passes} bound 7 over 14.29%\n{}: {words}\n",
        tree.display()
    );
    assert_eq!(judged, bounded);
    printed(&["draw", "--routed", word(&tree), word(&net)], b"");
    let made_up = fs::read_to_string(&tree)
        .unwrap()
        .replace("bound 7", "bound 6");
    fs::write(&tree, made_up).unwrap();
    let wrong = said(&["draw", "--routed", word(&tree), word(&net)], b"", 1);
    assert!(wrong.contains("line 1: it is not this net's"), "{wrong}");
}

/// Wires alone have no line to say it in.
#[test]
fn a_bound_of_wires_is_a_wrong_command_line() {
    let wrong = said(&["route", "--wires", "--bound", "-"], FIVE.as_bytes(), 2);
    assert!(wrong.contains("take one of the two"), "{wrong}");
}

/// Columns of a batch: the bound, and what the cheapest tree of the line is over it.
#[test]
fn columns_of_a_batch() {
    let folder = folder("bounds-batch");
    let [five, three, twice] = ["five.txt", "three.txt", "twice.txt"].map(|name| folder.join(name));
    for (file, text) in [
        (&five, FIVE),
        (&three, THREE),
        (&twice, "pin 0 0\npin 0 0\n"),
    ] {
        fs::write(file, text).unwrap();
    }
    let [five, three, twice] = [&five, &three, &twice].map(|file| word(file));
    let csv = printed(&["batch", "--csv", "--quiet", "--bound", five, three], b"");
    let lines: Vec<&str> = csv.lines().collect();
    assert!(lines[0].ends_with(",fingerprint,bound,over,refused,reason"));
    assert!(lines[1].ends_with(",7,14.29,,"), "{csv}");
    assert!(lines[2].ends_with(",7,0.00,,"), "{csv}");
    let options = ["--slid", "--best", "--bound"];
    let best = printed(
        &[&["batch", "--quiet"][..], &options, &[five]].concat(),
        b"",
    );
    assert!(
        best.ends_with(" slid 8 best 7 bound 7 over 0.00\n"),
        "{best}"
    );
    let output = common::run(&["batch", "--csv", "--quiet", "--bound", twice], b"");
    let text = String::from_utf8(output.stdout).unwrap();
    let blank = format!("{twice},,,,,,,,,,,,15,");
    assert!(text.lines().nth(1).unwrap().starts_with(&blank), "{text}");
}

/// Pictures and pages say it of the tree that is to be laid, where it is asked for.
#[test]
fn pictures_say_it() {
    let folder = folder("bounds-drawn");
    let [net, tree] = ["net.txt", "tree.txt"].map(|name| folder.join(name));
    fs::write(&net, FIVE).unwrap();
    let (net, tree_file) = (word(&net), word(&tree));
    fs::write(&tree, printed(&["best", net], b"")).unwrap();
    let over = "8, and no tree has less than 7: at most 14.3 % longer";
    let least = "7, and no tree has less: this is a shortest tree";
    for (more, name, words) in [
        (&[][..], "refined tree", over),
        (&["--slid"], "slid tree", over),
        (&["--best"], "best tree", least),
        (&["--tree", tree_file], "tree of another router", least),
    ] {
        let words = format!("{name}: {words}");
        for form in [&[][..], &["--html"]] {
            let asked = [&["draw", net][..], more, form].concat();
            assert!(!printed(&asked, b"").contains("no tree has less"));
            let drawn = printed(&[&asked[..], &["--bound"]].concat(), b"");
            assert!(drawn.contains(&words), "{asked:?}: {words}");
        }
    }
    // Of a tree that does not pass nothing is said.
    fs::write(&tree, "0 0 2 0\n").unwrap();
    let output = common::run(&["draw", net, "--tree", tree_file, "--bound"], b"");
    assert_eq!(output.status.code(), Some(1));
    let drawn = String::from_utf8(output.stdout).unwrap();
    assert!(drawn.contains("<svg") && !drawn.contains("no tree has less"));
}

/// The number is the library's.
#[test]
fn the_number_is_the_librarys() {
    let net = Net::new([(0, 0), (10, 0), (3, 9)], [(4, -2, 6, 3)]).with_weights(1, 2);
    let text = "weights 1 2\npin 0 0\npin 10 0\npin 3 9\nmacro 4 -2 6 3\n";
    let said = printed(&["route", "--bound", "-"], text.as_bytes());
    let bound = net.lower_bound().unwrap();
    assert!(said.contains(&format!(" bound {bound} over ")), "{said}");
}

/// A page or a sheet does not call one cost the least of one tree and too much of another.
#[test]
fn trees_of_one_cost_are_spoken_of_alike() {
    let net = "pin 2 1\npin -3 -19\npin -13 -10\npin 6 -15\nmacro -2 8 4 14\nmacro 5 -7 11 -6\nmacro -9 -19 -3 -14\nmacro 15 14 17 17\n";
    for html in [&["--html"][..], &[]] {
        let asked = [&["draw", "--shortened", "--bound", "-"], html].concat();
        let picture = printed(&asked, net.as_bytes());
        assert!(
            picture.contains("shortened tree: 44, and no tree has less: this is a shortest tree")
        );
        assert!(!picture.contains("shortened tree: 44, and no tree has less than"));
    }
}
