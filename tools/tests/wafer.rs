//! Batches for a wafer and for a bureau: the columns that are asked for, and nets compared many at a time.

mod common;

use std::fs;

use common::{example, folder, printed, refused, root, run, said, word};

/// The same net on so many sites, in other orders.
fn sites(name: &str, count: i32) -> Vec<String> {
    let folder = folder(name);
    let site = |at: i32| {
        let (x, y) = (at * 1000 - 7000, 300 * at);
        let pin = |a: i32, b: i32| format!("pin {} {}\n", a + x, b + y);
        let mut lines = [pin(0, 0), pin(10, 0), pin(12, 6), pin(3, 9)];
        lines[1..].rotate_left(at as usize % 3);
        let (l, b, r, t) = (4 + x, y - 2, 6 + x, 3 + y);
        let text = format!("{}macro {l} {b} {r} {t}\n", lines.concat());
        let file = folder.join(format!("site-{at:02}.txt"));
        fs::write(&file, text).unwrap();
        word(&file).to_string()
    };
    (0..count).map(site).collect()
}

/// The column of a name, of each line.
fn column(csv: &str, name: &str) -> Vec<String> {
    let mut lines = csv.lines();
    let names: Vec<&str> = lines.next().unwrap().split(',').collect();
    let at = names.iter().position(|one| *one == name).expect(name);
    let field = |line: &str| line.split(',').nth(at).unwrap().to_string();
    lines.map(field).collect()
}

/// Forty sites are forty fingerprints and one form.
#[test]
fn forty_sites_are_one_word() {
    let files = sites("sites", 40);
    let words: Vec<&str> = files.iter().map(String::as_str).collect();
    let csv = printed(
        &[&["batch", "--quiet", "--csv", "--form"], &words[..]].concat(),
        b"",
    );
    let distinct = |name: &str| {
        let mut all = column(&csv, name);
        all.sort();
        all.dedup();
        all.len()
    };
    assert_eq!(distinct("fingerprint"), 40);
    assert_eq!(distinct("form"), 1);
    let same = printed(&[&["compare", "--shift"], &words[..]].concat(), b"");
    assert!(same.starts_with("same metal, shifted\n"), "{same}");
    assert_eq!(same.matches(" shifted by ").count(), 39);
    assert!(same.contains(" shifted by 1000 300\n"), "{same}");
    let other = run(&[&["compare"], &words[..3]].concat(), b"");
    assert_eq!(other.status.code(), Some(1));
    let other = String::from_utf8(other.stdout).unwrap();
    assert!(other.starts_with("other metal\n"), "{other}");
    assert_eq!(other.matches(" other metal\n").count(), 2, "{other}");
    assert_eq!(other.matches("only in ").count(), 6, "{other}");
    let one = words[0];
    let same = printed(&["compare", one, one, one], b"");
    assert!(same.starts_with("same metal\n"), "{same}");
}

/// Each column is what its own command says.
#[test]
fn columns_are_those_of_the_commands() {
    let bands = root().join("examples/bands.txt");
    let names = ["three-pins", "eight-pins", "loads", "weights", "one-pin"];
    let files = names.map(example);
    let nets: Vec<&str> = files.iter().map(|file| word(file)).collect();
    let asked = [
        "--csv",
        "--slid",
        "--best",
        "--bands",
        word(&bands),
        "--delay",
        "0.03,0.0002",
    ];
    let csv = printed(&[&["batch", "--quiet"], &asked[..], &nets].concat(), b"");
    let head = "net,pins,macros,weight_x,weight_y,terminal,refined,metal,wires,fingerprint,slid,best,charge,delay,refused,reason";
    assert_eq!(csv.lines().next(), Some(head));
    let after = |text: &str, name: &str| {
        let words: Vec<&str> = text.split_whitespace().collect();
        let at = words.iter().position(|word| *word == name).expect(name);
        words[at + 1].to_string()
    };
    for (at, net) in nets.iter().enumerate() {
        let value = |name: &str| column(&csv, name)[at].clone();
        assert_eq!(value("slid"), after(&printed(&["slide", net], b""), "slid"));
        let best = run(&["best", net], b"");
        if best.status.success() {
            let text = String::from_utf8(best.stdout).unwrap();
            assert_eq!(value("best"), after(&text, "best"));
        } else {
            assert_eq!(value("best"), "")
        }
        let price = printed(&["price", net, word(&bands)], b"");
        assert_eq!(value("charge"), after(&price, "charge"));
        let unpacked = printed(&["unpack", net], b"");
        let first = unpacked
            .lines()
            .find(|line| line.starts_with("pin "))
            .unwrap();
        let first: Vec<&str> = first.split(' ').collect();
        let driver = format!("{},{}", first[1], first[2]);
        let table = printed(&["delay", net, &driver, "0.03", "0.0002"], b"");
        let delays = table.lines().map(|line| {
            let last = line.split_whitespace().last().unwrap();
            last.parse::<f64>().unwrap()
        });
        let worst = delays.fold(0.0, f64::max);
        assert_eq!(
            value("delay").parse::<f64>().unwrap().to_bits(),
            worst.to_bits()
        );
    }
    let text = printed(&["batch", "--quiet", "--best", nets[1]], b"");
    assert!(text.ends_with(" best -\n"), "{text}");
}

/// A list that is refused is refused once; one that does not reach a net costs that net.
#[test]
fn bands_of_a_batch() {
    let folder = folder("batch-bands");
    let list = folder.join("bands.txt");
    let (three, eight) = (example("three-pins"), example("eight-pins"));
    let words = [
        "batch",
        "--quiet",
        "--csv",
        "--bands",
        word(&list),
        word(&three),
        word(&eight),
    ];
    fs::write(&list, "9 5\n7 5\n").unwrap();
    let wrong = refused(&words, b"", 37);
    assert!(
        wrong.contains("line 2, band 2 (7 5) has a limit not above"),
        "{wrong}"
    );
    fs::write(&list, "50 500\n").unwrap();
    let output = run(&words, b"");
    assert_eq!(output.status.code(), Some(1));
    let csv = String::from_utf8(output.stdout).unwrap();
    assert_eq!(column(&csv, "charge"), ["4", ""]);
    assert_eq!(column(&csv, "refused"), ["", "32"]);
    for word_ in ["1", "0,1", "1,inf", "a,b"] {
        let wrong = said(&["batch", "--delay", word_, word(&three)], b"", 2);
        assert!(wrong.contains("--delay is R,C"), "{wrong}");
    }
    let wrong = said(&["batch", "--csv", "--jsonl", word(&three)], b"", 2);
    assert!(wrong.contains("take one of them"), "{wrong}");
}
