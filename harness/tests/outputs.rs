//! The library and the program answer as the first release did, byte for byte but for what requests have changed since
//! (harness/src/requests.rs and the files of differences), on the inputs of harness/first-release/outputs.txt.

use std::collections::{BTreeMap, BTreeSet};
use std::path::Path;
use std::thread;

use harness::library;
use harness::outputs::{differences, digest, records, Case, Difference, Input};
use harness::requests::{loads, weights, Change, Differences};
use reference::edge::Edge;
use reference::lists::{unloaded, Lists};
use reference::net::{check, Weights};
use reference::netfile;
use reference::refined::{refine_by, Rule};
use reference::terminal::terminal;

/// A text of the folder first-release.
fn text(name: &str) -> String {
    let folder = Path::new(env!("CARGO_MANIFEST_DIR")).join("first-release");
    let file = folder.join(name);
    std::fs::read_to_string(&file).unwrap_or_else(|error| panic!("{}: {error}", file.display()))
}

/// The text that was stored with the first release.
fn stored() -> String {
    text("outputs.txt")
}

/// What has changed since in files of differences: by [3], then by [8], and then by [11].
struct Since {
    beside: Differences,
    twice: Differences,
    loaded: Differences,
}

impl Since {
    fn read() -> Since {
        Since {
            beside: Differences::parse(&text("beside.txt")),
            twice: Differences::parse(&text("twice.txt")),
            loaded: Differences::parse(&text("loads.txt")),
        }
    }

    /// A stored record with the rule of [1], then the differences of [3].
    fn third(&self, stored: &str) -> String {
        let changed = self.beside.apply(&weights(stored));
        changed.unwrap_or_else(|wrong| panic!("{wrong}"))
    }

    /// The same with the differences of [8].
    fn eighth(&self, stored: &str) -> String {
        let changed = self.twice.apply(&self.third(stored));
        changed.unwrap_or_else(|wrong| panic!("{wrong}"))
    }

    /// A stored record as it is expected now: with the rule of [11] too, and its differences.
    fn expected(&self, stored: &str) -> String {
        let changed = self.loaded.apply(&loads(&self.eighth(stored)));
        changed.unwrap_or_else(|wrong| panic!("{wrong}"))
    }
}

/// A stored net, whose pins have two numbers each, as it is handed over now [11].
fn with_loads_of_0(lists: Lists) -> Lists {
    Lists {
        pins: unloaded(&lists.pins),
        ..lists
    }
}

/// The input of a stored record, which must stand there as it would be written now.
fn case(record: &str) -> Case {
    let case = Case::parse(record).unwrap_or_else(|| panic!("no record:\n{record}"));
    assert!(record.starts_with(&case.head()), "no head:\n{record}");
    case
}

/// Every difference, by two threads, in the order of the records.
fn all_differences(records: &[String]) -> Vec<Difference> {
    let since = &Since::read();
    let of_half = |half: &[String]| -> Vec<Difference> {
        let of = |record: &String| differences(&since.expected(record), &case(record).record());
        half.iter().flat_map(of).collect()
    };
    let (first, second) = records.split_at(records.len() / 2);
    thread::scope(|scope| {
        let first = scope.spawn(|| of_half(first));
        let second = of_half(second);
        [first.join().expect("the first half"), second].concat()
    })
}

/// How many differences are printed whole.
const PRINTED: usize = 10;

#[test]
fn every_output_is_that_of_the_first_release() {
    let found = all_differences(&records(&stored()));
    let mut counts: BTreeMap<&str, usize> = BTreeMap::new();
    for difference in &found {
        *counts.entry(&difference.operation).or_default() += 1;
    }
    let printed: Vec<String> = found[..found.len().min(PRINTED)]
        .iter()
        .map(Difference::to_string)
        .collect();
    assert!(
        found.is_empty(),
        "records that differ, by operation: {counts:?}; the first of them:\n{}",
        printed.join("\n")
    );
}

/// [1] for weights 1 and 1: of the stored lines the headers alone are others, by ` metal` and the refined total, and
/// behind the macros of each file that is read stand the weights 1 and 1. The refined total of a header is that of the
/// call, so the metal is too.
#[test]
fn weights_change_two_things_and_no_other() {
    let (mut headers, mut reads) = (0, 0);
    for record in records(&stored()) {
        let (mut before, now) = (record.lines(), weights(&record));
        for line in now.lines() {
            if line == "read 0 weights 1 1" {
                reads += 1;
                continue;
            }
            let stored = before.next().unwrap_or_default();
            match line.split_once(" metal ") {
                Some((header, metal)) => {
                    assert!(header.starts_with("route pins "), "{line}");
                    assert!(header.ends_with(&format!(" refined {metal}")), "{line}");
                    assert_eq!(header, stored);
                    let called = format!("\nrefined 0 total {metal} edges ");
                    assert!(
                        what(&record) == "damaged" || record.contains(&called),
                        "{line}"
                    );
                    headers += 1;
                }
                None => assert_eq!(line, stored),
            }
        }
        assert_eq!(before.next(), None);
    }
    assert_eq!((headers, reads), (HEADERS, READS));
}

/// The allowed nets, and the one damaged file that is a right one all the same.
const HEADERS: usize = 1_756 + READS;
const READS: usize = 1;

/// "Refined outputs are matched with this rule from here on" [3]: the records that the file names are stored ones, in each of them the
/// refined tree, the wires and what the program prints are others and nothing else is, and the refined total is still at most the
/// terminal one.
#[test]
fn points_beside_the_tree_change_refined_outputs_and_no_other() {
    let since = Since::read();
    let beside = &since.beside;
    let (mut named, mut shorter, mut longer) = (0, 0, 0);
    for record in records(&stored()) {
        let before = weights(&record);
        let after = since.third(&record);
        let title = record.lines().next().unwrap_or_default();
        let changes = Change::between(&before, &after);
        assert_eq!(beside.of.get(title).unwrap_or(&vec![]), &changes);
        if changes.is_empty() {
            continue;
        }
        let operations: Vec<&str> = changes.iter().map(|c| c.operation.as_str()).collect();
        assert_eq!(operations, ["refined", "wires", "route"], "{title}");
        let total = |text: &str, of: &str| {
            let (_, rest) = text.split_once(&format!("\n{of} 0 total ")).expect(title);
            let number = rest.split(' ').next().unwrap_or_default();
            number.parse::<i64>().expect(title)
        };
        let (was, now) = (total(&before, "refined"), total(&after, "refined"));
        assert!(now <= total(&after, "terminal"), "{title}");
        named += 1;
        shorter += usize::from(now < was);
        longer += usize::from(now > was);
    }
    assert_eq!(named, beside.of.len(), "a title that no stored record has");
    assert_eq!((named, shorter, longer), CHANGED);
}

/// Records that [3] changes, those whose refined tree is shorter than it was, and those where it is longer.
const CHANGED: (usize, usize, usize) = (39, 36, 2);

/// "Blocks keep their layout, so old files read as before" [8]: what changes was refused for its numbers of pins or macros, or for its length.
/// A net was refused 11 or 12; it has at most 128 of either now, or a file of 7 to 9 blocks, of which the program alone says something else. A
/// damaged file was refused 1, 11 or 12 and has at most 9 blocks. Every other record stands as it stood.
#[test]
fn twice_the_net_changes_what_was_too_large_and_no_other() {
    let since = Since::read();
    let (mut nets, mut files) = (0, 0);
    for record in records(&stored()) {
        let (before, after) = (since.third(&record), since.eighth(&record));
        let title = record.lines().next().unwrap_or_default();
        let changes = Change::between(&before, &after);
        assert_eq!(since.twice.of.get(title).unwrap_or(&vec![]), &changes);
        if changes.is_empty() {
            continue;
        }
        let refused = |numbers: &[u32], of: &str| {
            let said = |number: &u32| before.contains(&format!("\n{of} {number}\n"));
            numbers.iter().any(said)
        };
        match case(&record).input {
            Input::Net { lists, .. } => {
                let (m, k) = (lists.pins.len() / 2, lists.macros.len() / 4);
                let blocks = 1 + m.div_ceil(60) + k.div_ceil(30);
                let is_route = changes.iter().all(|change| change.operation == "route");
                assert!(refused(&[11, 12], "check"), "{title}");
                assert!(
                    m.max(k) <= 128 || (is_route && (7..=9).contains(&blocks)),
                    "{title}"
                );
                nets += 1;
            }
            Input::File { bytes } => {
                assert!(refused(&[1, 11, 12], "read"), "{title}");
                assert!(bytes.len() <= 9 * netfile::BLOCK_BYTES, "{title}");
                files += 1;
            }
        }
    }
    assert_eq!(
        nets + files,
        since.twice.of.len(),
        "a title that no record has"
    );
    assert_eq!((nets, files), GROWN);
}

/// Nets and files that [8] changes.
const GROWN: (usize, usize) = (34, 5);

/// "A net of loads all 0 is stored as before", and a file may have 10 blocks [11]: a pin that is read has a third number, which is 0, and
/// all else stands as it stood, but for what `route` says to a net's file of 10 blocks, which was refused 1 for its length.
#[test]
fn loads_change_pins_that_are_read_and_files_of_ten_blocks() {
    let since = Since::read();
    let (mut reads, mut longer) = (0, 0);
    for record in records(&stored()) {
        let before = since.eighth(&record);
        let (ruled, after) = (loads(&before), since.expected(&record));
        let title = record.lines().next().unwrap_or_default();
        for (line, now) in before.lines().zip(ruled.lines()) {
            if line != now {
                let bare = |pin: &str| pin.strip_suffix(" 0").expect(title).to_string();
                let bare: Vec<String> = now.split(", ").map(bare).collect();
                assert_eq!(line, bare.join(", "), "{title}");
                assert!(line.starts_with("read 0 pins "), "{title}");
                reads += 1;
            }
        }
        assert_eq!(before.lines().count(), ruled.lines().count(), "{title}");
        let changes = Change::between(&ruled, &after);
        assert_eq!(since.loaded.of.get(title).unwrap_or(&vec![]), &changes);
        if let [change] = &changes[..] {
            let Input::Net { lists, .. } = case(&record).input else {
                panic!("{title} is no net")
            };
            let (m, k) = (lists.pins.len() / 2, lists.macros.len() / 4);
            assert_eq!(1 + m.div_ceil(60) + k.div_ceil(30), 10, "{title}");
            assert_eq!(change.was, "route refused 1\n", "{title}");
            longer += 1;
        }
        assert!(changes.len() <= 1, "{title}");
    }
    assert_eq!(longer, since.loaded.of.len(), "a title that no record has");
    assert_eq!((reads, longer), LOADED);
}

/// Files whose pins [11] reads with a load of 0, and nets whose file of 10 blocks it looks into.
const LOADED: (usize, usize) = (3, 1);

/// The differences of [3] are those of its rule: by the second program the stored refined tree is that of the rule of document 01, and the
/// expected one that of [3], on every net that was allowed then.
#[test]
fn the_second_program_gives_both_by_their_rules() {
    let since = Since::read();
    let mut nets = 0;
    for record in records(&stored()) {
        let Input::Net { lists, .. } = case(&record).input else {
            continue;
        };
        let lists = with_loads_of_0(lists);
        if !record.contains("\ncheck 0\n") {
            continue;
        }
        let (pins, macros, weights) = lists.parts();
        let net = check(pins, macros, weights).expect("a net that was allowed still is");
        let paths = terminal(&net);
        let now = since.third(&record);
        for (rule, record) in [(Rule::OnTree, &record), (Rule::Beside, &now)] {
            let tree = refine_by(rule, &net, &paths);
            let edge = |edge: &Edge| {
                let (a, b) = (edge.first(), edge.second());
                format!("{} {} {} {}", a.x, a.y, b.x, b.y)
            };
            let edges: Vec<String> = tree.edges.iter().map(edge).collect();
            let (total, count) = (tree.total, edges.len());
            let line = format!(
                "refined 0 total {total} edges {count}: {}",
                edges.join(", ")
            );
            let said = record.lines().find(|line| line.starts_with("refined "));
            assert_eq!(said, Some(line.trim_end()), "{rule:?}");
        }
        nets += 1;
    }
    assert_eq!(nets, 1_756);
}

/// The judge is awake: a change left out, one too many, one of a record that is not stored and lines before that are others are each found.
#[test]
fn a_wrong_file_of_differences_is_found() {
    let before = weights(&records(&stored())[1]);
    let title = before.lines().next().unwrap_or_default();
    let file = |said: &str| Differences::parse(&format!("{title}\n{said}"));
    assert_eq!(Differences::default().apply(&before).as_ref(), Ok(&before));
    let right = file("was check 0\nnow check 11\n").apply(&before);
    assert_eq!(right, Ok(before.replace("check 0\n", "check 11\n")));
    for (said, wrong) in [
        ("was check 0\nnow check 0\n", "check does not change"),
        (
            "was check 1\nnow check 0\n",
            "check was not as the file says",
        ),
        ("now check 1\n", "check was not as the file says"),
        ("was route 2 3 4 4 3\n", "route was not as the file says"),
        ("", "no operation changes"),
    ] {
        let found = file(said).apply(&before);
        assert_eq!(found, Err(format!("{title}: {wrong}")));
    }
}

/// A file of weights 1 and 1 is byte for byte the one that the first release wrote, by both programs. Any other weights make another.
#[test]
fn a_file_of_weights_one_is_that_of_the_first_release() {
    let mut files = 0;
    for record in records(&stored()) {
        let Input::Net { lists, .. } = case(&record).input else {
            continue;
        };
        let Some(line) = record.lines().find(|line| line.starts_with("file 0 ")) else {
            continue;
        };
        let said =
            |bytes: &[u8]| format!("file 0 bytes {} digest {:016x}", bytes.len(), digest(bytes));
        assert_eq!(lists.weights, Weights::ONE);
        let lists = with_loads_of_0(lists);
        let (pins, macros, weights) = lists.parts();
        let write = |weights| {
            let mut bytes = vec![0; netfile::BLOCKS * netfile::BLOCK_BYTES];
            let given =
                library::write_file(pins, macros, weights, &mut bytes).expect("an allowed net");
            bytes.truncate(given);
            bytes
        };
        assert_eq!(said(&write(weights)), line);
        assert_eq!(said(&netfile::write(&lists)), line);
        for (x, y) in [(2, 1), (1, 2), (8, 8)] {
            assert_ne!(said(&write(Weights { x, y })), line);
        }
        files += 1;
    }
    assert_eq!(files, 1_756);
}

/// No file is written again: what a request changes stands beside them.
#[test]
fn the_stored_file_is_the_one_of_the_first_release() {
    assert_eq!(
        format!("{:016x}", digest(stored().as_bytes())),
        "93c8ecd33ffc9eab"
    );
    assert_eq!(
        format!("{:016x}", digest(text("beside.txt").as_bytes())),
        "d1f3fa32eb832bb6"
    );
    assert_eq!(
        format!("{:016x}", digest(text("twice.txt").as_bytes())),
        "c8af8dc07970fb21"
    );
    assert_eq!(
        format!("{:016x}", digest(text("loads.txt").as_bytes())),
        "30a6d9de9c1768d5"
    );
}

/// Examples, nets at the bounds, and the kinds that the generators had: 23 of allowed nets, 15 of refused ones and 16 of damaged files.
const KINDS: usize = 2 + 23 + 15 + 16;

/// Every kind, every refusal of every operation, and most nets in full.
#[test]
fn the_records_meet_every_kind_and_every_refusal() {
    let records = records(&stored());
    let (mut kinds, mut answers) = (BTreeSet::new(), BTreeSet::new());
    let (mut nets, mut in_full, mut largest) = (0, 0, 0);
    for record in &records {
        let case = case(record);
        if let Input::Net { lists, full } = &case.input {
            nets += 1;
            in_full += usize::from(*full);
            largest += usize::from((lists.pins.len(), lists.macros.len()) == (128, 256));
        }
        kinds.insert(case.kind);
        for line in record.lines() {
            let words: Vec<&str> = line.split(' ').collect();
            match words[..] {
                ["short", "graph", v, e, "terminal", t, "refined", r, "wires", w, "file", f] => {
                    let short = ["vertices", "edges", "paths", "tree", "drawn", "bytes"];
                    for (space, answer) in short.iter().zip([v, e, t, r, w, f]) {
                        answers.insert(format!("{space} {answer}"));
                    }
                }
                ["route", "refused", number] => {
                    answers.insert(format!("{} route {number}", what(record)));
                }
                [operation, answer, ..] => {
                    answers.insert(format!("{operation} {answer}"));
                }
                _ => {}
            }
        }
    }
    assert_eq!(nets, 2_000);
    assert!(in_full >= 1_500 && largest >= 20, "{in_full} {largest}");
    assert_eq!(kinds.len(), KINDS);
    for wanted in wanted() {
        assert!(answers.contains(&wanted), "never met: {wanted}");
    }
}

/// What a record is of: `net` or `damaged`.
fn what(record: &str) -> &str {
    record.split(' ').next().unwrap_or_default()
}

/// Each answer that must stand somewhere: 0 and 11 to 17 for each operation, 21 for each space that is one number short.
fn wanted() -> Vec<String> {
    let mut wanted = Vec::new();
    for operation in ["check", "graph", "terminal", "refined", "wires", "file"] {
        for answer in [0, 11, 12, 13, 14, 15, 16, 17] {
            wanted.push(format!("{operation} {answer}"));
        }
    }
    for space in ["vertices", "edges", "paths", "tree", "drawn", "bytes"] {
        for answer in [11, 12, 13, 14, 15, 16, 17, 21] {
            wanted.push(format!("{space} {answer}"));
        }
    }
    for answer in [11, 12, 13, 14, 15, 16, 17] {
        wanted.push(format!("net route {answer}"));
    }
    for answer in [1, 2, 3, 11, 13, 14, 15, 16, 17] {
        wanted.push(format!("damaged route {answer}"));
    }
    wanted
}

/// The judge is awake: one digit, a line too many, a line too few and two lines exchanged are each found, and named by the net's number
/// and the operation with both lines.
#[test]
fn a_difference_is_named() {
    let records = records(&stored());
    let record = records
        .iter()
        .find(|record| record.starts_with("net ") && record.contains(" three-pins "))
        .expect("the third worked net");
    let now = case(record).record();
    let record = &Since::read().expected(record);
    assert_eq!(differences(record, &now), vec![]);
    let title = record.lines().next().unwrap().to_string();
    let named = |operation: &str, stored: &str, now: &str| {
        vec![Difference {
            title: title.clone(),
            operation: operation.to_string(),
            stored: stored.to_string(),
            now: now.to_string(),
        }]
    };
    let edges = "refined 0 total 7 edges 3: 0 0 2 0, 2 0 2 3, 2 0 4 0";
    let other = "refined 0 total 8 edges 3: 0 0 2 0, 2 0 2 3, 2 0 4 0";
    assert_eq!(
        differences(&record.replace(edges, other), &now),
        named("refined", other, edges)
    );
    let header = "route pins 3 macros 0 terminal 9 refined 7 metal 7";
    for other in [
        "route pins 3 macros 0 terminal 9 refined 7",
        "route pins 3 macros 0 terminal 9 refined 7 metal 8",
        "route pins 3 macros 0 terminal 9 metal 7 refined 7",
    ] {
        assert_eq!(
            differences(&record.replace(header, other), &now),
            named("route", other, header)
        );
    }
    let last = "route 2 0 4 0 2";
    assert_eq!(
        differences(&record.replace(&format!("{last}\n"), ""), &now),
        named("route", "", last)
    );
    assert_eq!(
        differences(&format!("{record}route 1\n"), &now),
        named("route", "route 1", "")
    );
    let swapped = record.replace("check 0\n", "") + "check 0\n";
    assert_eq!(
        differences(&swapped, &now)[0].operation,
        "the order of lines"
    );
    let said = differences(&record.replace(edges, other), &now)[0].to_string();
    let expected = format!("{title}: refined differs\n  stored: {other}\n  now:    {edges}");
    assert_eq!(said, expected);
}

/// The three values that the inventors of FNV-1a publish for these texts.
#[test]
fn the_digest_is_fnv_1a() {
    assert_eq!(digest(b""), 0xcbf2_9ce4_8422_2325);
    assert_eq!(digest(b"a"), 0xaf63_dc4c_8601_ec8c);
    assert_eq!(digest(b"foobar"), 0x8594_4171_f739_67e8);
}
