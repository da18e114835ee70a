//! GDSII and DEF: what is written is read back as the same net and the same wires, files of others are read, and no input, whatever it
//! holds, makes a reader do anything but say what is wrong.

mod common;

use std::ffi::OsStr;
use std::fs;
use std::time::{Duration, Instant};

use calzundi::{Edge, Net, Place, Wire};
use common::{example, folder, made, printed, root, run, said, seeds, shell, word, written};
use reference::generate::{loaded, weighted, Kind};
use reference::random::Random;
use tools::formats::drawing::{cell_name, wires, Drawing};
use tools::formats::found::Found;
use tools::formats::{def, gds};
use tools::split::split;

/// What is said on standard error where the status is 1, whatever is printed.
fn failed(words: &[&str], input: &[u8]) -> String {
    let output = run(words, input);
    assert_eq!(output.status.code(), Some(1), "{words:?}");
    String::from_utf8(output.stderr).unwrap()
}

fn drawing(net: &Net, wires: Vec<Wire>) -> Drawing<'_> {
    Drawing {
        name: "net".into(),
        net,
        wires,
        width: 2,
        per_micron: 1000,
    }
}

fn from_gds(bytes: &[u8]) -> Found {
    gds::read(bytes, &gds::Asked::default()).unwrap()
}

fn from_def(text: &str) -> Found {
    def::read(text.as_bytes(), &def::Asked::default()).unwrap()
}

fn edges(wires: &[Wire]) -> Vec<Edge> {
    let edge = |wire: &Wire| Edge {
        first: wire.start,
        second: wire.end,
    };
    wires.iter().map(edge).collect()
}

/// Every kind of net with loads and weights, and the wires of its refined and its slid tree, through both formats.
#[test]
fn round_trips() {
    for &kind in Kind::ALL {
        for seed in 0..seeds(kind, 6) {
            let net = made(&loaded(&weighted(kind, seed), seed));
            let refined = net.wires().unwrap();
            assert_eq!(wires(&net.refined_tree().unwrap().edges), refined);
            for laid in [refined, wires(&net.slid_tree().unwrap().edges), vec![]] {
                let drawing = drawing(&net, laid);
                let by_gds = from_gds(&gds::write(&drawing, &gds::Layers::default()));
                let by_def = from_def(&def::write(&drawing, &def::Layers::default()));
                for found in [by_gds, by_def] {
                    assert_eq!(found.net, net, "{} {seed}", kind.name());
                    assert_eq!(found.edges, edges(&drawing.wires));
                    assert_eq!((found.missing, found.notes), (0, vec![]));
                }
            }
        }
    }
}

/// A slid tree's wires, split and judged, are the tree that was sent out: as much metal, and it passes.
#[test]
fn trees_come_back() {
    let folder = folder("formats-trees");
    for kind in [Kind::TinyFour, Kind::Largest, Kind::Far] {
        let net = made(&weighted(kind, 5));
        let text = folder.join("net.txt");
        fs::write(&text, tools::text::print(&net)).unwrap();
        for format in ["--gds", "--def"] {
            let layout = written(&["export", "--slid", format, word(&text)], b"");
            let tree = written(&["import", "--tree", "--split", "-"], &layout);
            let judged = printed(&["verify", word(&text), "-"], &tree);
            let metal = net.slid_tree().unwrap().metal;
            assert!(judged.contains(": passes, "), "{judged}");
            assert!(judged.ends_with(&format!(" metal {metal}\n")), "{judged}");
        }
    }
}

fn sample(name: &str) -> std::path::PathBuf {
    root().join("tools/tests/samples").join(name)
}

/// What is written today is what KLayout has judged (tools/with-clients).
#[test]
fn written_as_stored() {
    for (net, words, stored) in [
        ("eight-pins", &["--gds"][..], "eight-pins.gds"),
        ("eight-pins", &["--def", "--slid"], "eight-pins.slid.def"),
        (
            "loads",
            &["--gds", "--best", "--width", "4"],
            "loads.best.gds",
        ),
        ("weights", &["--def", "--per-micron", "2000"], "weights.def"),
    ] {
        let net = example(net);
        let words = [&["export"], words, &[word(&net)]].concat();
        let expected = fs::read(sample(stored)).unwrap();
        assert!(written(&words, b"") == expected, "{words:?}");
    }
}

/// A file that KLayout wrote: outlines of either turn, a path of four places, one that ends on it, and a layer that nobody asked for.
#[test]
fn a_file_of_klayout() {
    let file = sample("klayout.gds");
    let output = run(&["import", word(&file)], b"");
    let net = "# cell 'BENCH', 1000 units a micron\npin 0 8\npin 20 8\npin 10 8\npin 10 0\nmacro 2 2 8 6\nmacro 12 2 18 6\n";
    assert_eq!(String::from_utf8(output.stdout).unwrap(), net);
    let noted = String::from_utf8(output.stderr).unwrap();
    assert!(noted.ends_with("passed over: 1 shape on 9/0\n"), "{noted}");
    let tree = run(&["import", "--tree", "--split", word(&file)], b"").stdout;
    let net = folder("formats-klayout").join("net.txt");
    fs::write(&net, run(&["import", word(&file)], b"").stdout).unwrap();
    let judged = printed(&["verify", word(&net), "-"], &tree);
    assert_eq!(judged, "standard input: passes, edges 5 cost 44 metal 44\n");
    let other = run(
        &[
            "import",
            "--macro-layer",
            "9/0",
            "--cell",
            "BENCH",
            word(&file),
        ],
        b"",
    );
    let wrong = String::from_utf8(other.stderr).unwrap();
    assert!(wrong.contains("refused 17"), "{wrong}");
    let text = String::from_utf8(other.stdout).unwrap();
    // With the large box as a macro two pins stand in an interior, and the net is refused.
    assert!(!text.contains("pin "), "{text}");
    assert_eq!(other.status.code(), Some(1));
}

/// A file with most of what DEF has: the net that is asked for, and what was passed over.
#[test]
fn a_file_of_another_router() {
    let file = sample("foreign.def");
    let output = run(&["import", "--net", "clk", word(&file)], b"");
    let net = "# net 'clk' of design 'bench', 2000 units a micron\npin 0 0\npin 20 0 7\npin 10 8\n\
               macro 12 2 18 6\nmacro 2 2 8 6\nmacro 30 0 40 10\n";
    assert_eq!(String::from_utf8(output.stdout).unwrap(), net);
    let noted = String::from_utf8(output.stderr).unwrap();
    for part in [
        "1 component, ",
        "1 special net;",
        "1 blockage of cells;",
        "1 via;",
        "1 patch of metal\n",
        "several layers",
    ] {
        assert!(noted.contains(part), "{part} is not in {noted}");
    }
    let tree = |words: &[&str]| {
        let words = [&["import", "--net", "clk", "--tree"], words, &[word(&file)]].concat();
        let text = String::from_utf8(run(&words, b"").stdout).unwrap();
        text.split_once('\n').unwrap().1.to_string()
    };
    assert_eq!(tree(&[]), "0 0 20 0\n10 8 10 0\n0 0 4 0\n");
    assert_eq!(
        tree(&["--split"]),
        "0 0 4 0\n4 0 10 0\n10 0 20 0\n10 8 10 0\n"
    );
    assert_eq!(tree(&["--wire-layer", "met2"]), "10 8 10 0\n");
    let wrong = said(&["import", word(&file)], b"", 1);
    assert!(
        wrong.contains("line 45: there are nets 'other' and 'clk': --net says"),
        "{wrong}"
    );
    let wrong = said(&["import", "--net", "none", word(&file)], b"", 1);
    assert!(wrong.contains("there is no net 'none'"), "{wrong}");
}

fn place(x: i32, y: i32) -> Place {
    Place { x, y }
}

fn edge(numbers: [i32; 4]) -> Edge {
    let [a, b, c, d] = numbers;
    Edge {
        first: place(a, b),
        second: place(c, d),
    }
}

/// T junctions, crossings, places in the middle, metal upon metal, and slanted edges, which stay.
#[test]
fn wires_are_cut() {
    let cut = |edges: &[[i32; 4]], places: &[(i32, i32)]| -> Vec<[i32; 4]> {
        let edges: Vec<Edge> = edges.iter().map(|numbers| edge(*numbers)).collect();
        let places: Vec<Place> = places.iter().map(|(x, y)| place(*x, *y)).collect();
        let pieces = split(&edges, &places).unwrap();
        let numbers = |e: &Edge| [e.first.x, e.first.y, e.second.x, e.second.y];
        pieces.iter().map(|piece| numbers(&piece.edge)).collect()
    };
    // A T from either side, and from either end.
    assert_eq!(
        cut(&[[0, 0, 4, 0], [2, 3, 2, 0]], &[]),
        [[0, 0, 2, 0], [2, 0, 4, 0], [2, 3, 2, 0]]
    );
    assert_eq!(
        cut(&[[4, 0, 0, 0], [2, 0, 2, 3]], &[]),
        [[4, 0, 2, 0], [2, 0, 0, 0], [2, 0, 2, 3]]
    );
    // A crossing cuts both.
    let crossed = [[0, 0, 1, 0], [1, 0, 4, 0], [1, -1, 1, 0], [1, 0, 1, 1]];
    assert_eq!(cut(&[[0, 0, 4, 0], [1, -1, 1, 1]], &[]), crossed);
    // A pin in the middle, and one beside.
    assert_eq!(
        cut(&[[0, 0, 4, 0]], &[(3, 0), (3, 1), (5, 0)]),
        [[0, 0, 3, 0], [3, 0, 4, 0]]
    );
    // Metal upon metal, also from the other end.
    assert_eq!(
        cut(&[[0, 0, 4, 0], [6, 0, 2, 0]], &[]),
        [[0, 0, 2, 0], [2, 0, 4, 0], [6, 0, 4, 0]]
    );
    assert_eq!(cut(&[[0, 0, 4, 0], [4, 0, 0, 0]], &[]), [[0, 0, 4, 0]]);
    // What only touches at ends, or passes by, is left alone; and so is what is slanted.
    let apart = [[0, 0, 4, 0], [4, 0, 4, 3], [5, 1, 9, 1]];
    assert_eq!(cut(&apart, &[]), apart);
    assert_eq!(
        cut(&[[0, 0, 4, 4], [0, 2, 4, 2]], &[(2, 2)]),
        [[0, 0, 4, 4], [0, 2, 2, 2], [2, 2, 4, 2]]
    );
    assert!(cut(&[], &[(0, 0)]).is_empty());
    let level = (0..300).map(|y| edge([0, y, 300, y]));
    let upright = (0..300).map(|x| edge([x, 0, x, 300]));
    let wrong = split(&level.chain(upright).collect::<Vec<Edge>>(), &[]).unwrap_err();
    assert!(wrong.contains("more than 65536 pieces"), "{wrong}");
}

fn design(body: &str) -> String {
    format!("VERSION 5.8 ;\nDESIGN d ;\nUNITS DISTANCE MICRONS 1000 ;\n{body}END DESIGN\n")
}

/// What is wrong with a DEF, and on which line.
#[test]
fn bad_lines_of_def() {
    let pins =
        "PINS 2 ;\n- a + NET n + PLACED ( 0 0 ) N ;\n- b + NET n + PLACED ( 4 0 ) N ;\nEND PINS\n";
    for (body, wrong) in [
        (
            "PINS 1 ;\n- a + NET n + PLACED ( 0 x ) N ;\nEND PINS\n",
            "line 5: 'x' for y is no whole number of 32 bits",
        ),
        (
            "PINS 1 ;\n- a + NET n + PLACED ( 0 99999999999 ) N ;\n",
            "line 5: '99999999999' for y is no whole number",
        ),
        (
            "PINS 1 ;\n- a + NET n + PLACED 0 0 N ;\nEND PINS\n",
            "line 5: '0' where ( should be",
        ),
        (
            "PINS 1 ;\n- a + NET n + PLACED ( 0 0 ) N + PLACED ( 1 1 ) N ;\nEND PINS\n",
            "line 5: pin 'a' has a second place",
        ),
        (
            "PINS 1 ;\n- a + NET n ;\nEND PINS\n",
            "line 5: pin 'a' has no place",
        ),
        (
            "PINS 1 ;\n- a + NET n + PLACED ( 0 0 ) N ;\nEND NETS\n",
            "line 6: 'NETS' where PINS should be",
        ),
        (
            "PINS 1 ;\nx ;\nEND PINS\n",
            "line 5: 'x' in PINS, where - or END should be",
        ),
        (
            "PINS 1 ;\n- a + NET n + PLACED ( 0 0 ) N\n",
            "the file ends before END DESIGN",
        ),
        (
            "BUSBITCHARS \"[] ;\n",
            "line 4: a word in quotes has no end",
        ),
        (
            "UNITS DISTANCE FURLONGS 1 ;\n",
            "line 4: 'FURLONGS' where MICRONS should be",
        ),
        (
            "BLOCKAGES 1 ;\n- LAYER M1 POLYGON ( 0 0 ) ( 4 0 ) ( 4 4 ) ;\nEND BLOCKAGES\n",
            "line 5: the outline is no upright box",
        ),
        (
            "BLOCKAGES 1 ;\n- LAYER M1 POLYGON ( 0 0 ) ( 4 1 ) ( 4 4 ) ( 0 4 ) ;\nEND BLOCKAGES\n",
            "line 5: the outline is no upright box",
        ),
        (
            "NETS 1 ;\n- n ( PIN a )\n  + ROUTED M1 ( * 0 ) ( 4 * ) ;\nEND NETS\n",
            "line 6: * for x without a place before it",
        ),
        (
            "NETS 1 ;\n- n ( PIN a )\n  + ROUTED M1 ( 0 0 ) ( 4 4 ) ;\nEND NETS\n",
            "line 6: the wire from 0 0 to 4 4 is slanted",
        ),
        (
            "NETS 1 ;\n- n ( PIN a )\n  + ROUTED ;\nEND NETS\n",
            "line 6: a wire without its layer",
        ),
        (
            "NETS 1 ;\n- n ( PIN a ;\nEND NETS\n",
            "line 5: a net's pin without its )",
        ),
        (
            "NETS 1 ;\n- n ( u1 A )\n;\nEND NETS\n",
            "net 'n' of design 'd', 1000 units a micron: 1 of its pins have no place in the file",
        ),
        ("", "there is no net in NETS, nor a pin of one in PINS"),
    ] {
        let text = design(body);
        let told = said(&["import", "-"], text.as_bytes(), 1);
        assert!(told.contains(wrong), "{text}{told}");
    }
    // A refusal names the lines of the DEF.
    let twice = design(&pins.replace("( 4 0 )", "( 0 0 )"));
    let told = failed(&["import", "-"], twice.as_bytes());
    assert!(
        told.contains("refused 15") && told.contains("line 6, pin 2 (0 0)"),
        "{told}"
    );
    let told = said(&["import", "-"], b"VERSION 5.8 ;\n\xff\n", 1);
    assert!(told.contains("line 2: not UTF-8 text"), "{told}");
    for input in [&b""[..], b"\0\0\0\0", &[7; 600].map(|byte: u8| byte & 8)] {
        let told = said(&["import", "-"], input, 1);
        assert!(told.contains("it is neither GDSII nor DEF"), "{told}");
    }
    assert_eq!(
        printed(&["import", "-"], design(pins).as_bytes())
            .lines()
            .count(),
        3
    );
}

/// A stream of records, each its kind and its bytes.
fn stream(records: &[(u16, &[u8])]) -> Vec<u8> {
    let mut bytes = Vec::new();
    for (kind, data) in records {
        bytes.extend((4 + data.len() as u16).to_be_bytes());
        bytes.extend(kind.to_be_bytes());
        bytes.extend(*data);
    }
    bytes
}

const HEADER: (u16, &[u8]) = (0x0002, &[2, 88]);
const BGNSTR: (u16, &[u8]) = (0x0502, &[0; 24]);
const NAME: (u16, &[u8]) = (0x0606, b"AB");
const ENDSTR: (u16, &[u8]) = (0x0700, &[]);
const ENDLIB: (u16, &[u8]) = (0x0400, &[]);
const ENDEL: (u16, &[u8]) = (0x1100, &[]);
const TEXT: (u16, &[u8]) = (0x0c00, &[]);
const LAYER: (u16, &[u8]) = (0x0d02, &[0, 3]);
const TEXTTYPE: (u16, &[u8]) = (0x1602, &[0, 0]);
const AT: (u16, &[u8]) = (0x1003, &[0, 0, 0, 5, 0, 0, 0, 7]);

/// What is wrong with a stream, and at which byte.
#[test]
fn bad_offsets_of_gds() {
    let pin = [TEXT, LAYER, TEXTTYPE, AT, ENDEL];
    let cell = |elements: &[(u16, &'static [u8])]| {
        stream(&[&[HEADER, BGNSTR, NAME], elements, &[ENDSTR, ENDLIB]].concat())
    };
    let good = from_gds(&cell(&pin));
    assert_eq!(
        (good.net.pins[0].place, good.net.pins.len()),
        (place(5, 7), 1)
    );
    let of = |bytes: Vec<u8>| {
        gds::read(&bytes, &gds::Asked::default())
            .unwrap_err()
            .to_string()
    };
    let whole = cell(&pin);
    for (bytes, wrong) in [
        (
            whole[..whole.len() - 4].to_vec(),
            "offset 76: the file ends before its last record, ENDLIB",
        ),
        (
            whole[..50].to_vec(),
            "offset 50: the file ends before its last record",
        ),
        (
            whole[..49].to_vec(),
            "offset 44: the file ends within a record",
        ),
        (
            [&whole[..6], &[0, 0, 5, 2]].concat(),
            "offset 6: a record has 0 bytes; it is an even number, 4 at the least",
        ),
        (
            [&whole[..6], &[0, 7, 5, 2, 0, 0, 0]].concat(),
            "offset 6: a record has 7 bytes",
        ),
        (
            stream(&[BGNSTR]),
            "offset 0: a stream begins with its header",
        ),
        (
            stream(&[HEADER, BGNSTR, BGNSTR]),
            "offset 34: a cell within a cell",
        ),
        (
            stream(&[HEADER, ENDSTR]),
            "offset 6: the end of a cell outside of one",
        ),
        (
            stream(&[HEADER, NAME]),
            "offset 6: the name of a cell outside of one",
        ),
        (
            stream(&[HEADER, TEXT]),
            "offset 6: an element outside of a cell",
        ),
        (
            stream(&[HEADER, BGNSTR, ENDLIB]),
            "offset 34: the library ends within a cell",
        ),
        (
            cell(&[TEXT, TEXT]),
            "offset 44: an element within an element",
        ),
        (
            cell(&[ENDEL]),
            "offset 40: the end of an element outside of one",
        ),
        (
            cell(&[TEXT, LAYER, TEXTTYPE, AT]),
            "offset 68: an element is not ended",
        ),
        (
            cell(&[TEXT, AT, ENDEL]),
            "offset 56: an element without its layer",
        ),
        (
            cell(&[TEXT, LAYER, TEXTTYPE, ENDEL]),
            "offset 56: an element without places",
        ),
        (
            cell(&[TEXT, LAYER, TEXTTYPE, AT, AT, ENDEL]),
            "offset 80: a text with several places",
        ),
        (
            cell(&[TEXT, (0x0d02, &[0, 3, 0]), ENDEL]),
            "offset 44: a record has 7 bytes",
        ),
        (
            cell(&[TEXT, (0x0d02, &[0, 3, 0, 0])]),
            "offset 44: the record is not one number of 16 bits",
        ),
        (
            cell(&[TEXT, (0x1003, &[0, 0, 0, 5])]),
            "offset 44: the places are not whole pairs of 32 bits",
        ),
        (
            cell(&[(0x0a00, &[]), (0x1206, b"CD"), ENDEL]),
            "offset 50: a reference to cell 'CD': references are not followed",
        ),
        (
            stream(&[HEADER, (0x0305, &[0; 16])]),
            "offset 6: a unit is not above zero",
        ),
        (
            stream(&[HEADER, (0x0305, &[0; 8])]),
            "offset 6: the units are not two numbers of 64 bits",
        ),
        (
            cell(&[]),
            "offset 48: no box on 1/0, no path on 2/0 and no text on 3/0",
        ),
    ] {
        let told = of(bytes);
        assert!(told.contains(wrong), "{told}\n{wrong}");
    }
    let two = stream(
        &[
            &[HEADER, BGNSTR, NAME][..],
            &pin,
            &[ENDSTR, BGNSTR, (0x0606, b"CD")],
            &pin,
            &[ENDSTR, ENDLIB],
        ]
        .concat(),
    );
    assert!(of(two.clone()).contains("cells 'AB' and 'CD' have pins, macros or wires: --cell says"));
    let asked = gds::Asked {
        cell: Some("CD".into()),
        ..gds::Asked::default()
    };
    assert_eq!(gds::read(&two, &asked).unwrap().title, "cell 'CD'");
}

/// Shapes of one role on the layer of another are said, and not passed over.
#[test]
fn wrong_shapes_of_gds() {
    let shape = |element: u16, layer: &'static [u8], places: &'static [u8]| {
        stream(&[
            HEADER,
            BGNSTR,
            NAME,
            (element, &[]),
            (0x0d02, layer),
            (0x0e02, &[0, 0]),
            (0x1003, places),
            ENDEL,
            ENDSTR,
            ENDLIB,
        ])
    };
    const LINE: &[u8] = &[0, 0, 0, 0, 0, 0, 0, 0, 0, 0, 0, 4, 0, 0, 0, 0];
    const SLANT: &[u8] = &[0, 0, 0, 0, 0, 0, 0, 0, 0, 0, 0, 4, 0, 0, 0, 4];
    for (bytes, wrong) in [
        (
            shape(0x0800, &[0, 2], LINE),
            "a shape on 2/0, the wires' layer: wires are read from paths",
        ),
        (
            shape(0x0900, &[0, 1], LINE),
            "a path on 1/0, the macros' layer: macros are read from boxes",
        ),
        (
            shape(0x0800, &[0, 1], LINE),
            "the outline is no upright box",
        ),
        (
            shape(0x0900, &[0, 2], SLANT),
            "the wire from 0 0 to 4 4 is slanted",
        ),
        (
            shape(0x0900, &[0, 7], LINE),
            "it has 7/0: --macro-layer, --wire-layer and --pin-layer say",
        ),
    ] {
        let told = gds::read(&bytes, &gds::Asked::default())
            .unwrap_err()
            .to_string();
        assert!(told.contains(wrong), "{told}\n{wrong}");
    }
    assert_eq!(
        from_gds(&shape(0x0900, &[0, 2], LINE)).edges,
        [edge([0, 0, 4, 0])]
    );
}

/// Files cut anywhere and with bytes changed anywhere: an answer or a word, and never a breakdown.
#[test]
fn damaged_files_are_read() {
    let net = made(&loaded(&weighted(Kind::TinyFour, 1), 1));
    let drawing = drawing(&net, net.wires().unwrap());
    let stream = gds::write(&drawing, &gds::Layers::default());
    let text = def::write(&drawing, &def::Layers::default()).into_bytes();
    let foreign = fs::read(sample("foreign.def")).unwrap();
    let read = |bytes: &[u8]| {
        let _ = gds::read(bytes, &gds::Asked::default());
        let _ = def::read(bytes, &def::Asked::default());
        let clk = def::Asked {
            net: Some("clk".into()),
            ..def::Asked::default()
        };
        let _ = def::read(bytes, &clk);
    };
    for whole in [&stream, &text, &foreign] {
        for end in 0..whole.len() {
            read(&whole[..end]);
        }
        let mut random = Random::new(7);
        for _ in 0..4000 {
            let mut bytes = whole.clone();
            for _ in 0..1 + random.below(4) {
                let at = random.below(bytes.len());
                bytes[at] = random.bits() as u8;
            }
            let (at, end) = (random.below(bytes.len()), random.below(bytes.len()));
            if random.below(3) == 0 && at < end {
                let piece = bytes[at..end].to_vec();
                bytes.splice(at..at, piece);
            }
            read(&bytes);
        }
        // Words exchanged for others of the file.
        let words: Vec<&[u8]> = whole.split(|&byte| byte == b' ' || byte == b'\n').collect();
        for _ in 0..4000 {
            let mut words = words.clone();
            for _ in 0..1 + random.below(3) {
                let (at, from) = (random.below(words.len()), random.below(words.len()));
                words[at] = words[from];
            }
            read(&words.join(&b' '));
        }
    }
}

/// Counts that are lies, and as much of everything as a file may have, take neither memory nor time.
#[test]
fn large_files_are_bounded() {
    let start = Instant::now();
    let lies = design(
        "PINS 4294967295 ;\n- a + NET n + PLACED ( 0 0 ) N ;\nEND PINS\n\
         NETS 99999999999999999999 ;\n- n ( PIN a ) ;\nEND NETS\n",
    );
    assert_eq!(from_def(&lies).net.pins.len(), 1);
    let many = 1 << 19;
    for (body, wrong) in [
        (
            format!("PINS 1 ;\n{}END PINS\n", "- a + NET n ;\n".repeat(many)),
            "more than 262144 pins",
        ),
        (
            format!("NETS 1 ;\n- n {} ;\nEND NETS\n", "( PIN a ) ".repeat(many)),
            "more than 262144 pins",
        ),
        (
            format!(
                "NETS 1 ;\n- n + ROUTED M1 {} ;\nEND NETS\n",
                "( 0 0 ) ( 1 0 ) ".repeat(many)
            ),
            "more than 4096 pieces of wire",
        ),
        (
            format!(
                "BLOCKAGES 1 ;\n- LAYER M1 {} ;\nEND BLOCKAGES\n",
                "RECT ( 0 0 ) ( 1 1 ) ".repeat(many)
            ),
            "more than 4096 boxes",
        ),
        (
            format!(
                "BLOCKAGES 1 ;\n- LAYER M1 POLYGON {} ;\nEND BLOCKAGES\n",
                "( 0 0 ) ".repeat(many)
            ),
            "the outline is no upright box",
        ),
        ("( ".repeat(many), "the file ends before END DESIGN"),
        ("#".repeat(many), "the file ends before END DESIGN"),
    ] {
        let told = def::read(design(&body).as_bytes(), &def::Asked::default()).unwrap_err();
        assert!(told.to_string().contains(wrong), "{told}");
    }
    let places = [1, 0, 0, 0].repeat(2 * 8000);
    let path: Vec<(u16, &[u8])> = vec![(0x0900, &[]), (0x0d02, &[0, 2]), (0x0e02, &[0, 0])];
    let long = [(0x1003, &places[..])].repeat(200);
    let bytes = stream(
        &[
            &[HEADER, BGNSTR, NAME][..],
            &path,
            &long,
            &[ENDEL, ENDSTR, ENDLIB],
        ]
        .concat(),
    );
    assert!(from_gds(&bytes).edges.is_empty());
    let boxes = stream(
        &[
            &[HEADER, BGNSTR, NAME][..],
            &[TEXT, LAYER, TEXTTYPE, AT, ENDEL].repeat(100_000),
            &[ENDSTR, ENDLIB],
        ]
        .concat(),
    );
    let told = gds::read(&boxes, &gds::Asked::default()).unwrap_err();
    assert!(
        told.to_string()
            .contains("more than 4096 pins are not read"),
        "{told}"
    );
    assert!(
        start.elapsed() < Duration::from_secs(20),
        "{:?}",
        start.elapsed()
    );
    // A file without end is read no further than the most that is read.
    let (status, wrong) = shell(
        "yes -- '- a ;' | \"$0\" import - 2>&1 >/dev/null | grep 'longer than' >&2",
        &[],
    );
    assert_eq!((status, wrong.lines().count()), (Some(0), 1), "{wrong}");
}

/// `-o` to a file and to a folder; no net is written over by accident, and no input at all.
#[test]
fn outputs_go_where_they_should() {
    let folder = folder("formats-out");
    let (net, to) = (example("three-pins"), folder.join("a.gds"));
    assert_eq!(
        printed(&["export", "--gds", word(&net), "-o", word(&to)], b""),
        ""
    );
    let expected = written(&["export", "--gds", word(&net)], b"");
    assert_eq!(fs::read(&to).unwrap(), expected);
    // The same place again: a layout is no net.
    assert_eq!(
        printed(
            &[
                "export",
                "--gds",
                word(&net),
                &format!("--output={}", word(&to))
            ],
            b""
        ),
        ""
    );
    let kept = folder.join("kept.txt");
    fs::write(&kept, "pin 1 1\n").unwrap();
    let wrong = said(&["export", "--gds", word(&net), "-o", word(&kept)], b"", 1);
    assert!(
        wrong.contains("kept.txt: it is a net; --force writes over it"),
        "{wrong}"
    );
    assert_eq!(fs::read(&kept).unwrap(), b"pin 1 1\n");
    let wrong = said(&["import", word(&to), "-o", word(&kept)], b"", 1);
    assert!(wrong.contains("it is a net"), "{wrong}");
    assert_eq!(
        printed(&["import", word(&to), "-o", word(&kept), "--force"], b""),
        ""
    );
    assert!(fs::read_to_string(&kept)
        .unwrap()
        .starts_with("# cell 'three_pins'"));
    let file = root().join("examples/files/three-pins.net");
    let copy = folder.join("three.net");
    fs::copy(&file, &copy).unwrap();
    let wrong = said(
        &["export", "--def", "--force", word(&copy), "-o", word(&copy)],
        b"",
        2,
    );
    assert!(wrong.contains("is read; it is not written over"), "{wrong}");
    assert_eq!(fs::read(&copy).unwrap(), fs::read(&file).unwrap());
    // Many, to a folder that is made; one of them refused.
    let many = folder.join("many/");
    let (good, bad) = (example("eight-pins"), example("overlapping"));
    let words = [
        "export",
        "--def",
        word(&good),
        word(&bad),
        word(&net),
        "-o",
        word(&many),
    ];
    let wrong = failed(&words, b"");
    assert!(wrong.contains("refused 16"), "{wrong}");
    let mut names: Vec<String> = fs::read_dir(&many)
        .unwrap()
        .map(|entry| entry.unwrap().file_name().into_string().unwrap())
        .collect();
    names.sort();
    assert_eq!(names, ["eight-pins.def", "three-pins.def"]);
    let wrong = said(&["export", "--def", word(&good), word(&net)], b"", 2);
    assert!(wrong.contains("-o FOLDER/"), "{wrong}");
    let wrong = said(
        &[
            "export",
            "--def",
            word(&net),
            word(&file),
            "-o",
            word(&many),
        ],
        b"",
        2,
    );
    assert!(wrong.contains("would be one file in the folder"), "{wrong}");
    let wrong = said(
        &[
            "export",
            "--gds",
            word(&net),
            "-o",
            word(&folder.join("no/such/x.gds")),
        ],
        b"",
        1,
    );
    assert!(wrong.contains("no/such/x.gds: "), "{wrong}");
    for line in ["exec \"$0\" \"$@\" >&-", "exec \"$0\" \"$@\" >/dev/full"] {
        for words in [
            ["export", "--def", word(&net)],
            ["import", "--tree", word(&to)],
        ] {
            let (status, wrong) = shell(line, &words);
            assert_eq!(status, Some(1));
            assert!(wrong.contains(": standard output: "), "{wrong}");
        }
    }
}

/// Options: layers, widths, units, trees, and those that are wrong.
#[test]
fn options_of_export() {
    let net = example("eight-pins");
    let export = |words: &[&str]| written(&[&["export"], words, &[word(&net)]].concat(), b"");
    let layers = [
        "--gds",
        "--macro-layer",
        "10/1",
        "--wire-layer",
        "31",
        "--pin-layer=32767/5",
    ];
    let bytes = export(&layers);
    let wrong = said(&["import", "-"], &bytes, 1);
    assert!(wrong.contains("it has 10/1, 31/0, 32767/5: "), "{wrong}");
    let back = printed(&[&["import"], &layers[1..], &["-"]].concat(), &bytes);
    let text = printed(&["unpack", word(&net)], b"");
    assert_eq!(
        back,
        format!("# cell 'eight_pins', 1000 units a micron\n{text}")
    );
    let told = String::from_utf8(export(&[
        "--def",
        "--wire-layer",
        "met2",
        "--width",
        "6",
        "--per-micron",
        "20000",
    ]))
    .unwrap();
    for part in [
        "+ ROUTED met2 (",
        "+ LAYER M1 ( -3 -3 ) ( 3 3 ) +",
        "MICRONS 20000 ;",
        "- LAYER M1 RECT (",
    ] {
        assert!(told.contains(part), "{part} is not in {told}");
    }
    let told = String::from_utf8(export(&["--def", "--unrouted"])).unwrap();
    assert!(!told.contains("ROUTED"), "{told}");
    assert_ne!(export(&["--gds", "--slid"]), export(&["--gds"]));
    for (words, wrong) in [
        (&[][..], "take one of --gds and --def"),
        (&["--gds", "--def"], "take one of --gds and --def"),
        (
            &["--gds", "--slid", "--best"],
            "take one of --slid, --best, --shortened and --unrouted",
        ),
        (
            &["--gds", "--wire-layer", "M1"],
            "'M1' is no layer of GDSII, which is written as 1/0",
        ),
        (
            &["--gds", "--wire-layer", "-1/0"],
            "'-1/0' is no layer of GDSII",
        ),
        (
            &["--gds", "--wire-layer", "32768"],
            "'32768' is no layer of GDSII",
        ),
        (
            &["--def", "--pin-layer", "a b"],
            "'a b' is no name of a layer in DEF",
        ),
        (&["--gds", "--width", "3"], "--width is an even number"),
        (
            &["--gds", "--width", "-2"],
            "--width is a whole number from 0 to 2000000, not '-2'",
        ),
        (&["--def", "--per-micron", "1500"], "DEF has 100, 200, "),
    ] {
        let words = [&["export"], words, &[word(&net)]].concat();
        let told = said(&words, b"", 2);
        assert!(told.contains(wrong), "{words:?}: {told}");
    }
    let told = failed(&["export", "--gds", "--best", word(&net)], b"");
    assert!(told.contains("refused 41"), "{told}");
    let told = said(&["import", "--split", word(&net)], b"", 2);
    assert!(told.contains("--split is of a tree"), "{told}");
}

#[test]
fn names_of_cells() {
    assert_eq!(cell_name(OsStr::new("nets/eight-pins.txt")), "eight_pins");
    assert_eq!(cell_name(OsStr::new("-")), "net");
    assert_eq!(cell_name(OsStr::new("Größe 1.net")), "Gr__e_1");
    assert_eq!(cell_name(OsStr::new(&"x".repeat(99))).len(), 32);
}

/// Both commands say what they are, as the others do.
#[test]
fn help_of_formats() {
    let help = printed(&["--help"], b"");
    for command in ["export", "import"] {
        assert!(help.contains(&format!("\n    {command} ")), "{help}");
        let help = printed(&[command, "--help"], b"");
        assert!(help.starts_with(&format!("calzundi {command} ")), "{help}");
        assert!(help.contains("Exit status: 0 "), "{help}");
        assert!(
            help.lines().all(|line| line.chars().count() <= 80),
            "{help}"
        );
        assert!(said(&[command, "--fast"], b"", 2).contains("there is no option '--fast'"));
        assert!(said(&[command], b"", 2).contains(" is missing"));
    }
    assert!(said(&["import", "no/such/file"], b"", 1).contains("no/such/file: "));
    assert!(said(&["export", "--gds", "no/such/file"], b"", 1).contains("no/such/file: "));
}

/// A layer on which nothing is gave a net without macros, and a layout without wires an empty tree.
#[test]
fn a_layer_that_is_named_has_something_on_it() {
    let net = example("eight-pins");
    let export = |words: &[&str]| written(&[&["export"], words, &[word(&net)]].concat(), b"");
    let (gds, def) = (export(&["--gds"]), export(&["--def", "--wire-layer", "M2"]));
    for (words, layout, wrong) in [
        (
            &["--macro-layer", "7/0"][..],
            &gds,
            "no macro is on 7/0, which --macro-layer names; there are 1/0, 2/0, 3/0",
        ),
        (
            &["--pin-layer", "1/0"],
            &gds,
            "no pin is on 1/0, which --pin-layer names; there are",
        ),
        (
            &["--tree", "--wire-layer", "8"],
            &gds,
            "no wire is on 8, which --wire-layer names; there are 1/0, 2/0, 3/0",
        ),
        (
            &["--tree", "--split", "--pin-layer", "8"],
            &gds,
            "no pin is on 8, which",
        ),
        (
            &["--macro-layer", "met1"],
            &def,
            "no macro is on met1, which --macro-layer names; there are 'M1', 'M2'",
        ),
        (
            &["--pin-layer", "M2"],
            &def,
            "no pin is on M2, which --pin-layer names; there are 'M1'",
        ),
        (
            &["--tree", "--wire-layer", "M1"],
            &def,
            "no wire is on M1, which --wire-layer names",
        ),
        (
            &["--tree"],
            &export(&["--gds", "--unrouted"]),
            "there is no wire in it, and so no tree",
        ),
        (
            &["--tree"],
            &export(&["--def", "--unrouted"]),
            "there is no wire in it",
        ),
    ] {
        let told = run(&[&["import"], words, &["-"]].concat(), layout);
        assert_eq!(told.status.code(), Some(1), "{words:?}");
        assert_eq!(told.stdout, b"", "{words:?}");
        let told = String::from_utf8(told.stderr).unwrap();
        assert!(told.contains(wrong), "{told}\n{wrong}");
    }
    // A layer that what is written does not depend on may be empty, and a single pin has a tree without edges.
    for words in [
        &["--wire-layer", "8"][..],
        &["--tree", "--macro-layer", "8"],
    ] {
        let other = run(&[&["import"], words, &["-"]].concat(), &gds);
        assert_eq!(other.status.code(), Some(0), "{words:?}");
    }
    for format in ["--gds", "--def"] {
        let one = written(&["export", format, "-"], b"pin 3 4\n");
        let tree = printed(&["import", "--tree", "-"], &one);
        assert_eq!(tree.lines().count(), 1, "{tree}");
    }
}

/// A load or weights of GDSII that were no numbers were 0 and 1 without a word, and a load of no pin in DEF too.
#[test]
fn a_load_is_not_lost() {
    let pin = |layer: &'static [u8], attribute: &'static [u8], said: &'static [u8]| {
        stream(&[
            HEADER,
            BGNSTR,
            NAME,
            (0x0c00, &[]),
            (0x0d02, layer),
            (0x1602, &[0, 0]),
            (0x1003, &[0, 0, 0, 5, 0, 0, 0, 6]),
            (0x2b02, attribute),
            (0x2c06, said),
            ENDEL,
            ENDSTR,
            ENDLIB,
        ])
    };
    for (attribute, said, wrong) in [
        (
            &[0, 1],
            &b"load x\0\0"[..],
            "offset 74: 'x' for the load is no whole number of 32 bits",
        ),
        (
            &[0, 1],
            b"load 99999999999",
            "offset 74: '99999999999' for the load is no whole",
        ),
        (
            &[0, 1],
            b"load",
            "a property of a load needs a number for the load",
        ),
        (
            &[0, 1],
            b"load 1 2",
            "'2' stands after the end of the property of a load",
        ),
        (
            &[0, 2],
            b"weights 1 x\0",
            "offset 74: 'x' for y is no whole number of 32 bits",
        ),
        (
            &[0, 2],
            b"weights 1\0",
            "a property of weights needs a number for y",
        ),
    ] {
        let told = gds::read(&pin(&[0, 3], attribute, said), &gds::Asked::default());
        let told = told.unwrap_err().to_string();
        assert!(told.contains(wrong), "{told}\n{wrong}");
    }
    let net = |said| from_gds(&pin(&[0, 3], &[0, 1], said)).net;
    assert_eq!(net(b"load 7\0\0").pins[0].load, 7);
    // What others keep there is theirs, and so is what stands at no pin.
    assert_eq!(net(b"mine, not yours!").pins[0].load, 0);
    let other = gds::read(
        &pin(&[0, 9], &[0, 1], b"load x\0\0"),
        &gds::Asked::default(),
    );
    let told = other.unwrap_err().to_string();
    assert!(told.contains("no text on 3/0"), "{told}");
    // DEF.
    let def =
        String::from_utf8(written(&["export", "--def", word(&example("loads"))], b"")).unwrap();
    let first = def.find("- PIN p").unwrap();
    let name = def[first + 6..].split_whitespace().next().unwrap();
    let (head, rest) = def.split_at(first + 6);
    let other = format!("{head}q9{}", &rest[name.len()..]);
    let output = run(&["import", "-"], other.as_bytes());
    let told = String::from_utf8(output.stderr).unwrap();
    assert_eq!(output.status.code(), Some(0), "{told}");
    assert!(
        told.contains("passed over: the load of pin 'q9', which is not in PINS"),
        "{told}"
    );
}

/// `--net` with a GDSII and `--cell` with a DEF said nothing, and another net came out than was meant.
#[test]
fn cells_are_of_gds_and_nets_of_def() {
    let (gds, def) = (sample("klayout.gds"), sample("foreign.def"));
    let wrong = said(&["import", "--net", "clk", word(&gds)], b"", 2);
    assert!(
        wrong.contains("klayout.gds is GDSII, and --net is of DEF; of GDSII --cell names"),
        "{wrong}"
    );
    let words = ["import", "--net", "clk", "--cell", "BENCH", word(&def)];
    let wrong = said(&words, b"", 2);
    assert!(
        wrong.contains("foreign.def is no GDSII, and --cell is of GDSII; of DEF --net names"),
        "{wrong}"
    );
}
