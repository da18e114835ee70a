//! `draw`: nets and their trees become pictures, or pages to look into.

use std::ffi::OsString;

use calzundi::{Edge, Net, Passed, Refusal, Tree};

use crate::bound::{asked as bound_asked, bound_of, BOUND};
use crate::delay::Asked;
use crate::name::Name;
use crate::output::{each, Form, Made, Product};
use crate::picture::page::{page, page_refused};
use crate::picture::red::Red;
use crate::picture::refused::{self, Refused};
use crate::picture::sheet::sheet;
use crate::picture::{short_name, Layered, Other, Subject};
use crate::program::{Command, Failure, Switch, Words, A_FILE, FORCE, JSON, OUTPUT};
use crate::routed::Routed;
use crate::shorten::effort::{effort_if_shortened, Effort, EFFORT, SHORTENED};
use crate::shorten::shortened::shortened;
use crate::shorten::unsound::failure as unsound;
use crate::source::{open, Source};
use crate::streams::{name, read, say};
use crate::tree::{parse, Given};

const HELP: &str = "\
calzundi draw NET..: draws nets and their trees

A NET is text or a net file; for - it is standard input. The picture is SVG: the
terminal tree, with each path's length at its bridge, and the refined tree, with
the length of each edge where there is room, and the metal to lay. Pins are
discs, corners of macros squares, Steiner points diamonds, and so are bends that
are points of a tree. Up to 24 points have their coordinates beside them; in a
larger net pins have numbers, and a table below has their places. What is too
close or too thin to be seen is drawn apart, and the caption says so.

    -o FILE         where it goes, named .svg or .html; without it to standard
                    output
    -o FOLDER/      of many nets: FOLDER/NAME.svg (.html) of each
    --force         also over a net
    --html          a page instead, for a browser: layers to switch on and off
                    (graph, terminal, refined, slid and best tree, wires, and
                    what follows) and tables whose entries light up in the
                    picture; PAGE#edge-3 shows the third edge lit
    --slid          the refined and the slid tree, which `calzundi slide` prints
                    (on a page that layer is on at first)
    --best          the refined and a best tree, which `calzundi best` prints,
                    of a net of up to 5 pins and 16 macros
    --shortened     the refined tree and the one that `calzundi shorten` finds
    --effort N      how much is tried for it, 1 to 9
    --tree FILE     the refined tree and one of another router, as `calzundi
                    verify` takes it
    --split         cuts that tree's edges where others end on them or cross
                    them, as `calzundi verify --split` does
    --delay ASKED   the refined tree's pins with their delays too, which
                    `calzundi delay` prints; ASKED is the driver and the
                    technology as `x,y,R,C`
    --bound         says how much the tree that is to be laid is over a cost
                    that no tree undercuts; for the largest nets it takes half
                    a second
    --beside NET    on a page: another net's wires, and the metal that only one
                    of the two has
    --routed FILE   what `route` or `calzundi route` printed: it must be this
                    net's, line for line
    --json          says what was written where

    calzundi draw net.txt -o net.svg
    calzundi draw --html net.txt -o net.html
    calzundi draw --tree tree.txt net.txt -o net.svg
    calzundi draw --delay 0,0,0.03,0.0002 net.txt -o net.svg
    calzundi draw --html --beside before.txt after.txt -o after.html

A refused net, and a tree that does not pass, are drawn too, with what is to
blame in red; standard error says it, and the exit status is 1.
Exit status: 0 written; 1 something that is read is wrong, or a file cannot be
read or written; 2 a wrong command line.
";

const fn plain(name: &'static str) -> Switch {
    Switch { name, value: None }
}

const fn with_value(name: &'static str, value: &'static str) -> Switch {
    let value = Some(value);
    Switch { name, value }
}

pub const COMMAND: Command = Command {
    name: "draw",
    help: HELP,
    options: &[
        plain("--html"),
        plain("--slid"),
        plain("--best"),
        SHORTENED,
        EFFORT,
        with_value("--tree", A_FILE),
        plain("--split"),
        with_value("--delay", "a driver and a technology, as x,y,R,C"),
        BOUND,
        with_value("--beside", A_FILE),
        with_value("--routed", A_FILE),
        OUTPUT,
        FORCE,
        JSON,
    ],
    files: (1, usize::MAX),
    act: draw,
};

/// The picture of an allowed net.
pub fn svg(net: &Net) -> Result<String, Refusal> {
    Ok(sheet(&Subject::of(net)?))
}

/// The page of an allowed net.
pub fn html(name: &str, net: &Net) -> Result<String, Refusal> {
    Ok(page(name, &layered(net, &[])?))
}

/// What is drawn: a sheet with one thing beside, or at, the refined tree, or a page with layers.
enum Picture<'a> {
    Sheet(Beside<'a>),
    Page(Layers<'a>),
}

enum Beside<'a> {
    Nothing,
    Slid,
    Best,
    Shortened(Effort),
    Tree(&'a OsString),
    Delays(Asked),
}

/// What a page has beside the router's own trees, and which of these is on at first.
#[derive(Default)]
struct Layers<'a> {
    on: Vec<&'static str>,
    shortened: Option<Effort>,
    tree: Option<&'a OsString>,
    net: Option<&'a OsString>,
    delays: Option<Asked>,
}

fn picture(words: &Words) -> Result<Picture<'_>, Failure> {
    if words.has("--split") && !words.has("--tree") {
        let alone = "--split cuts the edges of --tree FILE, and there is none";
        return Err(Failure::Usage(alone.into()));
    }
    let delays = words.value("--delay").map(Asked::parse_word).transpose();
    let delays = delays.map_err(Failure::Usage)?;
    let (shortened, tree) = (effort_if_shortened(words)?, words.file("--tree"));
    if words.has("--html") {
        let own = [("--slid", "slid"), ("--best", "best")];
        let own = own.into_iter().filter(|(option, _)| words.has(option));
        return Ok(Picture::Page(Layers {
            on: own.map(|(_, class)| class).collect(),
            shortened,
            tree,
            net: words.file("--beside"),
            delays,
        }));
    }
    if words.has("--beside") {
        let page = "--beside NET is a layer of a page: take --html with it";
        return Err(Failure::Usage(page.into()));
    }
    let chosen = [
        words.has("--slid").then_some(Beside::Slid),
        words.has("--best").then_some(Beside::Best),
        shortened.map(Beside::Shortened),
        tree.map(Beside::Tree),
        delays.map(Beside::Delays),
    ];
    let mut chosen = chosen.into_iter().flatten();
    match (chosen.next(), chosen.next()) {
        (None, _) => Ok(Picture::Sheet(Beside::Nothing)),
        (Some(one), None) => Ok(Picture::Sheet(one)),
        _ => {
            let several = "--slid, --best, --shortened, --tree and --delay each draw something else; take one of them, or --html";
            Err(Failure::Usage(several.into()))
        }
    }
}

fn draw(words: &Words) -> Result<(), Failure> {
    let picture = picture(words)?;
    let files = ["--routed", "--tree", "--beside"].map(|option| words.file(option));
    let files: Vec<&OsString> = files.into_iter().flatten().collect();
    let twice = (1..files.len()).any(|at| files[..at].contains(&files[at]));
    if twice || files.iter().any(|file| words.files.contains(*file)) {
        return Err(Failure::Usage("the two files are the same one".into()));
    }
    let product = Product {
        command: "draw",
        ending: if words.has("--html") { "html" } else { "svg" },
        form: Form::File,
    };
    each(words, &product, |net| drawn(words, &picture, net))
}

/// The picture of one net, or of why it is refused.
fn drawn(words: &Words, picture: &Picture, net: &OsString) -> Result<Made, Failure> {
    let source = open(Some(net))?;
    if let Err(verdict) = &source.verdict {
        let failure = source.refused(verdict);
        let name = short_name(&source.name.to_string());
        let refused = Refused {
            name: &name,
            net: &source.net,
            red: Red::of(&verdict.blame),
        };
        if let Err(why) = refused.drawable() {
            say(&format!("calzundi draw: {}: {why}", source.name));
            return Err(failure);
        }
        let picture = match picture {
            Picture::Page(_) => page_refused(&refused),
            Picture::Sheet(_) => refused::sheet(&refused),
        };
        return Ok(Made {
            but: Some(failure),
            ..Made::from(picture)
        });
    }
    if let Some(printed) = words.file("--routed") {
        let printed = Some(printed);
        let text = read(printed)?;
        let mut routed = Routed::of(&source.net).map_err(|refusal| source.unfit(refusal))?;
        let first = text.split(|&byte| byte == b'\n').next().unwrap_or(&[]);
        if String::from_utf8_lossy(first).contains(" bound ") {
            routed = routed.above(Some(bound_of(&source)?));
        }
        same(&name(printed), &text, &routed.text())?;
    }
    let (picture, but) = match picture {
        Picture::Sheet(beside) => {
            let (subject, but) = on_sheet(words, beside, &source)?;
            (sheet(&subject), but)
        }
        Picture::Page(layers) => {
            let (subject, but) = on_page(words, layers, &source)?;
            (page(&source.name.to_string(), &subject), but)
        }
    };
    Ok(Made {
        but,
        ..Made::from(picture)
    })
}

/// An allowed net with what stands beside it, and why that does not pass.
type Judged = Result<(Subject, Option<Failure>), Failure>;

fn on_sheet(words: &Words, beside: &Beside, source: &Source) -> Judged {
    let net = &source.net;
    let wrong = |refusal| source.unfit(refusal);
    let mut subject = Subject::of(net).map_err(wrong)?;
    subject.routed = subject.routed.above(bound_asked(words, source)?);
    let subject = subject.named(&source.name.to_string());
    Ok(match beside {
        Beside::Nothing => (subject, None),
        Beside::Slid => {
            let tree = net.slid_tree().map_err(wrong)?;
            (subject.beside(SLID, tree), None)
        }
        Beside::Best => {
            let tree = net.best_tree().map_err(wrong)?;
            (subject.beside(BEST, tree), None)
        }
        Beside::Shortened(effort) => {
            let tree = found(source, *effort, &subject)?;
            (subject.beside(FOUND, tree), None)
        }
        Beside::Tree(file) => {
            let (tree, red, but) = judged(source, &read_tree(words, file, net)?)?;
            (subject.beside_red(BOUGHT, tree, red), but)
        }
        Beside::Delays(asked) => (delayed(subject, asked, source)?, None),
    })
}

fn on_page(words: &Words, layers: &Layers, source: &Source) -> Judged {
    let net = &source.net;
    let wrong = |refusal| source.unfit(refusal);
    let mut subject = layered(net, &layers.on).map_err(wrong)?;
    subject.routed = subject.routed.above(bound_asked(words, source)?);
    let mut but = None;
    if let Some(effort) = layers.shortened {
        let tree = found(source, effort, &subject)?;
        subject.layers.push(Layered {
            class: "shortened",
            is_on: true,
            other: Other {
                name: FOUND,
                tree,
                red: Red::default(),
            },
        });
    }
    if let Some(file) = layers.tree {
        let (tree, red, failure) = judged(source, &read_tree(words, file, net)?)?;
        let other = Other {
            name: BOUGHT,
            tree,
            red,
        };
        subject.layers.push(Layered {
            class: "tree",
            is_on: true,
            other,
        });
        but = failure;
    }
    if let Some(file) = layers.net {
        let there = open(Some(file))?;
        let wires = there.allowed()?.wires();
        let wires = wires.map_err(|refusal| there.unfit(refusal))?;
        subject = subject.with_neighbour(&there.name.to_string(), wires);
    }
    if let Some(asked) = &layers.delays {
        subject = delayed(subject, asked, source)?;
    }
    Ok((subject, but))
}

const SLID: &str = "slid tree";
const BEST: &str = "best tree";
const FOUND: &str = "shortened tree";
const BOUGHT: &str = "tree of another router";

/// A tree that the search has found and the check has passed; the search may stop at the bound.
fn found(source: &Source, effort: Effort, subject: &Subject) -> Result<Tree, Failure> {
    let found = shortened(&source.net, effort, subject.routed.bound.unwrap_or(0));
    let found = found.map_err(|stopped| unsound(source, stopped))?;
    Ok(found.tree().clone())
}

/// An allowed net with every tree of the router's that it has, as layers. One that is to be on is asked for.
fn layered(net: &Net, on: &[&str]) -> Result<Subject, Refusal> {
    let mut subject = Subject::of(net)?;
    let mut layer = |class, name, tree| {
        subject.layers.push(Layered {
            class,
            is_on: on.contains(&class),
            other: Other {
                name,
                tree,
                red: Red::default(),
            },
        });
    };
    layer("slid", SLID, net.slid_tree()?);
    match net.best_tree() {
        Ok(tree) => layer("best", BEST, tree),
        Err(Refusal::BestSize) if !on.contains(&"best") => {}
        Err(refusal) => return Err(refusal),
    }
    Ok(subject)
}

fn read_tree(words: &Words, file: &OsString, net: &Net) -> Result<Given, Failure> {
    let file = Some(file);
    let given = parse(name(file), &read(file)?)?;
    if words.has("--split") {
        return given.split(net);
    }
    Ok(given)
}

fn delayed(subject: Subject, asked: &Asked, source: &Source) -> Result<Subject, Failure> {
    let delays = asked.of(&source.net);
    let refused = |refusal| Failure::refused(&source.name, asked.blamed(refusal));
    Ok(subject.delayed(asked, &delays.map_err(refused)?))
}

/// A tree of another router: in order as ours are where it passes, else as it was given, with what is to blame. One with too many edges or
/// with none is not drawn.
fn judged(source: &Source, given: &Given) -> Result<(Tree, Red, Option<Failure>), Failure> {
    let in_order = |edge: &Edge| Edge {
        first: edge.first.min(edge.second),
        second: edge.first.max(edge.second),
    };
    let mut edges: Vec<Edge> = given.edges.iter().map(in_order).collect();
    match source.net.check_tree(&given.edges) {
        Ok(Passed { cost, metal }) => {
            edges.sort_unstable();
            let (total, red) = (cost, Red::default());
            let tree = Tree {
                edges,
                total,
                metal,
            };
            Ok((tree, red, None))
        }
        Err(refusal) => {
            let blame = given.blamed(source, refusal);
            let red = Red::of(&blame);
            let failure = Failure::refused(&given.name, blame);
            if edges.is_empty() || edges.len() > calzundi::BOUGHT_EDGES {
                return Err(failure);
            }
            let total = edges.iter().map(|edge| edge.cost(source.net.weights)).sum();
            let metal = edges.iter().map(Edge::length).sum();
            let tree = Tree {
                edges,
                total,
                metal,
            };
            Ok((tree, red, Some(failure)))
        }
    }
}

/// What was printed must be what this net gives.
fn same(name: &Name, printed: &[u8], right: &str) -> Result<(), Failure> {
    let printed = String::from_utf8_lossy(printed);
    let (mut said, mut wanted) = (printed.lines(), right.lines());
    for number in 1.. {
        match (said.next(), wanted.next()) {
            (None, None) => break,
            (said, wanted) if said == wanted => {}
            (_, Some(wanted)) => {
                let what =
                    format!("line {number}: it is not this net's; for this net it is '{wanted}'");
                return Err(Failure::wrong(name, what));
            }
            (_, None) => {
                let what = format!("line {number}: it is not this net's, which has no such line");
                return Err(Failure::wrong(name, what));
            }
        }
    }
    Ok(())
}
