//! The page: one picture with layers, and tables whose entries light up what they are about. It needs nothing but a browser.

use std::collections::{BTreeMap, BTreeSet};

use calzundi::{Edge, Net, Place, Weights, Wire};

use super::labels::{placed, Label, POINT};
use super::panel::{
    draw_points, draw_red_pins, edge_shape, macro_title, wide, wire_spots, words_look, LETTER,
    MACRO_LOOK, METAL, PIN_COLOUR,
};
use super::red::Red;
use super::refused::{draw as draw_refused, Refused};
use super::sheet::frame;
use super::svg::{escaped, polyline, rectangle, text, titled, Area, Spot, Svg};
use super::{coordinates, grouped, Layered, Neighbour, Other, Subject};

const MARGIN: f64 = 40.0;
/// Room for the names of what is to blame.
const WIDE_MARGIN: f64 = 110.0;

/// What a page has that its frame has not.
struct Parts {
    headline: String,
    header: String,
    layers: Vec<Layer>,
    tables: Vec<Table>,
    picture: String,
}

impl Parts {
    /// Each part is put in once, so that nothing in a part is taken for the name of another.
    fn page(&self) -> String {
        let layers: Vec<String> = self.layers.iter().map(Layer::html).collect();
        let parts = [
            ("@VERSION@", calzundi::VERSION.to_string()),
            ("@TITLE@", escaped(&self.headline)),
            ("@HEADLINE@", escaped(&self.headline)),
            ("@HEADER@", escaped(&self.header)),
            ("@LAYERS@", layers.join("\n")),
            ("@TABLES@", self.tables.iter().map(Table::html).collect()),
            ("@SVG@", self.picture.clone()),
        ];
        let mut page = String::new();
        let mut rest = include_str!("page.html");
        while let Some((at, (mark, part))) = parts
            .iter()
            .filter_map(|part| Some((rest.find(part.0)?, part)))
            .min_by_key(|one| one.0)
        {
            page += &rest[..at];
            page += part;
            rest = &rest[at + mark.len()..];
        }
        page + rest
    }
}

/// The page of a net with a name.
pub fn page(name: &str, subject: &Subject) -> String {
    let routed = &subject.routed;
    let metal = grouped(routed.refined.metal);
    let mark = subject.fingerprint();
    let (picture, to_scale) = picture(subject);
    let scale = if to_scale { "" } else { NOT_TO_SCALE };
    let Weights { x, y } = routed.weights;
    let weights = if routed.weights == Weights::default() {
        String::new()
    } else {
        format!("; a unit costs {x} across and {y} up")
    };
    let red = subject.layers.iter().find_map(|one| {
        let said = one.other.red.said.first()?;
        Some(format!("; {}: {said}", one.other.name))
    });
    let delays = match subject.delayed_by.as_str() {
        "" => String::new(),
        by => format!("; delays {by}"),
    };
    let bound = subject.bound_words();
    let bound = bound.iter().map(|words| format!("; {words}")).collect();
    let said = [red.unwrap_or_default(), delays, bound, weights].concat();
    Parts {
        headline: format!("{name}: metal to lay {metal}"),
        header: format!("{} fingerprint {mark}{said}{scale}", routed.header()),
        layers: layers(subject),
        tables: tables(subject),
        picture,
    }
    .page()
}

const NOT_TO_SCALE: &str = "; not to scale: what is too close to be seen is drawn apart";

/// The page of a net that is refused: what is to blame in red, in the picture and in the tables.
pub fn page_refused(refused: &Refused) -> String {
    let mut frame = refused.frame();
    (frame.left, frame.top) = (WIDE_MARGIN, MARGIN);
    let (width, height) = (
        frame.width() + 2.0 * WIDE_MARGIN,
        frame.height() + 2.0 * MARGIN,
    );
    let mut svg = Svg::new(width, height);
    let corner = |x, y| Spot { x, y };
    let within = Area::between(corner(2.0, 2.0), corner(width - 2.0, height - 2.0));
    draw_refused(&mut svg, refused, &frame, &within);
    let scale = if frame.to_scale { "" } else { NOT_TO_SCALE };
    let (m, k) = (refused.net.pins.len(), refused.net.macros.len());
    let said = &refused.red.said;
    let reasons = said.iter().skip(1).map(|line| vec![escaped(line)]);
    let mut tables = vec![Table {
        title: "to blame".into(),
        open: true,
        columns: &["what is wrong"],
        kind: "reason",
        rows: reasons.collect(),
        red: BTreeSet::new(),
    }];
    tables.extend(entries(refused.net, &refused.red, &BTreeMap::new()));
    Parts {
        headline: format!("{}: {}", refused.name, said[0]),
        header: format!("pins {m} macros {k}; what is to blame is red{scale}"),
        layers: Vec::new(),
        tables,
        picture: svg.end(),
    }
    .page()
}

/// A layer that can be switched: its class, its name, its colour and whether it is on at first.
struct Layer {
    class: &'static str,
    name: String,
    colour: &'static str,
    is_on: bool,
}

/// The layers of a page, in the order in which they are listed. Where there is no best tree or no other net, there is no layer of it.
fn layers(subject: &Subject) -> Vec<Layer> {
    let layer = |class, total: Option<i64>, is_on| Layer {
        class,
        name: title(class).to_string()
            + &total.map_or(String::new(), |total| format!(" {}", grouped(total))),
        colour: colour(class),
        is_on,
    };
    let routed = &subject.routed;
    let is_alone = subject.neighbour.is_none() && subject.layers.iter().all(|one| !one.is_on);
    let mut all = vec![
        layer("graph", None, false),
        layer("terminal", Some(routed.terminal.total), false),
        layer("refined", Some(routed.refined.total), is_alone),
        layer("wires", Some(routed.refined.metal), true),
    ];
    let trees = subject.layers.iter();
    all.extend(trees.map(|one| layer(one.class, Some(one.other.tree.total), one.is_on)));
    if let Some(there) = &subject.neighbour {
        let metal = there.wires.iter().map(Wire::length).sum();
        all.push(layer("beside", Some(metal), true));
        all.push(layer("difference", Some(there.difference()), true));
    }
    all.push(layer("numbers", None, true));
    all
}

/// What a layer is called.
fn title(class: &str) -> &str {
    match class {
        "terminal" => "terminal tree",
        "refined" => "refined tree",
        "slid" => "slid tree",
        "best" => "best tree",
        "shortened" => "shortened tree",
        "tree" => "tree of another router",
        "beside" => "wires of the other net",
        "numbers" => "pin numbers",
        class => class,
    }
}

/// The colour of a layer, as page.html draws it.
fn colour(class: &str) -> &'static str {
    match class {
        "graph" => "#97a3ae",
        "terminal" => "#1f6f8b",
        "refined" => "#7a3a9a",
        "wires" => METAL,
        "slid" => "#0b7a4b",
        "best" => "#1b4fd0",
        "shortened" => "#d6127f",
        "beside" => "#6b6b00",
        "difference" => "#e8b44c",
        "numbers" => PIN_COLOUR,
        _ => "#2b2b2b",
    }
}

impl Layer {
    fn html(&self) -> String {
        let Layer { class, colour, .. } = self;
        let name = escaped(&self.name);
        let checked = if self.is_on { " checked" } else { "" };
        let tick = format!("<input type=\"checkbox\" data-layer=\"{class}\"{checked}>");
        let swatch = format!("<span class=\"swatch\" style=\"border-color: {colour}\"></span>");
        format!("<label>{tick}{swatch}{name}</label>")
    }
}

/// The picture, and whether it is to scale.
fn picture(subject: &Subject) -> (String, bool) {
    let (mut frame, _) = frame(subject, &subject.graph.vertices, &further(subject));
    (frame.left, frame.top) = (MARGIN, MARGIN);
    let (width, height) = (frame.width() + 2.0 * MARGIN, frame.height() + 2.0 * MARGIN);
    let mut svg = Svg::new(width, height);
    let macros = subject.net.macros.iter().enumerate().map(|(at, one)| {
        let id = format!(" data-id=\"macro-{}\"", at + 1);
        titled(&rectangle(&frame.area(one)), &id, &macro_title(at, one))
    });
    svg.group(MACRO_LOOK, macros);
    let straight = |edge: &Edge| [edge.first, edge.second].map(|end| frame.spot(end));
    let graph = subject.graph.edges.iter();
    layer(
        &mut svg,
        "graph",
        graph.map(|edge| polyline(&straight(edge))),
    );
    if let Some(there) = &subject.neighbour {
        let parts = difference(there).map(|(at, whose, edge)| {
            let id = format!(" data-id=\"difference-{}\" class=\"{whose}\"", at + 1);
            let title = format!("only {whose}: {}", edge.length());
            titled(&polyline(&straight(edge)), &id, &title)
        });
        layer(&mut svg, "difference", parts);
    }
    let paths = subject.paths.iter().enumerate().map(|(at, edges)| {
        let parts = edges.iter().map(|edge| polyline(&straight(edge)));
        let parts: String = parts.collect();
        let cost = grouped(subject.routed.terminal.paths[at].cost);
        let title = format!("terminal path {}: {cost}", at + 1);
        let id = at + 1;
        format!("<g data-id=\"path-{id}\" role=\"img\" aria-label=\"{title}\"><title>{title}</title>{parts}</g>")
    });
    layer(&mut svg, "terminal", paths);
    let edges = subject.routed.refined.edges.iter().enumerate();
    let refined = edges.map(|(at, edge)| {
        let id = format!(" data-id=\"edge-{}\"", at + 1);
        titled(
            &polyline(&straight(edge)),
            &id,
            &format!("edge {}: {}", at + 1, edge.length()),
        )
    });
    layer(&mut svg, "refined", refined);
    let owners = owners(subject);
    let wires = subject.wires.iter().enumerate().map(|(at, wire)| {
        let ends = [wire.start, wire.end].map(|end| frame.spot(end));
        let (number, edge) = (at + 1, owners[at]);
        let id = format!(" data-id=\"wire-{number}\" data-of=\"edge-{edge}\"");
        let title = format!("wire {number}: {}", wire.length());
        titled(&polyline(&ends), &id, &title)
    });
    layer(&mut svg, "wires", wires);
    for Layered { class, other, .. } in &subject.layers {
        let edges = other.tree.edges.iter().enumerate().map(|(at, edge)| {
            let red = if other.red.edges.contains(&at) {
                " class=\"red\""
            } else {
                ""
            };
            let id = format!(" data-id=\"{class}-{}\"{red}", at + 1);
            let title = format!("{}, edge {}: {}", other.name, at + 1, edge.length());
            titled(&edge_shape(&frame, edge), &id, &title)
        });
        layer(&mut svg, class, edges);
    }
    if let Some(there) = &subject.neighbour {
        let wires = there.wires.iter().enumerate().map(|(at, wire)| {
            let ends = [wire.start, wire.end].map(|end| frame.spot(end));
            let id = format!(" data-id=\"beside-{}\"", at + 1);
            let title = format!("{}, wire {}: {}", there.name, at + 1, wire.length());
            titled(&polyline(&ends), &id, &title)
        });
        layer(&mut svg, "beside", wires);
    }
    let (corners, steiner) = subject.other_points(&subject.routed.refined.edges);
    let diamonds = (subject.diamond(), &steiner[..]);
    draw_points(&mut svg, &frame, &[], &corners, diamonds, METAL);
    let pins = subject.pins();
    let look = format!("fill=\"{PIN_COLOUR}\" stroke=\"white\" stroke-width=\"1\"");
    let marks = pins.iter().enumerate().map(|(at, &pin)| {
        let id = format!(" data-id=\"pin-{}\"", at + 1);
        let title = format!("pin {}: {}", at + 1, subject.label(pin));
        titled(&super::panel::pin_mark(frame.spot(pin)), &id, &title)
    });
    svg.group(&look, marks);
    for one in &subject.layers {
        draw_red_pins(&mut svg, &frame, &pins, &one.other.red);
    }
    let spots: Vec<Spot> = pins.iter().map(|&pin| frame.spot(pin)).collect();
    let mut lines: Vec<Area> = Vec::new();
    for edge in &subject.routed.refined.edges {
        let [start, bend, end] = wire_spots(&frame, edge);
        lines.extend([Area::between(start, bend), Area::between(bend, end)]);
    }
    let others = [corners, steiner].concat();
    lines.extend(
        others
            .iter()
            .map(|&place| Area::about(frame.spot(place), POINT, POINT)),
    );
    let within = Area::between(
        Spot { x: 2.0, y: 2.0 },
        Spot {
            x: width - 2.0,
            y: height - 2.0,
        },
    );
    let numbers = numbers(&spots, &lines, &within);
    layer(&mut svg, "numbers", numbers.into_iter());
    (svg.end(), frame.to_scale)
}

/// What a page draws beside the refined and the terminal tree.
fn further(subject: &Subject) -> Vec<Edge> {
    let trees = subject.layers.iter();
    let trees = trees.flat_map(|one| one.other.tree.edges.iter().copied());
    let there = subject.neighbour.iter().flat_map(|there| &there.wires);
    let there = there.map(|wire| Edge {
        first: wire.start,
        second: wire.end,
    });
    trees.chain(there).collect()
}

/// The metal that only one of two nets has, with its number from 0 and whose it is.
fn difference(there: &Neighbour) -> impl Iterator<Item = (usize, &'static str, &Edge)> {
    let here = there.only_here.iter().map(|edge| ("here", edge));
    let there = there.only_there.iter().map(|edge| ("there", edge));
    let both = here.chain(there).enumerate();
    both.map(|(at, (whose, edge))| (at, whose, edge))
}

/// The number of the edge that each wire is of. Edges give their wires in order, a level one and an upright one, those of no length left
/// out.
fn owners(subject: &Subject) -> Vec<usize> {
    let mut owners = Vec::new();
    for (at, Edge { first, second }) in subject.routed.refined.edges.iter().enumerate() {
        let wires = usize::from(first.x != second.x) + usize::from(first.y != second.y);
        owners.extend((0..wires).map(|_| at + 1));
    }
    owners
}

fn layer(svg: &mut Svg, class: &str, lines: impl Iterator<Item = String>) {
    let look = match class {
        "numbers" => format!(" {}", words_look(LETTER, PIN_COLOUR)),
        _ => String::new(),
    };
    let name = title(class);
    // A layer with nothing in it is there all the same, since its box is.
    svg.line(&format!(
        "<g class=\"{class}\" role=\"group\" aria-label=\"{name}\"{look}>"
    ));
    for line in lines {
        svg.line(&line);
    }
    svg.line("</g>");
}

fn numbers(spots: &[Spot], lines: &[Area], within: &Area) -> Vec<String> {
    let words: Vec<String> = (1..=spots.len()).map(|number| number.to_string()).collect();
    let labels: Vec<Label> = spots
        .iter()
        .zip(&words)
        .map(|(&point, words)| Label {
            point,
            width: wide(words, LETTER) + 4.0,
            height: LETTER + 2.0,
        })
        .collect();
    let found = placed(&labels, lines, within);
    let base = |area: &Area| Spot {
        x: area.left + 2.0,
        y: area.bottom - 3.0,
    };
    found
        .iter()
        .zip(&words)
        .map(|(area, words)| text(base(area), words))
        .collect()
}

/// A table with its title, whether it is open, its columns and its rows, each with the name of what it is about; some rows are red.
struct Table {
    title: String,
    open: bool,
    columns: &'static [&'static str],
    kind: &'static str,
    rows: Vec<Vec<String>>,
    red: BTreeSet<usize>,
}

impl Table {
    /// One row alone is in the order of Tab; arrows lead to the others.
    fn html(&self) -> String {
        let Table { title, kind, .. } = self;
        let open = if self.open { " open" } else { "" };
        let head: String = self
            .columns
            .iter()
            .map(|name| format!("<th scope=\"col\">{name}</th>"))
            .collect();
        let rows = self.rows.iter().enumerate().map(|(at, cells)| {
            let number = at + 1;
            let cells: String = cells
                .iter()
                .map(|cell| format!("<td>{cell}</td>"))
                .collect();
            let red = if self.red.contains(&at) { " class=\"red\"" } else { "" };
            let index = if at == 0 { 0 } else { -1 };
            format!("<tr data-id=\"{kind}-{number}\"{red} tabindex=\"{index}\"><td>{number}</td>{cells}</tr>\n")
        });
        let rows: String = rows.collect();
        let table = format!("<thead><tr><th scope=\"col\"><span class=\"hidden\">number</span></th>{head}</tr></thead><tbody>\n{rows}</tbody>");
        format!("<details{open}><summary>{title}</summary><table>{table}</table></details>\n")
    }
}

/// `3 pins`, `2 wires, 1,200`.
fn counted(count: usize, name: &str, total: Option<i64>) -> String {
    let many = if count == 1 { "" } else { "s" };
    let total = total.map_or(String::new(), |total| format!(", {}", grouped(total)));
    format!("{count} {name}{many}{total}")
}

/// The tables of pins, with their loads where one has any and their delays where they are asked for, and of macros.
fn entries(net: &Net, red: &Red, delays: &BTreeMap<Place, String>) -> [Table; 2] {
    let loaded = net.pins.iter().any(|pin| pin.load != 0);
    let pins = net.pins.iter().map(|pin| {
        let mut cells = vec![coordinates(pin.place)];
        cells.extend(loaded.then(|| grouped(pin.load.into())));
        cells.extend(delays.get(&pin.place).cloned());
        cells
    });
    let macros = net.macros.iter().map(|one| {
        let sides = [one.left, one.bottom, one.right, one.top];
        sides.map(|side| side.to_string()).to_vec()
    });
    [
        Table {
            title: counted(net.pins.len(), "pin", None),
            open: !delays.is_empty(),
            columns: match (loaded, delays.is_empty()) {
                (false, true) => &["place"],
                (true, true) => &["place", "load"],
                (false, false) => &["place", "delay (refined tree)"],
                (true, false) => &["place", "load", "delay (refined tree)"],
            },
            kind: "pin",
            rows: pins.collect(),
            red: red.pins.clone(),
        },
        Table {
            title: counted(net.macros.len(), "macro", None),
            open: false,
            columns: &["left", "bottom", "right", "top"],
            kind: "macro",
            rows: macros.collect(),
            red: red.macros.clone(),
        },
    ]
}

fn tables(subject: &Subject) -> Vec<Table> {
    let routed = &subject.routed;
    let place = |place: Place| coordinates(place);
    let weighed = routed.weights != Weights::default();
    let row = |edge: &Edge| {
        let mut cells = vec![
            place(edge.first),
            place(edge.second),
            grouped(edge.length()),
        ];
        cells.extend(weighed.then(|| grouped(edge.cost(routed.weights))));
        cells
    };
    let paths = routed.terminal.paths.iter().map(|path| {
        let (first, second) = (place(path.bridge.first), place(path.bridge.second));
        vec![first, second, grouped(path.cost)]
    });
    let wires = subject.wires.iter();
    let wires = wires.map(|wire| vec![place(wire.start), place(wire.end), grouped(wire.length())]);
    let columns: &[&str] = if weighed {
        &["from", "to", "length", "cost"]
    } else {
        &["from", "to", "length"]
    };
    let (refined, terminal) = (&routed.refined, &routed.terminal);
    let none = BTreeSet::new;
    let mut all = Vec::new();
    if let Some(there) = &subject.neighbour {
        let parts = difference(there).map(|(_, whose, edge)| {
            let (from, to) = (place(edge.first), place(edge.second));
            vec![whose.to_string(), from, to, grouped(edge.length())]
        });
        let rows: Vec<Vec<String>> = parts.collect();
        all.push(Table {
            title: counted(rows.len(), "difference", Some(there.difference())),
            open: true,
            columns: &["only", "from", "to", "length"],
            kind: "difference",
            rows,
            red: none(),
        });
    }
    let (shown, hidden): (Vec<&Layered>, Vec<&Layered>) =
        subject.layers.iter().partition(|one| one.is_on);
    let tree_table = |one: &Layered| {
        let Other { name, tree, red } = &one.other;
        let passes = red.said.is_empty();
        let title = counted(
            tree.edges.len(),
            &format!("{name} edge"),
            passes.then_some(tree.total),
        );
        let mut tables = vec![Table {
            title,
            open: one.is_on,
            columns,
            kind: one.class,
            rows: tree.edges.iter().map(row).collect(),
            red: red.edges.clone(),
        }];
        let reasons = red.said.iter().map(|line| vec![escaped(line)]);
        if !passes {
            tables.push(Table {
                title: "to blame".into(),
                open: true,
                columns: &["what is wrong"],
                kind: "reason",
                rows: reasons.collect(),
                red: none(),
            });
        }
        tables
    };
    all.extend(shown.iter().flat_map(|one| tree_table(one)));
    all.extend([
        Table {
            title: counted(
                refined.edges.len(),
                "refined tree edge",
                Some(refined.total),
            ),
            open: shown.is_empty() && subject.neighbour.is_none() && subject.delays.is_empty(),
            columns,
            kind: "edge",
            rows: refined.edges.iter().map(row).collect(),
            red: none(),
        },
        Table {
            title: counted(terminal.paths.len(), "terminal path", Some(terminal.total)),
            open: false,
            columns: &["bridge from", "to", "path"],
            kind: "path",
            rows: paths.collect(),
            red: none(),
        },
        Table {
            title: counted(subject.wires.len(), "wire", Some(refined.metal)),
            open: false,
            columns: &["start", "end", "length"],
            kind: "wire",
            rows: wires.collect(),
            red: none(),
        },
    ]);
    all.extend(hidden.iter().flat_map(|one| tree_table(one)));
    if let Some(there) = &subject.neighbour {
        let metal = there.wires.iter().map(Wire::length).sum();
        let rows = there.wires.iter();
        let rows =
            rows.map(|wire| vec![place(wire.start), place(wire.end), grouped(wire.length())]);
        all.push(Table {
            title: format!(
                "{} of {}, {}",
                counted(there.wires.len(), "wire", None),
                escaped(&there.name),
                grouped(metal)
            ),
            open: false,
            columns: &["start", "end", "length"],
            kind: "beside",
            rows: rows.collect(),
            red: none(),
        });
    }
    let red = subject.layers.iter().map(|one| &one.other.red);
    let red = red.into_iter().find(|red| !red.said.is_empty());
    let red = red.cloned().unwrap_or_default();
    let [pins, macros] = entries(&subject.net, &red, &subject.delays);
    // Delays are what was asked for, so that they come first.
    let at = if subject.delays.is_empty() {
        all.len()
    } else {
        0
    };
    all.insert(at, pins);
    all.push(macros);
    all
}
