//! One tree in its frame: macros, metal, points, labels, and lengths where there is room.

use calzundi::{Edge, Macro, Place};

use super::frame::Frame;
use super::labels::{placed, Label, FAR, POINT};
use super::red::{Red, RED};
use super::svg::{
    diamond, disc, polyline, rectangle, segment, text, titled, unit, Area, Spot, Svg,
};
use super::{coordinates, Subject};
use crate::text::sides;

/// Sizes in picture units. A letter of the fonts asked for is at most this part of its height wide.
pub const LETTER: f64 = 11.0;
pub const SMALL_LETTER: f64 = 10.0;
pub const LETTER_WIDTH: f64 = 0.62;
pub const PIN: f64 = 4.5;
pub const POINT_REACH: f64 = 5.0;
const GAP: f64 = 2.0;

pub const FONT: &str =
    "font-family=\"DejaVu Sans Mono, Liberation Mono, Consolas, Menlo, monospace\"";
pub const METAL: &str = "#b4501e";
pub const TERMINAL: &str = "#1f6f8b";
pub const MACRO_LOOK: &str = "fill=\"#d5dbe1\" stroke=\"#7b8794\" stroke-width=\"1\"";
const RED_MACRO_LOOK: &str =
    "fill=\"#c8102e\" fill-opacity=\"0.18\" stroke=\"#c8102e\" stroke-width=\"1.5\"";
pub const PIN_COLOUR: &str = "#12355b";
pub const GREY: &str = "#7b8794";

/// How much room words take.
pub fn wide(words: &str, letter: f64) -> f64 {
    words.chars().count() as f64 * letter * LETTER_WIDTH
}

/// Start, bend and end of an edge's wires.
pub fn wire_spots(frame: &Frame, edge: &Edge) -> [Spot; 3] {
    let (start, end) = (edge.first, edge.second);
    let bend = Place {
        x: end.x,
        y: start.y,
    };
    [start, bend, end].map(|place| frame.spot(place))
}

/// A tree to be drawn.
pub struct Panel<'a> {
    pub subject: &'a Subject,
    pub frame: Frame,
    pub colour: &'static str,
    /// The edges, each with what is written at it.
    pub edges: Vec<(Edge, String)>,
    /// Whether every point has its coordinates; else pins have their numbers.
    pub by_coordinates: bool,
    /// Whether the delays that are asked for stand at the pins.
    pub with_delays: bool,
    /// What is to blame, by the numbers of pins, macros and these edges.
    pub red: Red,
    /// Where labels may stand.
    pub within: Area,
}

impl Panel<'_> {
    pub fn draw(&self, svg: &mut Svg) {
        draw_macros(svg, &self.frame, &self.subject.net.macros, &self.red);
        let colour = self.colour;
        for (colour, red) in [(colour, false), (RED, true)] {
            let look = format!("fill=\"none\" stroke=\"{colour}\" stroke-width=\"2.5\" stroke-linecap=\"round\" stroke-linejoin=\"round\"");
            let own = self.edges.iter().enumerate();
            let own = own.filter(|(at, _)| self.red.edges.contains(at) == red);
            svg.group(
                &look,
                own.map(|(_, (edge, _))| drawn_edge(&self.frame, edge)),
            );
        }
        let edges: Vec<Edge> = self.edges.iter().map(|(edge, _)| *edge).collect();
        let (corners, steiner) = self.subject.other_points(&edges);
        draw_points(
            svg,
            &self.frame,
            &self.subject.pins(),
            &corners,
            (self.subject.diamond(), &steiner),
            colour,
        );
        draw_red_pins(svg, &self.frame, &self.subject.pins(), &self.red);
        let taken = self.draw_labels(svg, &[corners, steiner].concat());
        self.draw_lengths(svg, taken);
    }

    /// Wires and the sides of macros, which labels had better not cross.
    fn lines(&self) -> Vec<Area> {
        let legs = self.edges.iter().flat_map(|(edge, _)| {
            let [start, bend, end] = wire_spots(&self.frame, edge);
            [Area::between(start, bend), Area::between(bend, end)]
        });
        let macros = self.subject.net.macros.iter();
        let sides = macros.flat_map(|one| self.frame.area(one).sides());
        legs.chain(sides).collect()
    }

    /// The labels of points; a thin line leads to one that stands far from its point. What room is taken, points included.
    fn draw_labels(&self, svg: &mut Svg, others: &[Place]) -> Vec<Area> {
        let pins = self.subject.pins();
        let mut points: Vec<(Place, String, &str)> = Vec::new();
        for (at, pin) in pins.iter().enumerate() {
            let words = match (self.by_coordinates, self.with_delays) {
                (true, true) => self.subject.label(*pin),
                (true, false) => coordinates(*pin),
                (false, _) => (at + 1).to_string(),
            };
            points.push((*pin, words, PIN_COLOUR));
        }
        if self.by_coordinates {
            let labelled = others
                .iter()
                .map(|&place| (place, coordinates(place), self.colour));
            points.extend(labelled);
        }
        let label = |(place, words, _): &(Place, String, &str)| Label {
            point: self.frame.spot(*place),
            width: wide(words, LETTER) + 2.0 * GAP,
            height: LETTER + 2.0,
        };
        let labels: Vec<Label> = points.iter().map(label).collect();
        let free: Vec<Area> = others
            .iter()
            .map(|&place| Area::about(self.frame.spot(place), POINT, POINT))
            .collect();
        let lines: Vec<Area> = if self.by_coordinates {
            self.lines()
        } else {
            [self.lines(), free.clone()].concat()
        };
        let found = placed(&labels, &lines, &self.within);
        let leads = labels.iter().zip(&found).filter_map(|(label, place)| {
            let end = place.nearest(label.point);
            let (across, down) = (end.x - label.point.x, end.y - label.point.y);
            let reach = across.abs().max(down.abs());
            (reach > FAR).then(|| segment(label.point, end))
        });
        svg.group(&format!("stroke=\"{GREY}\" stroke-width=\"0.7\""), leads);
        for colour in [PIN_COLOUR, self.colour] {
            let own = points
                .iter()
                .zip(&found)
                .filter(|((_, _, c), _)| *c == colour);
            let lines = own.map(|((_, words, _), area)| {
                let base = Spot {
                    x: area.left + GAP,
                    y: area.bottom - 3.0,
                };
                text(base, words)
            });
            svg.group(&words_look(LETTER, colour), lines);
        }
        let own = labels
            .iter()
            .map(|label| Area::about(label.point, POINT, POINT));
        found.iter().copied().chain(own).chain(free).collect()
    }

    /// What is written at edges, the longest first, where nothing else stands.
    fn draw_lengths(&self, svg: &mut Svg, mut taken: Vec<Area>) {
        let lines = self.lines();
        let reach = |edge: &Edge| {
            let [start, _, end] = wire_spots(&self.frame, edge);
            (start.x - end.x).abs().max((start.y - end.y).abs())
        };
        let mut edges: Vec<&(Edge, String)> = self.edges.iter().collect();
        edges.retain(|(_, words)| !words.is_empty());
        edges.sort_by(|a, b| reach(&b.0).total_cmp(&reach(&a.0)));
        let mut written = Vec::new();
        for (edge, words) in edges {
            let free = |area: &Area| {
                self.within.holds(area) && !taken.iter().chain(&lines).any(|one| one.meets(area))
            };
            let places = beside(&wire_spots(&self.frame, edge), words);
            if let Some(area) = places.into_iter().find(free) {
                let base = Spot {
                    x: area.left + 1.0,
                    y: area.bottom - 2.0,
                };
                written.push(text(base, words));
                taken.push(area);
            }
        }
        svg.group(&words_look(SMALL_LETTER, self.colour), written.into_iter());
    }
}

fn drawn_edge(frame: &Frame, edge: &Edge) -> String {
    let Edge { first, second } = edge;
    let title = format!("edge {} to {}", coordinates(*first), coordinates(*second));
    titled(&edge_shape(frame, edge), "", &title)
}

/// An edge as its wires; one of equal ends, which has none, as a dot.
pub fn edge_shape(frame: &Frame, edge: &Edge) -> String {
    if edge.first != edge.second {
        return polyline(&wire_spots(frame, edge));
    }
    let Spot { x, y } = frame.spot(edge.first);
    let (x, y) = (unit(x), unit(y));
    format!(r#"<path d="M {x} {y} L {x} {y}"/>"#)
}

/// Macros, those that are to blame in red.
pub fn draw_macros(svg: &mut Svg, frame: &Frame, macros: &[Macro], red: &Red) {
    for is_red in [false, true] {
        let own = macros.iter().enumerate();
        let own = own.filter(|(at, _)| red.macros.contains(at) == is_red);
        let shapes =
            own.map(|(at, one)| titled(&rectangle(&frame.area(one)), "", &macro_title(at, one)));
        let look = if is_red { RED_MACRO_LOOK } else { MACRO_LOOK };
        svg.group(look, shapes);
    }
}

/// `macro 3: 4 -2 6 3`.
pub fn macro_title(at: usize, one: &Macro) -> String {
    format!("macro {}: {}", at + 1, sides(one))
}

/// The pins that are to blame, over the others.
pub fn draw_red_pins(svg: &mut Svg, frame: &Frame, pins: &[Place], red: &Red) {
    let own = pins.iter().enumerate();
    let own = own.filter(|(at, _)| red.pins.contains(at));
    let look = format!("fill=\"none\" stroke=\"{RED}\" stroke-width=\"2\"");
    let ring = |(_, pin): (usize, &Place)| disc(frame.spot(*pin), PIN + 3.0);
    svg.group(&look, own.map(ring));
}

/// How words that stand over lines look.
pub fn words_look(letter: f64, colour: &str) -> String {
    let halo =
        "stroke=\"white\" stroke-width=\"2.5\" stroke-linejoin=\"round\" paint-order=\"stroke\"";
    format!("{FONT} font-size=\"{letter}\" fill=\"{colour}\" {halo}")
}

/// Where words may stand at an edge's wires: at the middle or the thirds of its longer leg, on either side, if it is long enough; then of
/// the other.
fn beside([start, bend, end]: &[Spot; 3], words: &str) -> Vec<Area> {
    let (width, height) = (wide(words, SMALL_LETTER) + 2.0, SMALL_LETTER + 1.0);
    let level = (start.x - bend.x).abs();
    let upright = (bend.y - end.y).abs();
    let mut found = Vec::new();
    let mut legs = [(level, *start, *bend, true), (upright, *bend, *end, false)];
    if upright > level {
        legs.swap(0, 1);
    }
    for (length, from, to, is_level) in legs {
        if length < (if is_level { width } else { height }) + 4.0 {
            continue;
        }
        for part in [0.5, 0.35, 0.65, 0.2, 0.8] {
            for side in [-1.0, 1.0] {
                let (x, y) = (
                    from.x + (to.x - from.x) * part,
                    from.y + (to.y - from.y) * part,
                );
                let middle = if is_level {
                    Spot {
                        x,
                        y: y + side * (height / 2.0 + 2.5),
                    }
                } else {
                    Spot {
                        x: x - side * (width / 2.0 + 3.5),
                        y,
                    }
                };
                found.push(Area::about(middle, width, height));
            }
        }
    }
    found
}

/// Pins are discs, corners of macros squares, Steiner points diamonds; each says its coordinates where it is pointed at.
pub fn draw_points(
    svg: &mut Svg,
    frame: &Frame,
    pins: &[Place],
    corners: &[Place],
    (kind, steiner): (&str, &[Place]),
    colour: &str,
) {
    let open = format!("fill=\"white\" stroke=\"{colour}\" stroke-width=\"1.5\"");
    let full = format!("fill=\"{colour}\" stroke=\"white\" stroke-width=\"1\"");
    let pin_look = format!("fill=\"{PIN_COLOUR}\" stroke=\"white\" stroke-width=\"1\"");
    let mark = |place: Place, shape: fn(Spot) -> String, kind: &str| {
        let title = format!("{kind} {}", coordinates(place));
        titled(&shape(frame.spot(place)), "", &title)
    };
    let corners = corners
        .iter()
        .map(|&place| mark(place, corner_mark, "corner"));
    svg.group(&open, corners);
    let steiner = steiner.iter().map(|&place| mark(place, steiner_mark, kind));
    svg.group(&full, steiner);
    let pins = pins.iter().enumerate().map(|(at, &place)| {
        let title = format!("pin {}: {}", at + 1, coordinates(place));
        titled(&pin_mark(frame.spot(place)), "", &title)
    });
    svg.group(&pin_look, pins);
}

pub fn pin_mark(spot: Spot) -> String {
    disc(spot, PIN)
}

pub fn corner_mark(spot: Spot) -> String {
    rectangle(&Area::about(spot, 6.0, 6.0))
}

pub fn steiner_mark(spot: Spot) -> String {
    diamond(spot, POINT_REACH)
}
