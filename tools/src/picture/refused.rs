//! A net that is refused, as far as it can be drawn: its pins and macros, those that are to blame in red and by name, and why.

use calzundi::{Net, Place};

use super::frame::{Drawn, Frame};
use super::labels::{placed, Label, POINT};
use super::panel::{
    draw_macros, draw_points, draw_red_pins, wide, words_look, FONT, LETTER, METAL,
};
use super::red::{Red, RED};
use super::sheet::side;
use super::svg::{escaped, rectangle, text, Area, Spot, Svg};

/// A refused net with its name and what is to blame.
pub struct Refused<'a> {
    pub name: &'a str,
    pub net: &'a Net,
    pub red: Red,
}

/// More entries are not drawn: nobody could see them.
const MOST: usize = 1_000;
/// So many of those that are to blame are named beside them.
const NAMED: usize = 40;

const EDGE: f64 = 16.0;
const LINE: f64 = 20.0;
const CAPTION_LETTER: f64 = 13.0;
const TOP: f64 = 40.0;

impl Refused<'_> {
    /// Why there is nothing to draw, or too much.
    pub fn drawable(&self) -> Result<(), String> {
        match self.net.pins.len() + self.net.macros.len() {
            0 => Err("there is nothing to draw".into()),
            1..=MOST => Ok(()),
            count => Err(format!(
                "it is not drawn: it has {count} entries, and a refused net is drawn up to {MOST}"
            )),
        }
    }

    pub fn pins(&self) -> Vec<Place> {
        self.net.pins.iter().map(|pin| pin.place).collect()
    }

    /// A frame for pins and macros.
    pub fn frame(&self) -> Frame {
        let mut points = self.pins();
        points.sort_unstable();
        points.dedup();
        let drawn = Drawn {
            points: &points,
            macros: &self.net.macros,
            edges: &[],
        };
        Frame::new(&drawn, side(points.len() + 4 * self.net.macros.len()))
    }

    /// The names of what is to blame, each where it is drawn: a macro at its middle.
    pub fn names(&self, frame: &Frame) -> Vec<(Spot, String)> {
        let pins = self.red.pins.iter().map(|&at| {
            let spot = frame.spot(self.net.pins[at].place);
            (spot, format!("pin {}", at + 1))
        });
        let macros = self.red.macros.iter().map(|&at| {
            let area = frame.area(&self.net.macros[at]);
            let x = (area.left + area.right) / 2.0;
            let y = (area.top + area.bottom) / 2.0;
            (Spot { x, y }, format!("macro {}", at + 1))
        });
        pins.chain(macros).take(NAMED).collect()
    }
}

/// The picture as SVG text.
pub fn sheet(refused: &Refused) -> String {
    let mut frame = refused.frame();
    let mut lines = refused.red.few();
    let (m, k) = (refused.net.pins.len(), refused.net.macros.len());
    lines.push(format!("{}: pins {m} macros {k}", refused.name));
    if !frame.to_scale {
        lines.push("not to scale: what is too close to be seen is drawn apart".into());
    }
    let longest = lines.iter().map(|line| wide(line, CAPTION_LETTER));
    let longest = longest.fold(0.0, f64::max);
    let margin = wide("macro 1000", LETTER) + POINT + EDGE;
    let width = (frame.width() + 2.0 * margin).max(longest + 2.0 * EDGE);
    let below = frame.height() + 2.0 * TOP;
    let height = below + LINE * (lines.len() as f64 + 1.0);
    (frame.left, frame.top) = ((width - frame.width()) / 2.0, TOP);
    let (width, height) = (width.ceil(), height.ceil());
    let mut svg = Svg::new(width, height);
    let title = format!("{}: {}", refused.name, lines[0]);
    svg.line(&format!("<title>{}</title>", escaped(&title)));
    let corner = |x, y| Spot { x, y };
    let whole = Area::between(corner(0.0, 0.0), corner(width, height));
    svg.group("fill=\"white\"", [rectangle(&whole)].into_iter());
    let plot = Area::between(corner(4.0, 4.0), corner(width - 4.0, below - 4.0));
    draw(&mut svg, refused, &frame, &plot);
    let line = |(number, line): (usize, &String)| {
        let y = below + LINE * (number as f64 + 0.8);
        text(Spot { x: EDGE, y }, line)
    };
    let mut caption = lines.iter().enumerate().map(line);
    let look = format!("{FONT} font-size=\"{CAPTION_LETTER}\"");
    let first = caption.next();
    let red = format!("{look} font-weight=\"bold\" fill=\"{RED}\"");
    svg.group(&red, first.into_iter());
    svg.group(&format!("{look} fill=\"black\""), caption);
    svg.end()
}

/// Macros, pins, and the names of those that are to blame.
pub fn draw(svg: &mut Svg, refused: &Refused, frame: &Frame, within: &Area) {
    draw_macros(svg, frame, &refused.net.macros, &refused.red);
    let pins = refused.pins();
    draw_points(svg, frame, &pins, &[], ("", &[]), METAL);
    draw_red_pins(svg, frame, &pins, &refused.red);
    let names = refused.names(frame);
    let labels: Vec<Label> = names
        .iter()
        .map(|(point, words)| Label {
            point: *point,
            width: wide(words, LETTER) + 4.0,
            height: LETTER + 2.0,
        })
        .collect();
    let sides: Vec<Area> = refused
        .net
        .macros
        .iter()
        .flat_map(|one| frame.area(one).sides())
        .collect();
    let found = placed(&labels, &sides, within);
    let words = found.iter().zip(&names).map(|(area, (_, words))| {
        let base = Spot {
            x: area.left + 2.0,
            y: area.bottom - 3.0,
        };
        text(base, words)
    });
    svg.group(&words_look(LETTER, RED), words);
}
