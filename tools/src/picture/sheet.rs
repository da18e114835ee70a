//! The picture: the terminal tree and the refined tree, or the refined one and another, beside each other, and a caption with the metal to
//! lay.

use calzundi::{Edge, Tree, Weights};

use super::frame::{Drawn, Frame};
use super::labels::POINT;
use super::panel::{
    corner_mark, pin_mark, steiner_mark, wide, Panel, FONT, GREY, LETTER, MACRO_LOOK, METAL,
    PIN_COLOUR, TERMINAL,
};
use super::red::{Red, RED};
use super::svg::{escaped, rectangle, segment, text, Area, Spot, Svg};
use super::{grouped, Other, Subject};

const EDGE: f64 = 16.0;
const LINE: f64 = 22.0;
const TITLE: f64 = 34.0;
const CAPTION_LETTER: f64 = 15.0;
/// What the tree of each panel is drawn in.
const COLOURS: [&str; 2] = [TERMINAL, METAL];

/// Up to so many points have their coordinates beside them. In a larger net pins have numbers, and a table below has the coordinates.
const FEW_POINTS: usize = 24;

/// The whole picture as SVG text.
pub fn sheet(subject: &Subject) -> String {
    Sheet::new(subject).draw()
}

/// The size of the plot for so many points.
pub fn side(points: usize) -> f64 {
    (95.0 * (points as f64).sqrt()).clamp(420.0, 1100.0)
}

/// A frame for a net and both trees that are drawn, and for what else is.
pub fn frame(subject: &Subject, places: &[calzundi::Place], and: &[Edge]) -> (Frame, usize) {
    let mut edges: Vec<Edge> = match &subject.other {
        None => subject.terminal_edges().iter().map(|one| one.0).collect(),
        Some(other) => other.tree.edges.clone(),
    };
    edges.extend(&subject.routed.refined.edges);
    edges.extend(and);
    let (corners, steiner) = subject.other_points(&edges);
    let mut points = [subject.pins(), corners, steiner, places.to_vec()].concat();
    points.sort_unstable();
    points.dedup();
    let drawn = Drawn {
        points: &points,
        macros: &subject.net.macros,
        edges: &edges,
    };
    (Frame::new(&drawn, side(points.len())), points.len())
}

struct Sheet<'a> {
    subject: &'a Subject,
    frame: Frame,
    by_coordinates: bool,
    /// The room about a plot, at its sides and above and below it.
    margin: (f64, f64),
    /// Whether the panels stand beside each other.
    beside: bool,
}

impl Sheet<'_> {
    fn new(subject: &Subject) -> Sheet<'_> {
        let (frame, points) = frame(subject, &[], &[]);
        let by_coordinates = points <= FEW_POINTS;
        let places = subject
            .graph
            .vertices
            .iter()
            .map(|&place| subject.label(place));
        let widest = if by_coordinates {
            places.map(|words| wide(&words, LETTER)).fold(0.0, f64::max)
        } else {
            wide("128", LETTER)
        };
        let sides = widest + POINT + EDGE;
        // Labels of a net that is all on one line need their room above and below it.
        let room = points as f64 * (widest + 8.0) * (LETTER + 2.0) * 3.0;
        let above = (room / (frame.width() + 2.0 * sides) - frame.height()) / 2.0;
        let beside = frame.width() <= 1.5 * frame.height().max(1.0);
        Sheet {
            subject,
            by_coordinates,
            margin: (sides, above.clamp(34.0, 260.0)),
            beside,
            frame,
        }
    }

    fn panel_size(&self) -> (f64, f64) {
        let (sides, above) = self.margin;
        (
            self.frame.width() + 2.0 * sides,
            self.frame.height() + 2.0 * above + TITLE,
        )
    }

    fn draw(&self) -> String {
        let (width, height) = self.panel_size();
        let caption = self.caption();
        let longest = caption
            .iter()
            .map(|line| wide(line, CAPTION_LETTER))
            .fold(0.0, f64::max);
        let legend = 560.0;
        let needed = longest.max(legend) + 2.0 * EDGE;
        let titles = self.titles();
        let title = titles
            .iter()
            .map(|line| wide(line, CAPTION_LETTER))
            .fold(0.0, f64::max);
        let width = width.max(title + 2.0 * EDGE);
        let (across, down) = if self.beside { (2.0, 1.0) } else { (1.0, 2.0) };
        let whole_width = (width * across).max(needed).ceil();
        let width = whole_width / across;
        let top = height * down;
        let table = self.table(whole_width);
        let rows = table.iter().map(Vec::len).max().unwrap_or(0) as f64;
        let below = LINE * (caption.len() as f64 + 1.6) + (LETTER + 4.0) * rows + EDGE;
        let whole_height = (top + below).ceil();
        let mut svg = Svg::new(whole_width, whole_height);
        let title = match self.subject.name.as_str() {
            "" => caption[0].clone(),
            name => format!("{name}: {}", caption[0]),
        };
        svg.line(&format!("<title>{}</title>", escaped(&title)));
        let whole = Area::between(
            Spot { x: 0.0, y: 0.0 },
            Spot {
                x: whole_width,
                y: whole_height,
            },
        );
        svg.group("fill=\"white\"", [rectangle(&whole)].into_iter());
        for (number, title) in titles.iter().enumerate() {
            let number_f = number as f64;
            let corner = if self.beside {
                Spot {
                    x: width * number_f,
                    y: 0.0,
                }
            } else {
                Spot {
                    x: 0.0,
                    y: height * number_f,
                }
            };
            self.draw_title(&mut svg, corner, title, COLOURS[number]);
            self.panel(corner, (width, height), number).draw(&mut svg);
        }
        self.draw_rules(&mut svg, (whole_width, top), (width, height));
        self.draw_caption(&mut svg, top, &caption);
        self.draw_table(&mut svg, top + LINE * (caption.len() as f64 + 1.6), &table);
        svg.end()
    }

    /// The panel's frame stands in its middle, below its title.
    fn panel(&self, corner: Spot, (width, height): (f64, f64), number: usize) -> Panel<'_> {
        let mut frame = self.frame.clone();
        frame.left = corner.x + (width - frame.width()) / 2.0;
        frame.top = corner.y + TITLE + self.margin.1;
        let within = Area {
            left: corner.x + 4.0,
            top: corner.y + TITLE,
            right: corner.x + width - 4.0,
            bottom: corner.y + height - 4.0,
        };
        let refined = &self.subject.routed.refined;
        let edges = match (number, &self.subject.other) {
            (0, None) => self.terminal_edges(),
            (0, Some(_)) | (_, None) => self.costs(refined),
            (_, Some(other)) => self.costs(&other.tree),
        };
        Panel {
            subject: self.subject,
            frame,
            colour: COLOURS[number],
            edges,
            by_coordinates: self.by_coordinates,
            with_delays: number == 1,
            red: match (number, &self.subject.other) {
                (1, Some(other)) => other.red.clone(),
                _ => Red::default(),
            },
            within,
        }
    }

    /// At an edge stands what it costs; of edges that follow each other on straight metal, between which no point is marked, at the longest
    /// what all of them do.
    fn costs(&self, tree: &Tree) -> Vec<(Edge, String)> {
        let cost = |at: &usize| tree.edges[*at].cost(self.subject.net.weights);
        let mut words = vec![String::new(); tree.edges.len()];
        for run in self.subject.straight_runs(&tree.edges) {
            let longest = run.iter().max_by_key(|at| tree.edges[**at].length());
            if let Some(&longest) = longest {
                words[longest] = grouped(run.iter().map(cost).sum());
            }
        }
        tree.edges.iter().copied().zip(words).collect()
    }

    /// At a path's bridge stands what the path costs; an edge on several paths says on how many.
    fn terminal_edges(&self) -> Vec<(Edge, String)> {
        let paths = &self.subject.routed.terminal.paths;
        let words = |edge: Edge, count: usize| {
            let path = paths.iter().find(|path| path.bridge == edge);
            let cost = path.map_or(String::new(), |path| grouped(path.cost));
            match (count, cost.is_empty()) {
                (1, _) => cost,
                (_, true) => format!("x{count}"),
                (_, false) => format!("{cost} x{count}"),
            }
        };
        let edges = self.subject.terminal_edges();
        edges
            .into_iter()
            .map(|(edge, count)| (edge, words(edge, count)))
            .collect()
    }

    fn titles(&self) -> [String; 2] {
        let routed = &self.subject.routed;
        let terminal = format!("terminal tree {}", grouped(routed.terminal.total));
        let refined = format!("refined tree {}", grouped(routed.refined.total));
        match &self.subject.other {
            None => [terminal, refined],
            Some(Other { name, tree, red }) => match red.said.first() {
                None => [refined, format!("{name} {}", grouped(tree.total))],
                Some(_) => [refined, format!("{name}, which does not pass")],
            },
        }
    }

    fn draw_title(&self, svg: &mut Svg, corner: Spot, title: &str, colour: &str) {
        let look =
            format!("{FONT} font-size=\"{CAPTION_LETTER}\" font-weight=\"bold\" fill=\"{colour}\"");
        let base = Spot {
            x: corner.x + EDGE,
            y: corner.y + 22.0,
        };
        svg.group(&look, [text(base, title)].into_iter());
    }

    /// Thin lines between the panels and above the caption.
    fn draw_rules(&self, svg: &mut Svg, (whole, top): (f64, f64), (width, height): (f64, f64)) {
        let spot = |x, y| Spot { x, y };
        let between = if self.beside {
            segment(spot(width, 8.0), spot(width, top - 8.0))
        } else {
            segment(spot(8.0, height), spot(whole - 8.0, height))
        };
        let lines = [between, segment(spot(0.0, top), spot(whole, top))];
        let look = format!("stroke=\"{GREY}\" stroke-width=\"0.7\"");
        svg.group(&look, lines.into_iter());
    }

    fn caption(&self) -> Vec<String> {
        let routed = &self.subject.routed;
        let Weights { x, y } = routed.weights;
        let mut lines = match &self.subject.other {
            None => vec![
                format!("metal to lay {}", grouped(routed.refined.metal)),
                routed.header(),
            ],
            Some(Other { name, tree, red }) if red.said.is_empty() => vec![
                format!("metal to lay {} by the {name}", grouped(tree.metal)),
                routed.header(),
                format!("{name} {} metal {}", tree.total, tree.metal),
            ],
            Some(Other { red, .. }) => {
                let header = [routed.header()];
                red.few().into_iter().chain(header).collect()
            }
        };
        lines.extend(self.subject.bound_words());
        lines.push(self.named());
        if routed.weights != Weights::default() {
            lines.push(format!(
                "totals and numbers at edges are costs: a unit costs {x} across and {y} up"
            ));
        }
        let is_shared = self.subject.terminal_edges().iter().any(|one| one.1 > 1);
        if self.subject.other.is_none() && is_shared {
            lines.push("x2: on two terminal paths, and counted for each".into());
        }
        if !self.subject.delays.is_empty() {
            let by = &self.subject.delayed_by;
            let at = if self.by_coordinates {
                "at the refined tree's pins"
            } else {
                "in the table below"
            };
            lines.push(format!("{at}, after the colon: the delay, to five digits"));
            lines.push(format!("delays are {by}"));
        }
        if !self.frame.to_scale {
            lines.push("not to scale: what is too close to be seen is drawn apart".into());
        }
        if !self.by_coordinates {
            lines.push("pins are numbered as in the net; the table below has their places".into());
        }
        lines
    }

    /// Which net it is, and which metal: what a job card has.
    fn named(&self) -> String {
        let print = self.subject.fingerprint();
        let of = match self.subject.other {
            None => "",
            Some(_) => " of the refined tree",
        };
        match self.subject.name.as_str() {
            "" => format!("fingerprint {print}{of}"),
            name => format!("{name}: fingerprint {print}{of}"),
        }
    }

    fn draw_caption(&self, svg: &mut Svg, top: f64, caption: &[String]) {
        let look =
            |colour: &str| format!("{FONT} font-size=\"{CAPTION_LETTER}\" fill=\"{colour}\"");
        let passes = |other: &Other| other.red.said.is_empty();
        let first_colour = match &self.subject.other {
            Some(other) if !passes(other) => RED,
            _ => "black",
        };
        let mut lines = caption.iter().enumerate().map(|(number, line)| {
            let y = top + LINE * (number as f64 + 1.2);
            text(Spot { x: EDGE, y }, line)
        });
        let first = lines.next();
        let bold = format!("{} font-weight=\"bold\"", look(first_colour));
        svg.group(&bold, first.into_iter());
        let look = look("black");
        svg.group(&look, lines);
        self.draw_legend(svg, top + LINE * (caption.len() as f64 + 1.2));
    }

    /// What the marks mean.
    fn draw_legend(&self, svg: &mut Svg, y: f64) {
        let at = |x| Spot { x, y: y - 4.0 };
        let mut group = |look: String, shape: String| svg.group(&look, [shape].into_iter());
        group(format!("fill=\"{PIN_COLOUR}\""), pin_mark(at(EDGE + 5.0)));
        let open = format!("fill=\"white\" stroke=\"{METAL}\" stroke-width=\"1.5\"");
        group(open, corner_mark(at(78.0)));
        group(format!("fill=\"{METAL}\""), steiner_mark(at(226.0)));
        let longer = wide(self.subject.diamond(), LETTER) - wide("Steiner point", LETTER);
        let area = Area::about(at(346.0 + longer), 12.0, 10.0);
        group(MACRO_LOOK.into(), rectangle(&area));
        let metal = format!("stroke=\"{METAL}\" stroke-width=\"2.5\" stroke-linecap=\"round\"");
        group(metal, segment(at(412.0 + longer), at(428.0 + longer)));
        let words = [
            (30.0, "pin"),
            (88.0, "corner of a macro"),
            (236.0, self.subject.diamond()),
            (358.0 + longer, "macro"),
            (436.0 + longer, "metal"),
        ];
        let words = words.map(|(x, word)| text(Spot { x, y }, word));
        let look = format!("{FONT} font-size=\"{LETTER}\" fill=\"black\"");
        svg.group(&look, words.into_iter());
    }

    /// The pins' coordinates in columns, where the picture has only their numbers.
    fn table(&self, width: f64) -> Vec<Vec<String>> {
        if self.by_coordinates {
            return Vec::new();
        }
        let pins = self.subject.pins();
        let lines = pins.iter().enumerate();
        let lines: Vec<String> = lines
            .map(|(at, &pin)| format!("{:>3}  {}", at + 1, self.subject.label(pin)))
            .collect();
        let widest = lines
            .iter()
            .map(|line| wide(line, LETTER))
            .fold(0.0, f64::max);
        let columns = ((width - 2.0 * EDGE) / (widest + EDGE)).floor().max(1.0) as usize;
        let rows = lines.len().div_ceil(columns);
        lines.chunks(rows).map(<[String]>::to_vec).collect()
    }

    fn draw_table(&self, svg: &mut Svg, top: f64, table: &[Vec<String>]) {
        let widest = table
            .iter()
            .flatten()
            .map(|line| wide(line, LETTER))
            .fold(0.0, f64::max);
        let look =
            format!("{FONT} font-size=\"{LETTER}\" fill=\"{PIN_COLOUR}\" xml:space=\"preserve\"");
        let mut lines = Vec::new();
        for (column, entries) in table.iter().enumerate() {
            for (row, entry) in entries.iter().enumerate() {
                let x = EDGE + column as f64 * (widest + EDGE);
                let y = top + (LETTER + 4.0) * (row as f64 + 1.0);
                lines.push(text(Spot { x, y }, entry));
            }
        }
        svg.group(&look, lines.into_iter());
    }
}
