//! How places of the net become spots of the picture. Both axes have one scale; where that would hide something (a macro thinner than a line,
//! pins upon each other, a wire too short to be seen), the gap that is too narrow is drawn wider. The order of coordinates stays, what is level
//! or upright stays so, and the caption says that the picture is not to scale.

use calzundi::{Edge, Macro, Place};

use super::svg::{Area, Spot};

/// What must be seen apart, in picture units: two points, the two ends of a wire, two sides of a macro, two parallel lines.
const POINTS_APART: f64 = 14.0;
const WIRE: f64 = 12.0;
const MACRO: f64 = 8.0;
const LINES_APART: f64 = 5.0;

/// A picture's plot grows up to this for everything to be seen to scale; beyond it, narrow gaps alone are widened.
const LARGEST: f64 = 1500.0;

/// The coordinates that occur on an axis and where each is drawn.
#[derive(Clone, Debug)]
struct Axis {
    coordinates: Vec<i32>,
    at: Vec<f64>,
    /// Gaps that must be so wide at least: from and to, by number.
    gaps: Vec<(usize, usize, f64)>,
}

impl Axis {
    fn new(mut coordinates: Vec<i32>) -> Axis {
        coordinates.sort_unstable();
        coordinates.dedup();
        let at = vec![0.0; coordinates.len()];
        Axis {
            coordinates,
            at,
            gaps: Vec::new(),
        }
    }

    fn number(&self, coordinate: i32) -> usize {
        let found = self.coordinates.binary_search(&coordinate);
        found.expect("every coordinate that is drawn is on its axis")
    }

    fn of(&self, coordinate: i32) -> f64 {
        self.at[self.number(coordinate)]
    }

    fn apart(&self, one: usize, other: usize) -> f64 {
        f64::from(self.coordinates[other]) - f64::from(self.coordinates[one])
    }

    fn extent(&self) -> f64 {
        self.apart(0, self.coordinates.len() - 1)
    }

    fn length(&self) -> f64 {
        self.at.last().copied().unwrap_or(0.0)
    }

    /// Two coordinates that differ must be so far apart.
    fn ask(&mut self, one: i32, other: i32, wide: f64) {
        if one != other {
            let (low, high) = (self.number(one.min(other)), self.number(one.max(other)));
            self.gaps.push((low, high, wide));
        }
    }

    /// The scale at which every gap that is asked for is wide enough.
    fn wanted(&self) -> f64 {
        let gaps = self.gaps.iter();
        gaps.map(|&(low, high, wide)| wide / self.apart(low, high))
            .fold(0.0, f64::max)
    }

    /// Places every coordinate, from the least up: at its distance from the one before, or further where a gap asks for it.
    fn place(&mut self, scale: f64) {
        let mut gaps = self.gaps.clone();
        gaps.sort_by_key(|&(_, high, _)| high);
        let mut gaps = gaps.into_iter().peekable();
        for number in 1..self.at.len() {
            let mut at = self.at[number - 1] + self.apart(number - 1, number) * scale;
            while let Some((low, _, wide)) = gaps.next_if(|&(_, high, _)| high == number) {
                at = at.max(self.at[low] + wide);
            }
            self.at[number] = at;
        }
    }

    fn is_to_scale(&self, scale: f64) -> bool {
        (1..self.at.len()).all(|number| {
            let drawn = self.at[number] - self.at[number - 1];
            drawn <= self.apart(number - 1, number) * scale + 0.1
        })
    }
}

/// The place of the plot in the picture, and both axes.
#[derive(Clone, Debug)]
pub struct Frame {
    x: Axis,
    y: Axis,
    pub left: f64,
    pub top: f64,
    pub to_scale: bool,
}

/// What is drawn: its points, its macros, and the edges of its trees.
pub struct Drawn<'a> {
    pub points: &'a [Place],
    pub macros: &'a [Macro],
    pub edges: &'a [Edge],
}

/// A line along an axis: where it stands on the other axis, and from where to where it goes.
type Line = (i32, i32, i32);

impl Drawn<'_> {
    /// The level and the upright parts of edges and of the sides of macros.
    fn lines(&self) -> (Vec<Line>, Vec<Line>) {
        let (mut level, mut upright) = (Vec::new(), Vec::new());
        for Edge { first, second } in self.edges {
            level.push((first.y, first.x, second.x));
            let (low, high) = (first.y.min(second.y), first.y.max(second.y));
            upright.push((second.x, low, high));
        }
        for one in self.macros {
            level.extend([one.bottom, one.top].map(|y| (y, one.left, one.right)));
            upright.extend([one.left, one.right].map(|x| (x, one.bottom, one.top)));
        }
        for lines in [&mut level, &mut upright] {
            lines.retain(|&(_, from, to)| from < to);
            lines.sort_unstable();
            lines.dedup();
        }
        (level, upright)
    }
}

impl Frame {
    /// A frame for all that is drawn, with a plot of about so many units.
    pub fn new(drawn: &Drawn, side: f64) -> Frame {
        let corners = drawn.macros.iter().flat_map(Macro::corners);
        let ends = drawn
            .edges
            .iter()
            .flat_map(|edge| [edge.first, edge.second]);
        let all: Vec<Place> = drawn
            .points
            .iter()
            .copied()
            .chain(corners)
            .chain(ends)
            .collect();
        let mut frame = Frame {
            x: Axis::new(all.iter().map(|place| place.x).collect()),
            y: Axis::new(all.iter().map(|place| place.y).collect()),
            left: 0.0,
            top: 0.0,
            to_scale: true,
        };
        frame.ask_for_edges_and_macros(drawn);
        let extent = frame.x.extent().max(frame.y.extent()).max(1.0);
        let mut scale = frame.settle(drawn, side / extent, extent);
        // What had to be widened is made up for by the wide gaps, which have room to spare.
        let longest = frame.x.length().max(frame.y.length());
        if longest > side && longest > 1.1 * scale * extent {
            let widened = longest - scale * extent;
            let less = ((side - widened) / extent).max(scale / 3.0);
            scale = frame.settle(drawn, less, extent);
        }
        frame.to_scale = frame.x.is_to_scale(scale) && frame.y.is_to_scale(scale);
        frame
    }

    fn place(&mut self, scale: f64) {
        self.x.place(scale);
        self.y.place(scale);
    }

    /// Places everything at a scale, and widens gaps until nothing is upon another thing. The scale in the end.
    fn settle(&mut self, drawn: &Drawn, mut scale: f64, extent: f64) -> f64 {
        let (level, upright) = drawn.lines();
        let mut points = drawn.points.to_vec();
        points.sort_unstable();
        points.dedup();
        loop {
            // As long as the plot stays small enough all of it grows; then only what is too narrow does.
            let wanted = self.x.wanted().max(self.y.wanted());
            if wanted * extent <= LARGEST {
                scale = scale.max(wanted);
            }
            self.place(scale);
            let more = self.ask_for_points(&points) | self.ask_for_lines(&level, &upright);
            if !more {
                return scale;
            }
        }
    }

    fn ask_for_edges_and_macros(&mut self, drawn: &Drawn) {
        for Edge { first, second } in drawn.edges {
            self.x.ask(first.x, second.x, WIRE);
            self.y.ask(first.y, second.y, WIRE);
        }
        for one in drawn.macros {
            self.x.ask(one.left, one.right, MACRO);
            self.y.ask(one.bottom, one.top, MACRO);
        }
    }

    /// Points that are drawn upon each other go apart along the axis on which they differ more. Whether there were any.
    fn ask_for_points(&mut self, points: &[Place]) -> bool {
        let mut found = false;
        for (at, one) in points.iter().enumerate() {
            for other in &points[at + 1..] {
                // Points are in order, so those further on are further right.
                let across = self.x.of(other.x) - self.x.of(one.x);
                if across >= POINTS_APART - 0.1 {
                    break;
                }
                let up = (self.y.of(other.y) - self.y.of(one.y)).abs();
                if up < POINTS_APART - 0.1 {
                    let gap = |a: i32, b: i32| (i64::from(a) - i64::from(b)).abs();
                    if gap(one.x, other.x) >= gap(one.y, other.y) {
                        self.x.ask(one.x, other.x, POINTS_APART);
                    } else {
                        self.y.ask(one.y, other.y, POINTS_APART);
                    }
                    found = true;
                }
            }
        }
        found
    }

    /// Parallel lines that run beside each other and are not one go apart. Whether there were any.
    fn ask_for_lines(&mut self, level: &[Line], upright: &[Line]) -> bool {
        let level = close(level, &self.y);
        let upright = close(upright, &self.x);
        for &(one, other) in &level {
            self.y.ask(one, other, LINES_APART);
        }
        for &(one, other) in &upright {
            self.x.ask(one, other, LINES_APART);
        }
        !level.is_empty() || !upright.is_empty()
    }

    /// The greatest y is at the top.
    pub fn spot(&self, place: Place) -> Spot {
        Spot {
            x: self.left + self.x.of(place.x),
            y: self.top + self.y.length() - self.y.of(place.y),
        }
    }

    /// Where a macro is drawn.
    pub fn area(&self, one: &Macro) -> Area {
        let [low, _, _, high] = one.corners();
        Area::between(self.spot(low), self.spot(high))
    }

    pub fn width(&self) -> f64 {
        self.x.length()
    }

    pub fn height(&self) -> f64 {
        self.y.length()
    }
}

/// The coordinates of lines that run beside each other, too close to be told apart.
fn close(lines: &[Line], axis: &Axis) -> Vec<(i32, i32)> {
    let mut found = Vec::new();
    for (at, &(one, from, to)) in lines.iter().enumerate() {
        for &(other, other_from, other_to) in &lines[at + 1..] {
            if axis.of(other) - axis.of(one) >= LINES_APART - 0.1 {
                break;
            }
            if one != other && from.max(other_from) < to.min(other_to) {
                found.push((one, other));
            }
        }
    }
    found
}
