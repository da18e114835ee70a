//! A picture's parts as SVG text, in picture units.

use std::fmt::Write;

/// A place of the picture; y grows downward.
#[derive(Clone, Copy, Debug, PartialEq)]
pub struct Spot {
    pub x: f64,
    pub y: f64,
}

/// An upright rectangle of the picture.
#[derive(Clone, Copy, Debug, PartialEq)]
pub struct Area {
    pub left: f64,
    pub top: f64,
    pub right: f64,
    pub bottom: f64,
}

impl Area {
    /// The rectangle of two opposite corners.
    pub fn between(one: Spot, other: Spot) -> Area {
        Area {
            left: one.x.min(other.x),
            top: one.y.min(other.y),
            right: one.x.max(other.x),
            bottom: one.y.max(other.y),
        }
    }

    /// The rectangle about a middle.
    pub fn about(middle: Spot, width: f64, height: f64) -> Area {
        Area {
            left: middle.x - width / 2.0,
            top: middle.y - height / 2.0,
            right: middle.x + width / 2.0,
            bottom: middle.y + height / 2.0,
        }
    }

    pub fn width(&self) -> f64 {
        self.right - self.left
    }

    pub fn height(&self) -> f64 {
        self.bottom - self.top
    }

    /// Whether two rectangles share more than a border.
    pub fn meets(&self, other: &Area) -> bool {
        self.left < other.right
            && other.left < self.right
            && self.top < other.bottom
            && other.top < self.bottom
    }

    /// Whether the other rectangle lies within this one.
    pub fn holds(&self, other: &Area) -> bool {
        self.left <= other.left
            && other.right <= self.right
            && self.top <= other.top
            && other.bottom <= self.bottom
    }

    /// The four sides, each a rectangle without width or height.
    pub fn sides(&self) -> [Area; 4] {
        let Area {
            left,
            top,
            right,
            bottom,
        } = *self;
        [
            Area {
                right: left,
                ..*self
            },
            Area {
                left: right,
                ..*self
            },
            Area {
                bottom: top,
                ..*self
            },
            Area {
                top: bottom,
                ..*self
            },
        ]
    }

    /// The spot of the rectangle that is nearest to one.
    pub fn nearest(&self, spot: Spot) -> Spot {
        Spot {
            x: spot.x.clamp(self.left, self.right),
            y: spot.y.clamp(self.top, self.bottom),
        }
    }
}

/// A number of picture units, to a tenth and as short as it can be said.
pub fn unit(number: f64) -> String {
    let tenths = (number * 10.0).round() as i64;
    let sign = if tenths < 0 { "-" } else { "" };
    match (tenths.abs() / 10, tenths.abs() % 10) {
        (whole, 0) => format!("{sign}{whole}"),
        (whole, tenth) => format!("{sign}{whole}.{tenth}"),
    }
}

/// Grows line by line; groups are opened and closed.
#[derive(Default)]
pub struct Svg {
    text: String,
    depth: usize,
}

impl Svg {
    /// An empty picture of a size.
    pub fn new(width: f64, height: f64) -> Svg {
        let (width, height) = (unit(width), unit(height));
        let mut svg = Svg::default();
        svg.line(&format!(
            r#"<svg xmlns="http://www.w3.org/2000/svg" width="{width}" height="{height}" viewBox="0 0 {width} {height}">"#
        ));
        svg.depth = 1;
        svg
    }

    /// One line, as deep as the groups that are open.
    pub fn line(&mut self, line: &str) {
        let depth = 2 * self.depth;
        writeln!(self.text, "{:depth$}{line}", "").expect("a string takes all that is written");
    }

    /// A group with common attributes, and what is in it; none where there is nothing in it.
    pub fn group(&mut self, attributes: &str, lines: impl Iterator<Item = String>) {
        let lines: Vec<String> = lines.collect();
        if lines.is_empty() {
            return;
        }
        self.line(&format!("<g {attributes}>"));
        self.depth += 1;
        for line in &lines {
            self.line(line);
        }
        self.depth -= 1;
        self.line("</g>");
    }

    /// The whole text.
    pub fn end(mut self) -> String {
        self.depth = 0;
        self.line("</svg>");
        self.text
    }
}

/// Text as it may stand between tags and in attributes.
pub fn escaped(text: &str) -> String {
    let mut said = String::new();
    for letter in text.chars() {
        match letter {
            '&' => said += "&amp;",
            '<' => said += "&lt;",
            '>' => said += "&gt;",
            '"' => said += "&quot;",
            letter => said.push(letter),
        }
    }
    said
}

/// A shape with what is said of it where it is pointed at, and to those who hear the picture.
pub fn titled(shape: &str, attributes: &str, title: &str) -> String {
    let shape = shape.strip_suffix("/>").unwrap_or(shape);
    let tag = shape[1..].split(' ').next().unwrap_or("");
    let title = escaped(title);
    format!(
        "{shape} role=\"img\" aria-label=\"{title}\"{attributes}><title>{title}</title></{tag}>"
    )
}

pub fn rectangle(area: &Area) -> String {
    format!(
        r#"<rect x="{}" y="{}" width="{}" height="{}"/>"#,
        unit(area.left),
        unit(area.top),
        unit(area.width()),
        unit(area.height())
    )
}

pub fn disc(middle: Spot, radius: f64) -> String {
    let (x, y, r) = (unit(middle.x), unit(middle.y), unit(radius));
    format!(r#"<circle cx="{x}" cy="{y}" r="{r}"/>"#)
}

pub fn diamond(middle: Spot, reach: f64) -> String {
    let (left, top) = (unit(middle.x - reach), unit(middle.y - reach));
    let (right, bottom) = (unit(middle.x + reach), unit(middle.y + reach));
    let (x, y) = (unit(middle.x), unit(middle.y));
    format!(r#"<path d="M {left} {y} L {x} {top} L {right} {y} L {x} {bottom} Z"/>"#)
}

/// A line through spots; those that are alike one after the other are one.
pub fn polyline(spots: &[Spot]) -> String {
    let mut steps = String::new();
    let mut last: Option<Spot> = None;
    for spot in spots {
        if last != Some(*spot) {
            let letter = if last.is_none() { "M" } else { " L" };
            let (x, y) = (unit(spot.x), unit(spot.y));
            steps += &format!("{letter} {x} {y}");
            last = Some(*spot);
        }
    }
    format!(r#"<path d="{steps}"/>"#)
}

pub fn segment(from: Spot, to: Spot) -> String {
    polyline(&[from, to])
}

/// Text that begins at a spot of its base line.
pub fn text(start: Spot, words: &str) -> String {
    let (x, y) = (unit(start.x), unit(start.y));
    let words = escaped(words);
    format!(r#"<text x="{x}" y="{y}">{words}</text>"#)
}
