//! A net being drawn up, allowed at every moment but for having no pin at first: an entry that
//! would make it refused is not added.

use crate::lists::Lists;
use crate::net::{Macro, Net, Place};
use crate::random::Random;

#[derive(Clone, Debug, Default)]
pub struct Draft {
    pub pins: Vec<Place>,
    pub macros: Vec<Macro>,
}

/// One of the eight turns and mirrorings of the plane that keep whole upright rectangles upright.
#[derive(Clone, Copy)]
struct Turn {
    swap: bool,
    mirror_x: bool,
    mirror_y: bool,
}

impl Draft {
    /// Adds a pin where the net stays allowed.
    pub fn pin(&mut self, x: i32, y: i32) {
        let pin = Place {
            x: i64::from(x),
            y: i64::from(y),
        };
        if self.pins.len() < Net::PINS
            && in_range(&[x, y])
            && !self.pins.contains(&pin)
            && !self.macros.iter().any(|m| m.holds(pin))
        {
            self.pins.push(pin);
        }
    }

    /// Adds a macro where the net stays allowed.
    pub fn macro_box(&mut self, left: i32, bottom: i32, right: i32, top: i32) {
        let new = Macro {
            left: i64::from(left),
            bottom: i64::from(bottom),
            right: i64::from(right),
            top: i64::from(top),
        };
        if self.macros.len() < Net::MACROS
            && in_range(&[left, bottom, right, top])
            && left < right
            && bottom < top
            && !self.macros.iter().any(|m| m.meets(&new))
            && !self.pins.iter().any(|&pin| new.holds(pin))
        {
            self.macros.push(new);
        }
    }

    /// Tries so many pins with coordinates between `low` and `high`.
    pub fn pins_between(&mut self, random: &mut Random, tries: i32, low: i32, high: i32) {
        for _ in 0..tries {
            self.pin(random.between(low, high), random.between(low, high));
        }
    }

    /// Tries so many macros with coordinates between `low` and `high` and no side over `longest`.
    pub fn macros_between(
        &mut self,
        random: &mut Random,
        tries: i32,
        (low, high): (i32, i32),
        longest: i32,
    ) {
        for _ in 0..tries {
            let left = random.between(low, high - 1);
            let bottom = random.between(low, high - 1);
            let right = random.between(left + 1, high.min(left + longest));
            let top = random.between(bottom + 1, high.min(bottom + longest));
            self.macro_box(left, bottom, right, top);
        }
    }

    /// Tries so many pins on sides of macros, corners included; there must be a macro.
    pub fn pins_on_sides(&mut self, random: &mut Random, tries: i32) {
        for _ in 0..tries {
            let [left, bottom, right, top] = numbers(&random.choose(&self.macros));
            let x = random.between(left, right);
            let y = random.between(bottom, top);
            match random.below(4) {
                0 => self.pin(left, y),
                1 => self.pin(right, y),
                2 => self.pin(x, bottom),
                _ => self.pin(x, top),
            }
        }
    }

    /// Tries so many pins on corners of macros; there must be a macro.
    pub fn pins_on_corners(&mut self, random: &mut Random, tries: i32) {
        for _ in 0..tries {
            let [left, bottom, right, top] = numbers(&random.choose(&self.macros));
            self.pin(random.choose(&[left, right]), random.choose(&[bottom, top]));
        }
    }

    /// The lists, turned and mirrored at random, for kinds drawn up in one direction.
    pub fn turned(self, random: &mut Random) -> Lists {
        let turn = Turn {
            swap: random.one_in(2),
            mirror_x: random.one_in(2),
            mirror_y: random.one_in(2),
        };
        let mut turned = Draft::default();
        for pin in &self.pins {
            let (x, y) = turn.applied(pin.x as i32, pin.y as i32);
            turned.pin(x, y);
        }
        for m in &self.macros {
            let [left, bottom, right, top] = numbers(m);
            let ((a, b), (c, d)) = (turn.applied(left, bottom), turn.applied(right, top));
            turned.macro_box(a.min(c), b.min(d), a.max(c), b.max(d));
        }
        turned.lists()
    }

    /// The two lists as drawn up.
    pub fn lists(&self) -> Lists {
        Lists {
            pins: self
                .pins
                .iter()
                .flat_map(|p| [p.x as i32, p.y as i32, 0])
                .collect(),
            macros: self.macros.iter().flat_map(numbers).collect(),
            ..Lists::default()
        }
    }
}

impl Turn {
    fn applied(self, x: i32, y: i32) -> (i32, i32) {
        let (x, y) = if self.swap { (y, x) } else { (x, y) };
        let mirrored = |c: i32, mirror| if mirror { -c } else { c };
        (mirrored(x, self.mirror_x), mirrored(y, self.mirror_y))
    }
}

/// A macro's four coordinates, which came from 32 bits.
fn numbers(m: &Macro) -> [i32; 4] {
    [m.left, m.bottom, m.right, m.top].map(|c| c as i32)
}

fn in_range(coordinates: &[i32]) -> bool {
    let range = -Net::COORDINATE..=Net::COORDINATE;
    coordinates.iter().all(|c| range.contains(c))
}
