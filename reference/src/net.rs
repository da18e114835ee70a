//! The net and the die: places, macros, weights, and the check of what a net arrives in.

/// "A pin is a place (x, y)." "Places are ordered by x, then by y": the derived order compares
/// the fields from the top. Held in 64 bits so that no difference or sum can overflow.
#[derive(Clone, Copy, Debug, PartialEq, Eq, PartialOrd, Ord)]
pub struct Place {
    pub x: i64,
    pub y: i64,
}

impl Place {
    /// Plain length, which metal to lay is in: |difference in x| + |difference in y|.
    pub fn distance(self, other: Place) -> i64 {
        (self.x - other.x).abs() + (self.y - other.y).abs()
    }
}

/// "A net gains two weights", the first for x and the second for y. They come with the lists and
/// may be any two numbers until the check has passed.
#[derive(Clone, Copy, Debug, PartialEq, Eq)]
pub struct Weights {
    pub x: i32,
    pub y: i32,
}

impl Weights {
    /// Both 1: cost is plain length.
    pub const ONE: Weights = Weights { x: 1, y: 1 };

    /// N26: how far two places are apart along each axis, by the weight of that axis.
    pub fn cost(self, one: Place, other: Place) -> i64 {
        let across = (one.x - other.x).abs();
        let up = (one.y - other.y).abs();
        i64::from(self.x) * across + i64::from(self.y) * up
    }
}

/// N3: the four sides in the order in which they are lent.
#[derive(Clone, Copy, Debug, PartialEq, Eq)]
pub struct Macro {
    pub left: i64,
    pub bottom: i64,
    pub right: i64,
    pub top: i64,
}

impl Macro {
    /// N8: whether a place is in the interior, so on no side.
    pub fn holds(&self, place: Place) -> bool {
        self.left < place.x && place.x < self.right && self.bottom < place.y && place.y < self.top
    }

    /// N9: whether a closed box meets the interior: along both axes it begins before the macro ends
    /// and ends after the macro begins. The box is given by two opposite corners.
    pub fn meets_box(&self, one: Place, other: Place) -> bool {
        one.x.min(other.x) < self.right
            && one.x.max(other.x) > self.left
            && one.y.min(other.y) < self.top
            && one.y.max(other.y) > self.bottom
    }

    /// N11: whether two interiors meet: along both axes the later begin is before the earlier end.
    pub fn meets(&self, other: &Macro) -> bool {
        self.left.max(other.left) < self.right.min(other.right)
            && self.bottom.max(other.bottom) < self.top.min(other.top)
    }

    /// The four corners, which the graph has among its vertices.
    pub fn corners(&self) -> [Place; 4] {
        [
            (self.left, self.bottom),
            (self.left, self.top),
            (self.right, self.bottom),
            (self.right, self.top),
        ]
        .map(|(x, y)| Place { x, y })
    }
}

/// Pins and macros in the order of their lists, and the weights (N25): an allowed net, since only
/// the check makes one. Trees are made of places, so these stand alone; the loads (N28) are beside
/// them, in the same order.
#[derive(Clone, Debug, PartialEq, Eq)]
pub struct Net {
    pins: Vec<Place>,
    loads: Vec<i32>,
    macros: Vec<Macro>,
    weights: Weights,
}

impl Net {
    /// "Pins and macros may now be 128 each", and there is at least 1 pin.
    pub const PINS: usize = 128;
    pub const MACROS: usize = 128;
    /// N4: how far a coordinate may be from zero, either way.
    pub const COORDINATE: i32 = 1_000_000;
    /// N28: how many numbers a pin is in a list. `LOAD` is the greatest third one.
    pub const PIN_NUMBERS: usize = 3;
    pub const MACRO_NUMBERS: usize = 4;
    pub const LOAD: i32 = 1_000_000;
    /// "Two weights, whole numbers 1 to 8."
    pub const LEAST_WEIGHT: i32 = 1;
    pub const GREATEST_WEIGHT: i32 = 8;

    pub fn pins(&self) -> &[Place] {
        &self.pins
    }

    /// The pins' loads, in the order of the pins.
    pub fn loads(&self) -> &[i32] {
        &self.loads
    }

    pub fn macros(&self) -> &[Macro] {
        &self.macros
    }

    pub fn weights(&self) -> Weights {
        self.weights
    }

    /// "Write m for pins."
    pub fn m(&self) -> usize {
        self.pins.len()
    }

    /// "k for macros."
    pub fn k(&self) -> usize {
        self.macros.len()
    }

    /// "n = m + 4k", also where places coincide.
    pub fn n(&self) -> usize {
        self.m() + 4 * self.k()
    }
}

/// C60: the refusals in their order; each test covers the whole net before the next begins (C51).
/// Where none applies the net is allowed.
pub fn check(pins: &[i32], macros: &[i32], weights: Weights) -> Result<Net, u32> {
    // "11 means whole threes."
    let whole = |list: &[i32], width| list.len().is_multiple_of(width);
    let m = pins.len() / Net::PIN_NUMBERS;
    if !whole(pins, Net::PIN_NUMBERS) || m == 0 || m > Net::PINS {
        return Err(11);
    }
    if !whole(macros, Net::MACRO_NUMBERS) || macros.len() / Net::MACRO_NUMBERS > Net::MACROS {
        return Err(12);
    }
    // "13 covers a load out of range."
    let range = -Net::COORDINATE..=Net::COORDINATE;
    let is_wrong = |pin: &[i32]| {
        !pin[..2].iter().all(|c| range.contains(c)) || !(0..=Net::LOAD).contains(&pin[2])
    };
    if pins.chunks(Net::PIN_NUMBERS).any(is_wrong) || macros.iter().any(|c| !range.contains(c)) {
        return Err(13);
    }
    let net = Net {
        pins: pins_of(pins),
        loads: pins.chunks(Net::PIN_NUMBERS).map(|pin| pin[2]).collect(),
        macros: macros_of(macros),
        weights,
    };
    if net
        .macros
        .iter()
        .any(|m| m.left >= m.right || m.bottom >= m.top)
    {
        return Err(14);
    }
    // C15: loads do not tell two pins apart.
    if any_pair(&net.pins, |one, other| one == other) {
        return Err(15);
    }
    if any_pair(&net.macros, Macro::meets) {
        return Err(16);
    }
    if net
        .macros
        .iter()
        .any(|m| net.pins.iter().any(|&pin| m.holds(pin)))
    {
        return Err(17);
    }
    // "18, a weight outside 1 to 8, after 17."
    let allowed = Net::LEAST_WEIGHT..=Net::GREATEST_WEIGHT;
    if !allowed.contains(&weights.x) || !allowed.contains(&weights.y) {
        return Err(18);
    }
    Ok(net)
}

/// The places of the pins of a list of whole threes.
fn pins_of(list: &[i32]) -> Vec<Place> {
    list.chunks_exact(Net::PIN_NUMBERS)
        .map(|pin| Place {
            x: i64::from(pin[0]),
            y: i64::from(pin[1]),
        })
        .collect()
}

/// The macros of a list of whole fours.
fn macros_of(list: &[i32]) -> Vec<Macro> {
    list.chunks_exact(4)
        .map(|four| Macro {
            left: i64::from(four[0]),
            bottom: i64::from(four[1]),
            right: i64::from(four[2]),
            top: i64::from(four[3]),
        })
        .collect()
}

/// Whether two entries at different positions of a list stand in a relation, which is the same
/// both ways. One such pair is enough (C55).
fn any_pair<T>(list: &[T], related: impl Fn(&T, &T) -> bool) -> bool {
    list.iter()
        .enumerate()
        .any(|(number, one)| list[..number].iter().any(|other| related(one, other)))
}
