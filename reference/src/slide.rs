//! Sliding bars: the refined tree made of axis-parallel edges, whose bars then move where that saves.

use std::cmp::{Ordering, Reverse};
use std::collections::BTreeSet;

use crate::edge::Edge;
use crate::net::{Net, Place, Weights};
use crate::refined::refined;
use crate::tree::Tree;

/// The slid tree's edges in order, their total in cost, the metal to lay, and what happened on the way.
#[derive(Clone, Debug, PartialEq, Eq)]
pub struct Slid {
    pub edges: Vec<Edge>,
    pub total: i64,
    pub metal: i64,
    pub statistics: Statistics,
}

/// What happened while bending and sliding, so that tests can tell which sentences a net exercises.
#[derive(Clone, Debug, Default, PartialEq, Eq)]
pub struct Statistics {
    /// Bends, those that go y first among them, and whether both places were taken and the tree given back.
    pub bends: usize,
    pub y_first: usize,
    pub given_back: bool,
    /// Rounds that moved a bar, by its direction and by the side that it moved towards.
    pub moves: usize,
    pub level_up: usize,
    pub level_down: usize,
    pub upright_right: usize,
    pub upright_left: usize,
    /// Moves that end before the far ends of the shortest hanging edges: one unit more would meet a macro's interior, or a tree point or
    /// edge.
    pub short_by_macro: usize,
    pub short_by_metal: usize,
    /// Far ends that became one with the point that came to them, pins among them.
    pub merges: usize,
    pub merged_pins: usize,
    /// Rounds in which several bars had the greatest saving: with other first places, and with the same one.
    pub tied_by_place: usize,
    pub tied_by_direction: usize,
    /// Bars that stayed, over all rounds: for a pin, for equal sides, and since there was no distance at all.
    pub held_by_pin: usize,
    pub equal_sides: usize,
    pub crossed: usize,
    /// Moves to a far end at which other edges end, which meet the box there and nowhere else.
    pub met_at_far_end: usize,
    /// Whether a saving above zero was left after the last round.
    pub bound_ended: bool,
}

/// The line that a bar lies on: level, where it moves up or down, or upright, where it moves right or left.
#[derive(Clone, Copy, Debug, PartialEq, Eq, PartialOrd, Ord)]
pub enum Direction {
    /// "Then a horizontal bar": it comes first.
    Level,
    Upright,
}

impl Direction {
    pub const BOTH: [Direction; 2] = [Direction::Level, Direction::Upright];

    /// Whether an edge goes this way.
    fn has(self, edge: &Edge) -> bool {
        match self {
            Direction::Level => edge.first().y == edge.second().y,
            Direction::Upright => edge.first().x == edge.second().x,
        }
    }

    /// The coordinate that changes as a bar of this direction moves.
    fn across(self, place: Place) -> i64 {
        match self {
            Direction::Level => place.y,
            Direction::Upright => place.x,
        }
    }

    /// A place moved by so much across.
    fn moved(self, place: Place, by: i64) -> Place {
        match self {
            Direction::Level => Place {
                y: place.y + by,
                ..place
            },
            Direction::Upright => Place {
                x: place.x + by,
                ..place
            },
        }
    }

    /// What a unit of an edge at right angles to it costs.
    fn weight(self, weights: Weights) -> i64 {
        match self {
            Direction::Level => i64::from(weights.y),
            Direction::Upright => i64::from(weights.x),
        }
    }
}

/// M5: a bar, all edges of one line that are joined to each other at tree points, not where metal crosses or overlaps.
#[derive(Clone, Debug, PartialEq, Eq)]
pub struct Bar {
    pub direction: Direction,
    pub points: BTreeSet<Place>,
    pub edges: BTreeSet<Edge>,
}

/// A closed upright box.
#[derive(Clone, Copy, Debug, PartialEq, Eq)]
struct ClosedBox {
    low: Place,
    high: Place,
}

impl ClosedBox {
    fn around(places: impl Iterator<Item = Place> + Clone) -> ClosedBox {
        let xs = places.clone().map(|place| place.x);
        let ys = places.map(|place| place.y);
        let (left, right) = (xs.clone().min(), xs.max());
        let (bottom, top) = (ys.clone().min(), ys.max());
        let some = |coordinate: Option<i64>| coordinate.expect("there is a place");
        ClosedBox {
            low: Place {
                x: some(left),
                y: some(bottom),
            },
            high: Place {
                x: some(right),
                y: some(top),
            },
        }
    }

    fn holds(&self, place: Place) -> bool {
        let Place { x, y } = place;
        (self.low.x..=self.high.x).contains(&x) && (self.low.y..=self.high.y).contains(&y)
    }

    /// What it shares with another one, where they meet.
    fn shared(&self, other: &ClosedBox) -> Option<ClosedBox> {
        let both = ClosedBox {
            low: Place {
                x: self.low.x.max(other.low.x),
                y: self.low.y.max(other.low.y),
            },
            high: Place {
                x: self.high.x.min(other.high.x),
                y: self.high.y.min(other.high.y),
            },
        };
        (both.low.x <= both.high.x && both.low.y <= both.high.y).then_some(both)
    }
}

impl Bar {
    /// "The smallest first place on a tie."
    pub fn first(&self) -> Place {
        *self.points.first().expect("a bar has an edge")
    }

    fn last(&self) -> Place {
        *self.points.last().expect("a bar has an edge")
    }

    fn line(&self) -> i64 {
        self.direction.across(self.first())
    }

    /// M6: the edges that hang from the bar, each with its point of the bar and its far end.
    fn hanging(&self, tree: &Tree) -> Vec<(Place, Place)> {
        let mut found = Vec::new();
        for edge in tree.edges.iter().filter(|edge| !self.direction.has(edge)) {
            let (one, other) = (edge.first(), edge.second());
            for (here, far) in [(one, other), (other, one)] {
                if self.points.contains(&here) {
                    found.push((here, far));
                }
            }
        }
        found
    }

    /// How far a place is from the bar's line, above zero on the side of greater coordinates.
    fn away(&self, place: Place) -> i64 {
        self.direction.across(place) - self.line()
    }
}

/// A bar that has a side to move towards.
#[derive(Clone, Debug, PartialEq, Eq)]
pub struct Slide {
    pub bar: Bar,
    /// 1 towards greater coordinates, -1 towards smaller ones.
    pub side: i64,
    /// How many more edges hang on that side.
    pub surplus: i64,
    /// "The shortest hanging edge on that side", and the far ends of all that are as short.
    pub shortest: i64,
    pub far_ends: BTreeSet<Place>,
    hanging: BTreeSet<Edge>,
}

/// What a swept box meets that it must not.
#[derive(Clone, Copy, Debug, PartialEq, Eq)]
struct Met {
    interior: bool,
    metal: bool,
}

impl Slide {
    /// M7: the side to which the bar would move and what hangs there, or why it stays.
    pub fn of(tree: &Tree, bar: &Bar) -> Result<Slide, Stays> {
        if tree.pins.iter().any(|pin| bar.points.contains(pin)) {
            return Err(Stays::Pin);
        }
        let hanging = bar.hanging(tree);
        let towards = |side: i64| {
            let own = hanging
                .iter()
                .filter(|(_, far)| bar.away(*far).signum() == side);
            own.map(|&(_, far)| far).collect::<Vec<Place>>()
        };
        let (up, down) = (towards(1), towards(-1));
        let (side, more, fewer) = match up.len().cmp(&down.len()) {
            Ordering::Greater => (1, up, down),
            Ordering::Less => (-1, down, up),
            Ordering::Equal => return Err(Stays::Equal),
        };
        let length = |far: &Place| bar.away(*far).abs();
        let shortest = more
            .iter()
            .map(length)
            .min()
            .expect("more than none hang there");
        let surplus = more.len() - fewer.len();
        Ok(Slide {
            bar: bar.clone(),
            side,
            surplus: surplus as i64,
            shortest,
            far_ends: more
                .into_iter()
                .filter(|far| length(far) == shortest)
                .collect(),
            hanging: hanging
                .iter()
                .map(|&(here, far)| Edge::new(here, far))
                .collect(),
        })
    }

    /// "The closed box it sweeps": around the bar's ends, before and after.
    fn swept(&self, distance: i64) -> ClosedBox {
        let by = self.side * distance;
        let (first, last) = (self.bar.first(), self.bar.last());
        let moved = |point: Place| self.bar.direction.moved(point, by);
        ClosedBox::around([first, last, moved(first), moved(last)].into_iter())
    }

    fn met(&self, net: &Net, tree: &Tree, distance: i64) -> Met {
        let swept = self.swept(distance);
        // M9: the box may have in it the bar, what hangs from it and the nearest far ends, and may share with any other
        // edge a single point, if that is one of these far ends.
        let is_other =
            |point: &Place| !self.bar.points.contains(point) && !self.far_ends.contains(point);
        let meets = |places: [Place; 2]| swept.shared(&ClosedBox::around(places.into_iter()));
        let ends = tree.edges.iter().flat_map(|e| [e.first(), e.second()]);
        let mut points = tree.pins.iter().copied().chain(ends);
        let point = points.any(|point| swept.holds(point) && is_other(&point));
        let is_own = |edge: &Edge| self.bar.edges.contains(edge) || self.hanging.contains(edge);
        let in_far_end =
            |shared: ClosedBox| shared.low == shared.high && self.far_ends.contains(&shared.low);
        let edge = tree.edges.iter().any(|edge| {
            let shared = meets([edge.first(), edge.second()]);
            shared.is_some_and(|shared| !in_far_end(shared) && !is_own(edge))
        });
        Met {
            interior: net
                .macros()
                .iter()
                .any(|m| m.meets_box(swept.low, swept.high)),
            metal: point || edge,
        }
    }

    /// Whether the bar may move by so much.
    pub fn may(&self, net: &Net, tree: &Tree, distance: i64) -> bool {
        let Met { interior, metal } = self.met(net, tree, distance);
        !interior && !metal
    }

    /// M10: how far the bar moves. A shorter box lies in a longer one and has no far end in it, so whatever lies below
    /// an allowed distance is allowed: the greatest is looked for by halving.
    pub fn distance(&self, net: &Net, tree: &Tree) -> Option<i64> {
        if self.may(net, tree, self.shortest) {
            return Some(self.shortest);
        }
        if !self.may(net, tree, 0) {
            return None;
        }
        let (mut allowed, mut too_far) = (0, self.shortest);
        while too_far - allowed > 1 {
            let middle = (allowed + too_far) / 2;
            if self.may(net, tree, middle) {
                allowed = middle;
            } else {
                too_far = middle;
            }
        }
        Some(allowed)
    }

    /// M11: each edge of the surplus gets shorter by the distance, at the weight of its axis.
    fn saving(&self, distance: i64, weights: Weights) -> i64 {
        distance * self.surplus * self.bar.direction.weight(weights)
    }
}

/// Why a bar has no side to move towards.
#[derive(Clone, Copy, Debug, PartialEq, Eq)]
pub enum Stays {
    Pin,
    Equal,
}

/// The slid tree of a net.
pub fn slid(net: &Net) -> Slid {
    let start = Tree {
        pins: net.pins().to_vec(),
        edges: refined(net).edges.into_iter().collect(),
    };
    slide(net, start)
}

/// Bends, and then the rounds (M14): no more than the bent tree has points, and none after one that saves nothing.
pub fn slide(net: &Net, start: Tree) -> Slid {
    let mut statistics = Statistics::default();
    let tree = match bent(&start, &mut statistics) {
        // M4.
        None => start,
        Some(mut tree) => {
            let bound = tree.points().len();
            while statistics.moves < bound {
                let Some(next) = round(net, &tree, &mut statistics) else {
                    break;
                };
                tree = next;
            }
            if statistics.moves == bound {
                statistics.bound_ended = round(net, &tree, &mut Statistics::default()).is_some();
            }
            tree
        }
    };
    Slid {
        total: tree.total(net.weights()),
        metal: tree.metal(),
        edges: tree.edges.into_iter().collect(),
        statistics,
    }
}

/// M2 and M3: the tree with each slanted edge bent, edge by edge in their order, or none where one of them finds both
/// places for its bend taken.
pub fn bent(start: &Tree, statistics: &mut Statistics) -> Option<Tree> {
    let mut tree = start.clone();
    for edge in &start.edges {
        let (a, b) = (edge.first(), edge.second());
        if a.x == b.x || a.y == b.y {
            continue;
        }
        let x_first = Place { x: b.x, y: a.y };
        let y_first = Place { x: a.x, y: b.y };
        // The points of the tree as it is by now: those of the refined tree and the bends before.
        let taken = tree.points();
        let bend = if !taken.contains(&x_first) {
            x_first
        } else if !taken.contains(&y_first) {
            statistics.y_first += 1;
            y_first
        } else {
            *statistics = Statistics {
                given_back: true,
                ..Statistics::default()
            };
            return None;
        };
        statistics.bends += 1;
        tree.edges.remove(edge);
        tree.edges.extend([Edge::new(a, bend), Edge::new(bend, b)]);
    }
    Some(tree)
}

/// Every bar of a tree.
pub fn bars(tree: &Tree) -> Vec<Bar> {
    let mut found = Vec::new();
    for direction in Direction::BOTH {
        let mut left: BTreeSet<Edge> = tree
            .edges
            .iter()
            .copied()
            .filter(|edge| direction.has(edge))
            .collect();
        while let Some(first) = left.pop_first() {
            let mut bar = Bar {
                direction,
                points: BTreeSet::from([first.first(), first.second()]),
                edges: BTreeSet::from([first]),
            };
            // Edges of one direction that share a point are on one line.
            while let Some(&next) = left.iter().find(|edge| {
                bar.points.contains(&edge.first()) || bar.points.contains(&edge.second())
            }) {
                left.remove(&next);
                bar.points.extend([next.first(), next.second()]);
                bar.edges.insert(next);
            }
            found.push(bar);
        }
    }
    found
}

/// M12: the tree after the move that saves most, equal savings going by the bar's first place and then to a level bar;
/// or none where no move saves anything.
fn round(net: &Net, tree: &Tree, statistics: &mut Statistics) -> Option<Tree> {
    let mut slides = Vec::new();
    for bar in bars(tree) {
        match Slide::of(tree, &bar) {
            Err(Stays::Pin) => statistics.held_by_pin += 1,
            Err(Stays::Equal) => statistics.equal_sides += 1,
            // "A bar with no such distance stays."
            Ok(slide) => match slide.distance(net, tree) {
                None => statistics.crossed += 1,
                Some(distance) => {
                    let saving = slide.saving(distance, net.weights());
                    slides.push((Reverse(saving), bar.first(), bar.direction, distance, slide));
                }
            },
        }
    }
    slides.retain(|(Reverse(saving), ..)| *saving > 0);
    slides.sort_by_key(|&(saving, first, direction, ..)| (saving, first, direction));
    let (saving, first, _, distance, slide) = slides.first()?;
    if let Some(second) = slides.get(1).filter(|second| second.0 == *saving) {
        statistics.tied_by_place += usize::from(second.1 != *first);
        statistics.tied_by_direction += usize::from(second.1 == *first);
    }
    count_move(net, tree, slide, *distance, statistics);
    Some(moved(tree, slide, *distance))
}

/// M13: the tree with the bar's points moved. An edge whose ends are then the same is gone.
fn moved(tree: &Tree, slide: &Slide, distance: i64) -> Tree {
    let by = slide.side * distance;
    let to = |place: Place| {
        if slide.bar.points.contains(&place) {
            slide.bar.direction.moved(place, by)
        } else {
            place
        }
    };
    let ends = tree
        .edges
        .iter()
        .map(|edge| (to(edge.first()), to(edge.second())));
    Tree {
        pins: tree.pins.clone(),
        edges: ends
            .filter(|(one, other)| one != other)
            .map(|(one, other)| Edge::new(one, other))
            .collect(),
    }
}

fn count_move(net: &Net, tree: &Tree, slide: &Slide, distance: i64, statistics: &mut Statistics) {
    statistics.moves += 1;
    match (slide.bar.direction, slide.side) {
        (Direction::Level, 1) => statistics.level_up += 1,
        (Direction::Level, _) => statistics.level_down += 1,
        (Direction::Upright, 1) => statistics.upright_right += 1,
        (Direction::Upright, _) => statistics.upright_left += 1,
    }
    if distance < slide.shortest {
        let Met { interior, metal } = slide.met(net, tree, distance + 1);
        statistics.short_by_macro += usize::from(interior);
        statistics.short_by_metal += usize::from(metal);
        return;
    }
    statistics.merges += slide.far_ends.len();
    statistics.merged_pins += slide
        .far_ends
        .iter()
        .filter(|end| tree.pins.contains(end))
        .count();
    let at_far_end = |edge: &&Edge| {
        !slide.hanging.contains(edge)
            && (slide.far_ends.contains(&edge.first()) || slide.far_ends.contains(&edge.second()))
    };
    statistics.met_at_far_end += usize::from(tree.edges.iter().any(|edge| at_far_end(&edge)));
}
