//! Where the labels of a picture's points stand: close to their points, within the picture, and if at all possible not over each other or
//! over a point.

use super::svg::{Area, Spot};

/// A label to be placed: its point and how much room its text takes.
#[derive(Clone, Copy, Debug)]
pub struct Label {
    pub point: Spot,
    pub width: f64,
    pub height: f64,
}

/// How much room about a point stays free of the labels of others.
pub const POINT: f64 = 13.0;

/// The directions that are tried, in this order on a tie: beside the point, above and below it, and between.
const DIRECTIONS: [(f64, f64); 16] = [
    (1.0, 0.0),
    (1.0, -1.0),
    (-1.0, 0.0),
    (-1.0, -1.0),
    (1.0, 1.0),
    (-1.0, 1.0),
    (0.0, -1.0),
    (0.0, 1.0),
    (0.5, -1.0),
    (-0.5, -1.0),
    (0.5, 1.0),
    (-0.5, 1.0),
    (1.0, -0.5),
    (1.0, 0.5),
    (-1.0, -0.5),
    (-1.0, 0.5),
];

/// How far from its point a label may stand; from `FAR` on a line leads to it.
const DISTANCES: [f64; 12] = [
    5.0, 9.0, 14.0, 20.0, 28.0, 40.0, 56.0, 78.0, 108.0, 150.0, 210.0, 300.0,
];
pub const FAR: f64 = 14.0;

/// What speaks against a place, in picture units of distance: another label or point under it; another point nearer to it than its own, so
/// that it would be taken for that one's; a wire or a macro's side under it.
const COVERS: f64 = 10_000.0;
const MISLEADS: f64 = 60.0;
const CROSSES: f64 = 12.0;

/// A place for each label within an area, one after the other: the one with the least against it.
pub fn placed(labels: &[Label], lines: &[Area], within: &Area) -> Vec<Area> {
    let points: Vec<Area> = labels
        .iter()
        .map(|label| Area::about(label.point, POINT, POINT))
        .collect();
    let mut places: Vec<Area> = Vec::new();
    for label in labels {
        let against = |place: &Area, distance: f64| {
            let count = |others: &[Area]| others.iter().filter(|o| o.meets(place)).count() as f64;
            COVERS * (count(&places) + count(&points))
                + MISLEADS * nearer(labels, label, place)
                + CROSSES * count(lines)
                + distance
        };
        let mut best = (f64::INFINITY, pushed_in(label, within));
        for distance in DISTANCES {
            for direction in DIRECTIONS {
                let place = beside(label, direction, distance);
                let cost = against(&place, distance);
                if within.holds(&place) && cost < best.0 {
                    best = (cost, place);
                }
            }
        }
        places.push(best.1);
    }
    places
}

/// How many other points are nearer to a label's place than its own.
fn nearer(labels: &[Label], label: &Label, place: &Area) -> f64 {
    let away = |point: Spot| {
        let nearest = place.nearest(point);
        (nearest.x - point.x).abs() + (nearest.y - point.y).abs()
    };
    let own = away(label.point);
    let others = labels.iter().filter(|other| away(other.point) < own);
    others.count() as f64
}

/// The place in a direction and at a distance from the label's point.
fn beside(label: &Label, (right, down): (f64, f64), distance: f64) -> Area {
    let middle = Spot {
        x: label.point.x + right * (label.width / 2.0 + distance),
        y: label.point.y + down * (label.height / 2.0 + distance),
    };
    Area::about(middle, label.width, label.height)
}

/// A place that lies within the area whatever else: for a label with no other.
fn pushed_in(label: &Label, within: &Area) -> Area {
    let middle = Spot {
        x: label
            .point
            .x
            .min(within.right - label.width / 2.0)
            .max(within.left + label.width / 2.0),
        y: label
            .point
            .y
            .min(within.bottom - label.height / 2.0)
            .max(within.top + label.height / 2.0),
    };
    Area::about(middle, label.width, label.height)
}
