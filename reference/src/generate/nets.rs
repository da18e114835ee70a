//! Allowed nets of many kinds.

use super::draft::Draft;
use super::{kinds, searched, walls, weights};
use crate::lists::Lists;
use crate::net::{Net, Weights};
use crate::random::Random;

kinds! {
    /// A kind of allowed net.
    Kind {
        TinyFour "tiny-four" "coordinates 0 to 4, so that ties abound",
        TinyEight "tiny-eight" "coordinates 0 to 8, so that ties abound",
        SideBySide "side-by-side" "macros that touch along a side",
        CornerToCorner "corner-to-corner" "macros that touch at a corner",
        PinsOnSides "pins-on-sides" "every pin on a side of a macro",
        PinsOnCorners "pins-on-corners" "every pin on a corner of a macro",
        Far "far" "coordinates at and near one million, either sign",
        Comb "comb" "long teeth with pins between them, so that ways are long",
        Maze "maze" "long walls with gaps at changing ends, so that ways are long",
        Largest "largest" "128 pins and 128 macros, spread evenly",
        LargestMaze "largest-maze" "128 pins and 128 macros that stand as long walls",
        OnePin "one-pin" "one pin and any macros",
        NoMacros "no-macros" "pins alone",
        Collinear "collinear" "all pins on one line, with macros about it",
        Wide "wide" "the whole die with few macros",
        GridOne "grid-one" "a grid of macros with channels one unit wide",
        GridTouching "grid-touching" "a grid of macros that touch",
        Rounds "rounds" "at least three rounds gain",
        Pruned "pruned" "at least one point is pruned",
        Dropped "dropped" "at least one candidate is dropped",
        DroppedWins "dropped-wins" "a dropped candidate would have won a round",
        BoundEnds "bound-ends" "m rounds are done and a further gain is still there",
        Small "small" "at most five pins and three macros, so that every path can be tried",
        LargestFar "largest-far" "128 pins and 128 macros from -1,000,000 to 1,000,000",
        Bars "bars" "few pins and small macros far apart, so that bars slide",
        Chambers "chambers" "a chain of chambers that takes up all rounds, with pins close together before it",
    }
}

/// The net of a kind and a seed, with weights 1 and 1. By construction or by search, it is allowed.
pub fn net(kind: Kind, seed: u64) -> Lists {
    made(kind, seed, Weights::ONE)
}

/// The same with weights of all sorts. Where the kind is found by search, it is found under them.
pub fn weighted(kind: Kind, seed: u64) -> Lists {
    let weights = weights::weights(&mut kind.random(!seed));
    made(kind, seed, weights)
}

fn made(kind: Kind, seed: u64, weights: Weights) -> Lists {
    let random = &mut kind.random(seed);
    let lists = match kind {
        Kind::TinyFour => tiny(random, 4),
        Kind::TinyEight => tiny(random, 8),
        Kind::SideBySide => side_by_side(random),
        Kind::CornerToCorner => corner_to_corner(random),
        Kind::PinsOnSides => pins_on_sides(random),
        Kind::PinsOnCorners => pins_on_corners(random),
        Kind::Far => far(random),
        Kind::Comb => walls::comb(random),
        Kind::Maze => walls::maze(random),
        Kind::Largest => largest(random),
        Kind::LargestMaze => walls::largest_maze(random),
        Kind::OnePin => one_pin(random),
        Kind::NoMacros => no_macros(random),
        Kind::Collinear => collinear(random),
        Kind::Wide => wide(random),
        Kind::GridOne => walls::grid(random, 1),
        Kind::GridTouching => walls::grid(random, 0),
        Kind::Rounds => searched::rounds(random, weights),
        Kind::Pruned => searched::pruned(random, weights),
        Kind::Dropped => searched::dropped(random, weights),
        Kind::DroppedWins => searched::dropped_wins(random, weights),
        Kind::BoundEnds => searched::bound_ends(random, weights),
        Kind::Small => small(random),
        Kind::LargestFar => largest_far(random),
        Kind::Bars => bars(random),
        Kind::Chambers => walls::chain(random),
    };
    Lists { weights, ..lists }
}

/// Coordinates from 0 to `high`.
pub fn tiny(random: &mut Random, high: i32) -> Lists {
    let mut draft = Draft::default();
    draft.pins_between(random, 1, 0, high);
    let tries = random.between(0, high + 2);
    draft.macros_between(random, tries, (0, high), 3);
    let tries = random.between(0, high + 3);
    draft.pins_between(random, tries, 0, high);
    draft.lists()
}

/// Two to five pins where room is left for them, among up to three macros.
fn small(random: &mut Random) -> Lists {
    let high = random.choose(&[3, 6, 12, 100]);
    let mut draft = Draft::default();
    let tries = random.between(0, 3);
    draft.macros_between(random, tries, (0, high), high);
    if !draft.macros.is_empty() {
        let tries = random.between(0, 2);
        draft.pins_on_sides(random, tries);
    }
    let pins = random.between(2, 5) as usize;
    for _ in 0..40 {
        if draft.pins.len() < pins {
            draft.pins_between(random, 1, -1, high + 1);
        }
    }
    draft.lists()
}

/// Each new macro stands against a side of one before it.
fn side_by_side(random: &mut Random) -> Lists {
    let mut draft = Draft::default();
    draft.macro_box(0, 0, random.between(1, 5), random.between(1, 5));
    for _ in 0..random.between(2, 24) {
        let old = random.choose(&draft.macros);
        let (left, bottom) = (old.left as i32, old.bottom as i32);
        let (right, top) = (old.right as i32, old.top as i32);
        let (width, height) = (random.between(1, 5), random.between(1, 5));
        let x = random.between(left - width + 1, right - 1);
        let y = random.between(bottom - height + 1, top - 1);
        match random.below(4) {
            0 => draft.macro_box(right, y, right + width, y + height),
            1 => draft.macro_box(left - width, y, left, y + height),
            2 => draft.macro_box(x, top, x + width, top + height),
            _ => draft.macro_box(x, bottom - height, x + width, bottom),
        }
    }
    pins_about(draft, random)
}

/// Each new macro stands at a corner of one before it, on the far side of both of its lines.
fn corner_to_corner(random: &mut Random) -> Lists {
    let mut draft = Draft::default();
    draft.macro_box(0, 0, random.between(1, 5), random.between(1, 5));
    for _ in 0..random.between(2, 24) {
        let old = random.choose(&draft.macros);
        let (left, bottom) = (old.left as i32, old.bottom as i32);
        let (right, top) = (old.right as i32, old.top as i32);
        let (width, height) = (random.between(1, 5), random.between(1, 5));
        match random.below(4) {
            0 => draft.macro_box(right, top, right + width, top + height),
            1 => draft.macro_box(left - width, top, left, top + height),
            2 => draft.macro_box(left - width, bottom - height, left, bottom),
            _ => draft.macro_box(right, bottom - height, right + width, bottom),
        }
    }
    pins_about(draft, random)
}

/// Pins on the macros drawn up and in the space about them.
fn pins_about(mut draft: Draft, random: &mut Random) -> Lists {
    let tries = random.between(1, 6);
    draft.pins_on_sides(random, tries);
    let tries = random.between(0, 12);
    draft.pins_between(random, tries, -20, 20);
    draft.lists()
}

fn pins_on_sides(random: &mut Random) -> Lists {
    let mut draft = some_macros(random);
    let tries = random.between(1, 20);
    draft.pins_on_sides(random, tries);
    draft.lists()
}

fn pins_on_corners(random: &mut Random) -> Lists {
    let mut draft = some_macros(random);
    let tries = random.between(1, 20);
    draft.pins_on_corners(random, tries);
    draft.lists()
}

/// At least one macro, and room for others to touch it.
fn some_macros(random: &mut Random) -> Draft {
    let mut draft = Draft::default();
    let tries = random.between(1, 20);
    draft.macros_between(random, tries, (0, 20), 6);
    draft
}

/// Coordinates that stand at the ends of the range or close to them, with a few in the middle.
fn far(random: &mut Random) -> Lists {
    let mut draft = Draft::default();
    draft.pin(-Net::COORDINATE, Net::COORDINATE);
    for _ in 0..random.between(0, 40) {
        let (left, right) = far_span(random);
        let (bottom, top) = far_span(random);
        draft.macro_box(left, bottom, right, top);
    }
    for _ in 0..random.between(0, 20) {
        draft.pin(far_coordinate(random), far_coordinate(random));
    }
    draft.lists()
}

/// Most spans are a few units long and run inward, so that macros leave room for each other.
fn far_span(random: &mut Random) -> (i32, i32) {
    let one = far_coordinate(random);
    let other = if random.one_in(8) {
        far_coordinate(random)
    } else {
        one - one.signum() * random.between(1, 4)
    };
    (one.min(other), one.max(other))
}

fn far_coordinate(random: &mut Random) -> i32 {
    let end = random.choose(&[-Net::COORDINATE, Net::COORDINATE]);
    match random.below(6) {
        0 | 1 => end,
        2 | 3 => end - end.signum() * random.between(0, 4),
        4 => random.between(-2, 2),
        _ => random.between(-Net::COORDINATE, Net::COORDINATE),
    }
}

fn largest(random: &mut Random) -> Lists {
    let width = random.choose(&[3, 5, 10, 1_000, 100_000]);
    let height = 2 * width;
    cells(random, (16, width), (8, height))
}

/// 64 pins and 64 macros with weights 1 and 1, spread evenly: what the largest net of a seed was before there could be 128 of each.
pub fn half(seed: u64) -> Lists {
    let random = &mut Kind::Largest.random(seed);
    let cell = random.choose(&[3, 5, 10, 1_000, 200_000]);
    cells(random, (8, cell), (8, cell))
}

/// Cells that fill the die, or walls right across it.
fn largest_far(random: &mut Random) -> Lists {
    if random.one_in(2) {
        cells(random, (16, Net::COORDINATE / 8), (8, Net::COORDINATE / 4))
    } else {
        walls::across(random)
    }
}

/// Cells about the middle of the die, so many columns of a width and rows of a height: one macro in each, and as many pins.
fn cells(random: &mut Random, (columns, width): (i32, i32), (rows, height): (i32, i32)) -> Lists {
    let (reach_x, reach_y) = (columns * width / 2, rows * height / 2);
    let mut draft = Draft::default();
    for column in 0..columns {
        for row in 0..rows {
            let (x, y) = (column * width - reach_x, row * height - reach_y);
            let left = random.between(0, width - 1);
            let bottom = random.between(0, height - 1);
            let right = random.between(left + 1, width);
            let top = random.between(bottom + 1, height);
            draft.macro_box(x + left, y + bottom, x + right, y + top);
        }
    }
    while draft.pins.len() < draft.macros.len() {
        draft.pin(
            random.between(-reach_x, reach_x),
            random.between(-reach_y, reach_y),
        );
    }
    draft.lists()
}

/// Macros that are passed at a distance, so that ways bend between them.
fn bars(random: &mut Random) -> Lists {
    let mut draft = Draft::default();
    draft.pins_between(random, 2, -4, 104);
    let tries = random.between(3, 20);
    draft.macros_between(random, tries, (0, 110), 10);
    let tries = random.between(1, 10);
    draft.pins_between(random, tries, -4, 104);
    draft.lists()
}

fn one_pin(random: &mut Random) -> Lists {
    let mut draft = Draft::default();
    draft.pins_between(random, 1, -10, 10);
    let tries = random.between(0, 30);
    draft.macros_between(random, tries, (-10, 10), 6);
    draft.lists()
}

fn no_macros(random: &mut Random) -> Lists {
    let reach = random.choose(&[3, 10, 100, Net::COORDINATE]);
    let mut draft = Draft::default();
    let tries = random.between(1, Net::PINS as i32);
    draft.pins_between(random, tries, -reach, reach);
    draft.lists()
}

/// Pins on one upright or level line.
fn collinear(random: &mut Random) -> Lists {
    let mut draft = Draft::default();
    for _ in 0..random.between(1, 12) {
        draft.pin(random.between(-20, 20), 0);
    }
    let tries = random.between(0, 20);
    draft.macros_between(random, tries, (-20, 20), 12);
    for _ in 0..random.between(0, 12) {
        draft.pin(random.between(-20, 20), 0);
    }
    draft.turned(random)
}

fn wide(random: &mut Random) -> Lists {
    let all = (-Net::COORDINATE, Net::COORDINATE);
    let mut draft = Draft::default();
    draft.pins_between(random, 1, all.0, all.1);
    let tries = random.between(1, 6);
    draft.macros_between(random, tries, all, Net::COORDINATE);
    let tries = random.between(0, 40);
    draft.pins_between(random, tries, all.0, all.1);
    draft.lists()
}
