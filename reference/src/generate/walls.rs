//! Nets of long walls and of grids, drawn up in one direction and then turned at random.

use super::draft::Draft;
use crate::lists::Lists;
use crate::net::Net;
use crate::random::Random;

/// Teeth that stand on a spine, or a little above it, with pins between the teeth.
pub fn comb(random: &mut Random) -> Lists {
    let (teeth, height) = (random.between(2, 16), random.between(4, 60));
    let (width, gap) = (random.between(1, 3), random.between(1, 4));
    let reach = teeth * (width + gap);
    let lift = random.between(0, 1);
    let mut draft = Draft::default();
    draft.macro_box(0, -random.between(1, 3), reach, 0);
    for tooth in 0..teeth {
        let left = tooth * (width + gap);
        let bottom = if random.one_in(4) { lift } else { 0 };
        let top = height + random.between(-3, 0);
        draft.macro_box(left, bottom, left + width, top.max(bottom + 1));
    }
    draft.pin(reach, height);
    for _ in 0..random.between(1, 24) {
        draft.pin(random.between(0, reach), random.between(0, height + 2));
    }
    draft.turned(random)
}

/// Level walls, one above the other, each with its gap at one end or somewhere between.
pub fn maze(random: &mut Random) -> Lists {
    let (walls, width) = (random.between(2, 20), random.between(6, 80));
    let mut draft = Draft::default();
    let mut bottom = 0;
    for wall in 0..walls {
        let top = bottom + random.between(1, 2);
        let gap = random.between(0, 2);
        match random.below(4) {
            0 => {
                let at = random.between(1, width - gap - 1);
                draft.macro_box(0, bottom, at, top);
                draft.macro_box(at + gap, bottom, width, top);
            }
            _ if wall % 2 == 0 => draft.macro_box(0, bottom, width - gap, top),
            _ => draft.macro_box(gap, bottom, width, top),
        }
        bottom = top + random.between(0, 4);
    }
    draft.pin(random.between(0, width), bottom + 1);
    for _ in 0..random.between(1, 24) {
        draft.pin(random.between(0, width), random.between(-2, bottom + 1));
    }
    draft.turned(random)
}

/// As many macros as there may be, as walls with gaps at changing ends, and as many pins in the corridors.
pub fn largest_maze(random: &mut Random) -> Lists {
    let width = random.choose(&[70, 1_000, 100_000]);
    let mut draft = Draft::default();
    let mut bottom = 0;
    for wall in 0..Net::MACROS / 2 {
        let top = bottom + random.between(1, 2);
        let gap = random.between(1, 2);
        let at = random.between(1, width - gap - 1);
        let shift = if wall % 2 == 0 { 0 } else { gap };
        draft.macro_box(shift, bottom, at, top);
        draft.macro_box(at.max(shift), bottom, width - gap + shift, top);
        bottom = top + random.between(1, 3);
    }
    while draft.macros.len() < Net::MACROS {
        draft.macro_box(width, bottom, width + 1, bottom + 1);
        bottom += 2;
    }
    while draft.pins.len() < Net::PINS {
        draft.pin(random.between(0, width), random.between(-2, bottom + 2));
    }
    draft.turned(random)
}

/// As many walls as there may be macros, from one end of the die to the other, so that every way past one leads to an end, and pins near the
/// middle of the corridors.
pub fn across(random: &mut Random) -> Lists {
    let end = Net::COORDINATE;
    let mut draft = Draft::default();
    let walls = Net::MACROS as i32;
    let apart = 2 * end / walls;
    for wall in 0..walls {
        let bottom = -end + 1 + wall * apart;
        draft.macro_box(-end, bottom, end, bottom + random.between(1, apart - 2));
        draft.pin(random.between(-9, 9), bottom - random.between(0, 1));
    }
    draft.turned(random)
}

/// Walls that leave one gap at y = 0, and between two of them two macros that offer a gain of 10, with 30 more by pruning. The chain begins
/// at x = 0; its far end is the place (100 count + 10, 0).
pub fn chambers(count: i32) -> Vec<i32> {
    let mut macros = Vec::new();
    let wall = |x: i32| [x, 0, x + 10, 40_000, x, -40_000, x + 10, 0];
    for at in 0..count {
        let x = 100 * at;
        macros.extend(wall(x));
        macros.extend([x + 60, 20, x + 90, 30, x + 60, -40, x + 70, -20]);
    }
    macros.extend(wall(100 * count));
    macros
}

/// A chain of chambers, which takes up all rounds, and before it a few pins close together: what refining would have mended there is left
/// as it is, so that bends find their places taken and bars are crossed.
pub fn chain(random: &mut Random) -> Lists {
    let pins = random.between(3, 7);
    let count = pins + 1 + random.between(0, 1);
    let mut draft = Draft::default();
    for four in chambers(count).chunks_exact(4) {
        draft.macro_box(four[0], four[1], four[2], four[3]);
    }
    let reach = random.between(2, 4);
    for _ in 0..pins {
        draft.pin(-20 + random.between(0, reach), random.between(-2, 2));
    }
    draft.pin(100 * count + 10, 0);
    draft.turned(random)
}

/// Rows and columns of macros with channels of one width, or none; pins in the channels.
pub fn grid(random: &mut Random, channel: i32) -> Lists {
    let columns = widths(random);
    let rows = widths(random);
    let mut draft = Draft::default();
    let mut left = 0;
    for width in columns {
        let mut bottom = 0;
        for height in &rows {
            draft.macro_box(left, bottom, left + width, bottom + height);
            bottom += height + channel;
        }
        left += width + channel;
    }
    let tries = random.between(1, 8);
    draft.pins_on_sides(random, tries);
    let tries = random.between(0, 60);
    draft.pins_between(random, tries, -1, left);
    draft.turned(random)
}

/// The widths of the columns, or the heights of the rows, of a grid.
fn widths(random: &mut Random) -> Vec<i32> {
    let longest = random.choose(&[1, 2, 4, 20]);
    (0..random.between(2, 8))
        .map(|_| random.between(1, longest))
        .collect()
}
