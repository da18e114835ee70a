//! Nets whose slid trees are worked out, to be run by every program.

use crate::generate::chambers;
use crate::lists::{unloaded, Lists};
use crate::net::Weights;

/// A net with the totals of its refined and its slid tree.
pub struct Worked {
    pub name: &'static str,
    pub lists: Lists,
    pub refined: i64,
    pub slid: i64,
}

/// What sliding does, branch by branch; random nets hardly reach those after the first three.
pub fn sliding() -> Vec<Worked> {
    let net =
        |name, pins: &[i32], macros: &[i32], [x, y]: [i32; 2], [refined, slid]: [i64; 2]| Worked {
            name,
            lists: Lists {
                pins: unloaded(pins),
                macros: macros.to_vec(),
                weights: Weights { x, y },
            },
            refined,
            slid,
        };
    let small =
        |name, pins: &[i32], macros: &[i32], totals| net(name, pins, macros, [1, 1], totals);
    vec![
        small("one move", &[2, 3, 3, 0, 0, 1], &[0, 2, 1, 4], [7, 6]),
        small("two moves", &[0, 5, 7, 7, 5, 0], &[3, 7, 4, 8], [16, 14]),
        net(
            "stopped by a macro",
            &[10, 0, 10, 12, 3, 3],
            &[4, 5, 5, 14, 3, 7, 4, 8, 8, 3, 11, 4],
            [1, 2],
            [37, 33],
        ),
        net(
            "stopped by metal",
            &[8, 25, 12, 17, 44, 32, 31, 5],
            &[11, 28, 29, 68],
            [2, 3],
            [188, 177],
        ),
        small(
            "a tie at one place",
            &[14, 32, 7, 14, 35, 6],
            &[33, 1, 36, 4, 4, 1, 10, 4, 32, 7, 39, 17],
            [62, 54],
        ),
        small("one pin", &[5, 5], &[0, 0, 3, 3], [0, 0]),
        // Bends whose x-first place is taken, and one whose places are both taken.
        small(
            "y first",
            &[-17, 1, -18, -1, -17, -2, 410, 0],
            &chambers(4),
            [433, 433],
        ),
        small(
            "given back",
            &[-18, 0, -20, 1, -17, -1, -20, -2, -17, 1, 610, 0],
            &chambers(6),
            [638, 638],
        ),
    ]
}
