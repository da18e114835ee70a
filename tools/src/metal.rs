//! Metal as it lies: stretches along level and upright lines, whatever wires they are of.

use std::collections::BTreeMap;

use calzundi::{Edge, Place, Wire};

/// Along which axis a stretch goes.
#[derive(Clone, Copy, Debug, PartialEq, Eq, PartialOrd, Ord)]
enum Along {
    X,
    Y,
}

/// A line by its axis and by where it crosses the other one.
type Line = (Along, i32);

/// Stretches of each line, in order and apart from each other.
#[derive(Clone, Debug, Default, PartialEq, Eq)]
pub struct Metal {
    lines: BTreeMap<Line, Vec<(i32, i32)>>,
}

impl Metal {
    /// The metal of wires, of which each is along one axis; where they lie upon each other it is there once.
    pub fn of(wires: &[Wire]) -> Metal {
        let mut lines: BTreeMap<Line, Vec<(i32, i32)>> = BTreeMap::new();
        for Wire { start, end } in wires {
            let (line, from, to) = if start.y == end.y {
                ((Along::X, start.y), start.x, end.x)
            } else {
                ((Along::Y, start.x), start.y, end.y)
            };
            let stretches = lines.entry(line).or_default();
            stretches.push((from.min(to), from.max(to)));
        }
        for stretches in lines.values_mut() {
            *stretches = joined(stretches);
        }
        Metal { lines }
    }

    /// The stretches of this metal that the other one has not.
    pub fn without(&self, other: &Metal) -> Vec<Edge> {
        let mut left = Vec::new();
        for (line, stretches) in &self.lines {
            let there = other.lines.get(line).map_or(&[][..], Vec::as_slice);
            for &(mut from, to) in stretches {
                for &(begin, end) in there {
                    if begin > from && begin < to {
                        left.push(stretch(*line, from, begin));
                    }
                    if begin < to && end > from {
                        from = end;
                    }
                }
                if from < to {
                    left.push(stretch(*line, from, to));
                }
            }
        }
        left
    }
}

/// Stretches in order, those that meet as one.
fn joined(stretches: &[(i32, i32)]) -> Vec<(i32, i32)> {
    let mut stretches = stretches.to_vec();
    stretches.sort_unstable();
    let mut joined: Vec<(i32, i32)> = Vec::new();
    for (from, to) in stretches {
        match joined.last_mut() {
            Some(last) if from <= last.1 => last.1 = last.1.max(to),
            _ => joined.push((from, to)),
        }
    }
    joined
}

fn stretch((along, at): Line, from: i32, to: i32) -> Edge {
    let place = |on: i32| match along {
        Along::X => Place { x: on, y: at },
        Along::Y => Place { x: at, y: on },
    };
    Edge {
        first: place(from),
        second: place(to),
    }
}

#[cfg(test)]
mod tests {
    use super::Metal;
    use calzundi::{Place, Wire};

    fn metal(wires: &[[i32; 4]]) -> Metal {
        let wire = |&[a, b, c, d]: &[i32; 4]| Wire {
            start: Place { x: a, y: b },
            end: Place { x: c, y: d },
        };
        Metal::of(&wires.iter().map(wire).collect::<Vec<Wire>>())
    }

    fn without(one: &[[i32; 4]], other: &[[i32; 4]]) -> Vec<[i32; 4]> {
        let left = metal(one).without(&metal(other));
        let numbers = left.iter().map(|edge| (edge.first, edge.second));
        numbers.map(|(a, b)| [a.x, a.y, b.x, b.y]).collect()
    }

    #[test]
    fn what_one_has_and_the_other_has_not() {
        assert!(without(&[[0, 0, 4, 0]], &[[4, 0, 0, 0]]).is_empty());
        assert!(without(&[[0, 0, 4, 0]], &[[0, 0, 2, 0], [2, 0, 9, 0]]).is_empty());
        assert_eq!(
            without(&[[0, 0, 9, 0]], &[[2, 0, 3, 0], [5, 0, 7, 0]]),
            [[0, 0, 2, 0], [3, 0, 5, 0], [7, 0, 9, 0]]
        );
        // Another line, and the other axis, take nothing away.
        let one = [[0, 0, 4, 0], [4, 0, 4, 4]];
        assert_eq!(without(&one, &[[0, 1, 4, 1], [3, 0, 3, 4]]), one);
        assert_eq!(
            without(&one, &[[4, 3, 4, 1]]),
            [one[0], [4, 0, 4, 1], [4, 3, 4, 4]]
        );
        assert_eq!(without(&[[0, 0, 2, 0], [1, 0, 4, 0]], &[]), [[0, 0, 4, 0]]);
    }
}
