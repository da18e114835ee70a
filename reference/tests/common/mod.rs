//! Generated nets shared by the tests.

use reference::generate::{net, weighted, Kind};
use reference::lists::Lists;

/// Nets of every kind, every other one with weights of all sorts; of the largest kinds only a few,
/// since they take longest.
pub fn nets(seeds: u64) -> impl Iterator<Item = (String, Lists)> {
    Kind::ALL.iter().flat_map(move |&kind| {
        let slow = matches!(kind, Kind::Largest | Kind::LargestMaze | Kind::LargestFar);
        let seeds = if slow { seeds.min(2) } else { seeds };
        let of = move |seed| match seed % 2 {
            0 => (format!("{} {seed}", kind.name()), net(kind, seed)),
            _ => (
                format!("{} {seed} weighted", kind.name()),
                weighted(kind, seed),
            ),
        };
        (0..seeds).map(of)
    })
}
