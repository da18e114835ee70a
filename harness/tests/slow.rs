//! No call keeps anyone waiting: processor time on the nets of harness/slow, on which versions up to 2.2 took longest. Limits are several times
//! what is measured, and a fraction of what 2.2 took.

use std::time::Duration;

use harness::clock;
use harness::measured::{net_of, run};
use reference::lists::Lists;

/// The nets, by name.
fn slow_nets() -> Vec<(String, Lists)> {
    let folder = concat!(env!("CARGO_MANIFEST_DIR"), "/slow");
    let entries = std::fs::read_dir(folder).expect("the folder is there");
    let mut nets: Vec<(String, Lists)> = entries
        .map(|entry| entry.expect("an entry").path())
        .filter(|path| path.extension().is_some_and(|ending| ending == "txt"))
        .map(|path| {
            let name = path.to_str().expect("names are plain").to_string();
            let net = net_of(&name, 1).expect("a net as text");
            (name, net)
        })
        .collect();
    nets.sort_by(|one, other| one.0.cmp(&other.0));
    nets
}

/// Whether a call of the operation takes less than so many milliseconds of this thread's processor time, the least of three.
fn within(operation: &str, name: &str, lists: &Lists, milliseconds: u64) {
    let takes = clock::least(3, || {
        run(operation, true, lists);
    });
    let limit = Duration::from_millis(milliseconds);
    assert!(takes < limit, "{operation} of {name} takes {takes:?}");
}

/// Small nets on the grid: 2.2 took up to 15 ms for distances and 11 for a best tree, where 0.5 and 0.3 do now.
#[test]
fn grids() {
    let nets = slow_nets();
    let small = nets.iter().filter(|(_, net)| net.pins.len() <= 48);
    let mut count = 0;
    for (name, net) in small {
        within("distances", name, net, 5);
        within("best", name, net, 4);
        count += 1;
    }
    assert!(count >= 5, "{count} small nets");
}
