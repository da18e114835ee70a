//! `shorter [NETS]`: how far the trees are above the lower bound, on so many random nets of each size, and what
//! processor time the search takes of a net. The table in the README is what it prints. Beside the router's trees
//! stands one by the plain heuristic of shortest ways.

#[path = "../../harness/src/spread.rs"]
mod spread;

use std::fs;
use std::thread;

use calzundi::Net;
use reference::lists::Lists;
use reference::net::Weights;
use spread::spread;
use tools::program::STACK;
use tools::shorten::checked::Checked;
use tools::shorten::effort::Effort;
use tools::shorten::found::shortest_ways;
use tools::shorten::shortened::shortened;

const PINS: [usize; 4] = [8, 16, 64, 128];
const MACROS: [usize; 4] = [0, 16, 64, 128];

/// The processor seconds of this thread.
fn seconds() -> f64 {
    let said = fs::read_to_string("/proc/thread-self/schedstat").expect("Linux says them");
    let first = said.split(' ').next().and_then(|first| first.parse().ok());
    first.map_or(f64::NAN, |nanoseconds: f64| nanoseconds / 1e9)
}

/// The mean and the greatest of some numbers.
fn mean_and_most(numbers: &[f64]) -> (f64, f64) {
    let mean = numbers.iter().sum::<f64>() / numbers.len() as f64;
    (mean, numbers.iter().copied().fold(0.0, f64::max))
}

/// What the trees of a net cost that take no time worth saying: terminal, by shortest ways, refined, slid.
fn costs(net: &Net) -> [i64; 4] {
    let ways = shortest_ways(net).expect("every pin is reached");
    let ways = Checked::of(net, ways).expect("a tree that passes");
    [
        net.terminal_tree().expect("an allowed net").total,
        ways.tree().total,
        net.refined_tree().expect("an allowed net").total,
        net.slid_tree().expect("an allowed net").total,
    ]
}

/// The net of lists.
fn made(lists: &Lists) -> Net {
    let pins = lists.pins.chunks_exact(3).map(|pin| (pin[0], pin[1]));
    let sides = lists.macros.chunks_exact(4);
    Net::new(pins, sides.map(|side| (side[0], side[1], side[2], side[3])))
}

fn row(pins: usize, macros: usize, nets: u64) -> String {
    let (mut above, mut search, mut bounds) = (vec![Vec::new(); 5], Vec::new(), Vec::new());
    for seed in 1..=nets {
        let net = made(&spread(pins, macros, Weights::ONE, seed));
        let start = seconds();
        let bound = net.lower_bound().expect("an allowed net");
        bounds.push(seconds() - start);
        let start = seconds();
        let found = shortened(&net, Effort::default(), bound).expect("a tree that passes");
        search.push(seconds() - start);
        let costs = costs(&net).into_iter().chain([found.tree().total]);
        for (above, cost) in above.iter_mut().zip(costs) {
            above.push((cost - bound) as f64 * 100.0 / bound as f64);
        }
    }
    let means = above.iter().map(|above| mean_and_most(above).0);
    let means: Vec<String> = means.map(|mean| format!("{mean:.1} %")).collect();
    let worst = mean_and_most(&above[4]).1;
    let ((mean, most), bound) = (mean_and_most(&search), mean_and_most(&bounds).0);
    let means = means.join(" | ");
    format!(
        "| {pins} | {macros} | {means} | {worst:.1} % | {mean:.3} s | {most:.3} s | {bound:.3} s |"
    )
}

fn table() {
    let nets = std::env::args().nth(1);
    let nets: u64 = nets.map_or(20, |nets| nets.parse().expect("how many nets"));
    let trees = "terminal | shortest ways | refined | slid | shortened | most";
    println!("| pins | macros | {trees} | time | most | bound's |");
    println!("|---|---|---|---|---|---|---|---|---|---|---|");
    for pins in PINS {
        for macros in MACROS {
            println!("{}", row(pins, macros, nets));
        }
    }
}

fn main() {
    let thread = thread::Builder::new().stack_size(STACK).spawn(table);
    let done = thread.expect("a thread can be started").join();
    done.expect("no row breaks down");
}
