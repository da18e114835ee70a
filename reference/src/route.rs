//! What the program `route` prints.

use std::fmt::Write;

use crate::ground::Ground;
use crate::net::{check, Net};
use crate::netfile;
use crate::refined::{refine_on, RULE};
use crate::terminal::terminal_on;

/// The text for the bytes of a net file. "A refusal prints one line, `refused` and the number."
pub fn route(bytes: &[u8]) -> String {
    let net = netfile::read(bytes).and_then(|l| check(&l.pins, &l.macros, l.weights));
    match net {
        Ok(net) => routed(&net),
        Err(number) => format!("refused {number}\n"),
    }
}

/// P2 and P3: the counts, both totals and the metal, then a line for each edge with its cost.
fn routed(net: &Net) -> String {
    let ground = Ground::new(net);
    let terminal = terminal_on(&ground, net);
    let refined = refine_on(RULE, &ground, net, &terminal);
    let mut text = format!(
        "pins {} macros {} terminal {} refined {} metal {}\n",
        net.m(),
        net.k(),
        terminal.total,
        refined.total,
        refined.metal
    );
    for edge in &refined.edges {
        let (a, b, cost) = (edge.first(), edge.second(), edge.cost(net.weights()));
        writeln!(text, "{} {} {} {} {cost}", a.x, a.y, b.x, b.y)
            .expect("a string takes all that is written");
    }
    text
}
