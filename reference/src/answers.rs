//! The answers of the binary's subcommands as plain text.

use crate::edge::Edge;
use crate::graph::graph;
use crate::net::{Net, Place, Weights};
use crate::refined::{refined, Refined};
use crate::slide::{slid, Slid};
use crate::terminal::terminal;
use crate::wires::wires;

/// How many pins and macros the allowed net has, and its weights.
pub fn check_text(net: &Net) -> String {
    let Weights { x, y } = net.weights();
    format!(
        "allowed: pins {} macros {} weights {x} {y}\n",
        net.m(),
        net.k()
    )
}

/// Vertices and edges in order, each edge with its cost.
pub fn graph_text(net: &Net) -> String {
    let graph = graph(net);
    let vertices = graph.vertices.iter().map(|&v| place(v));
    let edges = graph.edges.iter().map(|&e| edge(e, net.weights()));
    section("vertices", vertices) + &section("edges", edges)
}

/// The kept paths in the order kept: bridge, cost and vertices.
pub fn terminal_text(net: &Net) -> String {
    let terminal = terminal(net);
    let paths = terminal.paths.iter().map(|path| {
        let vertices: Vec<String> = path.vertices.iter().map(|&v| place(v)).collect();
        let (a, b) = (place(path.bridge.first()), place(path.bridge.second()));
        let vertices = vertices.join(", ");
        format!("bridge {a} {b} cost {} vertices {vertices}", path.cost)
    });
    section("paths", paths) + &format!("total {}\n", terminal.total)
}

/// The refined tree's edges in order, their total, the metal, and what happened while refining.
pub fn refined_text(net: &Net) -> String {
    let Refined {
        edges,
        total,
        metal,
        statistics: said,
    } = refined(net);
    let yes = |fact| if fact { "yes" } else { "no" };
    let edges = edges.into_iter().map(|e| edge(e, net.weights()));
    section("edges", edges)
        + &format!("total {total}\nmetal {metal}\n")
        + &format!("rounds {} of at most {}\n", said.rounds, net.m())
        + &format!("a further gain was there: {}\n", yes(said.bound_ended))
        + &format!(
            "s at a {} at b {} at u {}\n",
            said.s_at_a, said.s_at_b, said.s_at_u
        )
        + &format!("candidates dropped {}\n", said.dropped)
        + &format!(
            "a dropped one would have won: {}\n",
            yes(said.dropped_would_win)
        )
        + &format!("points pruned {}\n", said.pruned)
}

/// The slid tree's edges in order, their total, the metal, and what happened while bending and sliding.
pub fn slid_text(net: &Net) -> String {
    let Slid {
        edges,
        total,
        metal,
        statistics: said,
    } = slid(net);
    let edges = edges.into_iter().map(|e| edge(e, net.weights()));
    let bends = if said.given_back {
        "given back as it was".into()
    } else {
        format!("bends {} y first {}", said.bends, said.y_first)
    };
    section("edges", edges)
        + &format!("total {total}\nmetal {metal}\n{bends}\n")
        + &format!("moves {} merges {}\n", said.moves, said.merges)
        + &format!(
            "stopped by a macro {} by metal {}\n",
            said.short_by_macro, said.short_by_metal
        )
}

/// The wires of the refined tree, start and end.
pub fn wires_text(net: &Net) -> String {
    let wires = wires(&refined(net).edges);
    let lines = wires
        .iter()
        .map(|wire| format!("{} {}", place(wire.start), place(wire.end)));
    section("wires", lines)
}

fn place(place: Place) -> String {
    format!("{} {}", place.x, place.y)
}

fn edge(edge: Edge, weights: Weights) -> String {
    let (a, b) = (place(edge.first()), place(edge.second()));
    format!("{a} {b} {}", edge.cost(weights))
}

/// A title with how many lines follow it, and the lines.
fn section(title: &str, lines: impl Iterator<Item = String>) -> String {
    let lines: Vec<String> = lines.collect();
    let mut text = format!("{title} {}\n", lines.len());
    for line in lines {
        text.push_str(&line);
        text.push('\n');
    }
    text
}
