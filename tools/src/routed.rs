//! A routed net, as text and as JSON.

use calzundi::{
    BestTree, Edge, Net, Path, Place, RefinedTree, Refusal, SlidTree, TerminalTree, Tree, Weights,
    Wire,
};

use crate::bound::Bounded;
use crate::fingerprint::{fingerprint, form};
use crate::json::{self, listed, quoted, Field};
use crate::name::Name;
use crate::output::{Form, Product};
use crate::program::{Words, JSON};

/// Both trees of a net, and its lower bound where that is asked for.
#[derive(Clone, Debug, PartialEq, Eq)]
pub struct Routed {
    pub pins: usize,
    pub macros: usize,
    pub weights: Weights,
    pub terminal: TerminalTree,
    pub refined: RefinedTree,
    pub bound: Option<i64>,
}

impl Routed {
    /// Routes an allowed net.
    pub fn of(net: &Net) -> Result<Routed, Refusal> {
        Ok(Routed {
            pins: net.pins.len(),
            macros: net.macros.len(),
            weights: net.weights,
            terminal: net.terminal_tree()?,
            refined: net.refined_tree()?,
            bound: None,
        })
    }

    /// The same with the net's lower bound, if there is one.
    pub fn above(self, bound: Option<i64>) -> Routed {
        Routed { bound, ..self }
    }

    /// A tree of the net beside its lower bound.
    pub fn bounded(&self, tree: &Tree) -> Option<Bounded> {
        let bound = self.bound?;
        Some(Bounded::of(self.weights, tree.total, bound))
    }

    /// The first line that the program `route` prints.
    pub fn header(&self) -> String {
        let Routed { pins, macros, .. } = self;
        let (terminal, refined) = (self.terminal.total, self.refined.total);
        let metal = self.refined.metal;
        format!("pins {pins} macros {macros} terminal {terminal} refined {refined} metal {metal}")
    }

    /// All that the program `route` prints.
    pub fn text(&self) -> String {
        self.tree_text(self.header(), &self.refined, self.bounded(&self.refined))
    }

    /// The first line that `slide` prints.
    pub fn slid_header(&self, slid: &SlidTree) -> String {
        let Routed { pins, macros, .. } = self;
        let (terminal, refined) = (self.terminal.total, self.refined.total);
        let (total, metal) = (slid.total, slid.metal);
        format!("pins {pins} macros {macros} terminal {terminal} refined {refined} slid {total} metal {metal}")
    }

    /// All that `slide` prints.
    pub fn slid_text(&self, slid: &SlidTree) -> String {
        self.tree_text(self.slid_header(slid), slid, self.bounded(slid))
    }

    /// All that `best` prints.
    pub fn best_text(&self, slid: &SlidTree, best: &BestTree) -> String {
        let Routed { pins, macros, .. } = self;
        let BestTree { total, metal, .. } = best;
        let [refined, slid] = [self.refined.total, slid.total].map(|cost| above(cost, *total));
        let header = format!(
            "pins {pins} macros {macros} refined {refined} slid {slid} best {total} metal {metal}"
        );
        self.tree_text(header, best, self.bounded(best).map(Bounded::best))
    }

    /// A header, with the bound and a comment that says it in words where it is asked for, and a line for each edge: its two places and its
    /// cost.
    fn tree_text(&self, header: String, tree: &Tree, bounded: Option<Bounded>) -> String {
        let bounded = bounded.map(|one| format!(" {}\n# {}", one.text(), one.words()));
        let edges = edge_lines(&tree.edges, self.weights);
        header + &bounded.unwrap_or_default() + "\n" + &edges
    }
}

/// A line for each edge: its two places and its cost.
pub fn edge_lines(edges: &[Edge], weights: Weights) -> String {
    let line = |edge: &Edge| {
        let (a, b) = (pair(edge.first), pair(edge.second));
        format!("{a} {b} {}\n", edge.cost(weights))
    };
    edges.iter().map(line).collect()
}

/// A cost, and how much more than the best it is: `8 +14.3%`.
fn above(cost: i64, best: i64) -> String {
    let more = (cost - best) as f64 * 100.0 / best.max(1) as f64;
    format!("{cost} +{more:.1}%")
}

/// A place as two numbers.
pub fn pair(place: Place) -> String {
    format!("{} {}", place.x, place.y)
}

/// A wire as four numbers.
pub fn drawn(wire: &Wire) -> String {
    format!("{} {}", pair(wire.start), pair(wire.end))
}

/// What `route --wires` prints: a line for each wire, in the order in which they are drawn.
pub fn wires_text(wires: &[Wire]) -> String {
    wires.iter().map(|wire| drawn(wire) + "\n").collect()
}

/// What `slide` and `best` make of a net.
pub fn tree_product(command: &'static str, words: &Words) -> Product {
    let as_json = words.has(JSON.name);
    Product {
        command,
        ending: if as_json { "json" } else { "tree" },
        form: if as_json { Form::Json } else { Form::Text },
    }
}

/// As JSON, with the name and the entries of the net.
impl Routed {
    /// Everything about a routed net.
    pub fn json(&self, name: &Name, net: &Net, wires: &[Wire]) -> String {
        let path = |path: &Path| {
            let Edge { first, second } = path.bridge;
            let (from, to) = (json::place(first), json::place(second));
            json::short(&[("from", from), ("to", to), ("cost", path.cost.to_string())])
        };
        let [weights, pins, loads, macros] = json::net(net);
        let totals = vec![
            weights,
            ("terminal", self.terminal.total.to_string()),
            ("refined", self.refined.total.to_string()),
            ("metal", self.refined.metal.to_string()),
        ];
        let bounded = self.bound_fields(&self.refined);
        let fields = vec![
            ("fingerprint", quoted(&fingerprint(&wires_text(wires)))),
            ("form", quoted(&form(wires))),
            pins,
            loads,
            macros,
            ("bridges", listed(self.terminal.paths.iter().map(path))),
            self.edge_field(&self.refined.edges),
            ("wires", listed(wires.iter().map(json::wire))),
        ];
        json::object(&[json::about("net", name), totals, bounded, fields].concat())
    }

    /// What `slide` prints.
    pub fn slid_json(&self, name: &Name, net: &Net, slid: &SlidTree) -> String {
        let totals = [
            ("terminal", self.terminal.total),
            ("refined", self.refined.total),
            ("slid", slid.total),
            ("metal", slid.metal),
        ];
        self.tree_json(name, net, &totals, slid)
    }

    /// What `best` prints.
    pub fn best_json(&self, name: &Name, net: &Net, slid: &SlidTree, best: &BestTree) -> String {
        let totals = [
            ("refined", self.refined.total),
            ("slid", slid.total),
            ("best", best.total),
            ("metal", best.metal),
        ];
        self.tree_json(name, net, &totals, best)
    }

    fn tree_json(
        &self,
        name: &Name,
        net: &Net,
        totals: &[(&'static str, i64)],
        tree: &Tree,
    ) -> String {
        let totals = totals
            .iter()
            .map(|(name, total)| (*name, total.to_string()));
        let mut fields = json::about("net", name);
        fields.extend(totals);
        fields.extend(self.bound_fields(tree));
        fields.extend(json::net(net));
        fields.push(self.edge_field(&tree.edges));
        json::object(&fields)
    }

    /// The bound and how much a tree is over it, where that is asked for.
    fn bound_fields(&self, tree: &Tree) -> Vec<Field> {
        let bounded = self.bounded(tree);
        bounded.map_or_else(Vec::new, |one| one.fields().to_vec())
    }

    fn edge_field(&self, edges: &[Edge]) -> Field {
        let edges = edges.iter().map(|edge| json::edge(edge, self.weights));
        ("edges", listed(edges))
    }
}
