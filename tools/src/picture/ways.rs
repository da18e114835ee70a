//! The terminal paths edge by edge, for a picture. The library gives of each path its bridge and its cost; the ways from the bridge's ends to
//! their roots are found again here, by the rules for roots and parents, and must cost what the library said.

use calzundi::{Edge, Graph, Net, Place, TerminalTree};

/// A vertex on its way to its root: what the way costs, the root, and the neighbour that comes next.
#[derive(Clone, Copy)]
struct Step {
    cost: i64,
    root: Place,
    parent: Option<usize>,
}

/// The edges of each terminal path, from one pin to the other; none where the ways do not cost what the library said.
pub fn paths(net: &Net, graph: &Graph, tree: &TerminalTree) -> Option<Vec<Vec<Edge>>> {
    let steps = steps(net, graph);
    let number = |place: Place| graph.vertices.binary_search(&place).ok();
    let mut paths = Vec::new();
    for path in &tree.paths {
        let mut edges = way(graph, &steps, number(path.bridge.first)?)?;
        edges.reverse();
        edges.push(path.bridge);
        edges.extend(way(graph, &steps, number(path.bridge.second)?)?);
        let cost: i64 = edges.iter().map(|edge| edge.cost(net.weights)).sum();
        if cost != path.cost {
            return None;
        }
        paths.push(edges);
    }
    Some(paths)
}

/// The edges from a vertex to its root.
fn way(graph: &Graph, steps: &[Option<Step>], from: usize) -> Option<Vec<Edge>> {
    let mut edges = Vec::new();
    let mut at = from;
    while let Some(next) = steps[at]?.parent {
        edges.push(edge(graph.vertices[at], graph.vertices[next]));
        at = next;
    }
    Some(edges)
}

fn edge(one: Place, other: Place) -> Edge {
    Edge {
        first: one.min(other),
        second: one.max(other),
    }
}

/// The root is the nearest pin, of several the smallest; the parent the smallest neighbour with the same root on a shortest way.
fn steps(net: &Net, graph: &Graph) -> Vec<Option<Step>> {
    let count = graph.vertices.len();
    let mut neighbours: Vec<Vec<(usize, i64)>> = vec![Vec::new(); count];
    for edge in &graph.edges {
        let ends = [edge.first, edge.second].map(|end| graph.vertices.binary_search(&end));
        if let [Ok(a), Ok(b)] = ends {
            let cost = edge.cost(net.weights);
            neighbours[a].push((b, cost));
            neighbours[b].push((a, cost));
        }
    }
    let mut steps: Vec<Option<Step>> = vec![None; count];
    for pin in &net.pins {
        if let Ok(at) = graph.vertices.binary_search(&pin.place) {
            let root = pin.place;
            let (cost, parent) = (0, None);
            steps[at] = Some(Step { cost, root, parent });
        }
    }
    let key = |step: &Step| (step.cost, step.root);
    let mut done = vec![false; count];
    loop {
        let open = (0..count).filter(|&at| !done[at]);
        let nearest = open.filter_map(|at| Some((key(&steps[at]?), at))).min();
        let Some(((cost, root), at)) = nearest else {
            break;
        };
        done[at] = true;
        for &(next, more) in &neighbours[at] {
            let new = (cost + more, root);
            let is_better = match &steps[next] {
                None => true,
                Some(old) if old.parent.is_none() => false,
                Some(old) => new < key(old) || new == key(old) && Some(at) < old.parent,
            };
            if is_better {
                steps[next] = Some(Step {
                    cost: new.0,
                    root,
                    parent: Some(at),
                });
            }
        }
    }
    steps
}
