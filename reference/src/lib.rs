//! The second program: the documents' router by the plainest means, written from the documents
//! alone, so that a difference with the proved router points at a mistake in one of the two. `R8`
//! and the like are rules of docs/RULES.md, said above the code that obeys them.
//!
//! Data goes one way: lists, net, graph, terminal tree, refined tree, wires or slid tree. `operations` is what
//! the two programs are matched by; `generate` makes the nets, lists and files to match them on.

pub mod answers;
pub mod beside;
pub mod best;
pub mod bought;
pub mod delay;
pub mod edge;
pub mod exact;
pub mod exhaustive;
pub mod generate;
pub mod graph;
pub mod grid;
pub mod ground;
pub mod lattice;
pub mod lists;
pub mod net;
pub mod netfile;
pub mod operations;
pub mod price;
pub mod random;
pub mod refined;
pub mod route;
pub mod slide;
pub mod sweeps;
pub mod terminal;
pub mod text;
pub mod tree;
pub mod wires;
pub mod worked;
