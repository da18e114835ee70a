//! As short as can be found: a search without a proof, an answer with one.
//!
//! The search is plain code, and nothing is proved of it. What it finds is judged by the library's check of trees
//! from elsewhere, which is proved, before anybody sees it, and measured by the library's lower bound, which is
//! proved too. So a mistake in the search can leave a tree longer than need be, and cannot make a wrong one.
//!
//! | file | what it has |
//! |---|---|
//! | `grid` | lines, crossings, steps and what they cost |
//! | `laid` | a tree as steps on the grid |
//! | `window`, `room` | a part of the grid, and the parts of a tree in it as points |
//! | `heights` | what joining parts costs at least |
//! | `tables` | the cheapest metal that joins them |
//! | `relay` | the one move: some key points go with their ways, and what is left is joined anew |
//! | `search` | which relays are tried, in which order, and when it ends |
//! | `effort`, `budget` | how much is tried |
//! | `grown` | trees to begin with beside the router's own |
//! | `found` | a search from the router's trees |
//! | `checked` | what may be shown |
//! | `shortened` | the answer: a checked tree beside those of the router, as text and as JSON |
//! | `unsound` | what is said and kept where a search gives what does not pass |
//!
//! Outside, a tree of the search is [`checked::Unchecked`], which nobody can look at, or [`checked::Checked`].
//!
//! Everything goes by the numbers of crossings, which are in the order of places, and ends by counted steps: the same
//! net gets the same tree on every machine, for every order of its lists and on every site. That is tested. Memory is
//! bounded: of at most 2^18 crossings heights and their list take 44 MiB, costs and the like 16, tables of at most 2^22
//! numbers 48, queues and what was tried some more: 160 MiB at the most.

mod budget;
pub mod checked;
pub mod effort;
pub mod found;
mod grid;
mod grown;
mod heights;
mod laid;
mod relay;
mod room;
pub mod search;
pub mod shortened;
mod tables;
pub mod unsound;
mod window;
