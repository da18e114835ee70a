//! What the program `calzundi` is made of. Every answer is the proved library's, by the crate `calzundi`; what is here reads, writes,
//! explains and draws, and is tested and not proved.

pub mod bands;
pub mod batched;
pub mod blame;
pub mod blocks;
pub mod bound;
pub mod commands;
pub mod completion;
pub mod delay;
pub mod fingerprint;
pub mod formats;
pub mod help;
pub mod json;
pub mod line;
pub mod manual;
pub mod metal;
pub mod name;
pub mod near;
pub mod output;
pub mod picture;
pub mod program;
pub mod routed;
pub mod shorten;
pub mod source;
pub mod split;
pub mod streams;
pub mod text;
pub mod told;
pub mod tree;
