//! The proved router from Rust, its match with the second program, and its outputs as text.
//!
//! `library` calls the crate `calzundi` as the second program is called; `matching` runs both programs on the same seeded input and reports
//! the first difference with its seed and its net as text, and `counted` says how often rare branches were met. `outputs` writes all answers
//! on an input as text, to hold them to those of the first release, and `requests` says in what they differ since; `program` runs `route`.
//! `measured` has operations and nets by name for those who count, and `clock` the processor time of a call; `spread` has random nets by
//! size, and `gaps` says by how much costs are above others.

pub mod clock;
pub mod counted;
pub mod gaps;
pub mod library;
pub mod matching;
pub mod measured;
pub mod outputs;
pub mod program;
pub mod requests;
pub mod spread;
