//! Seeded nets, lists and files to match two routers on. Each is a pure function of seed and kind.
//!
//! `Kind` names allowed nets, `Hostile` pairs of lists to be refused, `Damage` net files that are
//! not as they should be, `BandList` lists of bands and `Bought` lists of edges, hostile ones among them;
//! `technology` and `driver` give both for delays, and `crowded` nets so small that all metal on them can be tried.
//!
//! `net`, `hostile` and `damaged` give weights 1 and 1, and `weighted`, `hostile_weighted` and
//! `damaged_weighted` the same kinds with weights of all sorts. All of these have loads of 0;
//! `loaded` gives loads to any of them, and `damaged_loaded` damages files of such nets. A new kind goes to the end of its
//! list, so that the others' seeds keep giving what they gave.

mod bands;
mod bought;
mod crowded;
mod damaged;
mod draft;
mod hostile;
mod loads;
mod nets;
mod permuted;
mod searched;
mod shifted;
mod technology;
mod walls;
mod weights;

pub use bands::{bands, BandList};
pub use bought::{bought, Bought, Ours};
pub use crowded::crowded;
pub use damaged::{damaged, damaged_loaded, damaged_weighted, Damage};
pub use hostile::{hostile, hostile_weighted, refusal, Hostile};
pub use loads::loaded;
pub use nets::{half, net, weighted, Kind};
pub use permuted::permuted;
pub use shifted::Shift;
pub use technology::{driver, technology};
pub use walls::chambers;

/// An enum of kinds, each with a name for the command line and a line on what it gives. A macro,
/// so that no kind can be left out of the list of all of them.
macro_rules! kinds {
    ($(#[$doc:meta])* $enum:ident { $($kind:ident $name:literal $about:literal,)+ }) => {
        $(#[$doc])*
        #[derive(Clone, Copy, Debug, PartialEq, Eq)]
        pub enum $enum {
            $(#[doc = $about] $kind,)+
        }

        impl $enum {
            /// Every kind.
            pub const ALL: &'static [$enum] = &[$($enum::$kind,)+];

            /// The kind's name.
            pub fn name(self) -> &'static str {
                match self { $($enum::$kind => $name,)+ }
            }

            /// What the kind gives.
            pub fn about(self) -> &'static str {
                match self { $($enum::$kind => $about,)+ }
            }

            /// The kind of a name.
            pub fn named(name: &str) -> Option<$enum> {
                $enum::ALL.iter().copied().find(|kind| kind.name() == name)
            }

            /// A generator for this kind and seed, so that kinds do not repeat each other.
            fn random(self, seed: u64) -> $crate::random::Random {
                let own = $crate::random::Random::new(self as u64).bits();
                $crate::random::Random::new(seed ^ own)
            }
        }
    };
}
use kinds;
