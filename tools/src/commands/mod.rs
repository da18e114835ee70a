//! The commands of the program.

use crate::program::Command;

mod batch;
mod best;
mod check;
mod compare;
mod completion;
mod delay;
mod distances;
mod draw;
mod export;
mod import;
mod man;
mod pack;
mod price;
mod route;
mod shorten;
mod slide;
mod unpack;
mod verify;

pub use draw::{html, svg};

/// Every command, in the order in which the help lists them.
pub const ALL: &[Command] = &[
    check::COMMAND,
    route::COMMAND,
    slide::COMMAND,
    best::COMMAND,
    shorten::COMMAND,
    verify::COMMAND,
    draw::COMMAND,
    compare::COMMAND,
    batch::COMMAND,
    price::COMMAND,
    distances::COMMAND,
    delay::COMMAND,
    pack::COMMAND,
    unpack::COMMAND,
    export::COMMAND,
    import::COMMAND,
    man::COMMAND,
    completion::COMMAND,
];
