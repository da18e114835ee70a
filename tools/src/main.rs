//! The program `calzundi`.

use std::process::ExitCode;

fn main() -> ExitCode {
    tools::program::run()
}
