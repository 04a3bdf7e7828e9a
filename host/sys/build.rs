// Links the proved archive of crates/cableowl.

use std::process::ExitCode;

#[path = "../archive.rs"]
mod archive;

fn main() -> ExitCode {
    archive::link("cableowl")
}
