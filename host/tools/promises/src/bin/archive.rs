//! `tools/arm`: makes the archive of the C interface for the processor in CARGO_CFG_TARGET_ARCH, as a build script does.

use std::process::ExitCode;

#[path = "../../../../archive.rs"]
mod archive;

fn main() -> ExitCode {
    archive::link("cableowl")
}
