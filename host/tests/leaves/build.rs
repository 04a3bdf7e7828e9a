// Links the proved archive of crates/test_exports.

use std::process::ExitCode;

#[path = "../../archive.rs"]
mod archive;

fn main() -> ExitCode {
    archive::link("test_exports")
}
