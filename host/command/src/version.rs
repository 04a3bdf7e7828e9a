//! What `cableowl version` prints.

use std::env::consts::ARCH;

/// The version, the commit, the C interface of the archive that is linked, and the processor. The commit is known if
/// `make dist` made the program.
pub fn line() -> String {
    let version = env!("CARGO_PKG_VERSION");
    let commit = option_env!("CABLEOWL_COMMIT").map_or_else(
        || "built from a working tree".to_owned(),
        |commit| format!("commit {commit}"),
    );
    let interface = cableowl::version();
    format!("cableowl {version}, {commit}, C interface {interface}, {ARCH}\n")
}
