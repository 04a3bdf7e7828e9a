//! Runs the build scripts' own tests: host/archive/tests.rs.

#[path = "../../../archive.rs"]
#[expect(dead_code, reason = "what links is not called here")]
mod archive;
