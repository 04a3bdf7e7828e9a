//! There is one version, the workspace's, and CHANGELOG begins with it.

use std::{fs, path::Path};

#[test]
fn one_version_from_one_place() {
    let root = Path::new(env!("CARGO_MANIFEST_DIR")).join("../../..");
    let read = |path: &Path| {
        fs::read_to_string(path).unwrap_or_else(|error| panic!("{}: {error}", path.display()))
    };
    let workspace = read(&root.join("host/Cargo.toml"));
    let version = workspace
        .lines()
        .find_map(|line| line.strip_prefix("version = "))
        .expect("the workspace has a version")
        .trim_matches('"');
    let host = root.join("host");
    for package in promises::packages(&host) {
        let manifest = read(&host.join(&package).join("Cargo.toml"));
        let taken = manifest.contains("\nversion.workspace = true\n");
        assert!(taken, "host/{package}: a version of its own");
    }
    let changelog = read(&root.join("CHANGELOG.md"));
    let first = changelog
        .lines()
        .find_map(|line| line.strip_prefix("## "))
        .expect("CHANGELOG has a section");
    assert_eq!(first.split(',').next(), Some(version), "CHANGELOG's first");
}
