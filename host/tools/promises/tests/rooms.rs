//! The maps are complete: `crates.txt` has a comment for each crate, README names every page, and
//! docs/guide/ARCHITECTURE.md names every package of `host/`.

use std::fs;
use std::path::{Path, PathBuf};

fn root() -> PathBuf {
    Path::new(env!("CARGO_MANIFEST_DIR")).join("../../..")
}

fn read(path: &str) -> String {
    fs::read_to_string(root().join(path)).unwrap_or_else(|e| panic!("{path}: {e}"))
}

/// The names in a folder that this holds for.
fn names(folder: &str, wanted: impl Fn(&Path) -> bool) -> Vec<String> {
    let entries = fs::read_dir(root().join(folder)).unwrap_or_else(|e| panic!("{folder}: {e}"));
    let paths = entries.map(|entry| entry.unwrap().path());
    let names = paths.filter(|path| wanted(path)).map(|path| {
        let name = path.file_name().unwrap();
        name.to_string_lossy().into_owned()
    });
    names.collect()
}

fn none_missing(map: &str, missing: Vec<String>) {
    assert!(missing.is_empty(), "{map} lacks {}", missing.join(", "));
}

#[test]
fn crates_txt_says_what_each_crate_is_for() {
    let map = read("crates.txt");
    let lines: Vec<&str> = map.lines().collect();
    let explained = |name: &str| {
        let at = lines
            .iter()
            .position(|line| line.split([':', ' ']).next() == Some(name));
        at.is_some_and(|at| at > 0 && lines[at - 1].starts_with("# "))
    };
    let crates = names("crates", |path| path.join("src").is_dir());
    let missing = crates.into_iter().filter(|name| !explained(name)).collect();
    none_missing("crates.txt: a comment above the line of", missing);
}

#[test]
fn readme_names_every_page() {
    let readme = read("README.md");
    let is_page = |path: &Path| path.extension().is_some_and(|e| e == "md" || e == "txt");
    let mut pages = names("docs", is_page);
    for folder in names("docs", Path::is_dir) {
        pages.extend(names(&format!("docs/{folder}"), is_page));
    }
    let missing = pages
        .into_iter()
        .filter(|page| !readme.contains(page.as_str()));
    none_missing("README.md", missing.collect());
}

#[test]
fn architecture_names_every_package_of_host() {
    let page = read("docs/guide/ARCHITECTURE.md");
    let missing = promises::packages(&root().join("host"))
        .into_iter()
        .map(|package| format!("`host/{package}`"))
        .filter(|package| !page.contains(package.as_str()));
    none_missing("docs/guide/ARCHITECTURE.md", missing.collect());
}
