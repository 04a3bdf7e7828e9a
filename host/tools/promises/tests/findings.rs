//! docs/assurance/FINDINGS.md: each test that it names exists, and it names each test of a finding.

use std::{
    collections::BTreeSet,
    fs,
    path::{Path, PathBuf},
};

/// The findings of the page.
const FINDINGS: u32 = 18;

/// The folders in which each test has the name of its finding.
const LIBRARY: &str = "host/cableowl/tests/findings";
const COMMAND: &str = "host/command/tests/people/findings.rs";

fn root() -> PathBuf {
    Path::new(env!("CARGO_MANIFEST_DIR")).join("../../..")
}

fn read(path: &str) -> String {
    fs::read_to_string(root().join(path)).unwrap_or_else(|e| panic!("{path}: {e}"))
}

/// The tests of a Rust source, by name.
fn tests_of(source: &str) -> BTreeSet<String> {
    let after = source.split("#[test]").skip(1);
    let names = after.filter_map(|rest| {
        let (_, rest) = rest.split_once("fn ")?;
        rest.split(['(', '<']).next().map(str::to_owned)
    });
    names.collect()
}

/// The rows of the page's tables, cell by cell, that begin with a finding's number.
fn rows(page: &str) -> Vec<(u32, Vec<String>)> {
    let rows = page.lines().filter_map(|line| {
        let cells = line.strip_prefix("| ")?.strip_suffix(" |")?.split(" | ");
        let cells: Vec<String> = cells.map(str::to_owned).collect();
        Some((cells[0].parse().ok()?, cells))
    });
    rows.collect()
}

/// The tests that a page names: a file from the root, and a function of it.
fn named(page: &str) -> BTreeSet<(String, String)> {
    let quoted = page.split('`').skip(1).step_by(2);
    let tests = quoted.filter_map(|text| text.split_once("::"));
    let tests = tests.filter(|(file, _)| file.ends_with(".rs"));
    tests
        .map(|(file, name)| (file.to_owned(), name.to_owned()))
        .collect()
}

#[test]
fn each_test_that_the_page_names_is_there() {
    let named = named(&read("docs/assurance/FINDINGS.md"));
    let missing: Vec<_> = named
        .iter()
        .filter(|(file, name)| !tests_of(&read(file)).contains(name))
        .collect();
    assert!(missing.is_empty(), "no such test: {missing:?}");
    assert!(named.len() > 40, "{}", named.len());
}

#[test]
fn the_page_names_each_test_of_a_finding() {
    let named = named(&read("docs/assurance/FINDINGS.md"));
    let folder = fs::read_dir(root().join(LIBRARY)).expect("the library's tests");
    let files = folder.map(|entry| entry.unwrap().file_name().into_string().unwrap());
    let files = files.map(|file| format!("{LIBRARY}/{file}"));
    for file in files.chain([COMMAND.to_owned()]) {
        for name in tests_of(&read(&file)) {
            let there = named.contains(&(file.clone(), name.clone()));
            assert!(there, "{file}::{name} is not on the page");
        }
    }
}

#[test]
fn each_finding_has_its_sentence_and_a_test() {
    let page = read("docs/assurance/FINDINGS.md");
    let rows = rows(&page);
    for number in 1..=FINDINGS {
        let of_it = rows.iter().filter(|(of, _)| *of == number);
        let with_tests = of_it.clone().filter(|(_, cells)| cells[1].contains("::"));
        assert!(with_tests.count() > 0, "finding {number} has no test");
        assert!(of_it.count() > 1, "finding {number} has no sentence");
    }
    for (number, cells) in rows {
        for cell in cells {
            let sentences = cell.matches(". ").count() + 1;
            assert!(sentences <= 2, "finding {number}: {cell}");
        }
    }
}
