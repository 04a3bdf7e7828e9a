//! docs/LANDINGS.md has its form: a section for each request that README or the header names, each with its nine parts.

use std::{collections::BTreeSet, fs, path::Path};

/// The parts of a note, in their order.
const PARTS: [&str; 9] = [
    "what one can do now",
    "definitions",
    "promises",
    "proofs",
    "interface",
    "check time",
    "speed",
    "evidence",
    "left open",
];

fn read(path: &str) -> String {
    let root = Path::new(env!("CARGO_MANIFEST_DIR")).join("../../..");
    fs::read_to_string(root.join(path)).unwrap_or_else(|error| panic!("{path}: {error}"))
}

/// The requests that a text names: `#` and three digits.
fn requests(text: &str) -> BTreeSet<String> {
    text.split('#')
        .skip(1)
        .filter_map(|rest| {
            let digits: String = rest.chars().take_while(char::is_ascii_digit).collect();
            (digits.len() == 3).then_some(digits)
        })
        .collect()
}

/// What is wrong with the notes, in words.
fn faults(landings: &str, claims: &str) -> Vec<String> {
    let mut faults = Vec::new();
    let sections: Vec<&str> = landings.split("\n## ").skip(1).collect();
    let headings = sections.iter().filter_map(|section| section.lines().next());
    let named: BTreeSet<String> = headings.flat_map(requests).collect();
    for request in requests(claims).difference(&named) {
        faults.push(format!("#{request}: no section"));
    }
    for section in sections {
        let heading = section.lines().next().unwrap_or("");
        let rows: Vec<(&str, &str)> = section
            .lines()
            .filter_map(|line| {
                line.strip_prefix("| ")?
                    .strip_suffix(" |")?
                    .split_once(" | ")
            })
            .filter(|(part, _)| PARTS.contains(part))
            .collect();
        if !rows.iter().map(|(part, _)| *part).eq(PARTS) {
            faults.push(format!(
                "{heading}: its rows are not the nine parts in their order"
            ));
        }
        if rows.iter().any(|(_, says)| says.trim().is_empty()) {
            faults.push(format!("{heading}: a part says nothing"));
        }
        if section.lines().count() > 50 {
            faults.push(format!("{heading}: longer than a screen"));
        }
    }
    faults
}

#[test]
fn each_request_that_is_claimed_has_its_note() {
    let landings = read("docs/LANDINGS.md");
    assert!(landings.contains("\n## Ground\n"));
    let claims = read("README.md") + &read("host/include/cableowl.h");
    assert_eq!(faults(&landings, &claims), [""; 0]);
}

#[test]
fn a_missing_note_and_a_missing_part_are_found() {
    let landings = read("docs/LANDINGS.md");
    assert_eq!(faults(&landings, "loops (#199)"), ["#199: no section"]);
    let row = landings
        .lines()
        .find(|line| line.starts_with("| left open |"));
    let lost = landings.replacen(row.expect("a row"), "", 1);
    assert_eq!(faults(&lost, "").len(), 1, "{:?}", faults(&lost, ""));
    let note = landings.replacen("## Ground", "## #199 Loops", 1);
    assert_eq!(faults(&note, "loops (#199)"), [""; 0]);
}
