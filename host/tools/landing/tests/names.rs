//! No identifier in `src/` and `specs/` contains a word of the glossary's column "not".

use std::{
    collections::{BTreeMap, BTreeSet},
    fs,
    path::{Path, PathBuf},
};

use landing::Sources;

fn root() -> PathBuf {
    Path::new(env!("CARGO_MANIFEST_DIR")).join("../../..")
}

fn cells(line: &str) -> Vec<&str> {
    line.trim_matches('|').split(" | ").map(str::trim).collect()
}

/// The single words of the column "not" that are no concept's own word, and the words of the last table: those that may still be
/// used.
fn words(page: &str) -> (BTreeSet<String>, BTreeSet<String>) {
    let (tables, still_used) = page
        .split_once("## Identifiers")
        .expect("the glossary has the section \"Identifiers\"");
    let rows = tables.lines().filter(|line| line.starts_with("| "));
    let rows: Vec<Vec<&str>> = rows
        .map(cells)
        .filter(|row| row.len() == 4 && row[3] != "not")
        .collect();
    let own: BTreeSet<&str> = rows.iter().map(|row| row[0]).collect();
    let not = rows.iter().flat_map(|row| {
        let plain = row[3].split('(').next().unwrap_or_default();
        let words = plain.split(',').map(str::trim);
        let single =
            words.filter(|word| !word.is_empty() && !word.contains(' ') && !own.contains(word));
        single.map(str::to_string).collect::<Vec<_>>()
    });
    let rows = still_used.lines().filter(|line| line.starts_with("| "));
    let kept = rows.map(|line| cells(line)[0].to_string());
    (not.collect(), kept.filter(|word| word != "word").collect())
}

/// The parts of an identifier in lower case: `isTrail`, `is_trail` and `is.trail` have the same two.
fn parts(identifier: &str) -> Vec<String> {
    let mut parts = vec![String::new()];
    let mut before = ' ';
    for c in identifier.chars() {
        if c.is_uppercase() && !before.is_uppercase() || !c.is_alphabetic() {
            parts.push(String::new());
        }
        if c.is_alphabetic() {
            parts
                .last_mut()
                .expect("never empty")
                .extend(c.to_lowercase());
        }
        before = c;
    }
    parts.retain(|part| !part.is_empty());
    parts
}

/// The identifiers of a text, without its comments, its texts in quotes, its imports' crates and the names of the C
/// interface. `type Error` is the name that std's trait `TryFrom` gives.
fn identifiers(text: &str) -> BTreeSet<&str> {
    let ours = text
        .lines()
        .filter(|line| !line.trim_start().starts_with("type Error = "));
    let code = ours.map(|line| {
        let end = [line.find("//"), line.find("-- ")];
        &line[..end.into_iter().flatten().min().unwrap_or(line.len())]
    });
    let is_part = |c: char| c.is_alphanumeric() || "_.'".contains(c);
    let code = code.flat_map(|line| line.split('"').step_by(2));
    let found = code.flat_map(|line| line.split(move |c| !is_part(c)));
    // `Rattle.NAME.specs`: the crate NAME is no identifier of its own.
    found
        .filter_map(|name| match name.strip_prefix("Rattle.") {
            Some(path) => path.split_once('.').map(|(_, inside)| inside),
            None => Some(name),
        })
        .filter(|name| !name.to_lowercase().starts_with("cableowl"))
        .collect()
}

#[test]
fn a_word_that_the_glossary_rejects_is_no_part_of_an_identifier() {
    let page = fs::read_to_string(root().join("docs/GLOSSARY.md")).expect("docs/GLOSSARY.md");
    let (not, kept) = words(&page);
    assert!(not.len() > 30, "the column is read: {not:?}");
    let sources = Sources::below(&root()).expect("the crates are read");
    let mut used: BTreeMap<String, BTreeSet<String>> = BTreeMap::new();
    for part in ["src", "specs"] {
        for (krate, file, text) in sources.of(part) {
            for name in identifiers(text) {
                let parts = parts(name);
                for (at, word) in parts.iter().enumerate() {
                    let well = at > 0 && ["well", "ill"].contains(&parts[at - 1].as_str());
                    if not.contains(word) && !(word == "formed" && well) {
                        let place = format!("{name} in crates/{krate}/{part}/{file}");
                        used.entry(word.clone()).or_default().insert(place);
                    }
                }
            }
        }
    }
    let new: Vec<String> = used
        .iter()
        .filter(|(word, _)| !kept.contains(*word))
        .map(|(word, places)| format!("{word}: {places:?}"))
        .collect();
    assert!(new.is_empty(), "the glossary says not:\n{}", new.join("\n"));
    let over: Vec<&String> = kept
        .iter()
        .filter(|word| !used.contains_key(*word))
        .collect();
    assert!(
        over.is_empty(),
        "no longer used, so take from the list: {over:?}"
    );
}

#[test]
fn an_identifier_is_seen_part_by_part() {
    for name in ["isTrail", "is_trail", "is.trail"] {
        assert_eq!(parts(name), ["is", "trail"], "{name}");
    }
    let found = identifiers(
        "use Rattle.trail.specs.Tracks.{is_trail} -- a trail\nlet x = trail_at(y.trail); // trail",
    );
    let found: Vec<&str> = found
        .into_iter()
        .filter(|name| name.contains("rail"))
        .collect();
    assert_eq!(found, ["is_trail", "trail_at", "y.trail"]);
}
