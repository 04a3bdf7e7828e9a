//! The digest of each statement that a reader must believe: the definitions of specs/, the fields of its records, the
//! contracts of public functions, and for each file the paths that it imports.

use std::collections::{BTreeMap, BTreeSet};

use sha256::{digest, hex};

use crate::{Change, Items, Sources, change, contracts, definitions, is_public};

/// The file that holds them.
pub const FILE: &str = "docs/assurance/STATEMENTS.txt";

/// The first lines of the file.
const HEAD: &str = "\
# The digest of each statement; `tools/statements` writes this file, and docs/guide/CHANGING.md says when to run it.
# A line: name, kind, and the first 64 bits of the SHA-256 of its text without comments and layout.
#   contract    a public function's signature, requires and ensures; the ghost members of a trait, an impl or a struct
#   definition  of specs/; of a record its first line and the names of its fields
#   field       of a record of specs/, a promise among them
#   names       where the names come from that a file uses in its definitions or contracts
";

/// The file's text for these sources.
#[must_use]
pub fn statements(sources: &Sources) -> String {
    let mut lines = BTreeSet::new();
    let mut add = |name: &str, kind: &str, text: &str| {
        let digest = hex(&digest(text.as_bytes())[..8]);
        lines.insert(format!("{name} {kind} {digest}\n"));
    };
    for (name, lines) in sources.items("specs", definitions) {
        match record(&lines) {
            None => add(&name, "definition", &plain(&lines, "--")),
            Some((head, fields)) => {
                let names: Vec<&str> = fields.iter().map(|(name, _)| *name).collect();
                let head = plain(head, "--");
                add(&name, "definition", &format!("{head} {}", names.join(" ")));
                for (field, lines) in &fields {
                    add(&format!("{name}.{field}"), "field", &plain(lines, "--"));
                }
            }
        }
    }
    for (name, lines) in sources.items("src", contracts) {
        if is_public(&name, &lines) {
            add(&name, "contract", &plain(&lines, "//"));
        }
    }
    for (part, word) in [("specs", "use "), ("src", "ghost use ")] {
        for (krate, file, text) in sources.of(part) {
            let names = names(text, word);
            if !names.is_empty() {
                add(&format!("{krate}/{part}/{file}"), "names", &names);
            }
        }
    }
    HEAD.to_owned() + &lines.into_iter().collect::<String>()
}

/// The statements of a file's text: the digest of each, by name and kind.
#[must_use]
pub fn pinned(text: &str) -> Items {
    let lines = text.lines().filter(|line| !line.starts_with('#'));
    lines
        .filter_map(|line| line.rsplit_once(' '))
        .map(|(name, digest)| (name.to_owned(), vec![digest.to_owned()]))
        .collect()
}

/// How the statements changed between two texts of the file. A statement with another name and the same digest has
/// moved.
#[must_use]
pub fn changes(before: &str, after: &str) -> (Change, Vec<String>) {
    let (before, after) = (pinned(before), pinned(after));
    let mut change = change(&before, &after);
    let mut gone: BTreeMap<&Vec<String>, Vec<&String>> = BTreeMap::new();
    for name in change.removed.iter().rev() {
        gone.entry(&before[name]).or_default().push(name);
    }
    let mut moved = Vec::new();
    for name in &change.new {
        if let Some(old) = gone.get_mut(&after[name]).and_then(Vec::pop) {
            moved.push((old.clone(), name.clone()));
        }
    }
    change
        .removed
        .retain(|name| !moved.iter().any(|(old, _)| old == name));
    change
        .new
        .retain(|name| !moved.iter().any(|(_, new)| new == name));
    let moved = moved.iter().map(|(old, new)| format!("{old} → {new}"));
    (change, moved.collect())
}

/// A field's name and its lines.
type Field<'a> = (&'a str, &'a [String]);

/// A record's first lines, and each of its fields with its lines; `None` for another definition.
fn record(lines: &[String]) -> Option<(&[String], Vec<Field<'_>>)> {
    let mut words = lines[0].split_whitespace();
    words
        .find(|word| *word != "pub")
        .filter(|word| *word == "record")?;
    let head = 1 + lines.iter().position(|line| line.ends_with(" where"))?;
    let (head, body) = lines.split_at(head);
    let depth = |line: &String| line.len() - line.trim_start().len();
    let starts: Vec<usize> = (0..body.len())
        .filter(|at| depth(&body[*at]) == depth(&body[0]))
        .collect();
    let ends = starts.iter().skip(1).copied().chain([body.len()]);
    let fields = starts.iter().zip(ends).map(|(start, end)| {
        let lines = &body[*start..end];
        let mut words = lines[0].split_whitespace();
        (words.find(|word| *word != "pub").unwrap_or(""), lines)
    });
    Some((head, fields.collect()))
}

/// A text without comments and layout: one space between words, none beside a bracket or a semicolon, and no comma
/// before a closing bracket, where layout adds one if the list has several lines.
fn plain(lines: &[String], comment: &str) -> String {
    let said = lines
        .iter()
        .flat_map(|line| line.split_whitespace().take_while(|word| *word != comment));
    let mut text = String::new();
    let stands_alone = |c: char| "(){};".contains(c);
    for word in said {
        if !text.is_empty() && !text.ends_with(stands_alone) && !word.starts_with(stands_alone) {
            text.push(' ');
        }
        text += word;
    }
    text.replace(";}", "}")
        .replace(",}", "}")
        .replace(",)", ")")
}

/// The names that a file's lines with this word import, each with its path, in order.
fn names(text: &str, word: &str) -> String {
    let mut found = BTreeSet::new();
    let mut lines = text.lines();
    while let Some(line) = lines.next() {
        let Some(path) = line.trim_start_matches("pub ").strip_prefix(word) else {
            continue;
        };
        let mut path = vec![path.to_owned()];
        if line.contains('{') && !line.contains('}') {
            let more = lines.by_ref().map(str::to_owned);
            path.extend(more.take_while(|line| !line.contains('}')));
            path.push("}".to_owned());
        }
        let path = plain(&path, "--");
        let path = path.trim_end_matches(';').trim_end();
        match path.strip_suffix('}').and_then(|path| path.split_once('{')) {
            Some((from, names)) => {
                found.extend(names.split(", ").map(|name| format!("{from}{name}\n")));
            }
            None => {
                found.insert(format!("{path}\n"));
            }
        }
    }
    found.into_iter().collect()
}
