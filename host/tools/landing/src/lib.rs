//! The items of a text that a landing counts: definitions of specs/ and contracts of src/, each by its name, and how
//! they changed between two commits; and the digest of each statement (`statements`).
#![deny(unsafe_code)]
#![warn(missing_docs)]

use std::collections::BTreeMap;

mod sources;
mod statements;

pub use sources::Sources;
pub use statements::{FILE, changes, pinned, statements};

/// Items by name, each with its lines that are neither empty nor a comment.
pub type Items = BTreeMap<String, Vec<String>>;

/// Words that may precede a definition's name.
const BEFORE: [&str; 6] = ["unfoldable", "abbrev", "opaque", "pub", "record", "data"];

/// The definitions of a text of antt: a name, its type, and all lines up to the next name. Inside a module with
/// parameters each begins with the module's first line.
#[must_use]
pub fn definitions(text: &str) -> Items {
    let mut found = Items::new();
    let mut current = None;
    let mut module = None;
    for line in text.lines() {
        if line.trim().is_empty() || line.trim_start().starts_with("--") {
            continue;
        }
        if !line.starts_with(char::is_whitespace) {
            module = line.starts_with("module ").then_some(line);
        }
        let begins = match module {
            Some(_) => line.strip_prefix("  ").and_then(defined),
            None => defined(line),
        };
        if let Some(name) = begins {
            current = Some(name.to_owned());
            let lines = found.entry(name.to_owned()).or_default();
            lines.extend(module.map(str::to_owned));
        } else if line.starts_with("module ") || is_use(line) {
            current = None;
        }
        if let Some(name) = &current {
            found.entry(name.clone()).or_default().push(line.to_owned());
        }
    }
    found
}

/// Whether a line imports names from other files, or names a file of its own folder.
fn is_use(line: &str) -> bool {
    ["use ", "pub use ", "ghost use ", "pub mod ", "mod "]
        .iter()
        .any(|word| line.starts_with(word))
}

/// The name whose definition begins at a line: the first after a word such as `abbrev`, otherwise one with its type.
/// Parameters may be between a name and its type.
fn defined(line: &str) -> Option<&str> {
    if line.starts_with(char::is_whitespace) || is_use(line) {
        return None;
    }
    let mut words = line
        .split_whitespace()
        .skip_while(|word| BEFORE.contains(word));
    let name = words.next()?;
    (words.next() == Some(":") || !line.starts_with(name)).then_some(name)
}

/// The contracts of a text of Rattle: for each function that has one, its signature and its clauses; for each trait, each
/// `impl` of one and each struct with ghost members, its first line and these. A trait is named `trait Direction`, an
/// `impl` of it `Direction for Forward`.
#[must_use]
pub fn contracts(text: &str) -> Items {
    let mut found = Items::new();
    let mut owner = Owner::default();
    let mut ghost = false;
    let mut open: Option<(String, Vec<String>)> = None;
    for line in text.lines() {
        let trimmed = line.trim();
        if let Some(begun) = Owner::begun_by(line) {
            owner = begun;
        } else if line == "}" {
            owner = Owner::default();
        }
        if let Some(name) = function(trimmed) {
            open = Some((format!("{}{name}", owner.prefix()), Vec::new()));
        }
        ghost |= open.is_none() && !owner.name.is_empty() && trimmed.starts_with("ghost ");
        if ghost {
            let lines = found.entry(owner.name.clone()).or_default();
            if lines.is_empty() {
                lines.push(owner.line.clone());
            }
            lines.push(line.to_owned());
            ghost = !trimmed.ends_with(';') && !trimmed.ends_with("},");
        }
        let Some((name, lines)) = &mut open else {
            continue;
        };
        let has_clause = lines
            .iter()
            .chain([&line.to_owned()])
            .any(|line| is_clause(line));
        let is_body = trimmed == "{" || trimmed == "{}";
        // A trait's function may have no body.
        let is_end = trimmed.ends_with(';') && depth(lines.iter()) + depth([line]) == 0;
        if is_end && has_clause {
            lines.push(line.to_owned());
        }
        if is_body || is_end || (!has_clause && trimmed.ends_with(['{', '}'])) {
            if has_clause {
                found.insert(std::mem::take(name), std::mem::take(lines));
            }
            open = None;
        } else if !trimmed.is_empty() && !trimmed.starts_with("//") {
            lines.push(line.to_owned());
        }
    }
    found
}

/// Whether other crates see a contract of [`contracts`]: a public function's, or a trait's.
#[must_use]
pub fn is_public(name: &str, lines: &[String]) -> bool {
    let of_trait = name.starts_with("trait ") || name.contains(" for ");
    let first = lines.first().map(|line| line.trim_start());
    of_trait || first.is_some_and(|line| line.starts_with("pub "))
}

/// The `impl`, trait or struct that a line is in.
#[derive(Default)]
struct Owner {
    name: String,
    line: String,
    /// A struct's functions are in an `impl`, so it is part of no function's name.
    is_struct: bool,
}

impl Owner {
    fn begun_by(line: &str) -> Option<Self> {
        let plain = line.strip_prefix("pub ").unwrap_or(line);
        let head = plain.split(['{', ':']).next().unwrap_or(plain).trim();
        let is_struct = head.starts_with("struct ");
        let name = if is_struct || head.starts_with("trait ") {
            head.to_owned()
        } else {
            // The parameters after `impl` are no part of the name.
            let rest = plain.strip_prefix("impl")?.trim_end_matches(" {");
            let rest = match rest.strip_prefix('<') {
                Some(parameters) => parameters.split_once("> ")?.1,
                None => rest,
            };
            rest.trim().to_owned()
        };
        Some(Self {
            name,
            line: line.to_owned(),
            is_struct,
        })
    }

    fn prefix(&self) -> String {
        if self.name.is_empty() || self.is_struct {
            return String::new();
        }
        format!("{}::", self.name)
    }
}

/// How many braces are open after some lines.
fn depth<L: AsRef<str>>(lines: impl IntoIterator<Item = L>) -> i32 {
    let of_one = |line: L| -> i32 {
        let of_char = |c| i32::from(c == '{') - i32::from(c == '}');
        line.as_ref().chars().map(of_char).sum()
    };
    lines.into_iter().map(of_one).sum()
}

fn function(line: &str) -> Option<&str> {
    let line = line.strip_prefix("pub(crate) ").unwrap_or(line);
    let line = line.strip_prefix("pub ").unwrap_or(line);
    let line = line.strip_prefix("extern \"C\" ").unwrap_or(line);
    let rest = line.strip_prefix("fn ")?;
    rest.split(['(', '<']).next()
}

fn is_clause(line: &str) -> bool {
    let line = line.trim_start();
    let rest = ["requires", "ensures"]
        .iter()
        .find_map(|word| line.strip_prefix(word));
    rest.is_some_and(|rest| rest.starts_with([' ', '*']))
}

/// How a set of items changed.
#[derive(Debug, Default, PartialEq, Eq)]
pub struct Change {
    /// Names that were not there before.
    pub new: Vec<String>,
    /// Names with changed lines.
    pub changed: Vec<String>,
    /// Names that are no longer there.
    pub removed: Vec<String>,
    /// How many are the same, word for word.
    pub stayed: usize,
    /// Lines that the new and the changed have and did not have before.
    pub added_lines: usize,
    /// Lines that the changed and the removed no longer have.
    pub removed_lines: usize,
}

/// Compares the items with those before.
#[must_use]
pub fn change(before: &Items, after: &Items) -> Change {
    let mut change = Change::default();
    for (name, lines) in after {
        match before.get(name) {
            None => change.new.push(name.clone()),
            Some(old) if old == lines => change.stayed += 1,
            Some(_) => change.changed.push(name.clone()),
        }
        change.added_lines += missing(lines, before.get(name));
    }
    for (name, lines) in before {
        if !after.contains_key(name) {
            change.removed.push(name.clone());
        }
        change.removed_lines += missing(lines, after.get(name));
    }
    change
}

/// How many of the lines the other text lacks. Each of its lines counts once.
fn missing(lines: &[String], other: Option<&Vec<String>>) -> usize {
    let mut left: Vec<&String> = other.into_iter().flatten().collect();
    let mut count = 0;
    for line in lines {
        match left.iter().position(|one| *one == line) {
            Some(at) => {
                left.swap_remove(at);
            }
            None => count += 1,
        }
    }
    count
}
