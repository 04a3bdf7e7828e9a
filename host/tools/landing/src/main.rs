//! `tools/landing BEFORE AFTER`: the measured part of a landing's note, from two commits.

use std::{
    collections::BTreeMap,
    env,
    error::Error,
    path::Path,
    process::{Command, ExitCode},
};

use landing::{Change, FILE, Items, Sources, change, changes, contracts, definitions};

/// How the items of a part are read from a commit's files.
type Reads = fn(&Sources) -> Items;

type Result<T> = std::result::Result<T, Box<dyn Error>>;

fn main() -> ExitCode {
    let words: Vec<String> = env::args().skip(1).collect();
    let [before, after] = words.as_slice() else {
        eprintln!("usage: tools/landing BEFORE AFTER (two commits)");
        return ExitCode::from(2);
    };
    match report(before, after) {
        Ok(text) => {
            print!("{text}");
            ExitCode::SUCCESS
        }
        Err(error) => {
            eprintln!("landing: {error}");
            ExitCode::FAILURE
        }
    }
}

fn report(before: &str, after: &str) -> Result<String> {
    let (old, new) = (sources_at(before)?, sources_at(after)?);
    let mut text = format!("From {before} to {after}:\n\n");
    text += "| part | new | changed | removed | stayed | lines added | lines removed |\n|---|---|---|---|---|---|---|\n";
    let mut names = String::new();
    let parts: [(&str, Reads); 4] = [
        ("definitions (specs/)", |sources| {
            sources.items("specs", definitions)
        }),
        ("contracts (src/)", |sources| {
            sources.items("src", contracts)
        }),
        ("proofs (files of proofs/)", |sources| {
            files(sources, "proofs")
        }),
        ("must-fail edits", |sources| files(sources, "must-fail")),
    ];
    for (part, items) in parts {
        let change = change(&items(&old), &items(&new));
        text += &row(part, &change);
        names += &named(part, &change);
    }
    let code = change(&files(&old, "src"), &files(&new, "src"));
    text += &row("code (files of src/)", &code);
    let interface = change(&interface(&old), &interface(&new));
    text += &row(
        "interface (cableowl.h, host/sys/src, host/cableowl/src)",
        &interface,
    );
    names += &named("interface", &interface);
    // The file of digests did not exist at the first landings.
    if let (Some(before), Some(after)) = (old.0.get(FILE), new.0.get(FILE)) {
        let (change, moved) = changes(before, after);
        text += &row("statements (docs/assurance/STATEMENTS.txt)", &change);
        names += &named("statements", &change);
        for line in moved {
            names += &format!("  moved: {line}\n");
        }
    }
    Ok(format!("{text}{names}"))
}

fn row(part: &str, change: &Change) -> String {
    format!(
        "| {part} | {} | {} | {} | {} | {} | {} |\n",
        change.new.len(),
        change.changed.len(),
        change.removed.len(),
        change.stayed,
        change.added_lines,
        change.removed_lines
    )
}

fn named(part: &str, change: &Change) -> String {
    if change.new.is_empty() && change.changed.is_empty() && change.removed.is_empty() {
        return String::new();
    }
    let mut text = format!("\n{part}\n");
    for (what, names) in [
        ("new", &change.new),
        ("changed", &change.changed),
        ("removed", &change.removed),
    ] {
        if !names.is_empty() {
            text += &format!("  {what}: {}\n", names.join(", "));
        }
    }
    text
}

/// The files of a commit that a landing counts, by path.
fn sources_at(commit: &str) -> Result<Sources> {
    let mut found = BTreeMap::new();
    let list = git(&[
        "ls-tree",
        "-r",
        "--name-only",
        commit,
        "--",
        "crates",
        "host/include",
        "host/sys/src",
        "host/cableowl/src",
        FILE,
    ])?;
    for path in list.lines() {
        let is_counted = ["rt", "antt", "edit", "h", "rs"].iter().any(|extension| {
            Path::new(path)
                .extension()
                .is_some_and(|found| found == *extension)
        });
        if is_counted || path == FILE {
            found.insert(
                path.to_owned(),
                git(&["show", &format!("{commit}:{path}")])?,
            );
        }
    }
    if !found.keys().any(|path| path.starts_with("crates/")) {
        return Err(format!("{commit} has no crates/").into());
    }
    Ok(Sources(found))
}

/// The files of one part of every crate, each by its crate and name.
fn files(sources: &Sources, part: &str) -> Items {
    sources
        .of(part)
        .map(|(name, rest, text)| {
            (
                format!("{name}/{}", rest.trim_end_matches(".edit")),
                lines(text),
            )
        })
        .collect()
}

fn interface(sources: &Sources) -> Items {
    sources
        .0
        .iter()
        .filter(|(path, _)| path.starts_with("host/"))
        .map(|(path, text)| (path.trim_start_matches("host/").to_owned(), lines(text)))
        .collect()
}

fn lines(text: &str) -> Vec<String> {
    text.lines().map(str::to_owned).collect()
}

fn git(words: &[&str]) -> Result<String> {
    let root = Path::new(env!("CARGO_MANIFEST_DIR")).join("../../..");
    let said = Command::new("git")
        .arg("-C")
        .arg(root)
        .args(words)
        .output()?;
    if !said.status.success() {
        return Err(String::from_utf8_lossy(&said.stderr).into_owned().into());
    }
    Ok(String::from_utf8(said.stdout)?)
}
