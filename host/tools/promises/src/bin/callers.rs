//! `tools/callers`: rewrites the callers in docs/EXCEPTIONS.md from the sources, and prints the rows that changed.

use std::{env, fs, io, path::Path, process::ExitCode};

use promises::{EXCEPTIONS, all_functions, with_callers};

fn main() -> ExitCode {
    if env::args().len() > 1 {
        eprintln!("usage: tools/callers");
        return ExitCode::from(2);
    }
    match rewrite(&Path::new(env!("CARGO_MANIFEST_DIR")).join("../../..")) {
        Ok(changed) => {
            print!("{changed}");
            ExitCode::SUCCESS
        }
        Err(error) => {
            eprintln!("callers: {EXCEPTIONS}: {error}");
            ExitCode::FAILURE
        }
    }
}

/// Rewrites the page and returns its changed rows.
fn rewrite(root: &Path) -> io::Result<String> {
    let page = root.join(EXCEPTIONS);
    let before = fs::read_to_string(&page)?;
    let after = with_callers(&before, &all_functions(&root.join("crates")));
    fs::write(&page, &after)?;
    let lines = before.lines().zip(after.lines());
    let changed = lines.filter(|(old, new)| old != new);
    Ok(changed.map(|(_, new)| format!("{new}\n")).collect())
}
