//! `tools/statements`: rewrites docs/assurance/STATEMENTS.txt, and prints what changed in it.

use std::{env, error::Error, fs, path::Path, process::ExitCode};

use landing::{FILE, Sources, changes, statements};

fn main() -> ExitCode {
    if env::args().len() > 1 {
        eprintln!("usage: tools/statements");
        return ExitCode::from(2);
    }
    match rewrite(&Path::new(env!("CARGO_MANIFEST_DIR")).join("../../..")) {
        Ok(text) => {
            print!("{text}");
            ExitCode::SUCCESS
        }
        Err(error) => {
            eprintln!("statements: {error}");
            ExitCode::FAILURE
        }
    }
}

fn rewrite(root: &Path) -> Result<String, Box<dyn Error>> {
    let before = fs::read_to_string(root.join(FILE)).unwrap_or_default();
    let after = statements(&Sources::below(root)?);
    fs::write(root.join(FILE), &after)?;
    let (change, moved) = changes(&before, &after);
    let mut said = String::new();
    for (what, names) in [
        ("new", &change.new),
        ("changed", &change.changed),
        ("removed", &change.removed),
        ("moved", &moved),
    ] {
        for name in names {
            said += &format!("{what}: {name}\n");
        }
    }
    Ok(format!("{said}{FILE}: {} stayed\n", change.stayed))
}
