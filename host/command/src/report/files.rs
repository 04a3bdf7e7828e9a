//! Which files a report reads.

use std::{
    collections::BTreeSet,
    fs,
    os::unix::fs::MetadataExt,
    path::{Path, PathBuf},
};

use crate::{
    fault::{Fault, Result},
    out::{same, shown},
};

/// The files that the words name. A folder means its files NAME.log, sorted by name. `complain` gets a sentence for a
/// folder without any.
pub fn logs_in(paths: &[PathBuf], complain: &mut dyn FnMut(&Fault)) -> Vec<PathBuf> {
    let mut logs = Vec::new();
    for path in paths {
        let Ok(entries) = fs::read_dir(path) else {
            logs.push(path.clone());
            continue;
        };
        let files = entries.filter_map(|entry| Some(entry.ok()?.path()));
        let is_log = |path: &PathBuf| path.extension().is_some_and(|kind| kind == "log");
        let mut files: Vec<PathBuf> = files.filter(is_log).collect();
        files.sort();
        if files.is_empty() {
            let name = shown(path);
            complain(&Fault::refused(format!(
                "{name}: no file NAME.log is in this folder"
            )));
        }
        logs.extend(files);
    }
    logs
}

/// For each path, whether an earlier one is the same file.
pub fn again(paths: &[PathBuf]) -> Vec<bool> {
    let mut seen = BTreeSet::new();
    let mut is_again = |path: &PathBuf| {
        let file = fs::metadata(path).map(|file| (file.dev(), file.ino()));
        file.is_ok_and(|file| !seen.insert(file))
    };
    paths.iter().map(&mut is_again).collect()
}

/// A page must not replace a file that it is made from.
pub fn not_an_input(page: &Path, inputs: &[PathBuf]) -> Result<()> {
    let Ok(there) = fs::metadata(page) else {
        return Ok(());
    };
    let is_it = |input: &&PathBuf| fs::metadata(input).is_ok_and(|input| same(&there, &input));
    match inputs.iter().find(is_it) {
        Some(_) => Err(Fault::usage("--html names a file that is read")),
        None => Ok(()),
    }
}
