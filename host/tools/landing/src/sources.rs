//! The texts of the crates by their paths, from a commit or from this repository's folder.

use std::{collections::BTreeMap, fs, io, path::Path};

use crate::Items;

/// Texts by their path from the root of the repository.
#[derive(Debug, Clone, Default)]
pub struct Sources(pub BTreeMap<String, String>);

impl Sources {
    /// The specs/ and src/ of every crate below a root folder.
    ///
    /// # Errors
    ///
    /// A folder or a file cannot be read.
    pub fn below(root: &Path) -> io::Result<Self> {
        let mut found = Self::default();
        for krate in fs::read_dir(root.join("crates"))? {
            let krate = krate?.file_name().to_string_lossy().into_owned();
            for part in ["specs", "src"] {
                found.read(root, &format!("crates/{krate}/{part}"))?;
            }
        }
        Ok(found)
    }

    /// Adds the texts of a folder and of those inside it.
    fn read(&mut self, root: &Path, folder: &str) -> io::Result<()> {
        if !root.join(folder).is_dir() {
            return Ok(());
        }
        for entry in fs::read_dir(root.join(folder))? {
            let entry = entry?;
            let path = format!("{folder}/{}", entry.file_name().to_string_lossy());
            if entry.path().is_dir() {
                self.read(root, &path)?;
            } else {
                self.0.insert(path, fs::read_to_string(entry.path())?);
            }
        }
        Ok(())
    }

    /// The files of one part of every crate: the crate, the path below the part, the text.
    pub fn of<'a>(&'a self, part: &'a str) -> impl Iterator<Item = (&'a str, &'a str, &'a str)> {
        self.0.iter().filter_map(move |(path, text)| {
            let (name, rest) = path.strip_prefix("crates/")?.split_once('/')?;
            let rest = rest.strip_prefix(part)?.strip_prefix('/')?;
            Some((name, rest, text.as_str()))
        })
    }

    /// The items of one part of every crate, as `crate::item`.
    #[must_use]
    pub fn items(&self, part: &str, of: fn(&str) -> Items) -> Items {
        let mut found = Items::new();
        for (name, _, text) in self.of(part) {
            for (item, lines) in of(text) {
                let lines_so_far = found.entry(format!("{name}::{item}")).or_default();
                lines_so_far.extend(lines);
            }
        }
        found
    }
}
