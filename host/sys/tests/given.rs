//! An archive that was made before is linked only if it matches its note and what this crate expects.

use std::{
    env::temp_dir,
    fs,
    path::{Path, PathBuf},
    process,
};

#[allow(dead_code)]
#[path = "../../archive.rs"]
mod archive;

use archive::given::{Note, judged};

const SOURCES: &[u8] = b"numbers:\ncrates/numbers/src/lib.rt\n";

/// An archive and its note in a folder of their own, removed at the end.
struct Given(PathBuf);

impl Given {
    fn new(name: &str) -> Self {
        let folder = temp_dir().join(format!("cableowl-given-{name}-{}", process::id()));
        fs::create_dir_all(&folder).expect("a folder");
        let given = Self(folder);
        fs::write(given.archive(), "!<arch>\n").expect("an archive");
        let note = Note::of(&given.archive(), "aarch64", "a kit", SOURCES).expect("a note");
        note.write(&given.archive()).expect("a note's file");
        given
    }

    fn archive(&self) -> PathBuf {
        self.0.join("libcableowl.a")
    }

    fn note(&self) -> PathBuf {
        self.0.join("libcableowl.txt")
    }

    fn judged(&self, arch: &str, sources: &[u8]) -> String {
        let judged = judged(&self.archive(), arch, Some(sources.to_vec()));
        judged.map_or_else(|error| error.to_string(), |()| "linked".to_owned())
    }
}

impl Drop for Given {
    fn drop(&mut self) {
        let _ = fs::remove_dir_all(&self.0);
    }
}

fn replaced(file: &Path, old: &str, new: &str) {
    let text = fs::read_to_string(file).expect("a text");
    assert!(text.contains(old), "{text}");
    fs::write(file, text.replace(old, new)).expect("written");
}

#[test]
fn the_archive_that_is_expected_is_linked() {
    let given = Given::new("expected");
    assert_eq!(given.judged("aarch64", SOURCES), "linked");
}

#[test]
fn another_archive_is_refused_in_one_sentence() {
    let given = Given::new("others");
    let refused = |said: String, what: &str| {
        assert!(
            said.contains(&format!("is not linked: {what} is ")),
            "{said}"
        );
        assert_eq!(said.lines().count(), 1, "{said}");
    };
    refused(given.judged("x86_64", SOURCES), "its processor");
    refused(
        given.judged("aarch64", b"numbers:\n"),
        "the digest of what it was proved from",
    );
    let version = format!("version {}", env!("CARGO_PKG_VERSION"));
    replaced(&given.note(), &version, "version 0.0.1");
    refused(given.judged("aarch64", SOURCES), "its version");
    replaced(&given.note(), "version 0.0.1", &version);
    fs::write(given.archive(), "!<arch>\nmore").expect("written");
    refused(given.judged("aarch64", SOURCES), "its digest");
}

#[test]
fn an_archive_without_its_note_is_refused() {
    let given = Given::new("alone");
    fs::remove_file(given.note()).expect("removed");
    let said = given.judged("aarch64", SOURCES);
    assert!(said.contains("linked only with the note"), "{said}");
    fs::remove_file(given.archive()).expect("removed");
    let said = given.judged("aarch64", SOURCES);
    assert!(said.starts_with("CABLEOWL_ARCHIVE: "), "{said}");
}
