// An archive that was made before. A note beside it says what it was made from. It is linked if that is what this crate
// expects, without a proof and without a kit.

use std::{
    env,
    fmt::Write as _,
    fs,
    path::{Path, PathBuf},
    process::Command,
};

use super::{
    Result,
    sha256::{digest, hex},
};

/// What an archive was made from. The file `libNAME.txt` beside it has these as lines, each a word and its value.
pub struct Note(Vec<(String, String)>);

impl Note {
    /// The note for an archive that was just made.
    pub fn of(archive: &Path, arch: &str, kit: &str, sources: &[u8]) -> Result<Self> {
        let lines = [
            ("version", env::var("CARGO_PKG_VERSION")?),
            ("processor", arch.to_owned()),
            ("kit", kit.trim().to_owned()),
            ("sources", hex(&digest(sources))),
            ("archive", hex(&digest(&fs::read(archive)?))),
        ];
        Ok(Self(
            lines.map(|(word, says)| (word.to_owned(), says)).into(),
        ))
    }

    pub fn write(&self, archive: &Path) -> Result<()> {
        let mut text = String::new();
        for (word, says) in &self.0 {
            writeln!(text, "{word} {says}")?;
        }
        Ok(fs::write(archive.with_extension("txt"), text)?)
    }

    fn read(file: &Path) -> Result<Self> {
        let text = fs::read_to_string(file).map_err(|error| {
            let file = file.display();
            format!(
                "{file}: {error}; an archive is linked only with the note that was made with it"
            )
        })?;
        let lines = text.lines().filter_map(|line| line.split_once(' '));
        let lines = lines.map(|(word, says)| (word.to_owned(), says.to_owned()));
        Ok(Self(lines.collect()))
    }

    fn says(&self, word: &str) -> &str {
        let found = self.0.iter().find(|(found, _)| found == word);
        found.map_or("nothing", |(_, says)| says)
    }
}

/// The archive to link in place of a proved one: the one that CABLEOWL_ARCHIVE names, or, if the crate came without the
/// proved sources, the one that pkg-config knows.
pub fn asked_for(root: &Path) -> Result<Option<PathBuf>> {
    let asked = env::var("CABLEOWL_ARCHIVE").unwrap_or_default();
    if !asked.is_empty() {
        return Ok(Some(PathBuf::from(asked)));
    }
    if root.join("crates.txt").is_file() {
        return Ok(None);
    }
    println!("cargo::rerun-if-env-changed=PKG_CONFIG_PATH");
    let said = Command::new("pkg-config")
        .args(["--variable=libdir", "cableowl"])
        .output();
    let folder = match said {
        Ok(said) if said.status.success() => String::from_utf8(said.stdout)?,
        _ => {
            return Err("no archive to link: pkg-config knows no cableowl, so set CABLEOWL_ARCHIVE to the path of \
                 libcableowl.a"
                .into());
        }
    };
    Ok(Some(Path::new(folder.trim()).join("libcableowl.a")))
}

/// Fails, in one sentence, unless the archive matches its note and the note matches what this crate expects: its
/// version, the processor, and the archive of `archive.txt` beside Cargo.toml or, in the repository, an archive that
/// was proved from exactly these sources.
pub fn judged(archive: &Path, arch: &str, sources: Option<Vec<u8>>) -> Result<()> {
    let path = archive.display();
    println!("cargo::rerun-if-changed={path}");
    let note_file = archive.with_extension("txt");
    println!("cargo::rerun-if-changed={}", note_file.display());
    let bytes = fs::read(archive).map_err(|error| format!("CABLEOWL_ARCHIVE: {path}: {error}"))?;
    let note = Note::read(&note_file)?;
    let expect = |what: &str, found: &str, expected: &str| match found == expected {
        true => Ok(()),
        false => Err(format!(
            "{path} is not linked: {what} is {found}, and {expected} is expected"
        )),
    };
    expect("its digest", &hex(&digest(&bytes)), note.says("archive"))?;
    expect(
        "its version",
        note.says("version"),
        &env::var("CARGO_PKG_VERSION")?,
    )?;
    expect("its processor", note.says("processor"), arch)?;
    let beside = Path::new(&env::var("CARGO_MANIFEST_DIR")?).join("archive.txt");
    if beside.is_file() {
        println!("cargo::rerun-if-changed={}", beside.display());
        let expected = Note::read(&beside)?;
        expect("its digest", note.says("archive"), expected.says("archive"))?;
    } else if let Some(sources) = sources {
        let expected = hex(&digest(&sources));
        expect(
            "the digest of what it was proved from",
            note.says("sources"),
            &expected,
        )?;
    }
    Ok(())
}
