// For build scripts: runs `rt` to prove a static library of this repository, and links its archive. The kit writes it
// for x86-64 or, on x86-64 too, for Arm (aarch64), with more inlining (archive/kit.rs). The kit itself runs on x86-64
// alone, so on Arm an archive that was made before is linked.
//
// CABLEOWL_NO_ARCHIVE=1 skips all of this, for lints, which link nothing. CABLEOWL_ARCHIVE=PATH/libcableowl.a links
// that archive if it is what this crate expects (archive/given.rs), and proves nothing. CABLEOWL_PROGRESS=FILE prints
// the progress of a long proof to that file; without it, to the terminal, if there is one.

use std::{
    collections::BTreeSet,
    env,
    error::Error,
    fmt::Write as _,
    fs::{self, File, OpenOptions},
    io::{self, BufRead, BufReader, Write as _},
    path::{Path, PathBuf},
    process::{Command, ExitCode},
};

#[path = "archive/given.rs"]
pub mod given;
#[path = "archive/kit.rs"]
mod kit;
#[allow(dead_code)]
#[path = "sha256/src/lib.rs"]
mod sha256;

type Result<T> = std::result::Result<T, Box<dyn Error>>;

/// What a crate is proved from.
const PARTS: [&str; 3] = ["src", "specs", "proofs"];

/// The whole work of a build script: links the archive `libNAME.a`, and passes its path to the package's code as
/// LINKED_ARCHIVE.
pub fn link(name: &str) -> ExitCode {
    for variable in [
        "CABLEOWL_NO_ARCHIVE",
        "CABLEOWL_ARCHIVE",
        "PATH",
        "RATTLE_HOME",
    ] {
        println!("cargo::rerun-if-env-changed={variable}");
    }
    if env::var_os("CABLEOWL_NO_ARCHIVE").is_some_and(|value| value == "1") {
        return ExitCode::SUCCESS;
    }
    match prove_and_link(name) {
        Ok(()) => ExitCode::SUCCESS,
        Err(error) => {
            eprintln!("{error}");
            ExitCode::FAILURE
        }
    }
}

fn prove_and_link(name: &str) -> Result<()> {
    let target = Target::asked_for(name)?;
    let root = root()?;
    let out = PathBuf::from(env::var("OUT_DIR")?);
    println!("cargo::rustc-link-search=native={}", out.display());
    println!("cargo::rustc-link-lib=static={name}");
    // The archive of the leaves is only for the tests, and is always made here.
    if name == "cableowl"
        && let Some(archive) = given::asked_for(&root)?
    {
        return link_given(&archive, &root, name, &target, &out);
    }
    let crates = crates_of(&root, &static_library(&root, name))?;
    watch(&root, &crates);
    let Some(kit) = kit::kit() else {
        return without_the_kit(&root, &out);
    };
    if env::consts::ARCH != "x86_64" {
        return Err(no_kit_on(env::consts::ARCH, name));
    }
    // Only one run at a time: two would write the same files.
    let turn = File::open(root.join("crates.txt"))?;
    turn.lock()?;
    let (work, proved) = proved(&root, &out, &crates, name, &target, &kit)?;
    let folder = work.join("target/archive").join(&target.arch);
    fs::create_dir_all(&folder)?;
    let archive = folder.join(format!("lib{name}.a"));
    fs::copy(proved.archive, &archive)?;
    let sources = sources_of(&root, &crates)?;
    given::Note::of(&archive, &target.arch, &kit.identity()?, &sources)?.write(&archive)?;
    link_copy(&archive, name, &out)
}

/// The folder that contains host/. It is found from the package: the nearest folder above it that has a file archive.rs
/// is host/.
fn root() -> Result<PathBuf> {
    let package = PathBuf::from(env::var("CARGO_MANIFEST_DIR")?);
    let host = package
        .ancestors()
        .find(|folder| folder.join("archive.rs").is_file())
        .ok_or("no archive.rs in a folder above the package")?;
    Ok(host.join("..").canonicalize()?)
}

/// The crate of crates.txt that is the static library `libNAME.a`: `NAME_c`, the C interface of the crate NAME, or NAME
/// itself.
fn static_library(root: &Path, name: &str) -> String {
    let interface = format!("{name}_c");
    match root.join("crates").join(&interface).is_dir() {
        true => interface,
        false => name.to_owned(),
    }
}

fn no_kit_on(arch: &str, name: &str) -> Box<dyn Error> {
    format!(
        "the Rattle kit runs on x86-64, and this is {arch}: make lib{name}.a on x86-64, with `--target {arch}-unknown-linux-gnu` \
         or tools/arm, and give its path as CABLEOWL_ARCHIVE"
    )
    .into()
}

/// Links a copy, so that each package has its own.
fn link_copy(archive: &Path, name: &str, out: &Path) -> Result<()> {
    let copy = out.join(format!("lib{name}.a"));
    fs::copy(archive, &copy)?;
    println!("cargo::rustc-env=LINKED_ARCHIVE={}", copy.display());
    Ok(())
}

/// Links an archive that was made before, if it is what this crate expects.
fn link_given(archive: &Path, root: &Path, name: &str, target: &Target, out: &Path) -> Result<()> {
    let sources = match root.join("crates.txt").is_file() {
        true => {
            let crates = crates_of(root, &static_library(root, name))?;
            watch(root, &crates);
            Some(sources_of(root, &crates)?)
        }
        false => None,
    };
    given::judged(archive, &target.arch, sources)?;
    link_copy(archive, name, out)
}

/// The target of the archive.
struct Target {
    arch: String,
}

impl Target {
    fn asked_for(name: &str) -> Result<Self> {
        let arch = env::var("CARGO_CFG_TARGET_ARCH")?;
        let os = env::var("CARGO_CFG_TARGET_OS")?;
        match (arch.as_str(), os.as_str()) {
            ("x86_64" | "aarch64", "linux") => Ok(Self { arch }),
            _ => Err(format!(
                "the archive of {name} links into programs for Linux on x86-64 or Arm (aarch64), and this is {arch} {os}"
            )
            .into()),
        }
    }

    /// The words for `rt lib`. Without them its code needs a newer x86-64 processor.
    fn words(&self) -> Vec<String> {
        match self.arch.as_str() {
            "x86_64" => vec!["--cpu=x86-64".to_owned()],
            arch => vec![format!("--target={arch}-unknown-linux-gnu")],
        }
    }
}

/// `cargo check` and `cargo doc` link nothing, so they continue. A build stops at the missing library.
fn without_the_kit(root: &Path, out: &Path) -> Result<()> {
    let kits = fs::read_to_string(root.join("KIT"))?;
    println!(
        "cargo::warning=the Rattle kit is needed to link: there is no `rt` on PATH. The kit is \"{}\", see file KIT in {}. \
         `cargo check` and `cargo doc` work without it.",
        kits.lines().next().unwrap_or_default(),
        root.display()
    );
    // A path that does not exist, so that the next run looks for the kit again.
    println!("cargo::rerun-if-changed={}", out.join("the-kit").display());
    Ok(())
}

/// The crate and all crates of this repository that it depends on.
fn crates_of(root: &Path, name: &str) -> Result<BTreeSet<String>> {
    let list = fs::read_to_string(root.join("crates.txt"))?;
    let mut found = BTreeSet::new();
    let mut next = vec![name.to_owned()];
    while let Some(name) = next.pop() {
        // The kit's own libraries have no folder here.
        if root.join("crates").join(&name).is_dir() && found.insert(name.clone()) {
            next.extend(dependencies(&list, &name).map(str::to_owned));
        }
    }
    Ok(found)
}

/// The dependencies of this crate, from its line `NAME: DEP DEP` or `NAME staticlib: DEP DEP` in crates.txt.
fn dependencies<'a>(list: &'a str, name: &str) -> impl Iterator<Item = &'a str> {
    list.lines()
        .filter_map(|line| line.split('#').next()?.split_once(':'))
        .find(|(crate_name, _)| crate_name.split_whitespace().next() == Some(name))
        .map_or("", |(_, dependencies)| dependencies)
        .split_whitespace()
}

/// Tells cargo to run the build script again after a change of any file that a proof depends on.
fn watch(root: &Path, crates: &BTreeSet<String>) {
    println!(
        "cargo::rerun-if-changed={}",
        root.join("crates.txt").display()
    );
    for folder in folders(root, crates) {
        println!("cargo::rerun-if-changed={}", folder.display());
    }
}

fn folders(root: &Path, crates: &BTreeSet<String>) -> impl Iterator<Item = PathBuf> {
    crates
        .iter()
        .flat_map(move |name| PARTS.map(|part| root.join("crates").join(name).join(part)))
        .filter(|folder| folder.is_dir())
}

/// The proved archive, and the folder to work in: the repository, or a folder below OUT_DIR if the repository cannot be
/// written to. In that case the archive beside the sources is used if it was proved from exactly this text; otherwise
/// the crates are copied and proved below OUT_DIR.
fn proved(
    root: &Path,
    out: &Path,
    crates: &BTreeSet<String>,
    name: &str,
    target: &Target,
    kit: &kit::Kit,
) -> Result<(PathBuf, Proved)> {
    if can_write(root) {
        let proved = Proved::of(root, crates, name, target, kit)?;
        return Ok((root.to_owned(), proved));
    }
    let work = out.join("source");
    fs::create_dir_all(work.join("target/archive"))?;
    let beside = Proved::files(root, name, target);
    if beside.is_from(&proved_from(root, crates, target, kit)?) {
        return Ok((work, beside));
    }
    copy_crates(root, &work, crates)?;
    let proved = Proved::of(&work, crates, name, target, kit)?;
    Ok((work, proved))
}

/// Whether target/ beside crates.txt can be written to.
fn can_write(root: &Path) -> bool {
    let probe = root.join("target/archive/probe");
    let created = fs::create_dir_all(root.join("target/archive")).is_ok();
    created && fs::write(&probe, "").is_ok() && fs::remove_file(probe).is_ok()
}

fn copy_crates(root: &Path, to: &Path, crates: &BTreeSet<String>) -> Result<()> {
    let _ = fs::remove_dir_all(to.join("crates"));
    for folder in folders(root, crates) {
        for file in files(&folder)? {
            let to = to.join(file.strip_prefix(root)?);
            fs::create_dir_all(to.parent().ok_or("a file has a folder")?)?;
            fs::write(to, fs::read(file)?)?;
        }
    }
    // `rt` wants a folder for each crate of the list.
    let list = fs::read_to_string(root.join("crates.txt"))?;
    let of_these = |line: &&str| {
        let name = line.split([':', ' ']).next().unwrap_or("");
        crates.contains(name)
    };
    let lines: Vec<&str> = list.lines().filter(of_these).collect();
    fs::write(to.join("crates.txt"), lines.join("\n") + "\n")?;
    Ok(())
}

/// All files below a folder, always in the same order.
fn files(folder: &Path) -> io::Result<Vec<PathBuf>> {
    let mut found = Vec::new();
    let mut next = vec![folder.to_owned()];
    while let Some(folder) = next.pop() {
        for entry in fs::read_dir(folder)? {
            let path = entry?.path();
            if path.is_dir() {
                next.push(path)
            } else {
                found.push(path)
            }
        }
    }
    found.sort();
    Ok(found)
}

/// The archive that `rt lib` wrote for a crate.
struct Proved {
    archive: PathBuf,
    /// The digest of the text that it was made from.
    from: PathBuf,
}

impl Proved {
    /// The paths of its files below a repository, whether they exist or not.
    fn files(root: &Path, name: &str, target: &Target) -> Self {
        let kept = root.join("target/archive/proved").join(&target.arch);
        Self {
            archive: kept.join(format!("lib{name}.a")),
            from: kept.join(format!("{name}.from")),
        }
    }

    /// Whether the archive exists and was made from this text.
    fn is_from(&self, text: &[u8]) -> bool {
        fs::read(&self.from).is_ok_and(|from| from == text) && self.archive.is_file()
    }

    /// Runs `rt` to prove the crate, unless the same kit has already proved exactly this text.
    fn of(
        root: &Path,
        crates: &BTreeSet<String>,
        name: &str,
        target: &Target,
        kit: &kit::Kit,
    ) -> Result<Self> {
        let proved = Self::files(root, name, target);
        let text = proved_from(root, crates, target, kit)?;
        if proved.is_from(&text) {
            return Ok(proved);
        }
        fs::create_dir_all(root.join("target/archive/proved").join(&target.arch))?;
        let _ = fs::remove_file(&proved.from);
        report(&format!(
            "proving lib{name}.a, {} crates; this takes minutes if nothing is proved yet",
            crates.len()
        ));
        let library = static_library(root, name);
        let made = prove(root, crates, &library, target, kit)?;
        fs::copy(made, &proved.archive)?;
        fs::write(&proved.from, text)?;
        Ok(proved)
    }
}

/// Everything that the result of `rt` depends on: the kit, the options of `rt` and of its clang, and the sources.
fn proved_from(
    root: &Path,
    crates: &BTreeSet<String>,
    target: &Target,
    kit: &kit::Kit,
) -> Result<Vec<u8>> {
    let words = target.words().join(" ");
    let mut text = format!("{}\n{words}\n{}\n", kit.identity()?, kit::INLINING).into_bytes();
    text.extend(sources_of(root, crates)?);
    Ok(text)
}

/// crates.txt, and each file of the crates with its path.
fn sources_of(root: &Path, crates: &BTreeSet<String>) -> Result<Vec<u8>> {
    let list = fs::read_to_string(root.join("crates.txt"))?;
    let mut text = format!("{list}\n").into_bytes();
    for folder in folders(root, crates) {
        for file in files(&folder)? {
            writeln!(text, "{}", file.strip_prefix(root)?.display())?;
            text.extend(fs::read(file)?);
        }
    }
    Ok(text)
}

/// Proves the crate and those below it by the kit itself, and has its archive compiled with more inlining. `rt` finds
/// its kit by its own path, so that the second run compiles with the clang of the copied kit; it proves nothing anew.
fn prove(
    root: &Path,
    crates: &BTreeSet<String>,
    library: &str,
    target: &Target,
    kit: &kit::Kit,
) -> Result<PathBuf> {
    let folder = root.join("crates").join(library);
    let mut progress = Progress::new(crates);
    rt_lib(kit, &folder, target, &mut progress)?;
    let shadow = kit.that_inlines_more()?;
    rt_lib(&shadow.kit, &folder, target, &mut progress)?;
    shadow.has_inlined()?;
    Ok(folder.join(format!("out/lib{library}.a")))
}

/// How many of the crates are proved.
struct Progress<'a> {
    crates: &'a BTreeSet<String>,
    proved: BTreeSet<&'a str>,
    /// The crate of which `rt` last said how many modules it checked.
    last: Option<&'a str>,
}

impl<'a> Progress<'a> {
    fn new(crates: &'a BTreeSet<String>) -> Self {
        Self {
            crates,
            proved: BTreeSet::new(),
            last: None,
        }
    }

    /// The message for a line of `rt` that says that a crate is proved now: the crate, and how many are proved.
    fn message(&mut self, line: &str) -> Option<String> {
        if let Some((name, _)) = line
            .strip_prefix("crate ")
            .and_then(|rest| rest.split_once(": modules "))
        {
            self.last = self.crates.get(name).map(String::as_str);
        }
        line.strip_prefix("logic=proved ")?;
        let name = self.last.take()?;
        if !self.proved.insert(name) {
            return None;
        }
        let (proved, all) = (self.proved.len(), self.crates.len());
        Some(format!("{proved} of {all}: {name} proved"))
    }
}

/// Runs `rt lib` in a crate's folder and prints each crate when it is proved.
fn rt_lib(
    kit: &kit::Kit,
    folder: &Path,
    target: &Target,
    progress: &mut Progress<'_>,
) -> Result<()> {
    let (reader, writer) = io::pipe()?;
    let mut rt = Command::new(kit.rt())
        .arg("lib")
        .args(target.words())
        .current_dir(folder)
        .stdout(writer.try_clone()?)
        .stderr(writer)
        .spawn()?;
    let mut said = String::new();
    for line in BufReader::new(reader).lines() {
        let line = line?;
        if let Some(line) = progress.message(&line) {
            report(&line);
        }
        if !is_noise(&line) {
            writeln!(said, "{line}")?;
        }
    }
    if rt.wait()?.success() {
        return Ok(());
    }
    let failed: Vec<&str> = said
        .lines()
        .filter(|line| line.contains(" did not build"))
        .collect();
    Err(format!(
        "{said}\n`rt lib` failed in {}, so nothing is linked. {}",
        folder.display(),
        failed.join("\n")
    )
    .into())
}

/// What `rt` lists for each proved crate, and its notes.
fn is_noise(line: &str) -> bool {
    const LISTED: [&str; 11] = [
        "struct ",
        "enum ",
        "const ",
        "library ",
        "statements ",
        "crate ",
        "axioms ",
        "logic ",
        "logic=proved",
        "note: ",
        "rt: chose ",
    ];
    LISTED.iter().any(|start| line.starts_with(start))
        || line.starts_with("fn ") && line.ends_with(": proved")
        || line.contains(": note: ")
}

/// Prints the progress of long work. Cargo does not show a build script's output, so this goes to a file or the
/// terminal.
fn report(line: &str) {
    let to = env::var("CABLEOWL_PROGRESS").unwrap_or_else(|_| "/dev/tty".to_owned());
    if let Ok(mut file) = OpenOptions::new().append(true).open(to) {
        let _ = writeln!(file, "cableowl: {line}");
    }
}

#[cfg(test)]
#[path = "archive/tests.rs"]
mod tests;
