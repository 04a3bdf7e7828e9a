// Tests how an archive is found and how its progress is printed, on a small repository without a kit.
// host/tools/promises runs these tests.

use std::os::unix::fs::PermissionsExt;

use super::*;

/// A repository of two crates with proved files, and OUT_DIR. Both are removed at the end.
struct Tree {
    root: PathBuf,
    out: PathBuf,
    crates: BTreeSet<String>,
    target: Target,
    kit: kit::Kit,
}

impl Tree {
    fn new(name: &str) -> Self {
        let folder = env::temp_dir().join(format!("cableowl-{name}-{}", std::process::id()));
        let _ = fs::remove_dir_all(&folder);
        let (root, kit) = (folder.join("root"), folder.join("kit"));
        for (file, text) in [
            ("kit/KIT-ID", "a kit"),
            ("root/crates.txt", "low:\nhigh: low\n"),
            ("root/crates/low/src/lib.rt", "low"),
            ("root/crates/high/src/lib.rt", "high"),
            ("root/target/archive/proved/aarch64/libhigh.a", "archive"),
        ] {
            let file = folder.join(file);
            fs::create_dir_all(file.parent().unwrap()).unwrap();
            fs::write(file, text).unwrap();
        }
        let crates = crates_of(&root, "high").unwrap();
        let kit = kit::Kit::from(kit);
        let target = Target {
            arch: "aarch64".to_owned(),
        };
        let text = proved_from(&root, &crates, &target, &kit).unwrap();
        fs::write(root.join("target/archive/proved/aarch64/high.from"), text).unwrap();
        Self {
            out: folder.join("out"),
            root,
            crates,
            target,
            kit,
        }
    }

    fn proved(&self) -> Result<(PathBuf, Proved)> {
        proved(
            &self.root,
            &self.out,
            &self.crates,
            "high",
            &self.target,
            &self.kit,
        )
    }

    /// Puts scripts into the kit in place of `rt` and of clang.
    fn with_a_kit(&self, rt: &str) {
        for (file, text) in [
            ("bin/rt", rt),
            (
                "toolchain/bin/clang",
                "#!/bin/sh\necho \"$@\" >>\"$SAID\"\n",
            ),
        ] {
            let file = self.root.join("../kit").join(file);
            fs::create_dir_all(file.parent().unwrap()).unwrap();
            fs::write(&file, text).unwrap();
            fs::set_permissions(file, PermissionsExt::from_mode(0o755)).unwrap();
        }
    }

    /// Makes this folder impossible to write to, even for root: a folder is put where the probe file would be.
    fn lock(&self) {
        fs::create_dir(self.root.join("target/archive/probe")).unwrap();
    }
}

impl Drop for Tree {
    fn drop(&mut self) {
        let _ = fs::remove_dir_all(self.root.parent().unwrap());
    }
}

#[test]
fn a_read_only_source_uses_the_archive_beside_it() {
    let tree = Tree::new("beside");
    let beside = tree.root.join("target/archive/proved/aarch64/libhigh.a");
    let (work, there) = tree.proved().unwrap();
    assert_eq!((work, there.archive), (tree.root.clone(), beside.clone()));
    tree.lock();
    let (work, there) = tree.proved().unwrap();
    assert_eq!((work, there.archive), (tree.out.join("source"), beside));
    assert!(
        !tree.out.join("source/crates").exists(),
        "nothing is copied"
    );
}

#[test]
fn an_archive_of_another_text_is_not_used() {
    for (file, text) in [
        ("crates/low/src/lib.rt", "lower"),
        ("crates.txt", "low:\nhigh: low # edited\n"),
        ("../kit/KIT-ID", "another kit"),
    ] {
        let tree = Tree::new("another");
        tree.lock();
        fs::write(tree.root.join(file), text).unwrap();
        // The rest needs a whole kit: it is asked to prove, and this one cannot.
        assert!(tree.proved().is_err(), "{file}");
        let copied = tree.out.join("source/crates/low/src/lib.rt");
        assert!(copied.is_file(), "{file}");
    }
}

/// An `rt` that says where it is and with which words, and compiles.
const RT: &str = r#"#!/bin/sh
kit=$(cd "$(dirname "$(readlink -f "$0")")/.." && pwd)
echo "rt $* in $(basename "$PWD")" >>"$SAID"
"$kit/toolchain/bin/clang" -O3 module.bc
"$kit/toolchain/bin/clang" --version
mkdir -p out
echo "an archive" >"out/lib$(basename "$PWD").a"
"#;

#[test]
fn the_kit_proves_and_a_copy_of_it_inlines_more() {
    let tree = Tree::new("inlines");
    let said = tree.root.join("../said");
    // Each file of the kit has the place of what is said in it.
    let place = format!("SAID='{}'\n", said.display());
    tree.with_a_kit(&RT.replacen('\n', &format!("\nexport {place}"), 1));
    fs::write(tree.root.join("crates/high/src/lib.rt"), "higher").unwrap();
    let (_, proved) = tree.proved().unwrap();
    assert_eq!(fs::read_to_string(proved.archive).unwrap(), "an archive\n");
    let run = |more: &str| {
        format!(
            "rt lib --target=aarch64-unknown-linux-gnu in high\n-O3 module.bc{more}\n--version\n"
        )
    };
    let inlines = format!(" -mllvm {}", kit::INLINING);
    assert_eq!(fs::read_to_string(said).unwrap(), run("") + &run(&inlines));
    let x86 = Target {
        arch: "x86_64".to_owned(),
    };
    assert_eq!(x86.words(), ["--cpu=x86-64"]);
}

#[test]
fn a_kit_that_hands_no_module_to_clang_is_told() {
    let tree = Tree::new("no-module");
    tree.with_a_kit("#!/bin/sh\nmkdir -p out\n: >out/libhigh.a\n");
    fs::write(tree.root.join("crates/high/src/lib.rt"), "higher").unwrap();
    let told = tree.proved().err().unwrap().to_string();
    assert!(told.contains("host/archive/kit.rs"), "{told}");
}

#[test]
fn the_static_library_of_a_crate_is_its_c_interface() {
    let tree = Tree::new("interface");
    assert_eq!(static_library(&tree.root, "high"), "high");
    fs::create_dir_all(tree.root.join("crates/high_c/src")).unwrap();
    assert_eq!(static_library(&tree.root, "high"), "high_c");
    let list = "low:\nhigh_c staticlib: high\nhigh: low\n";
    fs::write(tree.root.join("crates.txt"), list).unwrap();
    let crates = crates_of(&tree.root, "high_c").unwrap();
    assert!(crates.iter().eq(["high", "high_c", "low"]), "{crates:?}");
}

#[test]
fn the_progress_says_how_many_of_how_many() {
    let crates = ["low", "middle", "high"].map(str::to_owned).into();
    let mut progress = Progress::new(&crates);
    let proved = "logic=proved functions=2 sum=0";
    for (line, expected) in [
        ("rt: chose --jobs 2 for low", None),
        ("fn low::id: proved", None),
        ("crate low: modules loaded=0 checked=72", None),
        (proved, Some("1 of 3: low proved")),
        ("library low: modules loaded=46 checked=0", None),
        ("crate high: modules loaded=89 checked=0", None),
        (proved, Some("2 of 3: high proved")),
        ("crate high: modules loaded=89 checked=0", None),
        (proved, None),
    ] {
        assert_eq!(progress.message(line).as_deref(), expected, "{line}");
    }
}
