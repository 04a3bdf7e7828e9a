// The kit on PATH, and a copy of it with a clang that inlines more.

use std::{
    env, fs,
    os::unix::fs::{PermissionsExt, symlink},
    path::{Path, PathBuf},
    sync::atomic::{AtomicUsize, Ordering},
};

use super::Result;

/// The kit on PATH.
pub struct Kit {
    home: PathBuf,
}

impl From<PathBuf> for Kit {
    /// The kit in this folder.
    fn from(home: PathBuf) -> Self {
        Self { home }
    }
}

/// The kit that `rt` on PATH belongs to.
pub fn kit() -> Option<Kit> {
    if let Some(home) = env::var_os("RATTLE_HOME") {
        return Some(PathBuf::from(home).into());
    }
    let rt = env::split_paths(&env::var_os("PATH")?)
        .map(|folder| folder.join("rt"))
        .find(|rt| rt.is_file())?;
    let home = rt.canonicalize().ok()?.parent()?.parent()?.to_owned();
    Some(home.into())
}

/// An option of clang that inlines the inner functions: each passes on a whole voice, and the copies would wait for one
/// another.
pub const INLINING: &str = "-inline-threshold=2000";

/// The script in place of the kit's clang. `$0` is its own path. It says in the file `inlined` that it was given a
/// module.
fn inlines() -> String {
    format!(
        r#"#!/bin/sh
# The kit's clang, which inlines more of the module that it is given.
for word in "$@"; do
  case $word in
  *.bc)
    : >"${{0%/*}}/../../inlined" || exit
    set -- "$@" -mllvm {INLINING}
    ;;
  esac
done
exec "${{0%/*}}/../../clang" "$@"
"#
    )
}

/// Files below this length are scripts, which find their kit by their own path, so they are copied.
const SCRIPT: u64 = 400_000;

impl Kit {
    /// The kit's one line.
    pub fn identity(&self) -> Result<String> {
        let file = self.home.join("KIT-ID");
        fs::read_to_string(&file).map_err(|error| {
            let file = file.display();
            format!(
                "`rt` on PATH is in no kit ({file}: {error}): set RATTLE_HOME to the kit's folder"
            )
            .into()
        })
    }

    pub fn rt(&self) -> PathBuf {
        self.home.join("bin/rt")
    }

    /// A kit of links to this one, with another clang. It is outside the repository, in which `rt` wants no links.
    pub fn that_inlines_more(&self) -> Result<Shadow> {
        static MADE: AtomicUsize = AtomicUsize::new(0);
        let number = MADE.fetch_add(1, Ordering::Relaxed);
        let name = format!("cableowl-kit-{}-{number}", std::process::id());
        let room = env::temp_dir().join(name);
        if room.exists() {
            fs::remove_dir_all(&room)?;
        }
        let shadow = Shadow {
            kit: room.join("kit").into(),
            room,
        };
        let home = &shadow.kit.home;
        let tools = home.join("toolchain/bin");
        let links = || -> std::io::Result<()> {
            fs::create_dir_all(&tools)?;
            fs::create_dir_all(home.join("bin"))?;
            link_all_but(&["bin", "toolchain"], &self.home, home)?;
            link_all_but(
                &["bin"],
                &self.home.join("toolchain"),
                &home.join("toolchain"),
            )?;
            link_all_but(&["clang"], &self.home.join("toolchain/bin"), &tools)?;
            symlink(self.home.join("toolchain/bin/clang"), home.join("clang"))?;
            for entry in fs::read_dir(self.home.join("bin"))? {
                let (file, to) = (entry?.path(), home.join("bin"));
                let to = to.join(file.file_name().expect("a file has a name"));
                let data = file.metadata()?;
                match (data.is_file(), data.len() < SCRIPT) {
                    (true, true) => fs::copy(&file, &to).map(|_| ())?,
                    (true, false) => symlink(&file, &to)?,
                    (false, _) => (),
                }
            }
            Ok(())
        };
        links().map_err(|error| not_this_kit(&error.to_string()))?;
        let clang = tools.join("clang");
        fs::write(&clang, inlines())?;
        fs::set_permissions(&clang, fs::Permissions::from_mode(0o755))?;
        Ok(shadow)
    }
}

/// A kit with a clang that inlines more. Everything else in it is the kit's own. It is removed at the end.
pub struct Shadow {
    pub kit: Kit,
    room: PathBuf,
}

impl Shadow {
    /// Fails if its clang was given no module.
    pub fn has_inlined(&self) -> Result<()> {
        match self.kit.home.join("inlined").is_file() {
            true => Ok(()),
            false => Err(not_this_kit(
                "it handed no file *.bc to its toolchain's clang",
            )),
        }
    }
}

impl Drop for Shadow {
    fn drop(&mut self) {
        let _ = fs::remove_dir_all(&self.room);
    }
}

fn link_all_but(names: &[&str], from: &Path, to: &Path) -> std::io::Result<()> {
    for entry in fs::read_dir(from)? {
        let file = entry?.file_name();
        if !names.iter().any(|name| file == *name) {
            symlink(from.join(&file), to.join(&file))?;
        }
    }
    Ok(())
}

fn not_this_kit(why: &str) -> Box<dyn std::error::Error> {
    format!(
        "this kit compiles in another way than host/archive/kit.rs knows: {why}. Use a kit that file KIT names, or mend \
         host/archive/kit.rs, which puts a script in place of the kit's clang"
    )
    .into()
}
