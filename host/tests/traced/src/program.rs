//! The program `replay` that `rt ci` or `rt run` compiled.

use std::{
    fs::File,
    io::{self, Read, Write},
    path::{Path, PathBuf},
    process::{Command, Stdio},
    thread,
};

/// How the program is run.
#[derive(Debug, Clone)]
pub struct Program {
    path: PathBuf,
}

impl Program {
    /// The program of this repository, if `rt` has compiled it.
    #[must_use]
    pub fn find() -> Option<Self> {
        let root = Path::new(env!("CARGO_MANIFEST_DIR")).join("../../..");
        let path = root.join("crates/replay/out/replay").canonicalize().ok()?;
        Some(Self { path })
    }

    fn command(&self) -> Command {
        let mut command = Command::new(&self.path);
        command.stdout(Stdio::piped());
        command
    }

    /// What it prints of a trace.
    ///
    /// # Errors
    ///
    /// Errors of running it, and a status other than success.
    pub fn printed(&self, trace: &[u8]) -> io::Result<Vec<u8>> {
        let mut child = self.command().stdin(Stdio::piped()).spawn()?;
        let stdin = child.stdin.take();
        let output = thread::scope(|scope| {
            // A program that has ended reads no more.
            scope.spawn(move || stdin.map(|mut stdin| stdin.write_all(trace)));
            child.wait_with_output()
        })?;
        match output.status.success() {
            true => Ok(output.stdout),
            false => Err(io::Error::other(format!("it ended with {}", output.status))),
        }
    }

    /// Passes what it prints of a file to a reader.
    ///
    /// # Errors
    ///
    /// Errors of running it, and a status other than success.
    pub fn print_file<T>(
        &self,
        file: File,
        take: impl FnOnce(&mut dyn Read) -> T,
    ) -> io::Result<T> {
        let mut child = self.command().stdin(file).spawn()?;
        let mut stdout = child.stdout.take().ok_or(io::ErrorKind::BrokenPipe)?;
        let taken = take(&mut stdout);
        drop(stdout);
        let status = child.wait()?;
        match status.success() {
            true => Ok(taken),
            false => Err(io::Error::other(format!("it ended with {status}"))),
        }
    }
}
