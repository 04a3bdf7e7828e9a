//! Where a run writes: standard output, and files that get their name only when they are complete.

use std::{
    ffi::OsString,
    fs::{self, File, Metadata, OpenOptions},
    io::{self, BufWriter, Read, Write},
    os::unix::fs::MetadataExt,
    path::{Path, PathBuf},
    process,
};

use crate::fault::{Fault, Result, reason};

/// Standard output. If its reader has closed the pipe, writes are dropped without a message.
pub struct Out<'a> {
    to: BufWriter<Box<dyn Write + 'a>>,
    closed: bool,
}

impl<'a> Out<'a> {
    /// Writes here, buffered.
    pub fn new(to: impl Write + 'a) -> Self {
        Self {
            to: BufWriter::with_capacity(1 << 16, Box::new(to)),
            closed: false,
        }
    }

    /// Whether the reader has closed the pipe.
    pub fn closed(&self) -> bool {
        self.closed
    }

    /// Writes bytes.
    pub fn put(&mut self, bytes: impl AsRef<[u8]>) -> Result<()> {
        if self.closed {
            return Ok(());
        }
        let written = self.to.write_all(bytes.as_ref());
        self.settle(written)
    }

    /// Writes what is still buffered.
    pub fn flush(&mut self) -> Result<()> {
        if self.closed {
            return Ok(());
        }
        let written = self.to.flush();
        self.settle(written)
    }

    fn settle(&mut self, written: io::Result<()>) -> Result<()> {
        match written.map_err(|error| Fault::unwritten("standard output", &error)) {
            Err(Fault::Closed) => {
                self.closed = true;
                Ok(())
            }
            other => other,
        }
    }
}

/// A file that is written under a temporary name in the same folder. It is removed if it is dropped
/// before it gets its name.
pub struct Fresh {
    path: PathBuf,
    beside: PathBuf,
    file: Option<BufWriter<File>>,
}

impl Fresh {
    /// Begins a file.
    pub fn begin(path: &Path) -> Result<Self> {
        let Some(name) = path.file_name() else {
            return Err(Fault::usage(format!("{}: names no file", shown(path))));
        };
        let mut own = OsString::from(".");
        own.push(name);
        own.push(format!(".{}.tmp", process::id()));
        let beside = path.with_file_name(own);
        let file = OpenOptions::new()
            .write(true)
            .create_new(true)
            .open(&beside);
        let file = file.map_err(|error| unwritten(path, &error))?;
        Ok(Self {
            path: path.to_owned(),
            beside,
            file: Some(BufWriter::new(file)),
        })
    }

    /// Writes bytes.
    pub fn put(&mut self, bytes: &[u8]) -> Result<()> {
        let Some(file) = &mut self.file else {
            return Ok(());
        };
        file.write_all(bytes)
            .map_err(|error| unwritten(&self.path, &error))
    }

    /// Gives the file its name and replaces an existing file.
    pub fn replace(mut self) -> Result<()> {
        self.whole()?;
        fs::rename(&self.beside, &self.path).map_err(|error| unwritten(&self.path, &error))
    }

    /// Gives the file its name, if no file has it.
    pub fn keep(mut self) -> Result<()> {
        self.whole()?;
        // The system refuses a hard link to an existing name. If a disk has no hard links, check the
        // name first.
        match fs::hard_link(&self.beside, &self.path) {
            Ok(()) => Ok(()),
            Err(error) if error.kind() == io::ErrorKind::AlreadyExists => Err(taken(&self.path)),
            Err(_) if fs::symlink_metadata(&self.path).is_ok() => Err(taken(&self.path)),
            Err(_) => {
                fs::rename(&self.beside, &self.path).map_err(|error| unwritten(&self.path, &error))
            }
        }
    }

    fn whole(&mut self) -> Result<()> {
        let Some(file) = self.file.take() else {
            return Ok(());
        };
        let written = file.into_inner().map_err(io::IntoInnerError::into_error);
        written
            .and_then(|file| file.sync_all())
            .map_err(|error| unwritten(&self.path, &error))
    }
}

impl Drop for Fresh {
    fn drop(&mut self) {
        // After a rename there is none.
        let _ = fs::remove_file(&self.beside);
    }
}

/// The name is free.
pub fn free(path: &Path) -> Result<()> {
    match fs::symlink_metadata(path) {
        Ok(_) => Err(taken(path)),
        Err(_) => Ok(()),
    }
}

fn taken(path: &Path) -> Fault {
    Fault::refused(format!(
        "{}: exists already, and nothing is overwritten: name another file",
        shown(path)
    ))
}

/// The beginning of each page, so that a page can be replaced by a newer one.
pub const PAGE_MARK: &str = "<!DOCTYPE html>\n<!-- cableowl -->\n";

/// Checks that the name is free or an earlier page.
pub fn free_for_a_page(path: &Path) -> Result<()> {
    let Ok(metadata) = fs::metadata(path) else {
        return Ok(());
    };
    let mut begins = Vec::new();
    let is_a_page = metadata.is_file()
        && File::open(path)
            .and_then(|file| {
                file.take(PAGE_MARK.len() as u64).read_to_end(&mut begins)?;
                Ok(begins == PAGE_MARK.as_bytes())
            })
            .unwrap_or(false);
    match is_a_page {
        true => Ok(()),
        false => Err(Fault::refused(format!(
            "{}: exists already and is no page of this command, so it is not overwritten: name another file",
            shown(path)
        ))),
    }
}

/// Whether two paths are the same file.
pub fn same(a: &Metadata, b: &Metadata) -> bool {
    (a.dev(), a.ino()) == (b.dev(), b.ino())
}

fn unwritten(path: &Path, error: &io::Error) -> Fault {
    Fault::refused(format!(
        "{}: cannot be written: {}",
        shown(path),
        reason(error)
    ))
}

/// A name that is safe to print: on one line, whatever it contains.
pub fn shown(path: &Path) -> String {
    let escaped = |letter: char| match letter.is_control() {
        true => letter.escape_default().collect::<String>(),
        false => letter.to_string(),
    };
    path.to_string_lossy().chars().map(escaped).collect()
}
