//! A folder for a test's files, and the real command run in it.

use std::{
    fs,
    io::Write,
    path::{Path, PathBuf},
    process::{Command, Stdio},
    thread,
};

use cableowl::{
    Commands, Frames, Settings,
    trace::{Block, Record, ShortSound, write},
};

/// The command itself.
pub const CABLEOWL: &str = env!("CARGO_BIN_EXE_cableowl");

/// A folder for one test, removed at the end.
pub struct Room(pub PathBuf);

impl Room {
    pub fn new(name: &str) -> Self {
        let path = Path::new(env!("CARGO_TARGET_TMPDIR")).join(format!("people-{name}"));
        let _ = fs::remove_dir_all(&path);
        fs::create_dir_all(&path).unwrap();
        Self(path)
    }

    /// Puts a file there.
    pub fn put(&self, name: &str, bytes: impl AsRef<[u8]>) {
        fs::write(self.0.join(name), bytes).unwrap();
    }

    pub fn read(&self, name: &str) -> String {
        fs::read_to_string(self.0.join(name)).unwrap()
    }

    /// The names in it, sorted.
    pub fn names(&self) -> Vec<String> {
        let entries = fs::read_dir(&self.0).unwrap();
        let names = entries.map(|entry| entry.unwrap().file_name().into_string().unwrap());
        let mut names: Vec<String> = names.collect();
        names.sort();
        names
    }

    /// The command with these words, to run in the folder.
    pub fn command(&self, words: &[&str]) -> Command {
        let mut command = Command::new(CABLEOWL);
        command.args(words).current_dir(&self.0);
        command
    }

    /// Runs the command with these words, and nothing on standard input.
    pub fn run(&self, words: &[&str]) -> Ran {
        self.run_on(words, b"")
    }

    /// Runs the command with this on standard input.
    pub fn run_on(&self, words: &[&str], input: &[u8]) -> Ran {
        Ran::of(self.command(words), input)
    }

    /// Runs it through another program.
    pub fn run_by(&self, program: &str, words: &[&str]) -> Ran {
        let mut command = Command::new(program);
        command.args(words).current_dir(&self.0);
        Ran::of(command, b"")
    }
}

impl Drop for Room {
    fn drop(&mut self) {
        let _ = fs::remove_dir_all(&self.0);
    }
}

/// How a run ended.
#[derive(Debug, PartialEq, Eq)]
pub struct Ran {
    pub status: i32,
    pub out: String,
    pub err: String,
}

impl Ran {
    /// Runs a command with this on standard input.
    fn of(mut command: Command, input: &[u8]) -> Self {
        command.stdin(Stdio::piped());
        command.stdout(Stdio::piped()).stderr(Stdio::piped());
        let mut child = command.spawn().unwrap();
        let stdin = child.stdin.take();
        let output = thread::scope(|scope| {
            // A command that has ended reads no more.
            scope.spawn(move || stdin.map(|mut stdin| stdin.write_all(input)));
            child.wait_with_output().unwrap()
        });
        Self {
            status: output.status.code().expect("it ended by itself"),
            out: String::from_utf8_lossy(&output.stdout).into_owned(),
            err: String::from_utf8_lossy(&output.stderr).into_owned(),
        }
    }

    /// It must end well and print this.
    #[track_caller]
    pub fn says(&self, out: &str) {
        assert_eq!((self.status, &*self.err, &*self.out), (0, "", out));
    }

    /// It must refuse with this one sentence.
    #[track_caller]
    pub fn refuses(&self, sentence: &str) {
        let expected = format!("cableowl: {sentence}\n");
        assert_eq!(
            (self.status, &*self.err),
            (1, &*expected),
            "it said {:?}",
            self.out
        );
    }

    /// It must not understand the words, and say so in one line that names the verb's help.
    #[track_caller]
    pub fn is_no_use(&self, sentence: &str, verb: &str) {
        let help = format!("cableowl help {verb}");
        let expected = format!("cableowl: {sentence}; '{}' says more\n", help.trim_end());
        assert_eq!((self.status, &*self.err, &*self.out), (2, &*expected, ""));
    }
}

/// The bytes of records.
pub fn trace(records: &[Record]) -> Vec<u8> {
    let mut bytes = Vec::new();
    for record in records {
        let mut buffer = [0; 575];
        let length = write(record, &mut buffer, 0).expect("a record");
        bytes.extend_from_slice(&buffer[..length]);
    }
    bytes
}

/// A creation over this many frames at 1 Hz.
pub fn creation(settings: Settings, frames: usize) -> Record<'static> {
    let samples: Vec<f32> = (0..2 * frames).map(|i| (i / 2 + 1) as f32).collect();
    let sound = ShortSound::new(&samples).expect("a short sound");
    Record::Creation { settings, sound }
}

/// The rules' example: three frames, then a block of six.
pub fn three() -> Vec<u8> {
    trace(&[
        creation(Settings::new(1), 3),
        Record::Block(Block::new(6, 1.0)),
    ])
}

/// A loop of four frames in ten: three blocks, a restart by hand, a step back, a refused block, a new voice.
pub fn looped() -> Vec<u8> {
    let block = |frames| Record::Block(Block::new(frames, 1.0));
    let looped = Settings::new(1).loop_region(Frames(2)..Frames(6));
    trace(&[
        creation(looped, 10),
        block(5),
        block(4),
        Record::Commands(Commands::new().seek_to(2.0)),
        block(3),
        Record::Commands(Commands::new().seek_by(-1.0)),
        Record::Block(Block::new(3, 0.0)),
        block(2),
        creation(looped, 10),
        block(1),
    ])
}
