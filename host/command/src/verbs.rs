//! The table of the command's verbs. The parser, `help`, the man pages and the completions all read
//! it, so they cannot differ.

use std::{ffi::OsString, slice};

use crate::explain;

/// A verb: what follows `cableowl`.
pub struct Verb {
    /// Its words.
    pub name: &'static str,
    /// What it does, in one line.
    pub says: &'static str,
    /// More about it, a paragraph each.
    pub about: &'static [&'static str],
    /// Its options, beside `--help`.
    pub options: &'static [Opt],
    /// Its arguments.
    pub arguments: &'static [Argument],
    /// Folders that it accepts instead.
    pub folders: Option<Argument>,
    /// Examples: the words after `cableowl`, and what they do.
    pub examples: &'static [(&'static str, &'static str)],
    /// Its exit statuses.
    pub statuses: &'static [(u8, &'static str)],
}

/// An option.
pub struct Opt {
    /// Its name, with both hyphens.
    pub name: &'static str,
    /// Its value: the name and the kind.
    pub value: Option<(&'static str, Kind)>,
    /// What it does.
    pub says: &'static str,
}

/// An argument of a verb.
pub struct Argument {
    /// Its name.
    pub name: &'static str,
    /// Its kind.
    pub kind: Kind,
    /// How many it accepts.
    pub many: Many,
    /// What it is.
    pub says: &'static str,
}

/// How many words an argument accepts; only the last argument of a verb accepts more or fewer than one.
#[derive(Debug, Clone, Copy, PartialEq, Eq)]
pub enum Many {
    /// Exactly one.
    One,
    /// None or more.
    Any,
    /// One or more.
    Several,
}

/// What a word may be.
#[derive(Debug, Clone, Copy, PartialEq, Eq)]
pub enum Kind {
    /// A file that is read; `-` is standard input.
    File,
    /// A sound, which must be a file on a disk. Its option can be given several times.
    Sound,
    /// A folder.
    Folder,
    /// How a file's name says its box and its day.
    Pattern,
    /// A file that is written.
    NewFile,
    /// One of these words.
    OneOf(&'static [&'static str]),
    /// A whole number, from one to another.
    Number(i64, i64),
    /// A finite number.
    Decimal,
    /// A position in a sound.
    Place,
    /// A part of a sound.
    Part,
    /// A name for people.
    Name,
    /// A verb of this table.
    Verb,
    /// A refusal's number, or a state.
    Meaning,
}

impl Kind {
    /// What a word of this kind must be, if the parser checks it.
    pub fn must_be(self) -> Option<String> {
        match self {
            Self::OneOf(words) => Some(list(words, "or")),
            Self::Number(from, to) => Some(format!("a whole number from {from} to {to}")),
            Self::Decimal => Some("a number, such as 0.75".into()),
            Self::Place => Some(
                "a position in the sound: seconds, such as 6.2s, or frames, such as 273420f".into(),
            ),
            Self::Part => Some(
                "a part of the sound: two positions with .. between them, such as 6.2s..10.9s"
                    .into(),
            ),
            Self::Name => Some("a name of at most 64 bytes of UTF-8".into()),
            Self::Meaning => Some(format!(
                "a refusal's number ({}), a state's (0 to 6), or a state's name",
                explain::numbers()
            )),
            Self::File
            | Self::Sound
            | Self::Folder
            | Self::NewFile
            | Self::Pattern
            | Self::Verb => None,
        }
    }
}

/// Words as a list: `a, b or c`.
pub fn list(words: &[&str], last: &str) -> String {
    match words {
        [] => String::new(),
        [word] => (*word).to_owned(),
        [before @ .., word] => format!("{} {last} {word}", before.join(", ")),
    }
}

/// Sample rates that the library accepts.
const HZ: Kind = Kind::Number(1, 768_000);

const DONE: (u8, &str) = (0, "Done.");
const REFUSED: (u8, &str) = (1, "A file was refused, or could not be read or written.");
const USAGE: (u8, &str) = (2, "The words of the command line were not understood.");
const PLAIN: &[(u8, &str)] = &[DONE, REFUSED, USAGE];

const CSV: &str = "Print comma separated values, for a spreadsheet or for R.";

/// The description of `--help`, for every verb.
pub const HELP: Opt = Opt {
    name: "--help",
    value: None,
    says: "Print this help.",
};

/// What the command is for, in one line.
pub const PURPOSE: &str = "what happened at a listening box";

/// The description of the whole command.
pub const ABOUT: &[&str] = &[
    "A trace is an evening recorded by the box: everything that the host asked of one voice. A log is what the box, or replay, says of it: one line for each block. docs/guide/TOOLS.md shows each verb at work.",
    "A file named - is standard input. An option may be written --rate 44100 or --rate=44100, before or after the files; after -- every word is a file.",
];

/// The verbs, in the order in which people meet them.
pub const VERBS: &[Verb] = &[
    Verb {
        name: "replay",
        says: "play a recorded evening again: one line for each block",
        about: &[
            "Plays the trace with the proved player and prints a log, one line for each block. Programs read these lines, so a state is a number in them; 'cableowl explain' says what it means. With --summary it prints what people read instead: each command and each change of state with its time, and the totals.",
            "A damaged trace is played up to the damage. The last line is then the refusal's number and the byte, and 'cableowl salvage' copies the complete records behind it too.",
            "The lines do not need the sound: they depend on its number of frames alone, and the trace has that. With --sound or --sounds each creation takes the sound that it names. If none of them is, it is refused with 26, and the replay goes on.",
        ],
        options: &[
            Opt {
                name: "--log",
                value: Some(("FORM", Kind::OneOf(&["1", "3"]))),
                says: "The form of the lines. Form 3 also says what the frames were spent on, the loop, the direction, window counts, wraps, seeks and restarts. Without this option it is 1.",
            },
            Opt {
                name: "--summary",
                value: None,
                says: "Print what happened and when, in words, instead of the lines.",
            },
            SOUND,
            SOUNDS,
            Opt {
                name: "--out",
                value: Some(("OUT", Kind::NewFile)),
                says: "Also write the frames that were heard, as raw f32 samples, left and right in turn. OUT must not exist.",
            },
        ],
        arguments: &[Argument {
            name: "TRACE",
            kind: Kind::File,
            many: Many::One,
            says: "The trace.",
        }],
        folders: None,
        examples: &[
            ("replay monday.trace", "Print the lines of Monday evening."),
            (
                "replay --summary monday.trace",
                "Say what happened on Monday evening, and when.",
            ),
            (
                "replay --log 3 monday.trace",
                "Print a log that report and audit can read in full.",
            ),
            (
                "replay --sound lesson.f32 --out heard.f32 monday.trace",
                "Write what was heard on Monday evening.",
            ),
        ],
        statuses: &[
            (
                0,
                "The trace was played to its end. Blocks that the player refused do not count as a fault.",
            ),
            (
                1,
                "The trace is damaged, a sound that it names was not given, or a file could not be read or written.",
            ),
            USAGE,
        ],
    },
    Verb {
        name: "salvage",
        says: "copy the complete records of a damaged trace to a new file",
        about: &[
            "Copies every complete record and skips every other byte. The trace itself is never changed, and OUT must not exist. A trace without one complete record gives an empty file.",
        ],
        options: &[Opt {
            name: "--version",
            value: Some(("VERSION", Kind::OneOf(&["1", "2"]))),
            says: "The version of the trace, 2 if not given. Version 1 is stricter, for files of boxes that wrote it: bytes that look like a record of version 2 are skipped.",
        }],
        arguments: &[
            Argument {
                name: "TRACE",
                kind: Kind::File,
                many: Many::One,
                says: "The damaged trace.",
            },
            Argument {
                name: "OUT",
                kind: Kind::NewFile,
                many: Many::One,
                says: "The new file.",
            },
        ],
        folders: None,
        examples: &[(
            "salvage broken.trace mended.trace",
            "Recover what can be replayed of broken.trace.",
        )],
        statuses: &[
            (0, "OUT was written, even if no record is in it."),
            REFUSED,
            USAGE,
        ],
    },
    Verb {
        name: "sound",
        says: "show what is in a sound: its frames, its digest, its largest magnitude",
        about: &[
            "A sound is a file of raw samples: f32, little-endian, left and right in turn, without a head. 'ffmpeg -i lesson.mp3 -ac 2 -f f32le lesson.f32' makes one.",
            "The digest is the sound's SHA-256, as sha256sum prints it. A trace names its sounds by it. The largest magnitude is that of the finite samples.",
        ],
        options: &[Opt {
            name: "--rate",
            value: Some(("HZ", HZ)),
            says: "The sound's frames a second, 48000 if not given.",
        }],
        arguments: &[Argument {
            name: "FILE",
            kind: Kind::File,
            many: Many::Several,
            says: "Sounds.",
        }],
        folders: None,
        examples: &[(
            "sound --rate 44100 lesson.f32",
            "Show a lesson of 44,100 frames a second.",
        )],
        statuses: &[
            DONE,
            (
                1,
                "A file is no sound, or could not be read. The others are shown.",
            ),
            USAGE,
        ],
    },
    Verb {
        name: "settings show",
        says: "show saved settings: where a sound starts, its loop, and how it will play",
        about: &[
            "Shows what the voice will do: settings with reverse and a rate below 0 play forward, and settings whose rate and pitch are too large together are refused when a voice is created.",
            "The file has frames. Seconds stand beside them, at the frames a second that --rate gives.",
        ],
        options: &[Opt {
            name: "--rate",
            value: Some(("HZ", HZ)),
            says: "The sound's frames a second, 48000 if not given.",
        }],
        arguments: &[Argument {
            name: "FILE",
            kind: Kind::File,
            many: Many::One,
            says: "The saved settings.",
        }],
        folders: None,
        examples: &[(
            "settings show --rate 44100 lesson.settings",
            "Show the settings of a lesson recorded at 44,100 frames a second.",
        )],
        statuses: PLAIN,
    },
    Verb {
        name: "settings save",
        says: "save settings to a new file, in seconds or frames",
        about: &[
            "Writes the settings that a box loads, and shows them as 'settings show' does. A position in the sound is written with its unit, 6.2s for seconds or 273420f for frames. Seconds become frames by --rate, rounded to the nearest frame.",
            "OUT must not exist.",
        ],
        options: &[
            Opt {
                name: "--start",
                value: Some(("POSITION", Kind::Place)),
                says: "Where to start. Without this option it is the first frame.",
            },
            Opt {
                name: "--loop",
                value: Some(("PART", Kind::Part)),
                says: "The part to loop, such as 6.2s..10.9s. Its end is not part of it. Without this option there is no loop.",
            },
            Opt {
                name: "--reverse",
                value: None,
                says: "Play in reverse.",
            },
            Opt {
                name: "--speed",
                value: Some(("SPEED", Kind::Decimal)),
                says: "The playback rate: 1 is as recorded, 0.75 slower, below 0 in the other direction. 1 if not given.",
            },
            Opt {
                name: "--pitch",
                value: Some(("SEMITONES", Kind::Number(-24, 24))),
                says: "The pitch, which raises or lowers the rate. 0 if not given.",
            },
            Opt {
                name: "--rate",
                value: Some(("HZ", HZ)),
                says: "The sound's frames a second, 48000 if not given.",
            },
            Opt {
                name: "--format",
                value: Some(("VERSION", Kind::OneOf(&["1", "2"]))),
                says: "The version of the record, 2 if not given. A box that knows version 1 alone needs 1, which has no pitch.",
            },
        ],
        arguments: &[Argument {
            name: "OUT",
            kind: Kind::NewFile,
            many: Many::One,
            says: "The new file.",
        }],
        folders: None,
        examples: &[(
            "settings save --loop 6.2s..10.9s --speed 0.75 --rate 44100 lesson.settings",
            "Save a slow loop over one sentence.",
        )],
        statuses: &[
            DONE,
            (
                1,
                "The settings were refused, or the file could not be written.",
            ),
            USAGE,
        ],
    },
    Verb {
        name: "loops show",
        says: "show the loops of two halls: each slot in frames and seconds, with its name",
        about: &[
            "The folder holds hall A's loops in hall-a.loops and hall B's in hall-b.loops. A file that is refused is named with its number, and the other hall's loops are shown.",
        ],
        options: &[LOOP_RATE],
        arguments: &[LOOPS],
        folders: None,
        examples: &[(
            "loops show --rate 44100 loops",
            "Show the loops of a sound of 44,100 frames a second.",
        )],
        statuses: PLAIN,
    },
    Verb {
        name: "loops set",
        says: "put a loop into a slot of a hall",
        about: &[
            "Writes the hall's file, beside its place and then renamed, and shows the folder. Hall A writes slots 0 to 7, hall B slots 8 to 15.",
            "A hall's file has one writer. Run this at the hall's own box while no program there has the loops open: a box that runs does not read its own file again.",
        ],
        options: &[
            LOOP_HALL,
            Opt {
                name: "--name",
                value: Some(("NAME", Kind::Name)),
                says: "The slot's name, at most 64 bytes of UTF-8. Without this option it has none.",
            },
            LOOP_FRAMES,
            LOOP_RATE,
        ],
        arguments: &[
            LOOPS,
            SLOT,
            Argument {
                name: "START",
                kind: Kind::Place,
                many: Many::One,
                says: "The loop's first frame, such as 6.2s or 273420f.",
            },
            Argument {
                name: "END",
                kind: Kind::Place,
                many: Many::One,
                says: "The loop's end, which is not part of it.",
            },
        ],
        folders: None,
        examples: &[(
            "loops set --hall A --name greeting --rate 44100 loops 0 6.2s 10.9s",
            "Put a sentence into hall A's first slot.",
        )],
        statuses: PLAIN,
    },
    Verb {
        name: "loops clear",
        says: "empty a slot of a hall",
        about: &[
            "Writes the hall's file and shows the folder, as 'loops set' does, with the same rule: one writer a file.",
        ],
        options: &[LOOP_HALL, LOOP_FRAMES, LOOP_RATE],
        arguments: &[LOOPS, SLOT],
        folders: None,
        examples: &[("loops clear --hall B loops 8", "Empty hall B's first slot.")],
        statuses: PLAIN,
    },
    Verb {
        name: "loops merge",
        says: "show the newest loops among copies of a folder, and which copy has them",
        about: &[
            "Of each hall the file with the most writes and clears is the newest. If two copies have the same number and differ, nothing is chosen: it says so, with refusal 28. Nothing is written. A hall that lost its file, or has an old one, gets the newest back when its hall-a.loops or hall-b.loops is copied to its own folder before its box starts.",
        ],
        options: &[LOOP_RATE],
        arguments: &[Argument {
            name: "COPY",
            kind: Kind::Folder,
            many: Many::Several,
            says: "Copies of the folder.",
        }],
        folders: None,
        examples: &[("loops merge loops backup", "Show the newest of two copies.")],
        statuses: PLAIN,
    },
    Verb {
        name: "report",
        says: "the figures of one evening or of many, and a page with plots",
        about: &[
            "Reads logs and traces: minutes played, paused and silent, wraps, seeks, refused blocks. With several files it prints one row for each, the total and five quantiles. A folder means its files NAME.log.",
            "A damaged file is named on standard error and left out. A file that is given twice is named there too, and counts twice.",
            "With --by or --groups it prints the figures of groups instead, and what changed from one group to the next, with intervals of 95 percent.",
        ],
        options: &[
            Opt {
                name: "--rate",
                value: Some(("HZ", HZ)),
                says: "The box's frames a second, 48000 if not given.",
            },
            Opt {
                name: "--sound-rate",
                value: Some(("HZ", HZ)),
                says: "The sound's frames a second, for positions in seconds. A trace knows it. For a log without this option it is taken to be the box's.",
            },
            Opt {
                name: "--csv",
                value: None,
                says: CSV,
            },
            Opt {
                name: "--html",
                value: Some(("OUT", Kind::NewFile)),
                says: "Also write a page for a browser. An earlier page of this command is replaced, and no other file.",
            },
            Opt {
                name: "--by",
                value: Some(("GROUP", Kind::OneOf(&["box", "day", "week"]))),
                says: "Group the files by the box, the day or the week in their names.",
            },
            Opt {
                name: "--name",
                value: Some(("PATTERN", Kind::Pattern)),
                says: "How a name contains its box and its day, {box}_{date} if not given. {any} matches anything. A date is written 2026-11-15 or 20261115.",
            },
            Opt {
                name: "--groups",
                value: Some(("TABLE", Kind::File)),
                says: "Group the files by a table: a file of lines 'file,group'.",
            },
        ],
        arguments: &[Argument {
            name: "FILE",
            kind: Kind::File,
            many: Many::Several,
            says: "Logs or traces, or folders of logs.",
        }],
        folders: None,
        examples: &[
            ("report monday.log", "Print the figures of one evening."),
            (
                "report --html week.html monday.trace tuesday.log",
                "Print a table of two evenings and write a page with plots.",
            ),
            (
                "report --by week logs",
                "Compare the weeks of all logs in a folder.",
            ),
        ],
        statuses: &[
            DONE,
            (
                1,
                "A file was refused, or could not be read or written. The others are reported.",
            ),
            USAGE,
        ],
    },
    Verb {
        name: "audit",
        says: "did this box play as proved? the first block that differs, and the creep",
        about: &[
            "Plays the trace with the proved player and compares the box's own log with it, at each frame where both have an edge. Where the two cannot be compared, or the trace is damaged, it says so and says nothing of the box.",
            "Of folders it compares every NAME.trace with the NAME.log beside it, and prints a row for each evening, the share that differs, and how the creep is distributed.",
            "An audit does not need the sound. With --sound or --sounds it also says which sounds of a trace were not given. That does not change the verdict.",
        ],
        options: &[
            Opt {
                name: "--csv",
                value: None,
                says: "Print comma separated values: a row for each block, or for each evening of a folder.",
            },
            Opt {
                name: "--html",
                value: Some(("OUT", Kind::NewFile)),
                says: "Also write a page for a browser. An earlier page of this command is replaced, and no other file.",
            },
            SOUND,
            SOUNDS,
        ],
        arguments: &[
            Argument {
                name: "TRACE",
                kind: Kind::File,
                many: Many::One,
                says: "The trace of the evening.",
            },
            Argument {
                name: "LOG",
                kind: Kind::File,
                many: Many::One,
                says: "The log that the box wrote.",
            },
        ],
        folders: Some(Argument {
            name: "FOLDER",
            kind: Kind::Folder,
            many: Many::Several,
            says: "Folders of traces and logs.",
        }),
        examples: &[
            (
                "audit box.trace box.log",
                "Say whether the box played as it should.",
            ),
            (
                "audit --html week.html week",
                "Say it of every evening of a week, and write a page.",
            ),
        ],
        statuses: &[
            (0, "The log agrees with the trace; of folders, all agree."),
            (1, "The log differs; of folders, at least one does."),
            USAGE,
            (
                3,
                "Nothing can be said of the box: a file is damaged or cannot be read, or there was nothing to compare.",
            ),
        ],
    },
    Verb {
        name: "explain",
        says: "say what a refusal's number or a state means, and what to do",
        about: &[
            "A number is a refusal; 0 to 6 are also states. A word may be copied from a log: refused=12, state=2. Without a word it lists them all.",
        ],
        options: &[],
        arguments: &[Argument {
            name: "WORD",
            kind: Kind::Meaning,
            many: Many::Any,
            says: "A number, a state's name, or a word of a log.",
        }],
        folders: None,
        examples: &[
            ("explain 12", "Explain refusal 12."),
            (
                "explain state=2 paused",
                "Explain a state by its number and by its name.",
            ),
        ],
        statuses: &[DONE, USAGE],
    },
    Verb {
        name: "help",
        says: "print what the command does, or what one verb does",
        about: &["'cableowl VERB --help' prints the same."],
        options: &[],
        arguments: &[VERB],
        folders: None,
        examples: &[("help replay", "Print the help of replay.")],
        statuses: &[DONE, USAGE],
    },
    Verb {
        name: "version",
        says: "print the version of the command and of the C interface",
        about: &[],
        options: &[],
        arguments: &[],
        folders: None,
        examples: &[],
        statuses: &[DONE, USAGE],
    },
    Verb {
        name: "man",
        says: "print a man page: of the command, or of one verb",
        about: &["For packages. 'cableowl man replay | man -l -' shows a page at once."],
        options: &[],
        arguments: &[VERB],
        folders: None,
        examples: &[("man replay", "Print the page cableowl-replay(1).")],
        statuses: &[DONE, USAGE],
    },
    Verb {
        name: "completions",
        says: "print the completions for a shell",
        about: &[
            "For packages, or for a shell's own start file: bash reads it with source, zsh as a file _cableowl on its fpath, fish as ~/.config/fish/completions/cableowl.fish.",
        ],
        options: &[],
        arguments: &[Argument {
            name: "SHELL",
            kind: Kind::OneOf(&["bash", "zsh", "fish"]),
            many: Many::One,
            says: "bash, zsh or fish.",
        }],
        folders: None,
        examples: &[(
            "completions bash",
            "Print what bash reads to complete the words of cableowl.",
        )],
        statuses: &[DONE, USAGE],
    },
];

const SOUND: Opt = Opt {
    name: "--sound",
    value: Some(("FILE", Kind::Sound)),
    says: "A sound, raw f32 samples. It can be given several times.",
};

const SOUNDS: Opt = Opt {
    name: "--sounds",
    value: Some(("FOLDER", Kind::Folder)),
    says: "A folder of sounds: its files NAME.f32.",
};

const LOOPS: Argument = Argument {
    name: "FOLDER",
    kind: Kind::Folder,
    many: Many::One,
    says: "The folder of the loops.",
};

const SLOT: Argument = Argument {
    name: "SLOT",
    kind: Kind::Number(0, 15),
    many: Many::One,
    says: "The slot, 0 to 15.",
};

const LOOP_HALL: Opt = Opt {
    name: "--hall",
    value: Some(("HALL", Kind::OneOf(&["A", "B"]))),
    says: "The hall that makes the change. It must be given.",
};

const LOOP_FRAMES: Opt = Opt {
    name: "--frames",
    value: Some(("N", Kind::Number(1, 16_777_216))),
    says: "The sound's frames. Needed if the folder has no loops yet.",
};

const LOOP_RATE: Opt = Opt {
    name: "--rate",
    value: Some(("HZ", HZ)),
    says: "The sound's frames a second, 48000 if not given.",
};

const VERB: Argument = Argument {
    name: "VERB",
    kind: Kind::Verb,
    many: Many::Any,
    says: "A verb. Those of settings and loops are two words, such as 'settings show'.",
};

impl Verb {
    /// Its usage, one line per form: `cableowl replay [--log FORM] TRACE`.
    pub fn synopses(&self) -> Vec<String> {
        let mut ways = vec![self.synopsis(self.arguments)];
        if let Some(folders) = &self.folders {
            ways.push(self.synopsis(slice::from_ref(folders)));
        }
        ways
    }

    fn synopsis(&self, arguments: &[Argument]) -> String {
        let mut line = format!("cableowl {}", self.name);
        for option in self.options {
            let more = if option.repeats() { ".." } else { "" };
            line += &format!(" [{}]{more}", option.spelt());
        }
        for argument in arguments {
            line += &match (argument.many, argument.name) {
                (Many::One, name) => format!(" {name}"),
                (Many::Any, name) => format!(" [{name}..]"),
                (Many::Several, name) => format!(" {name}.."),
            };
        }
        line
    }

    /// Its arguments, for each form.
    pub fn all_arguments(&'static self) -> impl Iterator<Item = &'static Argument> {
        self.arguments.iter().chain(&self.folders)
    }

    /// The name of its man page: `cableowl-settings-show`.
    pub fn page(&self) -> String {
        format!("cableowl-{}", self.name.replace(' ', "-"))
    }

    /// All of its options.
    pub fn all_options(&self) -> impl Iterator<Item = &'static Opt> {
        self.options.iter().chain([&HELP])
    }
}

impl Opt {
    /// Whether it can be given several times.
    pub fn repeats(&self) -> bool {
        matches!(self.value, Some((_, Kind::Sound)))
    }

    /// With its value: `--log FORM`.
    pub fn spelt(&self) -> String {
        match self.value {
            Some((value, _)) => format!("{} {value}", self.name),
            None => self.name.into(),
        }
    }
}

/// The verb that these words begin with, and the words after it.
pub fn find(words: &[OsString]) -> Option<(&'static Verb, &[OsString])> {
    VERBS.iter().find_map(|verb| {
        let count = verb.name.split(' ').count();
        let (first, rest) = words.split_at_checked(count)?;
        let same = first.iter().zip(verb.name.split(' '));
        same.into_iter()
            .all(|(word, name)| word == name)
            .then_some((verb, rest))
    })
}

/// The second words of verbs that begin with this one.
pub fn after(first: &str) -> Vec<&'static str> {
    let seconds = VERBS.iter().filter_map(|verb| {
        let (word, second) = verb.name.split_once(' ')?;
        (word == first).then_some(second)
    });
    seconds.collect()
}

/// The first words of all verbs, each once.
pub fn first_words() -> Vec<&'static str> {
    let mut firsts: Vec<&str> = Vec::new();
    for verb in VERBS {
        let first = verb.name.split(' ').next().unwrap_or(verb.name);
        if !firsts.contains(&first) {
            firsts.push(first);
        }
    }
    firsts
}
