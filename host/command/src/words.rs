//! Reads the words of the command line by the table of verbs.

use std::{
    ffi::{OsStr, OsString},
    path::{Path, PathBuf},
    slice,
};

use cableowl::{Hall, trace::TraceVersion};

use crate::{
    completions::Shell,
    explain::Meaning,
    fault::{Fault, Result},
    log::Form,
    loops::{Change, Loop},
    out::shown,
    report::{
        Rates, Request,
        grouping::{self, By, Pattern},
    },
    settings::{Part, Place, Save},
    sounds::Places,
    verbs::{self, Argument, HELP, Kind, Many, Opt, VERBS, Verb, list},
};

/// What is asked for.
#[derive(Debug, PartialEq)]
pub enum Asked {
    /// How the command or a verb is used.
    Help(Option<&'static str>),
    /// The version.
    Version,
    /// A man page.
    Man(Option<&'static str>),
    /// Completions.
    Completions(Shell),
    /// What numbers and states mean; all of them if none is named.
    Explain(Vec<Meaning>),
    /// Replays a trace.
    Replay {
        /// The trace.
        trace: PathBuf,
        /// The form of its lines.
        form: Form,
        /// The sounds that it is given.
        sounds: Places,
        /// Where the output is written.
        heard: Option<PathBuf>,
    },
    /// Replays a trace and describes it in words.
    Summary {
        /// The trace.
        trace: PathBuf,
        /// The sounds that it is given.
        sounds: Places,
    },
    /// Salvages a damaged trace.
    Salvage {
        /// The trace.
        trace: PathBuf,
        /// Where its records are written.
        to: PathBuf,
        /// The version of its records.
        version: TraceVersion,
    },
    /// Shows what is in sounds.
    ShowSounds {
        /// Their files.
        files: Vec<PathBuf>,
        /// Frames per second.
        rate: u32,
    },
    /// Shows saved settings.
    ShowSettings {
        /// Their file.
        file: PathBuf,
        /// Frames per second of the sound.
        rate: u32,
    },
    /// Saves settings.
    SaveSettings {
        /// What to save.
        save: Save,
        /// Where they are written.
        to: PathBuf,
    },
    /// Shows the loops of a folder.
    ShowLoops {
        /// The folder.
        folder: PathBuf,
        /// Frames per second of the sound.
        rate: u32,
    },
    /// Changes a slot of a folder's loops.
    ChangeLoops(Change),
    /// Merges copies of loops.
    MergeLoops {
        /// Their folders.
        copies: Vec<PathBuf>,
        /// Frames per second of the sound.
        rate: u32,
    },
    /// The figures of evenings, or of groups of them.
    Report(Request),
    /// Compares every log in some folders with its trace.
    AuditFolders {
        /// The folders.
        folders: Vec<PathBuf>,
        /// Whether to print comma separated values, a row for each evening.
        csv: bool,
        /// Where the page is written.
        page: Option<PathBuf>,
        /// The sounds that are given.
        sounds: Places,
    },
    /// Compares a log with its trace.
    Audit {
        /// The trace.
        trace: PathBuf,
        /// The log.
        log: PathBuf,
        /// Whether to print comma separated values, a row for each block.
        csv: bool,
        /// Where the page is written.
        page: Option<PathBuf>,
        /// The sounds that are given.
        sounds: Places,
    },
}

/// The frames per second if none are given.
const RATE: u32 = 48_000;

/// What the words ask for.
pub fn asked(words: &[OsString]) -> Result<Asked> {
    match words.first().map(|word| word.to_str()) {
        Some(Some("--help" | "-h")) => return Ok(Asked::Help(None)),
        Some(Some("--version" | "-V")) => return Ok(Asked::Version),
        _ => {}
    }
    let Some((verb, rest)) = verbs::find(words) else {
        return Err(no_verb(words));
    };
    let given = Given::read(verb, rest)?;
    if given.has("--help") {
        return Ok(Asked::Help(Some(verb.name)));
    }
    given.judge()?;
    given.asked()
}

/// The fault for words that begin with no verb.
fn no_verb(words: &[OsString]) -> Fault {
    let all = list(&verbs::first_words(), "or");
    let Some(first) = words.first() else {
        return Fault::usage(format!("say what to do: {all}"));
    };
    let seconds = first.to_str().map(verbs::after).unwrap_or_default();
    let first = shown(Path::new(first));
    if seconds.is_empty() {
        return Fault::usage(format!(
            "'{first}' is not something that cableowl can do: say {all}"
        ));
    }
    let seconds: Vec<String> = seconds.iter().map(|s| format!("'{first} {s}'")).collect();
    let seconds: Vec<&str> = seconds.iter().map(String::as_str).collect();
    Fault::usage(format!("say {}", list(&seconds, "or")))
}

/// The words after a verb: its options and its arguments.
struct Given {
    verb: &'static Verb,
    options: Vec<(&'static Opt, OsString)>,
    words: Vec<OsString>,
}

impl Given {
    fn read(verb: &'static Verb, words: &[OsString]) -> Result<Self> {
        let mut given = Self {
            verb,
            options: Vec::new(),
            words: Vec::new(),
        };
        let mut words = words.iter().cloned();
        while let Some(word) = words.next() {
            let bytes = word.as_encoded_bytes();
            if word == "--" {
                given.words.extend(words.by_ref());
            } else if word == "-h" {
                given.options.push((&HELP, OsString::new()));
            } else if word == "-" || !bytes.starts_with(b"-") {
                given.words.push(word);
            } else {
                given.option(&word, &mut words)?;
            }
        }
        Ok(given)
    }

    fn option(&mut self, word: &OsStr, words: &mut impl Iterator<Item = OsString>) -> Result<()> {
        let (name, value) = split(word);
        let (verb, shown) = (self.verb.name, shown(Path::new(word)));
        let Some(option) = self.verb.all_options().find(|option| name == option.name) else {
            let known = VERBS.iter().flat_map(|verb| verb.options);
            return Err(match known.into_iter().find(|option| name == option.name) {
                Some(option) => Fault::usage(format!("{verb} has no option {}", option.name)),
                None => Fault::usage(format!(
                    "'{shown}' is not an option (write -- before a file of that name)"
                )),
            });
        };
        let value = match (option.value, value) {
            (None, None) => OsString::new(),
            (None, Some(_)) => {
                return Err(Fault::usage(format!("{} takes no value", option.name)));
            }
            (Some((value, _)), given) => given.or_else(|| words.next()).ok_or_else(|| {
                Fault::usage(format!("{} needs a word after it, {value}", option.name))
            })?,
        };
        match self.has(option.name) && !option.repeats() {
            true => Err(Fault::usage(format!("{} is given twice", option.name))),
            false => {
                self.options.push((option, value));
                Ok(())
            }
        }
    }

    fn has(&self, name: &str) -> bool {
        self.options.iter().any(|(option, _)| option.name == name)
    }

    fn value(&self, name: &str) -> Option<&OsStr> {
        let found = self.options.iter().find(|(option, _)| option.name == name);
        found.map(|(_, value)| value.as_os_str())
    }

    fn text(&self, name: &str) -> Option<&str> {
        self.value(name).and_then(OsStr::to_str)
    }

    /// Each word with its kind and the name of its argument.
    fn judge(&self) -> Result<()> {
        let mut inputs = 0;
        for (option, value) in &self.options {
            if let Some((_, kind)) = option.value {
                is_of(kind, option.name, value)?;
                inputs += usize::from(kind == Kind::File && value == "-");
            }
        }
        self.count()?;
        for (index, word) in self.words.iter().enumerate() {
            let arguments = self.arguments();
            if let Some(argument) = arguments.get(index).or(arguments.last()) {
                is_of(argument.kind, argument.name, word)?;
                inputs += usize::from(argument.kind == Kind::File && word == "-");
            }
        }
        match inputs {
            0 | 1 => Ok(()),
            _ => Err(Fault::usage("standard input, '-', can be read only once")),
        }
    }

    /// Whether the words are folders, which the verb accepts in place of its other words.
    fn are_folders(&self) -> bool {
        let all = self.words.iter().all(|word| Path::new(word).is_dir());
        self.verb.folders.is_some() && !self.words.is_empty() && all
    }

    /// The words that the verb accepts.
    fn arguments(&self) -> &'static [Argument] {
        match &self.verb.folders {
            Some(folders) if self.are_folders() => slice::from_ref(folders),
            _ => self.verb.arguments,
        }
    }

    /// Checks that there are as many words as the verb accepts.
    fn count(&self) -> Result<()> {
        let arguments = self.arguments();
        if let Some(missing) = arguments.get(self.words.len())
            && matches!(missing.many, Many::One | Many::Several)
        {
            return Err(Fault::usage(format!(
                "{} needs {}: {}",
                self.verb.name,
                missing.name,
                missing.says.trim_end_matches('.').to_lowercase()
            )));
        }
        let endless = arguments
            .last()
            .is_some_and(|last| matches!(last.many, Many::Any | Many::Several));
        match self.words.get(arguments.len()) {
            Some(word) if !endless => Err(Fault::usage(format!(
                "'{}' is one word too many: the words are '{}'",
                shown(Path::new(word)),
                self.verb.synopses().join("' or '")
            ))),
            _ => Ok(()),
        }
    }

    fn path(&self, index: usize) -> PathBuf {
        self.words.get(index).map(PathBuf::from).unwrap_or_default()
    }

    fn paths(&self) -> Vec<PathBuf> {
        self.words.iter().map(PathBuf::from).collect()
    }

    fn number(&self, name: &str) -> Option<i64> {
        self.value(name)?.to_str()?.parse().ok()
    }

    fn rate(&self, name: &str) -> Option<u32> {
        self.number(name).and_then(|rate| u32::try_from(rate).ok())
    }

    /// What a checked line asks for.
    fn asked(self) -> Result<Asked> {
        let page = || self.value("--html").map(PathBuf::from);
        let rate = self.rate("--rate").unwrap_or(RATE);
        Ok(match self.verb.name {
            "help" => Asked::Help(self.named()?),
            "man" => Asked::Man(self.named()?),
            "completions" => Asked::Completions(match self.words.first() {
                Some(word) if word == "zsh" => Shell::Zsh,
                Some(word) if word == "fish" => Shell::Fish,
                _ => Shell::Bash,
            }),
            "explain" => Asked::Explain(
                self.words
                    .iter()
                    .filter_map(|word| Meaning::read(word))
                    .collect(),
            ),
            "replay" if self.has("--summary") => {
                if let Some(lines) = ["--log", "--out"].into_iter().find(|name| self.has(name)) {
                    return Err(Fault::usage(format!(
                        "--summary prints words and {lines} goes with lines: give one of them"
                    )));
                }
                Asked::Summary {
                    trace: self.path(0),
                    sounds: self.sounds(),
                }
            }
            "replay" => Asked::Replay {
                trace: self.path(0),
                form: match self.number("--log") {
                    Some(3) => Form::Third,
                    _ => Form::First,
                },
                sounds: self.sounds(),
                heard: self.value("--out").map(PathBuf::from),
            },
            "salvage" => Asked::Salvage {
                trace: self.path(0),
                to: self.path(1),
                version: match self.number("--version") {
                    Some(1) => TraceVersion::First,
                    _ => TraceVersion::Second,
                },
            },
            "sound" => Asked::ShowSounds {
                files: self.paths(),
                rate,
            },
            "settings show" => Asked::ShowSettings {
                file: self.path(0),
                rate,
            },
            "settings save" => Asked::SaveSettings {
                save: self.save(rate),
                to: self.path(0),
            },
            "loops show" => Asked::ShowLoops {
                folder: self.path(0),
                rate,
            },
            "loops set" => Asked::ChangeLoops(self.change(rate, self.given())?),
            "loops clear" => Asked::ChangeLoops(self.change(rate, None)?),
            "loops merge" => Asked::MergeLoops {
                copies: self.paths(),
                rate,
            },
            "report" => Asked::Report(Request {
                files: self.paths(),
                rates: Rates {
                    device: rate,
                    sound: self.rate("--sound-rate"),
                },
                by: self.group_by()?,
                csv: self.has("--csv"),
                page: page(),
            }),
            "audit" if self.are_folders() => Asked::AuditFolders {
                folders: self.paths(),
                csv: self.has("--csv"),
                page: page(),
                sounds: self.sounds(),
            },
            "audit" => Asked::Audit {
                trace: self.path(0),
                log: self.path(1),
                csv: self.has("--csv"),
                page: page(),
                sounds: self.sounds(),
            },
            _ => Asked::Version,
        })
    }

    /// Where the given sounds are.
    fn sounds(&self) -> Places {
        let sound = |(option, _): &&(&Opt, OsString)| option.name == "--sound";
        let files = self.options.iter().filter(sound);
        Places {
            files: files.map(|(_, file)| file.into()).collect(),
            folder: self.value("--sounds").map(PathBuf::from),
        }
    }

    /// The verb that the words name, for `help` and `man`.
    fn named(&self) -> Result<Option<&'static str>> {
        if self.words.is_empty() {
            return Ok(None);
        }
        match verbs::find(&self.words) {
            Some((verb, [])) => Ok(Some(verb.name)),
            Some((_, [more, ..])) => Err(Fault::usage(format!(
                "'{}' is one word too many",
                shown(Path::new(more))
            ))),
            None => Err(no_verb(&self.words)),
        }
    }

    /// How to group files, if they are grouped.
    fn group_by(&self) -> Result<Option<grouping::Asked>> {
        let by = match self.value("--by").and_then(OsStr::to_str) {
            None => None,
            Some("box") => Some(By::Box),
            Some("day") => Some(By::Day),
            Some(_) => Some(By::Week),
        };
        let asked = match (by, self.value("--groups")) {
            (None, _) if self.has("--name") => return Err(Fault::usage("--name goes with --by")),
            (None, None) => return Ok(None),
            (None, Some(table)) => grouping::Asked::Table(table.into()),
            (Some(_), Some(_)) => return Err(Fault::usage("give --by or --groups, not both")),
            (Some(by), None) => {
                let name = self.value("--name").unwrap_or(OsStr::new("{box}_{date}"));
                let pattern = Pattern::read(&name.to_string_lossy());
                let pattern = pattern.map_err(|words| Fault::usage(format!("--name: {words}")))?;
                grouping::Asked::Named(by, pattern)
            }
        };
        Ok(Some(asked))
    }

    /// The loop for a slot.
    fn given(&self) -> Option<Loop> {
        let place = |index: usize| Place::read(self.words.get(index)?.to_str()?);
        Some(Loop {
            start: place(2)?,
            end: place(3)?,
            name: self.text("--name").unwrap_or_default().to_owned(),
        })
    }

    /// A change of a slot by a hall.
    fn change(&self, rate: u32, loops: Option<Loop>) -> Result<Change> {
        let hall = match self.text("--hall") {
            Some("A") => Hall::A,
            Some(_) => Hall::B,
            None => {
                return Err(Fault::usage(format!(
                    "{} needs --hall A or --hall B",
                    self.verb.name
                )));
            }
        };
        let slot = self
            .words
            .get(1)
            .and_then(|word| word.to_str()?.parse().ok());
        Ok(Change {
            folder: self.path(0),
            hall,
            slot: slot.unwrap_or_default(),
            loops,
            frames: self.number("--frames").map(|frames| frames as u64),
            rate,
        })
    }

    fn save(&self, rate: u32) -> Save {
        let text = |name| self.text(name);
        Save {
            start: text("--start").and_then(Place::read),
            looped: text("--loop").and_then(Part::read),
            reverse: self.has("--reverse"),
            speed: text("--speed").and_then(decimal).unwrap_or(1.0),
            pitch: self.number("--pitch").map_or(0, |pitch| pitch as i8),
            rate,
            first: self.number("--format") == Some(1),
        }
    }
}

/// A finite number.
fn decimal(text: &str) -> Option<f64> {
    text.parse().ok().filter(|number: &f64| number.is_finite())
}

/// Checks that a word is of its kind.
fn is_of(kind: Kind, name: &str, word: &OsStr) -> Result<()> {
    let text = word.to_str();
    let good = match kind {
        // A pattern is checked where it is read.
        Kind::File | Kind::Folder | Kind::Verb | Kind::Pattern => true,
        Kind::Sound if word == "-" => {
            return Err(Fault::usage(format!(
                "{name} is a file on a disk, and cannot be '-'"
            )));
        }
        Kind::NewFile if word == "-" => {
            return Err(Fault::usage(format!(
                "{name} is a file to write, and cannot be '-'"
            )));
        }
        Kind::NewFile | Kind::Sound => true,
        Kind::OneOf(words) => text.is_some_and(|text| words.contains(&text)),
        Kind::Number(from, to) => text
            .and_then(|text| text.parse().ok())
            .is_some_and(|number: i64| (from..=to).contains(&number)),
        Kind::Decimal => text.and_then(decimal).is_some(),
        Kind::Place => text.and_then(Place::read).is_some(),
        Kind::Part => text.and_then(Part::read).is_some(),
        Kind::Name => text.is_some_and(|text| text.len() <= 64),
        Kind::Meaning => Meaning::read(word).is_some(),
    };
    if good {
        return Ok(());
    }
    let must_be = kind.must_be().unwrap_or_default();
    Err(Fault::usage(format!(
        "{name} must be {must_be}, and not '{}'",
        shown(Path::new(word))
    )))
}

/// An option's name, and what follows its `=`.
fn split(word: &OsStr) -> (OsString, Option<OsString>) {
    match word.to_str().and_then(|text| text.split_once('=')) {
        Some((name, value)) => (name.into(), Some(value.into())),
        None => (word.into(), None),
    }
}

#[cfg(test)]
mod tests {
    use super::*;

    fn said(words: &str) -> std::result::Result<Asked, String> {
        let words: Vec<OsString> = words.split_whitespace().map(OsString::from).collect();
        asked(&words).map_err(|fault| fault.to_string())
    }

    #[test]
    fn words_are_read_in_any_order() {
        let report = Asked::Report(Request {
            files: vec!["a".into(), "-".into(), "--csv".into()],
            rates: Rates {
                device: 44_100,
                sound: None,
            },
            by: None,
            csv: true,
            page: Some("p".into()),
        });
        for words in [
            "report --csv --rate 44100 --html p a - -- --csv",
            "report --html=p a --rate=44100 - --csv -- --csv",
        ] {
            assert_eq!(said(words).as_ref(), Ok(&report), "{words}");
        }
        for words in ["help replay", "replay --help", "replay a b -h --nothing="] {
            let help = match words.contains("nothing") {
                true => Err(
                    "'--nothing=' is not an option (write -- before a file of that name)".into(),
                ),
                false => Ok(Asked::Help(Some("replay"))),
            };
            assert_eq!(said(words), help, "{words}");
        }
        let show = Asked::Help(Some("settings show"));
        assert_eq!(said("help settings show").as_ref(), Ok(&show));
        assert_eq!(said("settings show -h").as_ref(), Ok(&show));
    }

    #[test]
    fn wrong_words_are_told() {
        let all = "replay, salvage, sound, settings, loops, report, audit, explain, help, version, man or completions";
        for (words, expected) in [
            ("", &*format!("say what to do: {all}")),
            (
                "play",
                &format!("'play' is not something that cableowl can do: say {all}"),
            ),
            ("replay", "replay needs TRACE: the trace"),
            (
                "replay a b",
                "'b' is one word too many: the words are 'cableowl replay [--log FORM] [--summary] [--sound FILE].. [--sounds FOLDER] [--out OUT] TRACE'",
            ),
            ("replay --log 2 a", "--log must be 1 or 3, and not '2'"),
            ("replay --csv a", "replay has no option --csv"),
            ("replay --log", "--log needs a word after it, FORM"),
            (
                "replay --log 3 --summary a",
                "--summary prints words and --log goes with lines: give one of them",
            ),
            ("salvage a", "salvage needs OUT: the new file"),
            ("salvage a -", "OUT is a file to write, and cannot be '-'"),
            ("settings a", "say 'settings show' or 'settings save'"),
            ("settings", "say 'settings show' or 'settings save'"),
            (
                "settings show",
                "settings show needs FILE: the saved settings",
            ),
            (
                "report",
                "report needs FILE: logs or traces, or folders of logs",
            ),
            ("report - -", "standard input, '-', can be read only once"),
            (
                "report --groups - -",
                "standard input, '-', can be read only once",
            ),
            (
                "report --rate 0 a",
                "--rate must be a whole number from 1 to 768000, and not '0'",
            ),
            ("report --csv --csv a", "--csv is given twice"),
            ("report --csv=1 a", "--csv takes no value"),
            (
                "report --by hall a",
                "--by must be box, day or week, and not 'hall'",
            ),
            ("report --name {box} a", "--name goes with --by"),
            (
                "report --by box --name {hall} a",
                "--name: '{hall}' is none of {box}, {date} and {any}",
            ),
            (
                "report --by box --groups t a",
                "give --by or --groups, not both",
            ),
            (
                "report --html - a",
                "--html is a file to write, and cannot be '-'",
            ),
            ("audit a", "audit needs LOG: the log that the box wrote"),
            (
                "audit -x a b",
                "'-x' is not an option (write -- before a file of that name)",
            ),
            (
                "help listen",
                &format!("'listen' is not something that cableowl can do: say {all}"),
            ),
            ("help replay it", "'it' is one word too many"),
            (
                "version 2",
                "'2' is one word too many: the words are 'cableowl version'",
            ),
            (
                "completions tcsh",
                "SHELL must be bash, zsh or fish, and not 'tcsh'",
            ),
            (
                "settings save --start 6 a",
                "--start must be a position in the sound: seconds, such as 6.2s, or frames, such as 273420f, and not '6'",
            ),
            (
                "settings save --loop 6s a",
                "--loop must be a part of the sound: two positions with .. between them, such as 6.2s..10.9s, and not '6s'",
            ),
            (
                "settings save --speed inf a",
                "--speed must be a number, such as 0.75, and not 'inf'",
            ),
        ] {
            assert_eq!(said(words), Err(expected.into()), "{words}");
        }
    }
}
