//! `cableowl explain`: what a refusal's number or a state means, and what to do.

use std::ffi::OsStr;

use cableowl::{PlaybackState, Refusal};

use crate::{fault::Result, out::Out};

/// What to explain.
#[derive(Debug, Clone, Copy, PartialEq, Eq)]
pub enum Meaning {
    /// A number, whatever it counts.
    Number(u32),
    /// A refusal.
    Refusal(u32),
    /// A state.
    State(u32),
}

impl Meaning {
    /// A number, a state's name, or a word of a log.
    pub fn read(word: &OsStr) -> Option<Self> {
        let word = word.to_str()?.to_lowercase().replace(['-', '_'], " ");
        let number = |text: &str| text.parse().ok();
        let meaning = match word.split_once('=') {
            Some(("state", text)) => Self::State(number(text)?),
            Some(("refused" | "refusal", text)) => Self::Refusal(number(text)?),
            Some(_) => return None,
            None => match number(&word) {
                Some(number) => Self::Number(number),
                None => {
                    let named = |state: &PlaybackState| {
                        let name = state_name(*state);
                        word == name || word == name.replace(' ', "")
                    };
                    Self::State(PlaybackState::ALL.into_iter().find(named)?.number())
                }
            },
        };
        let (refusal, state) = meaning.parts();
        (refusal.is_some() || state.is_some()).then_some(meaning)
    }

    /// The refusal and the state that it names.
    fn parts(self) -> (Option<&'static Explained>, Option<PlaybackState>) {
        let refusal = |number| REFUSALS.iter().find(|refusal| refusal.number == number);
        match self {
            Self::Number(number) => (refusal(number), PlaybackState::from_number(number)),
            Self::Refusal(number) => (refusal(number), None),
            Self::State(number) => (None, PlaybackState::from_number(number)),
        }
    }
}

/// What a refusal's number means.
struct Explained {
    number: u32,
    about: &'static str,
    given_by: &'static str,
    to_do: &'static str,
}

const fn explained(
    number: u32,
    about: &'static str,
    given_by: &'static str,
    to_do: &'static str,
) -> Explained {
    Explained {
        number,
        about,
        given_by,
        to_do,
    }
}

const READING: &str = "reading a trace, saved settings, or a hall's loops";
const TRACE: &str = "reading or writing a trace";

/// All refusals.
const REFUSALS: [Explained; 29] = [
    explained(
        1,
        "a state or a sound that does not fit",
        "a command or a block",
        "Give each call the sound that the voice was created with. In a replay there was no voice yet: the trace begins too late, or its creation was refused",
    ),
    explained(
        2,
        "the sample rate",
        "the creation of a voice",
        "Give the sample rate of the sound, such as 44,100 or 48,000",
    ),
    explained(
        3,
        "the length of the sound",
        "the creation of a voice",
        "Look at the sound file: it may be empty, longer than 16,777,216 frames (5 minutes and 49 seconds at 48,000 a second), or not read as two channels",
    ),
    explained(
        4,
        "the slice of the sound",
        "the creation of a voice",
        "Choose a slice that starts before it ends and lies within the sound",
    ),
    explained(
        5,
        "the start position",
        "the creation of a voice",
        "Choose a start within the sound. Saved settings made for a longer sound give this",
    ),
    explained(
        6,
        "the loop",
        "the creation of a voice, a command, a loop table",
        "Choose a loop that starts before it ends and lies within the sound. Saved settings made for a longer sound give this",
    ),
    explained(
        7,
        "the playback rate",
        "the creation of a voice, a command",
        "Give a finite rate. Saved settings whose rate and pitch are too large together give this",
    ),
    explained(
        8,
        "a seek",
        "a command",
        "Look at what computes the target of the seek: it is infinite, not a number, or far after the end of any sound",
    ),
    explained(
        9,
        "the size of a block",
        "a block",
        "Give an output of two samples a frame and lanes of the same length, at most 4,096 frames in one block. A Player cuts longer outputs itself",
    ),
    explained(
        10,
        "the time step",
        "a block",
        "Give 1 divided by the output's sample rate. A sound device that reports a sample rate of 0 gives this",
    ),
    explained(
        11,
        "a number in a lane",
        "a block",
        "Look at what computes volume, panning, fade and rate: one of them is infinite, not a number, or has a minus sign where none is allowed",
    ),
    explained(
        12,
        "a rate that is too high",
        "a block",
        "Lower the rate, and look at the time step: at 48,000 frames a second it is 1 / 48,000",
    ),
    explained(
        13,
        "a level",
        "a fade",
        "Give a level of 0 to 600, in tenths of a decibel below full level, or 601 for silence",
    ),
    explained(
        14,
        "the length of a ramp",
        "a fade",
        "Cut a fade of more than 65,536 frames into several",
    ),
    explained(
        15,
        "bytes where no record begins",
        READING,
        "Look whether this is the right file. If it is, its bytes are damaged: 'cableowl salvage' copies the complete records of a trace",
    ),
    explained(
        16,
        "the kind of a record",
        TRACE,
        "Read the trace with a newer version. If there is none, its bytes are damaged: 'cableowl salvage' copies the complete records",
    ),
    explained(
        17,
        "a field of a record",
        TRACE,
        "In reading, the bytes are damaged: 'cableowl salvage' copies the complete records. In writing, cut the sound to 64 frames and the block to 1,024, and give 24 bytes of lanes a frame where the lanes change",
    ),
    explained(
        18,
        "bytes that end inside a record",
        READING,
        "Look whether the whole file was copied. A box that loses power leaves such a file: 'cableowl salvage' copies the complete records of a trace",
    ),
    explained(
        19,
        "a buffer that is too short",
        "writing a trace, saved settings, or a hall's loops",
        "Give a buffer of 575 bytes for a record of a trace, 24,598 in version 2, 26 for saved settings, or 666 for a hall's loops",
    ),
    explained(
        20,
        "the slot of a loop table",
        "a loop table",
        "Name a slot from 0 to 15",
    ),
    explained(
        21,
        "the other hall's slot",
        "a loop table",
        "Write to a slot of this hall: 0 to 7 in hall A, 8 to 15 in hall B",
    ),
    explained(
        22,
        "an empty slot",
        "a loop table",
        "Write a loop to the slot before it is taken",
    ),
    explained(
        23,
        "the version of saved settings, or of a hall's loops",
        "reading saved settings, or a hall's loops",
        "Read them with a newer version, or save settings again with 'cableowl settings save --format 1'",
    ),
    explained(
        24,
        "a field of saved settings, or of a hall's loops",
        "reading or writing saved settings, or a hall's loops",
        "In reading, the bytes are damaged: save the settings again, or copy the hall's file again from its own box. In writing, correct the loop, the rate, the pitch or the name",
    ),
    explained(
        25,
        "the output of a salvage",
        "a salvage",
        "Give the call an output as long as the trace. The command does that itself",
    ),
    explained(
        26,
        "another sound than the recorded one",
        "the replay of a trace over given sounds",
        "Give the sound that was played, its samples as a file of f32 numbers: its 'sha256sum' is the digest in the record. Or give no sound, if only positions and steps matter",
    ),
    explained(
        27,
        "copies of loop tables over different sounds",
        "a merge of two copies",
        "Merge copies over one sound: the two tables record different frame counts",
    ),
    explained(
        28,
        "two halves with one number of changes",
        "a merge of two copies",
        "Find out which box wrote for that hall twice, or went back to an old copy. Keep the copy that is right and write its slots again",
    ),
    explained(
        29,
        "a seek too many",
        "a command to a player",
        "Play a frame before the next seek: at most 64 seeks can wait for it",
    ),
];

/// The numbers of the refusals, in words: `1 to 29`.
pub fn numbers() -> String {
    let mut spans: Vec<(u32, u32)> = Vec::new();
    for number in REFUSALS.iter().map(|refusal| refusal.number) {
        match spans.last_mut() {
            Some((_, last)) if *last + 1 == number => *last = number,
            _ => spans.push((number, number)),
        }
    }
    let spans = spans.iter().map(|(first, last)| match first == last {
        true => first.to_string(),
        false => format!("{first} to {last}"),
    });
    spans.collect::<Vec<_>>().join(" or ")
}

/// A state's name, for people.
pub fn state_name(state: PlaybackState) -> &'static str {
    match state {
        PlaybackState::Playing => "playing",
        PlaybackState::Pausing => "pausing",
        PlaybackState::Paused => "paused",
        PlaybackState::WaitingToResume => "waiting to resume",
        PlaybackState::Resuming => "resuming",
        PlaybackState::Stopping => "stopping",
        PlaybackState::Stopped => "stopped",
    }
}

/// A state's name as one word.
pub fn state_word(state: PlaybackState) -> String {
    state_name(state).replace(' ', "-")
}

/// What a state means, and what to do.
fn state_says(state: PlaybackState) -> (&'static str, &'static str) {
    match state {
        PlaybackState::Playing => (
            "the voice plays",
            "Nothing. If it makes no steps, its rate is 0 or very low, or it has not started yet",
        ),
        PlaybackState::Pausing => (
            "the voice was paused and still plays while it fades out",
            "Nothing: it is paused when the fade has ended",
        ),
        PlaybackState::Paused => (
            "the voice is silent and stays where it is",
            "Resume it to hear it",
        ),
        PlaybackState::WaitingToResume => (
            "the voice is silent and will resume when the host says so",
            "If it stays so, look at the host: it has not answered the resume",
        ),
        PlaybackState::Resuming => (
            "the voice was resumed and fades in",
            "Nothing: it is playing when the fade has ended",
        ),
        PlaybackState::Stopping => (
            "the voice was stopped and still plays while it fades out",
            "Nothing: it is stopped when the fade has ended",
        ),
        PlaybackState::Stopped => (
            "the voice is silent for good: it was stopped, or its sound has ended",
            "Create a new voice to play the sound again",
        ),
    }
}

/// All words that can be explained, for the completions.
pub fn words() -> Vec<String> {
    let numbers = REFUSALS.iter().map(|refusal| refusal.number.to_string());
    let states = PlaybackState::ALL.into_iter();
    let states = states.map(state_word);
    numbers.chain(states).collect()
}

/// Explains what is asked for, or everything.
pub fn explain(asked: &[Meaning], out: &mut Out<'_>) -> Result<()> {
    let mut parts = Vec::new();
    for meaning in asked {
        let (refusal, state) = meaning.parts();
        parts.extend(refusal.map(of_refusal));
        parts.extend(state.map(of_state));
    }
    if asked.is_empty() {
        parts.extend(REFUSALS.iter().map(of_refusal));
        parts.extend(PlaybackState::ALL.into_iter().map(of_state));
    }
    out.put(parts.join("\n"))
}

fn of_refusal(refusal: &Explained) -> String {
    let Explained {
        number,
        about,
        given_by,
        to_do,
    } = refusal;
    let means = Refusal::text(*number).unwrap_or_default();
    format!(
        "refusal {number}: {about}\n  means       {means}\n  given by    {given_by}\n  what to do  {to_do}.\n"
    )
}

fn of_state(state: PlaybackState) -> String {
    let (means, to_do) = state_says(state);
    format!(
        "state {}: {}\n  means       {means}\n  what to do  {to_do}.\n",
        state.number(),
        state_name(state)
    )
}

#[cfg(test)]
mod tests {
    use super::*;

    #[test]
    fn every_refusal_of_the_library_has_a_number_here() {
        let here: Vec<u32> = REFUSALS.iter().map(|refusal| refusal.number).collect();
        let known = (0..100).filter(|number| Refusal::text(*number).is_some());
        assert_eq!(here, known.collect::<Vec<u32>>());
    }

    #[test]
    fn a_word_is_read_as_a_log_or_a_person_writes_it() {
        let read = |word: &str| Meaning::read(OsStr::new(word));
        assert_eq!(read("12"), Some(Meaning::Number(12)));
        assert_eq!(read("0"), Some(Meaning::Number(0)));
        assert_eq!(read("refused=12"), Some(Meaning::Refusal(12)));
        assert_eq!(read("state=2"), Some(Meaning::State(2)));
        for name in ["waiting-to-resume", "WaitingToResume", "waiting to resume"] {
            assert_eq!(read(name), Some(Meaning::State(3)), "{name}");
        }
        for word in ["30", "state=7", "refused=0", "-1", "play", "block=1", ""] {
            assert_eq!(read(word), None, "{word}");
        }
    }
}
