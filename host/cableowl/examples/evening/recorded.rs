//! The evening of `listening_box`, recorded, and replayed from its trace as support does.

use cableowl::{
    Command, Level, RecordedPlayer, Refusal, Region, Settings, Tween,
    trace::{Lesson, Line, Replay, TraceVersion},
};

/// Frames of a call.
const CALL: u64 = 512;

/// The size of the buffer in bytes. It is emptied before it is full.
const ROOM: usize = 256 * 1_024;

/// More than a call needs: its frames at 42 bytes each.
const NEEDED: usize = 32 * 1_024;

const EVENING: u64 = 300;

/// What a student does, at which second.
fn script() -> [(u64, Command); 9] {
    let fade = Tween::from_millis(250);
    let volume = Level::new(19).unwrap_or(Level::FULL);
    [
        (0, Command::SetVolume(volume, Tween::AT_ONCE)),
        (8, Command::SetLoopRegion(Region::from(6.2..10.9))),
        (40, Command::SetPlaybackRate(0.7, Tween::from_millis(2_000))),
        (150, Command::Pause(fade)),
        (170, Command::SeekBy(-1.5)),
        (172, Command::Resume(fade)),
        (
            240,
            Command::SetPlaybackRate(1.0, Tween::from_millis(1_000)),
        ),
        (280, Command::ClearLoopRegion),
        (298, Command::Stop(fade)),
    ]
}

/// An evening, live or from its trace: a line for each block, and a digest of the output.
pub struct Evening {
    pub lines: Vec<Line>,
    pub digest: u64,
}

impl Evening {
    fn new() -> Self {
        Self {
            lines: Vec::new(),
            digest: 0xcbf2_9ce4_8422_2325,
        }
    }

    fn hear(&mut self, samples: &[f32]) {
        self.digest = samples.iter().fold(self.digest, |digest, sample| {
            let mixed = digest ^ u64::from(sample.to_bits());
            mixed.wrapping_mul(0x0000_0100_0000_01b3)
        });
    }
}

/// Plays and records the evening over a lesson with `lesson_rate` frames a second, on a device with `device_rate`.
pub fn live(
    lesson: &Lesson,
    lesson_rate: u32,
    device_rate: u32,
    version: TraceVersion,
) -> Result<(Evening, Vec<u8>), Refusal> {
    let mut buffer = vec![0; ROOM];
    let settings = Settings::new(lesson_rate);
    let mut player =
        RecordedPlayer::with_version(settings, device_rate, lesson, &mut buffer, version)?;
    let (mut evening, mut file) = (Evening::new(), Vec::new());
    let mut out = [0.0; 2 * CALL as usize];
    let script = script();
    let ends = script.iter().map(|(second, _)| *second).skip(1);
    for ((_, command), end) in script.iter().zip(ends.chain([EVENING])) {
        player.command(*command)?;
        let end = end * u64::from(device_rate);
        while player.player().frames() < end {
            let frames = CALL.min(end - player.player().frames());
            let out = &mut out[..2 * frames as usize];
            let played = player.process(out, |line| evening.lines.push(line));
            played.answer?;
            played.recorded?;
            evening.hear(out);
            if player.room() < NEEDED {
                file.extend_from_slice(player.bytes());
                player.clear();
            }
        }
    }
    file.extend_from_slice(player.bytes());
    Ok((evening, file))
}

/// Plays a trace again, over its lesson.
pub fn again(trace: &[u8], lesson: &Lesson) -> Evening {
    let (mut evening, mut replay) = (Evening::new(), Replay::new().sounds(lesson.clone()));
    let mut rest = trace;
    while !rest.is_empty() {
        let (step, size) = replay.step(rest, true);
        rest = &rest[size..];
        if let Some(line) = step.line() {
            evening.lines.push(line);
            evening.hear(replay.heard());
        }
        if size == 0 {
            break;
        }
    }
    evening
}
