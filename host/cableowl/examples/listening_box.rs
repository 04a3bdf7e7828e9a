//! A small host: a student's evening on the listening box, played with several block sizes.
//!
//! The player has the fades and tweens; the host passes commands at their frames and chooses the block
//! sizes. All samples of the first evening are kept (115 MB), and the others are compared with them. The
//! same evening is also played by a wrong player whose fraction is cleared at block edges.

use std::process::ExitCode;

#[path = "evening/edges.rs"]
mod edges;
#[path = "evening/recorded.rs"]
mod recorded;
#[path = "evening/student.rs"]
mod student;

use cableowl::{
    Level, MAX_BLOCK_FRAMES, Player, Processed, Refusal, Settings, State, Tween,
    trace::{Lesson, TraceVersion, lines},
};
use random::Random;

use student::{
    Blocks, DEVICE_RATE, EVENING, LESSON, LESSON_RATE, Progress, SCRIPT, digested, grouped, lesson,
};

/// The result of an evening.
#[derive(PartialEq)]
struct Outcome {
    counts: Processed,
    digest: u64,
    state: State,
}

/// Every sample of the first evening, and how many samples of the later ones differ from it, by their
/// bits or because there are too many or too few.
#[derive(Default)]
struct Heard {
    first: Vec<f32>,
    is_later: bool,
    place: usize,
    differ: usize,
}

impl Heard {
    fn hear(&mut self, samples: &[f32]) {
        if !self.is_later {
            self.first.extend_from_slice(samples);
        }
        let pairs = self.first.iter().skip(self.place).zip(samples);
        self.differ += pairs.filter(|(a, b)| a.to_bits() != b.to_bits()).count();
        self.place += samples.len();
    }

    fn end(&mut self) {
        self.differ += self.first.len().abs_diff(self.place);
        (self.is_later, self.place) = (true, 0);
    }
}

/// Plays the whole evening. Without a listener it makes a plausible mistake: it clears the fraction
/// after each block.
fn evening(
    sound: &[f32],
    mut blocks: Blocks,
    name: &str,
    mut listener: Option<&mut Heard>,
) -> Result<Outcome, Refusal> {
    let mut progress = Progress::new(name);
    let mut player = Player::play(Settings::new(LESSON_RATE), DEVICE_RATE, sound)?;
    player.set_volume(Level::new(19)?, Tween::AT_ONCE);
    player.set_panning(0.1, Tween::AT_ONCE)?;
    let mut out = vec![0.0; 2 * MAX_BLOCK_FRAMES];
    let mut digest = 0xcbf2_9ce4_8422_2325;
    let ends = SCRIPT.iter().map(|(at, _)| *at).chain([EVENING]);
    let acts = SCRIPT.iter().map(|(_, act)| Some(act));
    for (act, end) in [None].into_iter().chain(acts).zip(ends) {
        if let Some(act) = act {
            player.command(act.command())?;
        }
        let end = u64::from(end) * u64::from(DEVICE_RATE);
        while player.frames() < end {
            let frames = blocks.next().min((end - player.frames()) as usize);
            let heard = &mut out[..2 * frames];
            player.process(sound, heard)?;
            digest = heard.iter().fold(digest, digested);
            match &mut listener {
                Some(listener) => listener.hear(heard),
                None => {
                    let mut state = player.voice().state();
                    state.fractional_position = 0.0;
                    player.restore(state, sound)?;
                }
            }
            progress.at(player.frames());
        }
    }
    listener.into_iter().for_each(Heard::end);
    Ok(Outcome {
        counts: player.counts(),
        digest,
        state: player.voice().state(),
    })
}

fn at(seconds: u32) -> String {
    format!("{}:{:02}", seconds / 60, seconds % 60)
}

fn print_script() {
    let length = at(EVENING);
    println!("A student's evening on the listening box, {length} minutes long");
    let [lesson, device] = [LESSON_RATE, DEVICE_RATE].map(|rate| grouped(rate.into()));
    println!("  0:00  the lesson plays, of {lesson} Hz on a device of {device} Hz");
    for (seconds, act) in &SCRIPT {
        println!("  {}  {act}", at(*seconds));
    }
}

const HEADING: &str = "
           Cableowl                                  A player that clears its fraction
                                                     at block edges is after an hour
blocks of      steps   position  digest of frames";

/// A way to choose block sizes, by its name.
type Cut = (&'static str, fn() -> Blocks);

/// The seed of the random cuts, which their line names.
const SEED: u64 = 1;

const CUTS: [Cut; 4] = [
    ("64", || Blocks::Of(64)),
    ("512", || Blocks::Of(512)),
    ("4,096", || Blocks::Of(4_096)),
    ("random", || Blocks::Random(Random::new(SEED))),
];

/// How many frames of the lesson a player is behind another after an hour; below 0 it is ahead.
fn drift(ours: &Outcome, other: &Outcome) -> f64 {
    let behind = ours.counts.steps as f64 - other.counts.steps as f64;
    behind * 3_600.0 / f64::from(EVENING)
}

fn drift_told(drift: f64) -> String {
    let way = if drift < 0.0 { "ahead" } else { "behind" };
    let seconds = drift.abs() / f64::from(LESSON_RATE);
    let frames = grouped(drift.abs().round() as u64);
    format!("{frames:>9} frames, {seconds:>6.1} s {way}")
}

/// What the wrong player's figures show.
fn verdict(drifts: &[f64]) -> &'static str {
    let same = drifts.iter().all(|drift| *drift == drifts[0]);
    match (same, drifts.iter().all(|drift| *drift == 0.0)) {
        (_, true) => "The other player keeps up with it: this evening shows no creeping.",
        (true, _) => "In the other player the sentence creeps, as fast with each block size.",
        (false, _) => {
            "The tutor is right: in the other player the sentence creeps, and the block size\nsays how fast."
        }
    }
}

fn main() -> ExitCode {
    run().unwrap_or_else(|refusal| {
        eprintln!("the evening broke off: {refusal}");
        ExitCode::FAILURE
    })
}

fn run() -> Result<ExitCode, Refusal> {
    let sound = lesson((LESSON * LESSON_RATE) as usize);
    print_script();
    println!("{HEADING}");
    let mut heard = Heard::default();
    let (mut outcomes, mut drifts) = (Vec::new(), Vec::new());
    for (name, blocks) in CUTS {
        let said = format!("blocks of {name}, Cableowl");
        let ours = evening(&sound, blocks(), &said, Some(&mut heard))?;
        let said = format!("blocks of {name}, the other player");
        let other = evening(&sound, blocks(), &said, None)?;
        let drift = drift(&ours, &other);
        println!(
            "{name:>9} {:>10} {:>10}  {:016x}  {}",
            grouped(ours.counts.steps),
            grouped(ours.state.position as u64),
            ours.digest,
            drift_told(drift),
        );
        outcomes.push(ours);
        drifts.push(drift);
    }
    let most = grouped(MAX_BLOCK_FRAMES as u64);
    println!("(random: 1 to {most} frames, seed {SEED})\n");
    let samples = grouped(heard.first.len() as u64);
    if heard.differ > 0 || outcomes.iter().any(|outcome| *outcome != outcomes[0]) {
        let differ = grouped(heard.differ as u64);
        println!("THEY DIFFER, and must not: a fault in Cableowl or in this host.");
        println!("{differ} of {samples} samples are not those of the first.");
        return Ok(ExitCode::FAILURE);
    }
    let all = CUTS.len();
    println!("All {all} agree: steps, position, state, and each of {samples} samples by its bits.");
    println!("The operator is right: in Cableowl the block size changes nothing that is heard.");
    println!("{}", verdict(&drifts));
    recorded_evening(sound)
}

/// The evening recorded, and played again from its trace, with the lesson and without it.
fn recorded_evening(sound: Vec<f32>) -> Result<ExitCode, Refusal> {
    let lesson = Lesson::new(sound)?;
    let (live, trace) = recorded::live(&lesson, LESSON_RATE, DEVICE_RATE, TraceVersion::Second)?;
    let again = recorded::again(&trace, &lesson);
    let [blocks, bytes] = [live.lines.len(), trace.len()].map(|count| grouped(count as u64));
    let records = again.lines.len();
    let edges = edges::common_edges(live.lines, again.lines.iter().copied());
    let silent = lines(&trace).eq(again.lines);
    if edges.is_err() || live.digest != again.digest || !silent {
        println!("Its trace prints another evening, and must not: a fault in Cableowl.");
        return Ok(ExitCode::FAILURE);
    }
    println!(
        "\nRecorded, its {blocks} blocks are {} records in {bytes} bytes of trace. Played again it prints the\nsame lines, with the lesson and without it, and with the lesson it sounds the same.",
        grouped(records as u64)
    );
    Ok(ExitCode::SUCCESS)
}
