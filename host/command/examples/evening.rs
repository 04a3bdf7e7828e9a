//! Everything on one screen: a student's evening is played with four kinds of block sizes, recorded, replayed from its
//! trace without the lesson and with it, audited, damaged, salvaged, and reported on a page.
//!
//! `evening FOLDER` leaves its files there: the lesson; four logs of the evening; its trace and the log of
//! the box that recorded it; the log of a player that clears its fraction at block edges; a damaged trace
//! and what is salvaged of it; two pages.

use std::{
    env,
    error::Error,
    ffi::OsString,
    fs::{self, File},
    io::{self, BufWriter, Write},
    path::{Path, PathBuf},
    process::ExitCode,
};

#[path = "../../cableowl/examples/evening/student.rs"]
mod student;

use cableowl::{
    Command, Level, MAX_BLOCK_FRAMES, Player, RecordedPlayer, Settings, Tween,
    trace::{LOG_HEAD, Lesson, Log},
};
use random::Random;

use student::{
    Act, Blocks, DEVICE_RATE, EVENING, LESSON, LESSON_RATE, Progress, SCRIPT, digested, grouped,
    lesson,
};

/// The blocks of the player that is recorded, in frames.
const RECORDED: usize = 512;

/// The recorder's buffer, in bytes. A block of 512 frames needs less than half of it.
const BUFFER: usize = 64 * 1_024;

/// The digest of no samples.
const NOTHING_HEARD: u64 = 0xcbf2_9ce4_8422_2325;

/// The hole in the damaged trace, in bytes.
const HOLE: usize = 2_000;

/// The evening's actions, each with the frame that it precedes, and the last frame.
fn acts() -> impl Iterator<Item = (u64, Option<&'static Act>)> {
    let frame = |seconds: u32| u64::from(seconds) * u64::from(DEVICE_RATE);
    let acts = SCRIPT.iter().map(move |(at, act)| (frame(*at), Some(act)));
    acts.chain([(frame(EVENING), None)])
}

/// The result of an evening of the lesson.
#[derive(PartialEq)]
struct Outcome {
    steps: u64,
    position: usize,
    digest: u64,
}

/// Plays the lesson's evening and logs it. If `slip` is set, it clears the fraction after each block.
fn play(
    sound: &[f32],
    mut blocks: Blocks,
    slip: bool,
    mut log: Option<&mut dyn Write>,
    name: &str,
) -> Result<Outcome, Box<dyn Error>> {
    let mut player = Player::play(Settings::new(LESSON_RATE), DEVICE_RATE, sound)?;
    player.set_volume(Level::new(19)?, Tween::AT_ONCE);
    player.set_panning(0.1, Tween::AT_ONCE)?;
    let mut progress = Progress::new(name);
    let mut teller = Log::new();
    teller.created();
    let mut out = vec![0.0; 2 * MAX_BLOCK_FRAMES];
    let mut digest = NOTHING_HEARD;
    if let Some(log) = &mut log {
        writeln!(log, "{LOG_HEAD}")?;
    }
    for (until, act) in acts() {
        while player.frames() < until {
            let left = (until - player.frames()) as usize;
            let frames = blocks.next().min(left);
            let heard = &mut out[..2 * frames];
            let answer = player.process(sound, heard);
            digest = heard.iter().fold(digest, digested);
            if let Some(log) = &mut log {
                writeln!(
                    log,
                    "{}",
                    teller.block(frames, Some(player.voice()), answer)
                )?;
            }
            answer?;
            if slip {
                let mut state = player.voice().state();
                state.fractional_position = 0.0;
                player.restore(state, sound)?;
            }
            progress.at(player.frames());
        }
        if let Some(act) = act {
            player.command(act.command())?;
            match act {
                Act::StepBack(_) => teller.seeked(false),
                Act::StartOver(_) => teller.seeked(true),
                Act::Pause => teller.paused(),
                _ => {}
            }
        }
    }
    Ok(Outcome {
        steps: player.counts().steps,
        position: player.voice().state().position,
        digest,
    })
}

/// Plays the evening on a recorded player, in blocks of 512 frames. Returns the bytes of its trace and the digest of
/// the output. The buffer is emptied in time, so that nothing is lost.
fn record(
    lesson: &Lesson,
    trace: &mut dyn Write,
    log: &mut dyn Write,
) -> Result<(u64, u64), Box<dyn Error>> {
    let mut buffer = vec![0; BUFFER];
    let settings = Settings::new(LESSON_RATE);
    let mut player = RecordedPlayer::play(settings, DEVICE_RATE, lesson, &mut buffer)?;
    player.command(Command::SetVolume(Level::new(19)?, Tween::AT_ONCE))?;
    player.command(Command::SetPanning(0.1, Tween::AT_ONCE))?;
    let (mut bytes, mut digest) = (0, NOTHING_HEARD);
    let mut out = vec![0.0; 2 * RECORDED];
    for (until, act) in acts() {
        while player.player().frames() < until {
            let left = (until - player.player().frames()) as usize;
            let heard = &mut out[..2 * RECORDED.min(left)];
            let mut lines = Vec::new();
            let played = player.process(heard, |line| lines.push(line));
            played.answer?;
            played.recorded?;
            digest = heard.iter().fold(digest, digested);
            for line in lines {
                writeln!(log, "{line}")?;
            }
            if player.room() < BUFFER / 2 {
                bytes += player.bytes().len() as u64;
                trace.write_all(player.bytes())?;
                player.clear();
            }
        }
        if let Some(act) = act {
            player.command(act.command())?;
        }
    }
    trace.write_all(player.bytes())?;
    Ok((bytes + player.bytes().len() as u64, digest))
}

/// The digest of the samples in a file.
fn digest_of(name: &str) -> io::Result<u64> {
    let bytes = fs::read(name)?;
    let (samples, _) = bytes.as_chunks();
    let samples = samples.iter().map(|sample| f32::from_le_bytes(*sample));
    Ok(samples.fold(NOTHING_HEARD, |digest, sample| digested(digest, &sample)))
}

/// The kinds of block sizes, by the names of their logs.
fn cuts() -> [(&'static str, Blocks); 4] {
    [
        ("64", Blocks::Of(64)),
        ("512", Blocks::Of(512)),
        ("4096", Blocks::Of(4_096)),
        ("random", Blocks::Random(Random::new(1))),
    ]
}

/// Runs the command, and shows it and the first lines that it prints.
fn shown(words: &str, expects: u8, lines: usize) -> Result<(), Box<dyn Error>> {
    let (mut out, mut complaints) = (Vec::new(), Vec::new());
    let status = command::run(
        words.split(' ').map(OsString::from),
        &mut out,
        &mut complaints,
    );
    let complaints = String::from_utf8_lossy(&complaints);
    println!("$ cableowl {words}");
    for line in String::from_utf8_lossy(&out).lines().take(lines) {
        println!("{line}");
    }
    match status == expects {
        true => Ok(()),
        false => Err(format!("it ended with {status}, not with {expects}: {complaints}").into()),
    }
}

fn main() -> ExitCode {
    let folder = env::args_os().nth(1).unwrap_or("target/evening".into());
    match run(&PathBuf::from(folder)) {
        Ok(()) => ExitCode::SUCCESS,
        Err(error) => {
            eprintln!("the evening broke off: {error}");
            ExitCode::FAILURE
        }
    }
}

fn run(folder: &Path) -> Result<(), Box<dyn Error>> {
    fs::create_dir_all(folder)?;
    let folder = folder.canonicalize()?;
    env::set_current_dir(&folder)?;
    let create = |name: &str| Ok::<_, io::Error>(BufWriter::new(File::create(name)?));
    println!("A student's evening on the listening box: {EVENING} seconds, a lesson of {LESSON}");
    let acts: Vec<String> = SCRIPT
        .iter()
        .map(|(at, act)| format!("{}:{:02} {act}", at / 60, at % 60))
        .collect();
    for acts in acts.chunks(3) {
        println!("  {}", acts.join("; "));
    }

    println!(
        "\nPlayed with four ways to cut time into blocks, and by a player that clears its fraction at their edges:"
    );
    println!(
        "blocks of      steps   position  digest of frames  the other player is after an hour"
    );
    let sound = lesson((LESSON * LESSON_RATE) as usize);
    let mut outcomes = Vec::new();
    for (name, blocks) in cuts() {
        let mut log = create(&format!("blocks-of-{name}.log"))?;
        let said = format!("blocks of {name}, Cableowl");
        let ours = play(&sound, blocks.clone(), false, Some(&mut log), &said)?;
        log.flush()?;
        let said = format!("blocks of {name}, the other player");
        let other = play(&sound, blocks, true, None, &said)?;
        let drift = (ours.steps as f64 - other.steps as f64) * 3_600.0 / f64::from(EVENING);
        let way = if drift < 0.0 { "ahead" } else { "behind" };
        println!(
            "{name:>9} {:>10} {:>10}  {:016x}  {:>9} frames, {:>6.1} s {way}",
            grouped(ours.steps),
            grouped(ours.position as u64),
            ours.digest,
            grouped(drift.abs().round() as u64),
            drift.abs() / f64::from(LESSON_RATE),
        );
        outcomes.push(ours);
    }
    if outcomes.iter().any(|outcome| *outcome != outcomes[0]) {
        return Err("the four differ, and must not: a fault in Cableowl or in this host".into());
    }
    println!("All four agree: in Cableowl the block size changes nothing that is heard.");

    let lesson = Lesson::new(sound)?;
    let samples = lesson.samples().iter().flat_map(|s| s.to_le_bytes());
    fs::write("lesson.f32", samples.collect::<Vec<u8>>())?;
    println!(
        "\nRecorded as it is played, in blocks of {RECORDED}. The trace names the lesson by its digest:"
    );
    shown(&format!("sound --rate {LESSON_RATE} lesson.f32"), 0, 6)?;
    let (mut trace, mut log) = (create("evening.trace")?, create("evening.log")?);
    let (bytes, digest) = record(&lesson, &mut trace, &mut log)?;
    trace.flush()?;
    log.flush()?;
    let mut creeping = create("creeping.log")?;
    let slip = Blocks::Of(RECORDED);
    play(
        lesson.samples(),
        slip,
        true,
        Some(&mut creeping),
        "the other player",
    )?;
    creeping.flush()?;
    let lines = fs::read_to_string("evening.log")?.lines().count();
    println!(
        "The trace has {} bytes, the box's log {} lines.",
        grouped(bytes),
        grouped(lines as u64)
    );

    println!("\nPlayed again from its trace. Lines need no lesson; samples do:");
    shown("replay --summary evening.trace", 0, 30)?;
    if fs::exists("heard.f32")? {
        fs::remove_file("heard.f32")?;
    }
    shown(
        "replay --sound lesson.f32 --out heard.f32 evening.trace",
        0,
        2,
    )?;
    let heard = digest_of("heard.f32")?;
    fs::remove_file("heard.f32")?;
    if (digest, heard) != (outcomes[0].digest, outcomes[0].digest) {
        return Err("the recorded player or the replay is heard otherwise: a fault".into());
    }
    println!("The frames heard are those of the four above, bit by bit: digest {heard:016x}.");

    println!("\nAudited: did this box play as proved?");
    shown("audit evening.trace evening.log", 0, 1)?;
    shown("audit --html audit.html evening.trace creeping.log", 1, 12)?;

    println!(
        "\nDamaged by a flash fault of {} bytes, and salvaged:",
        grouped(HOLE as u64)
    );
    let mut damaged = fs::read("evening.trace")?;
    let middle = damaged.len() / 2;
    damaged[middle..middle + HOLE].fill(0xff);
    fs::write("damaged.trace", damaged)?;
    if fs::exists("mended.trace")? {
        fs::remove_file("mended.trace")?;
    }
    shown("replay --summary damaged.trace", 1, 3)?;
    shown("salvage damaged.trace mended.trace", 0, 1)?;
    shown("replay --sound lesson.f32 --log 3 mended.trace", 0, 2)?;

    println!("\nReported:");
    let logs = cuts()
        .map(|(name, _)| format!("blocks-of-{name}.log"))
        .join(" ");
    shown(&format!("report --html report.html {logs}"), 0, 6)?;
    println!(
        "\nThe report's page: {}",
        folder.join("report.html").display()
    );
    println!("The creep's page:  {}", folder.join("audit.html").display());
    Ok(())
}

#[cfg(test)]
mod tests {
    use super::*;

    #[test]
    fn the_whole_story() {
        let folder = env::temp_dir().join(format!("cableowl-evening-{}", std::process::id()));
        run(&folder).expect("an evening");
        fs::remove_dir_all(folder).expect("its folder");
    }
}
