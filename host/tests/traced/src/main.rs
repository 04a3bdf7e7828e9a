//! Long runs compared with the page, the program compared with the library, and long traces.
//!
//! - `traced reads|writes|salvages|steps|replays|prints [--seed N] [--count N]`: compares random ones; the first three
//!   also with `--version 2`
//! - `traced given [--seed N] [--count N]`: compares replays of version 2 over sounds that are given or not
//! - `traced cuts`: every cut of a short trace, and some changes of each byte, printed by the program and the library
//! - `traced trace [--megabytes N] [--blocks N] [--frames N]`: writes a long trace to standard output: again and again
//!   a creation and N blocks of N frames
//! - `traced print`: prints a trace from standard input by the library
//! - `traced recording`: how much time recording adds to a block
//! - `traced holes|heads [--megabytes N]`: the time of a salvage, of a long trace with holes and of false records

use std::{
    env, fs,
    io::{self, BufWriter, Write},
    process::ExitCode,
    time::Instant,
};

use cableowl::{
    Lanes, Refusal, Settings, Signals, StaticSound,
    trace::{self, Lesson, Recorder, Replay, TraceVersion},
};
use random::Random;
use traced::{
    make,
    model::second::Sounds,
    program::Program,
    replays::{
        self,
        second::{compare, library},
    },
    runs::{self, COMPILED, COMPILED_V2},
};

const USAGE: &str = "usage: traced reads|writes|salvages|steps|replays|given|prints|cuts|trace|print|recording|holes|heads [--version N] [--seed N] [--count N] [--megabytes N] [--blocks N] [--frames N]";

fn main() -> ExitCode {
    match run() {
        Ok(said) => {
            // Standard output may be a trace.
            eprintln!("{said}");
            ExitCode::SUCCESS
        }
        Err(said) => {
            eprintln!("{said}");
            ExitCode::FAILURE
        }
    }
}

fn run() -> Result<String, String> {
    let words: Vec<String> = env::args().skip(1).collect();
    let number = |name: &str, otherwise: u64| {
        let place = words.iter().position(|word| word == name);
        let given = place.and_then(|place| words.get(place + 1));
        let parsed = given.map_or(Ok(otherwise), |word| word.parse());
        parsed.map_err(|_| USAGE.to_owned())
    };
    let seed = number("--seed", 1)?;
    let what = words.first().map(String::as_str);
    let count = number(
        "--count",
        if what == Some("prints") {
            100
        } else {
            1_000_000
        },
    )?;
    let megabytes = number("--megabytes", 20)? as usize;
    let (blocks, frames) = (number("--blocks", 1_000)? as u32, number("--frames", 512)?);
    let codec = match number("--version", 1)? {
        2 => COMPILED_V2,
        _ => COMPILED,
    };
    let started = Instant::now();
    let tally = match what {
        Some("reads") => codec.reads(seed, count),
        Some("writes") => codec.writes(seed, count),
        Some("salvages") => codec.salvages(seed, count),
        Some("given") => {
            let mut random = Random::new(seed);
            let play = |bytes: &[u8], sounds: Option<&Sounds>| library(&mut random, bytes, sounds);
            compare(seed, count, play)
        }
        Some("steps") => replays::steps(seed, count),
        Some("replays") => replays::any_bytes(seed, count),
        Some("prints") => runs::prints(&program()?, seed, count),
        Some("cuts") => runs::print_cuts(&program()?),
        Some("trace") => return long_trace(megabytes, blocks, frames),
        Some("print") => return print(),
        Some("holes") => return salvaged(holes(megabytes)),
        Some("heads") => return salvaged(heads(megabytes)),
        Some("recording") => return recording().map_err(|refusal| refusal.to_string()),
        _ => return Err(USAGE.to_owned()),
    }?;
    let seconds = started.elapsed().as_secs_f64();
    Ok(format!("seed {seed}: {tally}; 0 differ, {seconds:.1} s"))
}

fn program() -> Result<Program, String> {
    Program::find()
        .ok_or_else(|| "no crates/replay/out/replay: run `rt run` in crates/replay".to_owned())
}

/// Writes a trace to standard output.
fn long_trace(megabytes: usize, blocks: u32, frames: u64) -> Result<String, String> {
    let mut out = BufWriter::new(io::stdout().lock());
    let (mut written, mut chunk) = (0, Vec::new());
    while written < megabytes * 1_000_000 {
        make::long(&mut chunk, blocks, frames);
        out.write_all(&chunk).map_err(|error| error.to_string())?;
        written += chunk.len();
    }
    out.flush().map_err(|error| error.to_string())?;
    Ok(format!("{written} bytes"))
}

/// Prints a trace from standard input by the library.
fn print() -> Result<String, String> {
    let started = processor_seconds();
    let out = BufWriter::new(io::stdout().lock());
    let replay = Replay::with_version(TraceVersion::First);
    let refused = replay.print(io::stdin().lock(), out);
    let refused = refused.map_err(|error| error.to_string())?;
    let seconds = processor_seconds() - started;
    Ok(format!("{refused:?}, {seconds:.2} s of processor time"))
}

/// The time of a block of 64 frames: played, played and recorded, and replayed from its record.
fn recording() -> Result<String, Refusal> {
    const BLOCKS: u32 = 200_000;
    let (sound, mut lanes, mut out) = ([0.5; 128], Lanes::new(), [0.0; 128]);
    let settings = Settings::new(48_000).loop_region(..);
    let (step, signals) = (1.0 / 48_000.0, Signals::new());
    let a_block = |seconds: f64| 1e9 * seconds / f64::from(BLOCKS);

    let started = processor_seconds();
    let mut voice = StaticSound::new(settings, &sound)?;
    for _ in 0..BLOCKS {
        voice.process(&sound, lanes.frames(64).rate(0.93), step, signals, &mut out)?;
    }
    let played = a_block(processor_seconds() - started);

    let started = processor_seconds();
    let mut buffer = vec![0; 42 * BLOCKS as usize + 1_000];
    let lesson = Lesson::new(sound)?;
    let mut recorder = Recorder::with_version(&mut buffer, TraceVersion::First);
    recorder.create(settings, &lesson).recorded?;
    for _ in 0..BLOCKS {
        let block = lanes.frames(64).rate(0.93);
        let block = recorder.process(&sound, block, step, signals, &mut out);
        block.recorded?;
        block.answer?;
    }
    let recorded = a_block(processor_seconds() - started);

    let started = processor_seconds();
    let lines = trace::lines(recorder.bytes()).count();
    let again = a_block(processor_seconds() - started);
    Ok(format!(
        "{lines} blocks of 64 frames, nanoseconds of processor time each: played {played:.0}, and recorded {recorded:.0}, played again from the trace {again:.0}"
    ))
}

/// An input by its name.
type Input = (&'static str, Vec<u8>);

/// A long trace with a hole in each 100,000 bytes, and bytes without a record.
fn holes(megabytes: usize) -> Vec<Input> {
    let length = megabytes * 1_000_000;
    let (mut damaged, mut chunk) = (Vec::new(), Vec::new());
    while damaged.len() < length {
        make::long(&mut chunk, 1_000, 512);
        damaged.extend_from_slice(&chunk);
    }
    for hole in damaged.chunks_mut(100_000) {
        let from = hole.len() / 2;
        let to = hole.len().min(from + 4_096);
        hole[from..to].fill(0xff);
    }
    vec![
        ("a trace with holes", damaged),
        ("FF", vec![0xff; length]),
        ("marks", [0xa5, 0x1d].repeat(length / 2)),
    ]
}

/// False records, which take longest.
fn heads(megabytes: usize) -> Vec<Input> {
    let length = megabytes * 1_000_000;
    vec![
        ("heads", [0xa5, 0x1d, 1, 0x3a, 2].repeat(length / 5)),
        ("false creations", make::false_creations(length)),
    ]
}

/// The processor seconds of this thread, if Linux reports them. Other threads do not count.
fn processor_seconds() -> f64 {
    let stat = fs::read_to_string("/proc/thread-self/schedstat").unwrap_or_default();
    let nanoseconds = stat.split(' ').next().and_then(|word| word.parse().ok());
    nanoseconds.unwrap_or(0.0) / 1e9
}

fn salvaged(inputs: Vec<Input>) -> Result<String, String> {
    let count = inputs.len();
    for (name, input) in inputs {
        let mut out = vec![0; input.len()];
        let started = processor_seconds();
        let salvaged = TraceVersion::First.salvage(&input, &mut out);
        let salvaged = salvaged.map_err(|refusal| refusal.to_string())?;
        let seconds = processor_seconds() - started;
        eprintln!(
            "{} bytes of {name}: {seconds:.2} s of processor time, {salvaged:?}",
            input.len()
        );
    }
    Ok(format!("{count} inputs"))
}
