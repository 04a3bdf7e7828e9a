// Times our code and kira's text:
//   benches [--write DIR]
//   benches --tables                                                        (the page's tables, in Markdown, on
// standard output)
//   benches --modes                                                         (what the float mode costs a call)
//   benches --budget                                                        (voices per core by block size and steps
// per frame)
//   benches --players                                                       (64 players into one buffer, and bare
// voices)
//   benches --play ours|safe|kira|player|moving|none --rate R --block N --looped long|3|subnormal|slow
//           --lanes once|constant|frames|rates --start N --frames N
//                                                                          (one workload, to be counted)

mod budget;
mod measure;
mod modes;
mod players;
mod report;
mod workload;

use std::{env, error::Error, fs, path::Path, process::ExitCode};

use players::One;
use workload::{Kira, LaneKind, Looped, Ours, Safe, Voice, Workload};

fn main() -> ExitCode {
    match run(&env::args().skip(1).collect::<Vec<_>>()) {
        Ok(()) => ExitCode::SUCCESS,
        Err(error) => {
            eprintln!("{error}");
            ExitCode::FAILURE
        }
    }
}

fn run(words: &[String]) -> Result<(), Box<dyn Error>> {
    if let Some(who) = option(words, "--play") {
        return play(who, words);
    }
    if words.iter().any(|word| word == "--modes") {
        let [plain, flushing] = modes::cost();
        println!("a call of 64 frames: {plain:.1} ns; from a host that flushes: {flushing:.1} ns");
        return Ok(());
    }
    if words.iter().any(|word| word == "--budget") {
        let [long, slow] = [Looped::Long, Looped::Slow].map(budget::table);
        print!("Uninterrupted playback:\n\n{long}\nThe slow path:\n\n{slow}");
        return Ok(());
    }
    if words.iter().any(|word| word == "--players") {
        print!("{}", players::table());
        return Ok(());
    }
    let rows = measure::all();
    if words.iter().any(|word| word == "--tables") {
        print!("{}", report::tables(&rows, &players::table()));
        return Ok(());
    }
    let table = report::table(&rows);
    print!("{table}");
    if let Some(folder) = option(words, "--write") {
        let folder = Path::new(folder);
        fs::write(
            folder.join("BENCHMARK.md"),
            report::document(&rows, &players::table()),
        )?;
        fs::write(folder.join("benchmark.svg"), report::plot(&rows))?;
    }
    Ok(())
}

fn option<'a>(words: &'a [String], name: &str) -> Option<&'a str> {
    let place = words.iter().position(|word| word == name)?;
    words.get(place + 1).map(String::as_str)
}

fn number<T: std::str::FromStr>(words: &[String], name: &str, otherwise: T) -> Result<T, String> {
    option(words, name).map_or(Ok(otherwise), |word| {
        word.parse()
            .map_err(|_| format!("{name} takes a number, not {word}"))
    })
}

/// Plays only one workload. `none` makes all voices and plays none.
fn play(who: &str, words: &[String]) -> Result<(), Box<dyn Error>> {
    let workload = Workload {
        rate: number(words, "--rate", 0.93)?,
        block: number(words, "--block", 512)?,
        looped: match option(words, "--looped") {
            None | Some("long") => Looped::Long,
            Some("3") => Looped::Three,
            Some("subnormal") => Looped::Tail,
            Some("slow") => Looped::Slow,
            Some(word) => {
                return Err(
                    format!("--looped takes long, 3, subnormal or slow, not {word}").into(),
                );
            }
        },
        lanes: match option(words, "--lanes") {
            None => LaneKind::PerFrame,
            Some(word) => {
                let found = LaneKind::ALL.into_iter().find(|kind| kind.word() == word);
                found.ok_or("--lanes takes once, constant, frames or rates")?
            }
        },
        start: option(words, "--start").map(str::parse).transpose()?,
    };
    let frames: usize = number(words, "--frames", 512_000)?;
    let sound = workload.looped.sound();
    let mut ours = Ours::new(&workload, &sound);
    let mut safe = Safe::new(&workload, &sound);
    let mut kira = Kira::new(&workload, &sound);
    let [mut player, mut moving] = [false, true].map(|moving| One::new(&workload, &sound, moving));
    let voice: Option<&mut dyn Voice> = match who {
        "ours" => Some(&mut ours),
        "safe" => Some(&mut safe),
        "kira" => Some(&mut kira),
        // At the players' own rate, 0.93, in the long loop.
        "player" => Some(&mut player),
        "moving" => Some(&mut moving),
        "none" => None,
        _ => {
            let all = "ours, safe, kira, player, moving or none";
            return Err(format!("--play takes {all}, not {who}").into());
        }
    };
    if let Some(voice) = voice {
        (0..frames / workload.block).for_each(|_| voice.block());
    }
    Ok(())
}
