// Compares the compiled library and kira's text with the rules: `differential [--seed N] [--rounds N] [--long] [--held]
// [--without-ours] [--wrong]`. With --held it plays only blocks with held lanes. The same seed and rounds print the
// same table on every machine. Progress and time go to standard error.

use std::{
    env,
    process::ExitCode,
    sync::Mutex,
    thread,
    time::{Duration, Instant},
};

use differential::{
    Harness, Kira, Ours, OursHeld, Player, Tally,
    runs::{self, Big, Extent},
    wrong,
};
use random::Random;

const USAGE: &str =
    "usage: differential [--seed N] [--rounds N] [--long] [--held] [--without-ours] [--wrong]";

/// The number of random rounds if none is given.
const ROUNDS: u64 = 10_000;
const LONG_ROUNDS: u64 = 50_000;

struct Options {
    seed: u64,
    rounds: Option<u64>,
    /// Every tiny sound in full, and more rounds unless a number is given.
    long: bool,
    held: bool,
    without_ours: bool,
    wrong: bool,
}

fn main() -> ExitCode {
    let options = match options() {
        Ok(options) => options,
        Err(message) => {
            eprintln!("{message}\n{USAGE}");
            return ExitCode::FAILURE;
        }
    };
    if options.wrong {
        return show_wrong(options.seed);
    }
    let begun = Instant::now();
    let tally = whole_run(&options);
    eprintln!("{:.1} s", begun.elapsed().as_secs_f64());
    println!("seed {}, rounds {}", options.seed, options.rounds());
    print!("{tally}");
    if tally.differences() == 0 {
        ExitCode::SUCCESS
    } else {
        ExitCode::FAILURE
    }
}

impl Options {
    fn rounds(&self) -> u64 {
        let otherwise = if self.long { LONG_ROUNDS } else { ROUNDS };
        self.rounds.unwrap_or(otherwise)
    }
}

fn options() -> Result<Options, String> {
    let mut options = Options {
        seed: 1,
        rounds: None,
        long: false,
        held: false,
        without_ours: false,
        wrong: false,
    };
    let mut words = env::args().skip(1);
    while let Some(word) = words.next() {
        let mut number = || {
            let next = words.next().unwrap_or_default();
            next.parse::<u64>()
                .map_err(|_| format!("{word} takes a number"))
        };
        match word.as_str() {
            "--seed" => options.seed = number()?,
            "--rounds" => options.rounds = Some(number()?),
            "--long" => options.long = true,
            "--held" => options.held = true,
            "--without-ours" => options.without_ours = true,
            "--wrong" => options.wrong = true,
            _ => return Err(format!("{word} is not known")),
        }
    }
    Ok(options)
}

/// What is left to do: the tiny sounds and the longest ones, then one round after the other.
struct Work {
    next: Mutex<u64>,
    rounds: u64,
    said: Mutex<Instant>,
}

/// One task.
enum Task {
    TinyCreations,
    TinySeeks,
    Longest,
    Zeros,
    TinyBlocks,
    Round(u64),
}

impl Work {
    fn next(&self) -> Option<Task> {
        let place = {
            let mut next = self.next.lock().expect("no thread fails while it takes");
            *next += 1;
            *next - 1
        };
        Some(match place {
            // The longest one first.
            0 => Task::TinyBlocks,
            1 => Task::TinySeeks,
            2 => Task::TinyCreations,
            3 => Task::Longest,
            4 => Task::Zeros,
            _ => {
                let round = place - 5;
                self.say(round);
                (round < self.rounds).then_some(Task::Round(round))?
            }
        })
    }

    /// Prints the progress every two seconds.
    fn say(&self, round: u64) {
        let mut said = self.said.lock().expect("no thread fails while it speaks");
        if said.elapsed() > Duration::from_secs(2) {
            *said = Instant::now();
            eprintln!("  ... round {round} of {}", self.rounds);
        }
    }
}

/// Does everything on all cores. Which core does what changes no count.
fn whole_run(options: &Options) -> Tally {
    let threads = thread::available_parallelism().map_or(1, usize::from);
    let work = Work {
        // The first five are not rounds.
        next: Mutex::new(if options.held { 5 } else { 0 }),
        rounds: options.rounds(),
        said: Mutex::new(Instant::now()),
    };
    let mut sum = Tally::default();
    thread::scope(|scope| {
        let one = || one_thread(options, &work);
        let all: Vec<_> = (0..threads).map(|_| scope.spawn(one)).collect();
        for thread in all {
            sum.add(&thread.join().expect("a thread that ends"));
        }
    });
    sum
}

fn one_thread(options: &Options, work: &Work) -> Tally {
    let players: Vec<&dyn Player> = if options.without_ours {
        vec![&Kira]
    } else if options.held {
        vec![&Kira, &Ours, &OursHeld]
    } else {
        vec![&Kira, &Ours]
    };
    let mut harness = Harness::new(players);
    let extent = if options.long {
        Extent::Full
    } else {
        Extent::Short
    };
    while let Some(task) = work.next() {
        match task {
            Task::TinyCreations => runs::tiny_creations(&mut harness, 8),
            Task::Zeros => runs::zeros(&mut harness, 6),
            Task::TinySeeks => runs::tiny_seeks(&mut harness, 8, extent),
            Task::TinyBlocks => runs::tiny_blocks(&mut harness, 8, extent),
            Task::Longest => Big::new().run(&mut harness),
            Task::Round(round) => {
                // Each round has a seed of its own, so that one round can be repeated.
                let seed = options.seed.wrapping_mul(1 << 32).wrapping_add(round);
                let random = &mut Random::new(seed);
                if options.held {
                    runs::held(&mut harness, random);
                    continue;
                }
                runs::large(&mut harness, random);
                runs::scans(&mut harness, random);
                runs::refusals(&mut harness, random);
                runs::cuts(&mut harness, random);
            }
        }
    }
    harness.tally
}

/// How each wrong player is found.
fn show_wrong(seed: u64) -> ExitCode {
    let mut missed = 0;
    for player in wrong::all() {
        let mut harness = Harness::until_first(player.as_ref());
        let mut random = Random::new(seed);
        let mut rounds = 0;
        while !harness.has_enough() && rounds < 100_000 {
            runs::large(&mut harness, &mut random);
            runs::refusals(&mut harness, &mut random);
            rounds += 1;
        }
        missed += u32::from(!harness.has_enough());
        println!("{}: after {rounds} rounds", player.name());
        for found in harness.tally.found.values() {
            println!("  {}\n  {}", found.reason, found.call);
        }
    }
    if missed == 0 {
        ExitCode::SUCCESS
    } else {
        ExitCode::FAILURE
    }
}
