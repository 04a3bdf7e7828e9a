// Any bytes through the C entries: `hostile [--seed N] [--count N]`.

use std::{env, process::ExitCode};

fn main() -> ExitCode {
    let words: Vec<String> = env::args().skip(1).collect();
    let number = |name: &str, otherwise: u64| {
        let place = words.iter().position(|word| word == name);
        let given = place.and_then(|place| words.get(place + 1));
        given.map_or(Ok(otherwise), |word| word.parse())
    };
    let (Ok(seed), Ok(count)) = (number("--seed", 1), number("--count", 10_000_000)) else {
        eprintln!("usage: hostile [--seed N] [--count N]");
        return ExitCode::FAILURE;
    };
    let report = hostile::run(seed, count);
    println!("seed {seed}");
    print!("{report}");
    if report.faults == 0 {
        ExitCode::SUCCESS
    } else {
        ExitCode::FAILURE
    }
}
