// Compares the compiled numbers with Rust's own on random doubles: `leaves numbers COUNT`.
#![forbid(unsafe_code)]

use std::{env, process::ExitCode};

fn main() -> ExitCode {
    let arguments: Vec<String> = env::args().skip(1).collect();
    let count = match arguments.as_slice() {
        [subject, count] if subject == "numbers" => count.parse().ok(),
        _ => None,
    };
    let Some(count) = count else {
        eprintln!("usage: leaves numbers COUNT");
        return ExitCode::FAILURE;
    };
    let mut alike = true;
    for tally in leaves::numbers::compare(count, 1) {
        alike &= tally.report();
    }
    if alike {
        ExitCode::SUCCESS
    } else {
        ExitCode::FAILURE
    }
}
