// Writes a fixed list: `lists numbers OUTFILE`, `lists scenarios OUTFILE`.

use std::{env, fs, process::ExitCode};

fn main() -> ExitCode {
    let arguments: Vec<String> = env::args().skip(1).collect();
    let [kind, file] = arguments.as_slice() else {
        eprintln!("usage: lists numbers|scenarios OUTFILE");
        return ExitCode::FAILURE;
    };
    let list = match kind.as_str() {
        "numbers" => lists::numbers(),
        "scenarios" => lists::scenarios(),
        other => {
            eprintln!("no list is called {other}");
            return ExitCode::FAILURE;
        }
    };
    match fs::write(file, list) {
        Ok(()) => ExitCode::SUCCESS,
        Err(error) => {
            eprintln!("{file}: {error}");
            ExitCode::FAILURE
        }
    }
}
