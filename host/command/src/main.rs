//! The command `cableowl`.

use std::{env, io, process::ExitCode};

fn main() -> ExitCode {
    let words = env::args_os().skip(1);
    command::run(words, io::stdout().lock(), io::stderr()).into()
}
