//! Instructions per frame, counted by callgrind: they may not rise by more than 15 percent above what is recorded here.
//! Divisions in a short loop may not rise at all.
//!
//! Times depend on the machine and on its load. Counts depend only on the archive, which one clang compiles. If there
//! is no valgrind, or nothing is recorded for the processor, the test says so and tests nothing.

use std::{
    env::consts::ARCH,
    error::Error,
    io::{Write as _, stderr},
    process::Command,
};

/// A workload: rate, block, loop, lanes.
type Cell = [&'static str; 4];

const CELLS: [Cell; 7] = [
    ["0.93", "512", "long", "frames"],
    ["1", "64", "long", "frames"],
    ["-0.93", "512", "3", "frames"],
    ["0.93", "512", "long", "once"],
    ["0.93", "64", "long", "once"],
    ["0.93", "512", "long", "constant"],
    ["0.93", "512", "long", "rates"],
];

/// Instructions per frame in each cell, of our code with every check, by processor, as callgrind counts them; `None` if
/// a cell was not counted there. Those of x86-64 are of today's kit; those of Arm are of the kit before.
const RECORDED: [(&str, [Option<f64>; 7]); 2] = [
    (
        "aarch64",
        [
            Some(49.2),
            Some(65.0),
            Some(79.0),
            Some(37.7),
            Some(50.7),
            Some(42.2),
            Some(53.4),
        ],
    ),
    (
        "x86_64",
        [
            Some(97.6),
            Some(119.9),
            Some(130.2),
            Some(51.2),
            Some(70.9),
            Some(80.6),
            Some(97.3),
        ],
    ),
];

const MOST: f64 = 1.15;
const FRAMES: u32 = 40_960;

#[test]
fn instructions_a_frame_do_not_rise() -> Result<(), Box<dyn Error>> {
    if Command::new("valgrind").arg("--version").output().is_err() {
        return unheard("no valgrind on PATH");
    }
    let of_this = RECORDED.iter().find(|(arch, _)| *arch == ARCH);
    let recorded = of_this.map_or([None; 7], |(_, recorded)| *recorded);
    for (cell, recorded) in CELLS.into_iter().zip(recorded) {
        let found = a_frame(cell)?;
        match recorded {
            None => unheard(&format!(
                "nothing is recorded for {ARCH} and {cell:?}, which counts {found:.1}"
            ))?,
            Some(recorded) => assert!(
                found <= recorded * MOST,
                "rate, block, loop and lanes {cell:?}: {found:.1} instructions a frame, and {recorded} were recorded. What \
                 changed in the loop of a block? If the new count is meant, record it"
            ),
        }
    }
    Ok(())
}

/// A wrap at a loop's edge does not divide (#107): tools/divisions has the counts, and where each division comes from.
#[test]
fn a_turn_at_the_edge_of_a_loop_does_not_divide() -> Result<(), Box<dyn Error>> {
    let tool = concat!(env!("CARGO_MANIFEST_DIR"), "/../../../tools/divisions");
    let run = Command::new(tool)
        .args(["20000", env!("CARGO_BIN_EXE_benches")])
        .output()?;
    let said = String::from_utf8_lossy(&run.stdout) + String::from_utf8_lossy(&run.stderr);
    match run.status.code() {
        Some(0) => Ok(()),
        Some(2) => unheard(&said),
        _ => panic!("{said}What divides now, in the archive's functions?"),
    }
}

/// Printed past the test's capture.
fn unheard(why: &str) -> Result<(), Box<dyn Error>> {
    Ok(writeln!(stderr(), "INSTRUCTIONS WERE NOT TESTED: {why}")?)
}

fn a_frame(cell: Cell) -> Result<f64, Box<dyn Error>> {
    let played = counted("ours", cell)? - counted("none", cell)?;
    Ok(played / f64::from(FRAMES))
}

/// All instructions of a run.
fn counted(who: &str, [rate, block, looped, lanes]: Cell) -> Result<f64, Box<dyn Error>> {
    let frames = FRAMES.to_string();
    let run = Command::new("valgrind")
        .args(["--tool=callgrind", "--callgrind-out-file=/dev/null"])
        .arg(env!("CARGO_BIN_EXE_benches"))
        .args([
            "--play", who, "--rate", rate, "--block", block, "--looped", looped,
        ])
        .args(["--lanes", lanes, "--frames", &frames])
        .output()?;
    let said = String::from_utf8(run.stderr)?;
    let (_, after) = said
        .split_once("Collected : ")
        .ok_or_else(|| format!("callgrind counted nothing: {said}"))?;
    let digits: String = after.chars().take_while(char::is_ascii_digit).collect();
    Ok(digits.parse()?)
}
