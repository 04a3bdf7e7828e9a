//! The program `replay` and the library print the same bytes: for the page's short inputs, its example, random and
//! damaged traces. `rt` compiles the program. If it did not, these tests say so and try nothing.

use std::io::Write;

use traced::{hex, make, program::Program, runs};

fn program(what: &str) -> Option<Program> {
    let found = Program::find();
    if found.is_none() {
        // Written past the test's capture, so that a person sees it.
        let _ = writeln!(
            std::io::stderr(),
            "skipped: crates/replay/out/replay is not there, so {what} were not printed by the program"
        );
    }
    found
}

#[test]
fn short_inputs() {
    let Some(program) = program("short inputs") else {
        return;
    };
    for input in [
        "",
        "00",
        "A5",
        "A5 00",
        "A5 1D",
        "A5 1D 00",
        "A5 1D 04",
        "A5 1D 03 00",
        "A5 1D 02 08 00",
        "A5 1D 03 FF FF",
        "A5 1D 03 25 00",
        "A5 1D 02 07 00 02",
        "A5 1D 02 07 00 01",
        "A5 1D 02 07 00 01 00 00 00 00 00 00",
    ] {
        runs::compare_print(&program, &hex(input)).unwrap();
    }
    runs::compare_print(&program, &make::all_kinds()).unwrap();
}

#[test]
fn random_and_damaged_traces() {
    let Some(program) = program("random traces") else {
        return;
    };
    let tally = runs::prints(&program, 1_041, 16).unwrap();
    println!("{tally}");
    // Every kind of line: an accepted block, a refused one, a refused record.
    for number in [0, 1, 10, 11, 12, 15, 17, 18] {
        assert!(tally.refused[number] > 0, "no line with {number}: {tally}");
    }
}
