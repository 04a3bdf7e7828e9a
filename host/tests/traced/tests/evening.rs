//! The evening of `make`, recorded. In version 1, on a short sound, its trace prints the live lines, by the library and
//! by the program. In version 2 it prints them after joining, with the lesson and without it.

use std::io::Write;

use cableowl::trace::{Lesson, TraceVersion, lines};
use traced::{program::Program, runs};

#[path = "../../../cableowl/examples/evening/edges.rs"]
mod edges;
#[path = "../../../cableowl/examples/evening/recorded.rs"]
mod recorded;

/// A lesson of 32 seconds.
fn triangles(rate: u32) -> Lesson {
    let triangle = |frame: u32| 1.0 - (frame % 16) as f32 / 8.0;
    let samples: Vec<f32> = (0..2 * 32 * rate).map(triangle).collect();
    Lesson::new(samples).unwrap()
}

#[test]
fn recorded_and_played_again() {
    // Two frames a second: 64 in all.
    let lesson = triangles(2);
    let (live, bytes) = recorded::live(&lesson, 2, 1_000, TraceVersion::First).unwrap();
    let printed: String = live.lines.iter().map(|line| format!("{line}\n")).collect();
    assert!(live.lines.len() > 3_000, "{}", live.lines.len());
    let stopped = |line: &&str| line.contains(" steps=0 state=6 ");
    assert!(printed.lines().last().filter(stopped).is_some());
    let again = recorded::again(&bytes, &lesson);
    assert_eq!(again.lines, live.lines);
    assert_eq!(again.digest, live.digest);
    assert_eq!(runs::library_prints(&bytes).unwrap(), printed.as_bytes());
    let Some(program) = Program::find() else {
        // Written past the test's capture, so that a person sees it.
        let _ = writeln!(
            std::io::stderr(),
            "skipped: crates/replay/out/replay is not there, so the program did not print the evening"
        );
        return;
    };
    assert_eq!(program.printed(&bytes).unwrap(), printed.as_bytes());
}

#[test]
fn recorded_over_a_lesson() {
    let lesson = triangles(8_000);
    let (live, bytes) = recorded::live(&lesson, 8_000, 8_000, TraceVersion::Second).unwrap();
    let again = recorded::again(&bytes, &lesson);
    assert_eq!(again.digest, live.digest);
    assert!(again.lines.len() < live.lines.len());
    let edges = edges::common_edges(live.lines, again.lines.iter().copied()).unwrap();
    assert!(edges > 2_000, "{edges}");
    assert!(lines(&bytes).eq(again.lines));
}
