//! `cableowl replay`.

use std::{
    fs::File,
    io::{BufRead, BufReader, Write},
    process::{Command, Stdio},
};

use random::Random;
use traced::{make, program::Program};

use crate::room::{CABLEOWL, Room, looped, three};

#[test]
fn the_rules_example() {
    let room = Room::new("replay-example");
    room.put("three.trace", three());
    let line = "block=1 frames=6 steps=6 state=6 position=3\n";
    room.run(&["replay", "three.trace"]).says(line);
    room.run(&["replay", "--log", "1", "three.trace"])
        .says(line);
    room.run_on(&["replay", "-"], &three()).says(line);
}

#[test]
fn an_empty_trace_prints_nothing() {
    let room = Room::new("replay-empty");
    room.run(&["replay", "-"]).says("");
    room.run(&["replay", "--log", "3", "-"]).says("log=3\n");
}

#[test]
fn the_third_form_says_what_was_done() {
    let room = Room::new("replay-third");
    let looped_at = |block: &str, played: u64, created: &str| {
        format!(
            "{block} started=1 played={played} paused=0 silent=0 still=0 loop_start=2 loop_end=6 direction=0 steps_back=0 ended=0 {created}\n"
        )
    };
    let says = [
        looped_at(
            "block=1 frames=5 steps=5 state=0 position=4 lowest=4 forward=1 backward=0",
            5,
            "created=1 seeks=0 restarts=0 pauses=0",
        ),
        looped_at(
            "block=2 frames=4 steps=4 state=0 position=4 lowest=4 forward=2 backward=0",
            4,
            "created=0 seeks=0 restarts=0 pauses=0",
        ),
        looped_at(
            "block=3 frames=3 steps=3 state=0 position=5 lowest=4 forward=2 backward=0",
            3,
            "created=0 seeks=1 restarts=1 pauses=0",
        ),
        "block=4 refused=10 created=0 seeks=1 restarts=0 pauses=0\n".into(),
        looped_at(
            "block=5 frames=2 steps=2 state=0 position=2 lowest=4 forward=3 backward=0",
            2,
            "created=0 seeks=0 restarts=0 pauses=0",
        ),
        looped_at(
            "block=6 frames=1 steps=1 state=0 position=4 lowest=4 forward=0 backward=0",
            1,
            "created=1 seeks=0 restarts=1 pauses=0",
        ),
    ];
    let says = says.concat();
    room.run_on(&["replay", "--log", "3", "-"], &looped())
        .says(&format!("log=3\n{says}"));
}

#[test]
fn a_block_in_which_the_sound_ends_is_played_up_to_the_frame_where_it_stops() {
    let room = Room::new("replay-ends");
    // Three frames of sound; the voice stops in the fourth. Form 1 has the block's own steps, 6.
    room.run_on(&["replay", "--log", "3", "-"], &three()).says(
        "log=3\n\
         block=1 frames=6 steps=4 state=6 position=3 lowest=1 forward=0 backward=0 started=1 played=4 paused=0 silent=2 still=0 loop_start=0 loop_end=0 direction=0 steps_back=0 ended=1 created=1 seeks=0 restarts=0 pauses=0\n",
    );
}

#[test]
fn a_damaged_trace_is_told_by_its_place_and_number() {
    let room = Room::new("replay-damaged");
    for (bytes, number) in [
        (&b"\n"[..], 15),
        (b"\xa5", 18),
        (b"\xa5\x1d\x04", 18),
        (b"\xa5\x1d\x06", 16),
        (b"\xa5\x1d\x02\x08\x00", 17),
    ] {
        let mut trace = three();
        trace.extend_from_slice(bytes);
        let ran = room.run_on(&["replay", "-"], &trace);
        let printed =
            format!("block=1 frames=6 steps=6 state=6 position=3\nrefused={number} at=97\n");
        assert_eq!(ran.out, printed);
        let expected =
            format!("cableowl: standard input: the record at byte 97: refusal {number}: ");
        assert!(ran.err.starts_with(&expected), "{}", ran.err);
        assert_eq!((ran.status, ran.err.lines().count()), (1, 1));
    }
}

/// The proved program, or none, with a loud message.
fn program() -> Option<Program> {
    let program = Program::find();
    if program.is_none() {
        eprintln!(
            "SKIPPED: no crates/replay/out/replay here, so the command was not compared with the proved program"
        );
    }
    program
}

#[test]
fn it_prints_what_the_proved_program_prints() {
    let Some(program) = program() else {
        return;
    };
    let room = Room::new("replay-proved");
    let mut random = Random::new(28);
    let mut traces = vec![Vec::new(), three(), looped(), make::all_kinds()];
    traces.extend((0..60).map(|round| make::damaged(&mut random, 1 + round % 40, 3)));
    traces.extend((0..16).map(|_| make::trace(&mut random, 200)));
    let count = traces.len();
    let (mut lines, mut refused) = (0, 0);
    for trace in traces {
        let ran = room.run_on(&["replay", "-"], &trace);
        let printed = program.printed(&trace).expect("the program runs");
        assert_eq!(ran.out, String::from_utf8_lossy(&printed));
        let broken = ran
            .out
            .lines()
            .last()
            .is_some_and(|line| line.starts_with("refused="));
        assert_eq!(ran.status, broken.into());
        (lines, refused) = (
            lines + ran.out.lines().count(),
            refused + usize::from(broken),
        );
    }
    eprintln!("{count} traces, {lines} lines, {refused} ended by a refused record");
}

#[test]
fn a_huge_trace_is_played_in_little_memory() {
    let room = Room::new("replay-huge");
    // 42 bytes a record: about 20 MB, in 24 MB of address space beyond the program's own.
    let (first, block) = (three(), 42);
    let block = first[first.len() - block..].to_vec();
    let mut file = File::create(room.0.join("huge.trace")).unwrap();
    file.write_all(&first).unwrap();
    for _ in 0..500 {
        file.write_all(&block.repeat(1_000)).unwrap();
    }
    drop(file);
    let limited = format!("ulimit -v 40000; exec {CABLEOWL} replay huge.trace");
    let mut shell = Command::new("sh");
    shell
        .args(["-c", &limited])
        .current_dir(&room.0)
        .stdout(Stdio::piped());
    let mut child = shell.spawn().unwrap();
    let lines = BufReader::new(child.stdout.take().unwrap()).lines();
    let last = lines.map(|line| line.unwrap()).last();
    assert!(child.wait().unwrap().success());
    assert_eq!(
        last.as_deref(),
        Some("block=500001 frames=6 steps=0 state=6 position=3")
    );
}
