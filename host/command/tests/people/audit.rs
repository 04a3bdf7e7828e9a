//! `cableowl audit`.

use cableowl::{
    Frames, Lanes, Settings, StaticSound,
    trace::{Block, Line, Record, ShortSound},
};

use crate::{
    report::{cell, csv},
    room::{Room, creation, looped, trace},
};

/// An evening of blocks over a loop of a whole short sound, at these rates.
pub fn evening(blocks: usize) -> Vec<Record<'static>> {
    let sound = creation(Settings::new(44_100).loop_region(Frames(0)..Frames(64)), 64);
    let block = |rate| {
        Record::Block(Block {
            rate,
            ..Block::new(1_024, 1.0 / 48_000.0)
        })
    };
    let rate = |index: usize| if index < blocks / 2 { 1.0 } else { 0.7 };
    [sound]
        .into_iter()
        .chain((0..blocks).map(|index| block(rate(index))))
        .collect()
}

/// The log of a box that clears its fraction at block edges: the plausible slip.
pub fn creeping(records: &[Record]) -> String {
    let mut expected = String::new();
    let (mut lanes, mut out) = (Lanes::new(), [0.0; 2_048]);
    let (mut voice, mut sound, mut number) = (None, ShortSound::EMPTY, 0);
    for record in records {
        match (record, &mut voice) {
            (
                Record::Creation {
                    settings,
                    sound: recorded,
                },
                _,
            ) => {
                sound = *recorded;
                voice = Some(StaticSound::new(*settings, sound.samples()).unwrap());
            }
            (Record::Block(block), Some(voice)) => {
                let lanes = lanes.frames(block.frames).rate(block.rate);
                let answer = voice.process(
                    sound.samples(),
                    lanes,
                    block.time_step,
                    block.signals(),
                    &mut out,
                );
                number += 1;
                expected += &format!("{}\n", Line::of_block(number, block.frames, voice, answer));
                let mut state = voice.state();
                state.fractional_position = 0.0;
                *voice = StaticSound::from_state(state, sound.samples()).unwrap();
            }
            _ => {}
        }
    }
    expected
}

#[test]
fn a_box_that_plays_as_proved() {
    let room = Room::new("audit-clean");
    room.put("a.trace", looped());
    for form in ["1", "3"] {
        let log = room.run(&["replay", "--log", form, "a.trace"]).out;
        room.put("a.log", log);
        room.run(&["audit", "a.trace", "a.log"]).says(
            "AGREES: a.log says what the rule gives for a.trace, block by block: 6 blocks, 15.0 s\n",
        );
    }
    room.put("old.log", second_form(&room.read("a.log")));
    assert_eq!(room.run(&["audit", "a.trace", "old.log"]).status, 0);
    let log = room.read("a.log");
    let ran = room.run_on(&["audit", "a.trace", "-"], log.as_bytes());
    assert_eq!(ran.status, 0);
    let ran = room.run_on(&["audit", "-", "a.log"], &looped());
    assert_eq!(ran.status, 0);
}

/// The log as an older box would have written it.
fn second_form(third: &str) -> String {
    let lines = third.lines().map(|line| match line.split_once(" played=") {
        Some((before, rest)) => {
            let since = rest.find(" created=").expect("what was done before");
            format!("{before}{}\n", &rest[since..])
        }
        None => format!("{line}\n"),
    });
    let text = lines.collect::<String>().replace(" pauses=0", "");
    text.replace("log=3", "log=2")
}

#[test]
fn nothing_compared_is_not_agreement() {
    let room = Room::new("audit-empty");
    room.put("empty", "");
    let ran = room.run(&["audit", "--html", "page.html", "empty", "empty"]);
    assert_eq!((ran.status, &*ran.err), (3, ""));
    assert_eq!(
        ran.out,
        "UNKNOWN: empty has no block and empty has no line: nothing is said of the box\n"
    );
    assert!(
        room.read("page.html")
            .contains("nothing is said of the box")
    );
    let ran = room.run(&["audit", "--csv", "empty", "empty"]);
    assert_eq!((ran.status, ran.out.lines().count()), (3, 1));
    assert_eq!(
        ran.err,
        "cableowl: empty has no block and empty has no line: nothing is said of the box\n"
    );
    room.put("a.trace", looped());
    for (trace, log, why) in [
        ("a.trace", "empty", "the log ends before the trace does"),
        ("empty", "a.log", "the trace ends before the log does"),
    ] {
        room.put("a.log", room.run(&["replay", "a.trace"]).out);
        let ran = room.run(&["audit", trace, log]);
        assert_eq!((ran.status, &*ran.err), (3, ""));
        let expected = format!("UNKNOWN: {trace} and {log}: {why}: nothing is said of the box\n");
        assert_eq!(ran.out, expected);
    }
}

#[test]
fn the_creep_is_told_in_seconds_an_hour_with_its_likely_cause() {
    let room = Room::new("audit-creep");
    let records = evening(400);
    room.put("a.trace", trace(&records));
    room.put("creeping.log", creeping(&records));
    let ran = room.run(&["audit", "--html", "page.html", "a.trace", "creeping.log"]);
    assert_eq!((ran.status, &*ran.err), (1, ""));
    let first: Vec<&str> = ran.out.lines().take(3).collect();
    // 271 frames of 44,100 a second, behind after 8.53 seconds.
    assert_eq!(
        first,
        [
            "DIFFERS: creeping.log: the loop creeps: 2.6 s later after an hour; first at block 2, 0.04 s into the evening; a player that clears its fraction at block edges does this",
            "  the rule  block=2 frames=1024 steps=941 state=playing position=28",
            "  the box   block=2 frames=1024 steps=940 state=playing position=27",
        ]
    );
    // 0.8 of a frame per block at rate 1, and 658.56 steps cut to 658 at rate 0.7.
    let last = ran.out.lines().last();
    assert_eq!(
        last,
        Some("  after 400 blocks, 8.5 s, the box is 271 frames of the sound behind, 0.0061 s")
    );
    let page = room.read("page.html");
    assert!(page.contains("<path class=creep d=\"m") && page.contains("271 frames"));
    assert!(!page.contains("proves") && !ran.out.contains("proves"));
    let ran = room.run(&["audit", "--csv", "a.trace", "creeping.log"]);
    assert_eq!((ran.status, &*ran.err), (1, ""));
    let rows = csv(&ran.out);
    assert_eq!(rows.len(), 400);
    let creeps: Vec<i64> = rows
        .iter()
        .map(|row| cell(row, "creep").parse().unwrap())
        .collect();
    let mut sum = 0;
    for (row, creep) in rows.iter().zip(&creeps) {
        let number = |column: &str| cell(row, column).parse::<i64>().unwrap();
        sum += number("steps_rule") - number("steps_box");
        assert_eq!(*creep, sum);
    }
    assert_eq!((creeps[0], creeps[1], creeps[399]), (0, 1, 271));
    assert_eq!(cell(&rows[0], "same"), "1");
    assert_eq!(cell(&rows[1], "same"), "0");
    // A box that drops a frame sometimes creeps too, and no cause is named.
    let log = room.run(&["replay", "a.trace"]).out;
    let lines = log.lines().map(|line| match line.contains("block=7 ") {
        true => format!("{}\n", line.replace("steps=941", "steps=940")),
        false => format!("{line}\n"),
    });
    room.put("drops.log", lines.collect::<String>());
    let ran = room.run(&["audit", "a.trace", "drops.log"]);
    assert_eq!(
        ran.out.lines().next(),
        Some(
            "DIFFERS: drops.log: the loop creeps: 0.0096 s later after an hour; first at block 7, 0.15 s into the evening"
        )
    );
}

/// The lines of a log with every `each` of them joined into one, as written by a host that logs a line for several
/// blocks; form 1.
fn joined(log: &str, each: usize) -> String {
    let lines: Vec<&str> = log.lines().collect();
    let number = |line: &str, word: &str| -> u64 {
        let (_, rest) = line.split_once(&format!("{word}=")).expect("a word");
        rest.split(' ').next().unwrap().parse().expect("a number")
    };
    let parts = lines.chunks(each).enumerate();
    let joined = parts.map(|(index, part)| {
        let sum = |word: &str| part.iter().map(|line| number(line, word)).sum::<u64>();
        let last = part.last().expect("a line");
        let (state, position) = (number(last, "state"), number(last, "position"));
        let (block, frames, steps) = (index + 1, sum("frames"), sum("steps"));
        format!("block={block} frames={frames} steps={steps} state={state} position={position}\n")
    });
    joined.collect()
}

#[test]
fn a_creeping_box_is_found_though_its_log_is_cut_otherwise() {
    let room = Room::new("audit-joined");
    let records = evening(400);
    room.put("a.trace", trace(&records));
    room.put("good.log", joined(&room.run(&["replay", "a.trace"]).out, 7));
    let ran = room.run(&["audit", "a.trace", "good.log"]);
    ran.says("AGREES: good.log says what the rule gives for a.trace, at all 58 frames where a block of the one and a line of the other end together (400 blocks, 58 lines, 8.5 s)\n");
    room.put("creeping.log", joined(&creeping(&records), 7));
    let ran = room.run(&["audit", "a.trace", "creeping.log"]);
    assert_eq!((ran.status, &*ran.err), (1, ""));
    let expected = "DIFFERS: creeping.log: the loop creeps: 2.6 s later after an hour; first at block 1, 0.15 s into the evening";
    assert_eq!(ran.out.lines().next(), Some(expected));
    let rows = csv(&room.run(&["audit", "--csv", "a.trace", "creeping.log"]).out);
    assert_eq!(rows.len(), 58);
    assert_eq!(
        (cell(&rows[1], "block"), cell(&rows[1], "line")),
        ("14", "2")
    );
    assert_eq!(cell(&rows[57], "creep"), "271");
}

#[test]
fn a_log_that_cannot_be_aligned_says_nothing_of_the_box() {
    let room = Room::new("audit-unaligned");
    room.put("a.trace", looped());
    // Blocks of the trace end at frames 5, 9, 12, 14 and 15.
    room.put("other.log", "block=1 frames=4 steps=9 state=3 position=1\nblock=2 frames=7 steps=1 state=0 position=1\n");
    let ran = room.run(&["audit", "a.trace", "other.log"]);
    assert_eq!((ran.status, &*ran.err), (3, ""));
    assert_eq!(
        ran.out,
        "UNKNOWN: a.trace and other.log: the log cannot be aligned with the trace: no frame ends a line of the one and a block of the other: nothing is said of the box\n"
    );
}

#[test]
fn what_differs_is_told() {
    let room = Room::new("audit-differs");
    room.put("a.trace", looped());
    let log = room.run(&["replay", "a.trace"]).out;
    let third = room.run(&["replay", "--log", "3", "a.trace"]).out;
    let cases = [
        (
            log.replace("block=4 refused=10", "block=4 refused=12"),
            "what was refused differs, first at block 4, 12.0 s into the evening",
            "  the box   block=4 refused=12",
        ),
        (
            log.replace("frames=1 steps=1 state=0 position=4", "refused=1"),
            "what was refused differs, first at block 6, 15.0 s into the evening",
            "  the box   block=6 refused=1",
        ),
        (
            log.replace("state=0 position=5", "state=0 position=4"),
            "the position in the sound differs, first at block 3, 12.0 s into the evening",
            "  the box   block=3 frames=3 steps=3 state=playing position=4",
        ),
        (
            log.replace("frames=2 steps=2 state=0", "frames=2 steps=2 state=2"),
            "the state differs, first at block 5, 14.0 s into the evening",
            "  the box   block=5 frames=2 steps=2 state=paused position=2",
        ),
        (
            third.replace("lowest=4 forward=2", "lowest=3 forward=2"),
            "the lowest window count differs, first at block 2, 9.0 s into the evening",
            "  the rule  block=2 frames=4 steps=4 state=playing position=4 lowest=4 forward=2 backward=0 started=1 played=4 paused=0 silent=0 still=0 loop_start=2 loop_end=6 direction=0 steps_back=0 ended=0",
        ),
        (
            third.replace("forward=3", "forward=4"),
            "the number of wraps differs, first at block 5, 14.0 s into the evening",
            "  the box   block=5 frames=2 steps=2 state=playing position=2 lowest=4 forward=4 backward=0 started=1 played=2 paused=0 silent=0 still=0 loop_start=2 loop_end=6 direction=0 steps_back=0 ended=0",
        ),
        (
            third.replace("played=4 paused=0", "played=3 paused=1"),
            "what the frames were spent on differs, first at block 2, 9.0 s into the evening",
            "  the box   block=2 frames=4 steps=4 state=playing position=4 lowest=4 forward=2 backward=0 started=1 played=3 paused=1 silent=0 still=0 loop_start=2 loop_end=6 direction=0 steps_back=0 ended=0",
        ),
    ];
    for (said, sentence, line) in cases {
        room.put("said.log", &said);
        let ran = room.run(&["audit", "--html", "page.html", "a.trace", "said.log"]);
        assert_eq!((ran.status, &*ran.err), (1, ""), "{said}");
        let expected = format!("DIFFERS: said.log: {sentence}");
        assert_eq!(ran.out.lines().next(), Some(&*expected));
        assert!(
            ran.out.lines().any(|held| held == line),
            "{line} in {}",
            ran.out
        );
        let plain = expected.replace("DIFFERS: ", "");
        assert!(room.read("page.html").contains(&plain), "{plain}");
    }
    // The host counts what it asked of the voice, and no trace contains a call refused with 9.
    for said in [
        third.replace("seeks=1", "seeks=2"),
        log.replace("block=6", "block=7")
            .replace("block=5", "block=5 refused=9\nblock=6"),
    ] {
        room.put("said.log", said);
        let ran = room.run(&["audit", "a.trace", "said.log"]);
        assert_eq!(ran.status, 0, "{}", ran.out);
    }
}

#[test]
fn a_log_that_ends_early_is_no_fault_of_the_box() {
    let room = Room::new("audit-early");
    room.put("a.trace", looped());
    let log = room.run(&["replay", "a.trace"]).out;
    let until = |lines: usize| {
        log.lines()
            .take(lines)
            .map(|line| format!("{line}\n"))
            .collect::<String>()
    };
    for (said, why, after, time) in [
        (until(5), "the log ends before the trace does", 5, "14.0"),
        (
            log.trim_end().into(),
            "the log was cut short: line 6 (byte 195) breaks off",
            5,
            "14.0",
        ),
        (
            format!("{log}block=7 frames=1 steps=1 state=0 position=5\n"),
            "the trace ends before the log does",
            6,
            "15.0",
        ),
        (
            format!("{}what is this\n", until(2)),
            "said.log: line 3 (byte 88): column 1: 'block=' must stand here",
            2,
            "9.0",
        ),
    ] {
        room.put("said.log", said);
        let ran = room.run(&["audit", "a.trace", "said.log"]);
        assert_eq!((ran.status, &*ran.err), (3, ""));
        assert_eq!(
            ran.out,
            format!(
                "UNKNOWN: a.trace and said.log: {why}: nothing is said of the box after block {after}; what was compared agrees, block by block: {after} blocks, {time} s\n"
            )
        );
    }
}

#[test]
fn a_damaged_trace_is_not_the_box_s_fault() {
    let room = Room::new("audit-damaged");
    let whole = looped();
    room.put("a.trace", &whole);
    let log = room.run(&["replay", "a.trace"]).out;
    room.put("live.log", &log);
    // Cut at every byte: never a difference, and agreement only if a record ends there.
    let (mut agreed, mut unknown) = (0, 0);
    for length in 0..whole.len() {
        room.put("cut.trace", &whole[..length]);
        let ran = room.run(&["audit", "cut.trace", "live.log"]);
        assert_eq!((ran.status, &*ran.err), (3, ""), "{length}: {}", ran.out);
        match ran.out.contains("the trace is damaged at byte ") {
            true => unknown += 1,
            false => agreed += 1,
        }
    }
    assert_eq!((agreed, unknown), (10, whole.len() - 10), "ten records");
    // The last block's record is damaged in its mark.
    let mut broken = whole.clone();
    let at = whole.len() - 42;
    broken[at] = 0;
    room.put("a.trace", &broken);
    room.put("replayed.log", room.run(&["replay", "a.trace"]).out);
    for name in ["live.log", "replayed.log"] {
        let ran = room.run(&["audit", "--html", "page.html", "a.trace", name]);
        assert_eq!((ran.status, &*ran.err), (3, ""));
        let expected = format!(
            "a.trace and {name}: the trace is damaged at byte {at}, a hole of 42 bytes: nothing is said of the box after block 5, not even behind the hole: a log of form 1 does not say where a voice was created; what was compared agrees, block by block: 5 blocks, 14.0 s"
        );
        assert_eq!(ran.out, format!("UNKNOWN: {expected}\n"));
        assert!(room.read("page.html").contains("class=\"lede bad\""));
    }
    // A difference before the damage is reported all the same.
    room.put(
        "live.log",
        log.replace("state=0 position=5", "state=0 position=4"),
    );
    let ran = room.run(&["audit", "a.trace", "live.log"]);
    assert_eq!((ran.status, &*ran.err), (1, ""));
    assert!(
        ran.out
            .starts_with("DIFFERS: live.log: the position in the sound differs, first at block 3")
    );
    assert!(
        ran.out
            .contains(&format!("  the trace is damaged at byte {at}")),
        "{}",
        ran.out
    );
}

/// Two students' evenings in one trace, of three blocks each.
fn two_students() -> (Vec<u8>, Vec<usize>) {
    let block = Record::Block(Block::new(100, 1.0 / 48_000.0));
    let voice = creation(Settings::new(44_100).loop_region(Frames(0)..Frames(64)), 64);
    let records = [voice, block, block, block, voice, block, block, block];
    let mut starts = vec![0];
    let mut bytes = Vec::new();
    for record in records {
        bytes.extend(trace(&[record]));
        starts.push(bytes.len());
    }
    (bytes, starts)
}

#[test]
fn behind_a_hole_the_audit_goes_on_only_with_a_new_voice() {
    let room = Room::new("audit-hole");
    let (whole, starts) = two_students();
    room.put("whole.trace", &whole);
    let log = room.run(&["replay", "--log", "3", "whole.trace"]).out;
    room.put("a.log", &log);
    let damaged = |record: usize| {
        let mut bytes = whole.clone();
        bytes[starts[record]] = 0;
        room.put("a.trace", bytes);
        let ran = room.run(&["audit", "a.trace", "a.log"]);
        assert_eq!(ran.err, "");
        (ran.status, ran.out)
    };
    // The hole is in the second block of the first student. After the hole the second student is compared.
    let at = starts[2];
    let expected = format!(
        "UNKNOWN: a.trace and a.log: the trace is damaged at byte {at}, a hole of 42 bytes: nothing is said of the box after block 1 and before block 4, where a voice is created behind the hole; what was compared agrees, at all 4 frames where a block of the one and a line of the other end together (4 blocks, 6 lines, 0.0083 s)\n"
    );
    assert_eq!(damaged(2), (3, expected));
    // The hole is in the second student's creation. No voice is created after it.
    let (at, length) = (starts[4], starts[5] - starts[4]);
    let expected = format!(
        "UNKNOWN: a.trace and a.log: the trace is damaged at byte {at}, a hole of {length} bytes: nothing is said of the box after block 3, not even behind the hole: the trace creates no voice behind it; what was compared agrees, block by block: 3 blocks, 0.0063 s\n"
    );
    assert_eq!(damaged(4), (3, expected));
    // A box that is wrong after the hole is found.
    let last = log.lines().last().unwrap();
    room.put(
        "a.log",
        log.replace(last, &last.replace("steps=92", "steps=91")),
    );
    let (status, out) = damaged(2);
    assert_eq!(status, 1, "{out}");
    assert!(
        out.contains("creeps") && out.contains("first at block 6"),
        "{out}"
    );
    // A log that reports more voices than the trace still has cannot be aligned after the hole.
    room.put("a.log", log.replacen("created=0", "created=1", 2));
    let (status, out) = damaged(2);
    assert_eq!(status, 3, "{out}");
    assert!(
        out.contains("another number of voices created behind it"),
        "{out}"
    );
}

#[test]
fn running_off_the_sound_is_compared_by_state_and_position() {
    let room = Room::new("audit-ends");
    // 64 frames at 44,100 a second end within 70 frames. What the rest of the block counts depends on where it is cut.
    let voice = creation(Settings::new(44_100), 64);
    let block = |frames| Record::Block(Block::new(frames, 1.0 / 44_100.0));
    let cut = |frames: &[usize]| {
        let blocks = frames.iter().map(|frames| block(*frames));
        trace(&[voice].into_iter().chain(blocks).collect::<Vec<_>>())
    };
    room.put("whole.trace", cut(&[1_000, 1_000]));
    room.put("parts.trace", cut(&[30, 70, 900, 500, 500]));
    for form in ["1", "3"] {
        let mut steps = Vec::new();
        for name in ["whole", "parts"] {
            let log = room
                .run(&["replay", "--log", form, &format!("{name}.trace")])
                .out;
            steps.push(
                log.split("steps=")
                    .skip(1)
                    .filter_map(|rest| rest.split(' ').next()?.parse::<u64>().ok())
                    .sum::<u64>(),
            );
            room.put(&format!("{name}.log"), log);
        }
        assert_eq!(steps[0] == steps[1], form == "3", "{steps:?}");
        for trace in ["whole.trace", "parts.trace"] {
            for log in ["whole.log", "parts.log"] {
                let ran = room.run(&["audit", trace, log]);
                assert_eq!(
                    (ran.status, &*ran.err),
                    (0, ""),
                    "{trace} {log}: {}",
                    ran.out
                );
            }
        }
        let log = room.read("parts.log").replace("position=64", "position=63");
        room.put("wrong.log", log);
        assert_eq!(room.run(&["audit", "whole.trace", "wrong.log"]).status, 1);
    }
}
