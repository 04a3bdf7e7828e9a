//! `cableowl explain` and `cableowl replay --summary`: people see states by name and times in seconds.

use cableowl::{
    Commands, PlaybackState, Refusal, Settings,
    trace::{Block, Record},
};

use crate::room::{Room, creation, looped, trace};

#[test]
fn every_refusal_is_explained_by_the_library_s_sentence() {
    let room = Room::new("explain");
    let all = room.run(&["explain"]);
    assert_eq!((all.status, &*all.err), (0, ""));
    let mut explained = String::new();
    let texts = (1..100).filter_map(|number| Some((number, Refusal::text(number)?)));
    for (number, means) in texts {
        let one = room.run(&["explain", &format!("refused={number}")]);
        assert_eq!((one.status, &*one.err), (0, ""), "{number}");
        let begins = format!("refusal {number}: ");
        assert!(one.out.starts_with(&begins), "{}", one.out);
        assert!(
            one.out.contains(&format!("\n  means       {means}\n")),
            "{}",
            one.out
        );
        assert!(one.out.contains("\n  what to do  "), "{}", one.out);
        explained += &one.out;
        explained += "\n";
    }
    for state in PlaybackState::ALL {
        let number = state.number();
        let by_number = room.run(&["explain", &format!("state={number}")]);
        let by_name = room.run(&["explain", &format!("{state:?}")]);
        assert_eq!(by_number, by_name);
        assert!(
            by_name.out.starts_with(&format!("state {number}: ")),
            "{}",
            by_name.out
        );
        explained += &by_name.out;
        explained += "\n";
    }
    assert_eq!(all.out, explained.trim_end().to_owned() + "\n");
    // A bare number may mean either.
    let both = room.run(&["explain", "2"]).out;
    assert!(
        both.contains("refusal 2: ") && both.contains("state 2: paused"),
        "{both}"
    );
    room.run(&["explain", "30"]).is_no_use(
        "WORD must be a refusal's number (1 to 29), a state's (0 to 6), or a state's name, and not '30'",
        "explain",
    );
}

#[test]
fn a_summary_says_what_happened_and_when() {
    let room = Room::new("summary");
    room.run_on(&["replay", "--summary", "-"], &looped()).says(
        "    0:00.000  a voice is created over 10 frames (10.000 s), a loop from 2.000 s to 6.000 s\n\
         \x20   0:00.000  playing, at frame 4 (4.000 s)\n\
         \x20   0:09.000  a seek to 2.000 s, now at frame 2 (2.000 s)\n\
         \x20   0:12.000  a step back by 1.000 s, now at frame 4 (4.000 s)\n\
         \x20   0:12.000  block 4 is refused: refusal 10: the time step, the seconds of one output frame, must be finite and above 0\n\
         \x20   0:14.000  a voice is created over 10 frames (10.000 s), a loop from 2.000 s to 6.000 s\n\
         \x20   0:14.000  playing, at frame 4 (4.000 s)\n\
         standard input: 6 blocks, 1 refused, 0:15.000 in all\n",
    );
    room.run(&["replay", "--summary", "-"])
        .says("standard input: 0 blocks, 0:00.000 in all\n");
}

#[test]
fn a_summary_has_states_by_name_and_speeds_once() {
    let block = |rate| {
        Record::Block(Block {
            rate,
            finished: true,
            ..Block::new(2, 0.5)
        })
    };
    let records = [
        creation(Settings::new(2), 60),
        block(1.0),
        // A slow change is printed when it is over.
        block(0.9),
        block(0.8),
        block(0.7),
        block(0.7),
        Record::Commands(Commands::new().pause()),
        block(0.7),
        Record::Commands(Commands::new().resume_waiting().seek_by(f64::NAN)),
        Record::Commands(Commands::new().resume_waiting()),
        block(0.7),
        Record::Commands(Commands::new().stop().set_playback_rate(-1.0)),
        block(0.7),
        creation(Settings::new(0), 60),
        Record::Commands(Commands::new().pause()),
        block(1.0),
        block(1.0),
    ];
    let room = Room::new("summary-states");
    let ran = room.run_on(&["replay", "--summary", "-"], &trace(&records));
    assert_eq!((ran.status, &*ran.err), (0, ""));
    let says: Vec<&str> = ran.out.lines().map(|line| line.trim_start()).collect();
    assert_eq!(
        says,
        [
            "0:00.000  a voice is created over 60 frames (30.000 s)",
            "0:00.000  playing, at frame 5 (2.500 s)",
            "0:03.000  at speed 0.7",
            "0:05.000  pause",
            "0:05.000  paused, at frame 11 (5.500 s)",
            "0:06.000  a command is refused: refusal 8: a seek must be a finite number of seconds and go to a frame below 4,294,967,296",
            "0:06.000  resume when the host says so",
            "0:06.000  waiting to resume, at frame 11 (5.500 s)",
            "0:07.000  turned backward, stop",
            "0:07.000  stopped, at frame 11 (5.500 s)",
            "0:08.000  no voice is created: refusal 2: the sample rate must be from 1 to 768,000",
            "0:08.000  a command without a voice: it does nothing",
            "0:08.000  blocks 9 to 10 are refused: refusal 1: the state is not well formed or belongs to another sound: pass the samples it was created with, or create the sound anew",
            "standard input: 10 blocks, 2 refused, 0:08.000 in all",
        ]
    );
}
