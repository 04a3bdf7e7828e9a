//! `cableowl loops`: what docs/guide/TOOLS.md does not show.

use std::fs;

use cableowl::{Hall, Refusal, SharedLoops};

use crate::room::Room;

/// A folder for the test with folders of loops over a sound of 100 frames.
fn room(name: &str, folders: &[&str]) -> Room {
    let room = Room::new(name);
    for folder in folders {
        fs::create_dir(room.0.join(folder)).unwrap();
    }
    room
}

fn at(room: &Room, folder: &str, hall: Hall, num_frames: u64) -> SharedLoops {
    SharedLoops::open(room.0.join(folder), hall, num_frames, &[]).unwrap()
}

#[test]
fn words_that_mean_nothing() {
    let room = room("loops-words", &["loops"]);
    let set = |words: &str| {
        let words: Vec<&str> = words.split(' ').collect();
        room.run(&[&["loops", "set"], &words[..]].concat())
    };
    set("loops 0 1f 2f").is_no_use("loops set needs --hall A or --hall B", "loops set");
    set("--hall A loops 0 1f 2f").is_no_use(
        "loops: has no loops yet: give the sound's frames with --frames",
        "loops set",
    );
    set("--hall A loops 16 1f 2f").is_no_use(
        "SLOT must be a whole number from 0 to 15, and not '16'",
        "loops set",
    );
    let long = "x".repeat(65);
    set(&format!("--hall A --name {long} loops 0 1f 2f")).is_no_use(
        &format!("--name must be a name of at most 64 bytes of UTF-8, and not '{long}'"),
        "loops set",
    );
    assert_eq!(fs::read_dir(room.0.join("loops")).unwrap().count(), 0);
}

#[test]
fn a_loop_past_the_sound_changes_nothing() {
    let room = room("loops-past", &["loops"]);
    at(&room, "loops", Hall::A, 100)
        .write(0, 1..5, "kept")
        .unwrap();
    let before = fs::read(room.0.join("loops/hall-a.loops")).unwrap();
    room.run(&["loops", "set", "--hall", "A", "loops", "0", "1f", "101f"])
        .refuses(&Refusal::LoopRegion.to_string());
    assert_eq!(fs::read(room.0.join("loops/hall-a.loops")).unwrap(), before);
    // Another frame count than the file's means another sound.
    room.run(&[
        "loops", "clear", "--hall", "A", "--frames", "99", "loops", "0",
    ])
    .refuses(&format!("loops/hall-a.loops: {}", Refusal::OtherFrames));
}

#[test]
fn copies_that_disagree_are_named() {
    let room = room("loops-merge", &["one", "two", "none"]);
    at(&room, "one", Hall::A, 100)
        .write(0, 1..5, "one")
        .unwrap();
    let merge = || room.run(&["loops", "merge", "none", "one", "two"]);
    assert_eq!(
        merge().out.lines().next(),
        Some("hall A    1 change, from one")
    );
    at(&room, "two", Hall::A, 100)
        .write(0, 1..6, "two")
        .unwrap();
    merge().refuses(&format!("hall A in one and in two: {}", Refusal::TwoHalves));
    at(&room, "two", Hall::A, 100).clear(7).unwrap();
    let said = merge();
    let first = "hall A    2 changes, from two; older: one has 1";
    assert_eq!((said.status, said.out.lines().next()), (0, Some(first)));
    at(&room, "none", Hall::B, 99).clear(8).unwrap();
    merge().refuses(&format!("hall A and hall B: {}", Refusal::OtherFrames));
}

#[test]
fn a_folder_without_loops() {
    let room = room("loops-none", &["loops"]);
    room.run(&["loops", "show", "loops"]).says(
        "hall A    no file\n\
         hall B    no file\n\
         seconds   at 48,000 frames a second; --rate HZ gives another\n\
         no slot holds a loop\n",
    );
}
