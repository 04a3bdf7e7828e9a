//! `cableowl salvage`.

use std::{fs, os::unix::fs::symlink};

use crate::room::{Room, looped, three};

#[test]
fn a_good_trace_comes_out_equal() {
    let room = Room::new("salvage-good");
    room.put("in", looped());
    room.run(&["salvage", "in", "out"])
        .says("in: 10 records kept, nothing skipped; written to out\n");
    assert_eq!(fs::read(room.0.join("out")).unwrap(), looped());
    room.run_on(&["salvage", "-", "again"], &looped())
        .says("standard input: 10 records kept, nothing skipped; written to again\n");
    assert_eq!(fs::read(room.0.join("again")).unwrap(), looped());
    assert_eq!(
        room.names(),
        ["again", "in", "out"],
        "no other file is left"
    );
}

#[test]
fn a_damaged_trace_is_mended() {
    let room = Room::new("salvage-damaged");
    let mut broken = three();
    broken[0] = 0;
    broken.extend_from_slice(b"\xa5\x1d\x02");
    room.put("in", &broken);
    room.run(&["salvage", "in", "out"])
        .says("in: 1 record kept, 58 bytes skipped, the first at byte 0; written to out\n");
    assert_eq!(fs::read(room.0.join("out")).unwrap(), &three()[55..]);
    room.run(&["replay", "out"]).says("block=1 refused=1\n");
    assert_eq!(
        fs::read(room.0.join("in")).unwrap(),
        broken,
        "the input stays"
    );
}

#[test]
fn an_empty_trace_and_one_without_records() {
    let room = Room::new("salvage-empty");
    room.put("empty", "");
    room.run(&["salvage", "empty", "out"])
        .says("empty: 0 records kept, nothing skipped; written to out\n");
    assert_eq!(room.read("out"), "");
    room.put("letter", "Dear tutor");
    room.run(&["salvage", "letter", "none"])
        .says("letter: 0 records kept, 10 bytes skipped, the first at byte 0; written to none\n");
    assert_eq!(room.read("none"), "");
    assert_eq!(room.names(), ["empty", "letter", "none", "out"]);
}

#[test]
fn nothing_is_overwritten_whatever_the_name() {
    let room = Room::new("salvage-names");
    room.put("in", three());
    symlink("in", room.0.join("linked")).unwrap();
    symlink("nowhere", room.0.join("dangling")).unwrap();
    fs::hard_link(room.0.join("in"), room.0.join("twin")).unwrap();
    fs::create_dir(room.0.join("folder")).unwrap();
    let whole = room.0.join("in").display().to_string();
    for to in [
        "in",
        "./in",
        "folder/../in",
        "linked",
        "dangling",
        "twin",
        "folder",
        &whole,
    ] {
        room.run(&["salvage", "in", to]).refuses(&format!(
            "{to}: exists already, and nothing is overwritten: name another file"
        ));
    }
    assert_eq!(fs::read(room.0.join("in")).unwrap(), three());
    room.run(&["salvage", "in", "missing/out"])
        .refuses("missing/out: cannot be written: no such file or directory");
    room.run(&["salvage", "in", "in/out"])
        .refuses("in/out: cannot be written: not a directory");
    room.run(&["salvage", "in", ".."])
        .refuses("..: exists already, and nothing is overwritten: name another file");
    let names = ["dangling", "folder", "in", "linked", "twin"];
    assert_eq!(room.names(), names, "no other file is left");
}
