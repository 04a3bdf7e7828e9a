//! The wrong file, or two files in the wrong order: the sentence says what the file is and what
//! reads it.

use cableowl::{SavedSettings, SettingsVersion};

use crate::{
    report::{cell, csv},
    room::{Room, looped, three},
};

fn room(name: &str) -> Room {
    let room = Room::new(name);
    room.put("evening.trace", looped());
    let log = room.run(&["replay", "--log", "3", "evening.trace"]).out;
    room.put("evening.log", log);
    let mut record = [0; 26];
    let saved = SavedSettings::default();
    saved.store(SettingsVersion::Second, &mut record).unwrap();
    room.put("a.settings", record);
    room.run(&["report", "--html", "page.html", "evening.log"]);
    room
}

#[test]
fn the_wrong_file_is_named_with_what_reads_it() {
    let room = room("hints");
    let log = "this is a log, not {}: 'cableowl report evening.log' reads it";
    let trace = "this is a trace, not {}: 'cableowl replay evening.trace' plays it";
    let settings =
        "these are saved settings, not {}: 'cableowl settings show a.settings' shows them";
    let page = "this is a page, not {}: a browser shows it";
    for (words, file, says, wanted) in [
        ("replay evening.log", "evening.log", log, "a trace"),
        (
            "replay --summary evening.log",
            "evening.log",
            log,
            "a trace",
        ),
        ("replay a.settings", "a.settings", settings, "a trace"),
        (
            "settings show evening.log",
            "evening.log",
            log,
            "saved settings",
        ),
        (
            "settings show evening.trace",
            "evening.trace",
            trace,
            "saved settings",
        ),
        (
            "report a.settings",
            "a.settings",
            settings,
            "a log or a trace",
        ),
        ("report page.html", "page.html", page, "a log or a trace"),
    ] {
        let words: Vec<&str> = words.split(' ').collect();
        let says = says.replace("{}", wanted);
        room.run(&words).refuses(&format!("{file}: {says}"));
    }
    let log = room.read("evening.log");
    room.run_on(&["replay", "-"], log.as_bytes())
        .refuses("standard input: this is a log, not a trace: 'cableowl report -' reads it");
}

#[test]
fn audit_names_a_file_of_another_kind() {
    let room = room("hints-audit");
    for (words, sentence) in [
        (
            ["audit", "evening.log", "evening.log"],
            "evening.log: this is a log, not a trace, which audit reads first: 'cableowl report evening.log' reads it",
        ),
        (
            ["audit", "evening.trace", "evening.trace"],
            "evening.trace: this is a trace, not a log, which audit reads second: 'cableowl replay evening.trace' plays it",
        ),
    ] {
        let ran = room.run(&words);
        let message = format!("cableowl: {sentence}: nothing is said of the box\n");
        assert_eq!((ran.status, &*ran.err, &*ran.out), (3, &*message, ""));
    }
}

#[test]
fn audit_says_that_its_files_are_swapped() {
    let room = room("hints-swapped");
    room.run(&["audit", "evening.log", "evening.trace"]).is_no_use(
        "the two files are swapped: evening.log is a log and evening.trace is a trace; say 'cableowl audit evening.trace evening.log'",
        "audit",
    );
}

#[test]
fn report_reads_a_trace_as_its_log() {
    let room = room("hints-report");
    let message = |file: &str| {
        let ran = room.run(&["report", "--csv", "--rate", "1", file]);
        assert_eq!((ran.status, &*ran.err), (0, ""), "{file}");
        csv(&ran.out).remove(0)
    };
    let (trace, log) = (message("evening.trace"), message("evening.log"));
    for (column, value) in &log {
        if column != "name" {
            assert_eq!(cell(&trace, column), value, "{column}");
        }
    }
    let ran = room.run(&["report", "evening.trace"]);
    assert!(
        ran.out
            .starts_with("evening.trace: a trace, read at 48,000 frames a second\n")
    );
    assert!(
        ran.out
            .contains("  steps                15, 15.000 s of the sound\n")
    );
    let ran = room.run(&["report", "--sound-rate", "5", "evening.log"]);
    assert!(
        ran.out
            .contains("  steps                15, 3.000 s of the sound\n")
    );
}

#[test]
fn report_reads_a_damaged_trace_up_to_the_damage() {
    let room = Room::new("hints-damaged");
    let mut bytes = three();
    bytes.push(0xa5);
    let ran = room.run_on(&["report", "-"], &bytes);
    assert_eq!(
        ran.err,
        "cableowl: standard input: the record at byte 97: refusal 18: the bytes end inside the record: give the rest of it, then read again; its figures end there\n"
    );
    assert_eq!(ran.status, 0, "a box that loses power leaves such a trace");
    assert!(ran.out.contains("\n  blocks               1\n"));
    bytes.push(0);
    let ran = room.run_on(&["report", "-"], &bytes);
    assert_eq!(ran.status, 1);
    assert!(ran.out.contains("\n  blocks               1\n"));
}

#[test]
fn the_same_log_given_twice_is_said() {
    let room = room("hints-twice");
    let words = [
        "report",
        "--html",
        "page.html",
        "evening.log",
        "./evening.log",
    ];
    let ran = room.run(&words);
    assert_eq!(
        ran.err,
        "cableowl: ./evening.log: this file is given twice, and counts twice in the totals\n"
    );
    assert_eq!(ran.status, 0);
    let said = "This file was given twice, and counts twice in the totals.";
    assert_eq!(room.read("page.html").matches(said).count(), 1);
}
