//! What five users ran into, by the numbers of docs/assurance/FINDINGS.md. These tests use only what the command and
//! the library's traces already had then, so that the same file fails on the version in which the users found it
//! (`tools/findings`). The library's findings are in host/cableowl/tests/findings.

use cableowl::{
    PlaybackState, Player, SavedSettings, Settings, SettingsVersion, Tween,
    trace::{Block, LOG_HEAD, Log, Record},
};

use crate::{
    audit::{creeping, evening},
    report::{cell, csv},
    room::{Ran, Room, creation, looped, three, trace},
};

/// A log of form 2 of one block, with two seeks and a restart.
const SECOND: &str = "log=2\nblock=1 frames=6 steps=6 state=6 position=3 lowest=0 forward=0 backward=0 started=1 created=1 seeks=2 restarts=1\n";

/// One of form 1.
const FIRST: &str = "block=1 frames=6 steps=6 state=6 position=3\n";

/// A box's log of one evening, with a pause or a resume every 4,096 frames and one line for each callback of this many
/// frames.
fn paused_and_resumed(callback: usize) -> String {
    let sound: Vec<f32> = (0..2_000).map(|i| i as f32 / 2_000.0).collect();
    let looped = Settings::new(1_000).loop_region(..);
    let mut player = Player::play(looped, 4_000, &sound).unwrap();
    let (mut log, mut number) = (Log::new(), 0_u64);
    log.created();
    let mut text = format!("{LOG_HEAD}\n");
    let mut out = vec![0.0; 2 * callback];
    for time in 0..20 {
        for _ in 0..4_096 / callback {
            let answer = player.process(&sound, &mut out);
            number += 1;
            let line = log.block(callback, Some(player.voice()), answer);
            text += &format!("{line}\n");
        }
        let fade = Tween::from_millis(250);
        match time % 2 {
            0 => player.pause(fade),
            _ => player.resume(fade),
        }
    }
    assert_eq!(number, 20 * 4_096 / callback as u64);
    text
}

#[test]
fn finding_2_minutes_do_not_depend_on_block_size() {
    let room = Room::new("finding-2");
    let minutes = [64, 512, 4_096].map(|callback| {
        let log = paused_and_resumed(callback);
        let ran = room.run_on(&["report", "--csv", "--rate", "4000", "-"], log.as_bytes());
        assert_eq!((ran.status, &*ran.err), (0, ""));
        let row = csv(&ran.out).remove(0);
        ["minutes_played", "minutes_paused", "minutes_silent"]
            .map(|column| cell(&row, column).to_owned())
    });
    assert_eq!(minutes[0], minutes[1], "callbacks of 64 and of 512");
    assert_eq!(minutes[0], minutes[2], "callbacks of 64 and of 4,096");
    // Ten pauses of 4,096 frames, each from the end of its fade of 1,000 frames.
    assert_eq!(minutes[0][1], "0.129");
}

/// The trace of a looped voice and of blocks of these lengths.
fn blocks(lengths: &[usize]) -> Vec<u8> {
    let mut bytes = trace(&[creation(Settings::new(44_100).loop_region(..), 64)]);
    for frames in lengths {
        bytes.extend(trace(&[Record::Block(Block::new(*frames, 1.0 / 48_000.0))]));
    }
    bytes
}

/// Audits a trace against this log.
fn audited(room: &Room, trace: &[u8], log: &str) -> Ran {
    room.put("a.trace", trace);
    room.put("a.log", log);
    room.run(&["audit", "a.trace", "a.log"])
}

fn replayed(room: &Room, trace: &[u8]) -> String {
    room.run_on(&["replay", "-"], trace).out
}

#[test]
fn finding_3_a_log_cut_otherwise_than_its_trace_agrees() {
    let room = Room::new("finding-3-cut");
    let recorded = blocks(&[512; 8]);
    let log = replayed(&room, &blocks(&[1_024; 4]));
    let ran = audited(&room, &recorded, &log);
    assert_eq!((ran.status, &*ran.err), (0, ""), "{}", ran.out);
    assert!(ran.out.starts_with("AGREES: "), "{}", ran.out);
}

#[test]
fn finding_3_a_log_that_cannot_be_aligned_says_nothing_of_the_box() {
    let room = Room::new("finding-3-aligned");
    let recorded = blocks(&[500, 500]);
    let log = replayed(&room, &blocks(&[300, 300]));
    let ran = audited(&room, &recorded, &log);
    assert_eq!((ran.status, &*ran.err), (3, ""), "{}", ran.out);
    assert!(ran.out.contains("nothing is said of the box"));
}

#[test]
fn finding_3_a_trace_that_breaks_off_is_not_the_box_s_fault() {
    let room = Room::new("finding-3-cut-short");
    let whole = looped();
    let log = replayed(&room, &whole);
    let ran = audited(&room, &whole[..whole.len() - 1], &log);
    assert_eq!(ran.status, 3, "{}", ran.out);
    assert!(
        ran.out.contains("the trace is damaged at byte ")
            && ran.out.contains("nothing is said of the box after block 5"),
        "{}",
        ran.out
    );
}

#[test]
fn finding_3_a_block_in_which_the_sound_ends_is_compared_by_state_and_position() {
    let room = Room::new("finding-3-ends");
    let block = |frames| Record::Block(Block::new(frames, 1.0 / 44_100.0));
    let voice = creation(Settings::new(44_100), 64);
    let recorded = trace(&[voice, block(1_000), block(1_000)]);
    let parts = trace(&[voice, block(30), block(70), block(900), block(1_000)]);
    let log = replayed(&room, &parts);
    let ran = audited(&room, &recorded, &log);
    assert_eq!((ran.status, &*ran.err), (0, ""), "{}", ran.out);
    let wrong = log.replace("position=64", "position=63");
    assert_eq!(audited(&room, &recorded, &wrong).status, 1);
}

#[test]
fn finding_3_the_audit_names_the_hole_and_goes_on_behind_a_creation() {
    let room = Room::new("finding-3-hole");
    let mut recorded = [blocks(&[100; 3]), blocks(&[100; 3])].concat();
    let log = room.run_on(&["replay", "--log", "3", "-"], &recorded).out;
    // The second block of the first student.
    let at = blocks(&[100]).len();
    recorded[at] = 0;
    let ran = audited(&room, &recorded, &log);
    assert_eq!((ran.status, &*ran.err), (3, ""), "{}", ran.out);
    let hole = format!("the trace is damaged at byte {at}, a hole of 42 bytes");
    assert!(
        ran.out.contains(&hole)
            && ran.out.contains("after block 1 and before block 4")
            && ran.out.contains("what was compared agrees"),
        "{}",
        ran.out
    );
    // Without the second student nothing is compared after the hole.
    let mut recorded = blocks(&[100; 3]);
    let log = room.run_on(&["replay", "--log", "3", "-"], &recorded).out;
    recorded[at] = 0;
    let ran = audited(&room, &recorded, &log);
    assert_eq!(ran.status, 3);
    assert!(
        ran.out.contains("the trace creates no voice behind it"),
        "{}",
        ran.out
    );
}

#[test]
fn finding_4_nothing_compared_is_not_agreement() {
    let room = Room::new("finding-4");
    let ran = audited(&room, b"", "");
    assert_eq!((ran.status, &*ran.err), (3, ""), "{}", ran.out);
    assert!(!ran.out.contains("AGREES"), "{}", ran.out);
    assert_eq!(ran.out.lines().count(), 1);
}

/// What `settings show` prints of settings with this rate.
fn shown(room: &Room, reverse: bool, playback_rate: f64, pitch: i8) -> String {
    let settings = SavedSettings {
        reverse,
        playback_rate,
        pitch,
        ..SavedSettings::default()
    };
    let mut record = vec![0; SettingsVersion::Second.size()];
    settings
        .store(SettingsVersion::Second, &mut record)
        .unwrap();
    let ran = room.run_on(&["settings", "show", "-"], &record);
    assert_eq!((ran.status, &*ran.err), (0, ""));
    ran.out
}

#[test]
fn finding_5_reverse_with_a_negative_rate_is_shown_as_forward() {
    let room = Room::new("finding-5");
    for (reverse, rate, way) in [
        (true, -1.5, "forward"),
        (true, 1.5, "backward"),
        (false, -1.5, "backward"),
        (false, 1.5, "forward"),
    ] {
        let shown = shown(&room, reverse, rate, 0);
        let line = format!("direction           {way}");
        assert!(shown.contains(&line), "{reverse} {rate}: {shown}");
    }
}

#[test]
fn finding_5_an_infinite_rate_is_shown_as_refused() {
    let room = Room::new("finding-5-infinite");
    let shown = shown(&room, false, f64::MAX, 12);
    assert!(shown.contains("refuses it (refusal 7: "), "{shown}");
}

#[test]
fn finding_6_one_log_of_form_1_does_not_empty_the_totals() {
    let room = Room::new("finding-6");
    let logs = ["a", "b", "c", "d"];
    for name in logs {
        room.put(name, if name == "c" { FIRST } else { SECOND });
    }
    let csv = csv(&room.run(&[&["report", "--csv"], &logs[..]].concat()).out);
    let row = |name: &str| csv.iter().find(|row| cell(row, "name") == name).unwrap();
    let said = |name: &str| ["seeks", "restarts", "rounds"].map(|column| cell(row(name), column));
    assert_eq!(said("total"), ["6", "3", "0"]);
    assert_eq!(said("median"), ["2", "1", "0"]);
    let words = room.run(&[&["report"], &logs[..]].concat()).out;
    assert!(words.contains("over 3 of 4 logs"), "{words}");
}

#[test]
fn finding_7_a_log_that_a_power_loss_cut_is_reported_up_to_its_last_line() {
    let room = Room::new("finding-7");
    let cut = format!("{FIRST}block=2 frames=6 st");
    let ran = room.run_on(&["report", "--csv", "-"], cut.as_bytes());
    assert_eq!(ran.status, 0, "{}", ran.err);
    assert_eq!(cell(&csv(&ran.out)[0], "blocks"), "1");
    assert_eq!(ran.err.lines().count(), 1);
    assert!(ran.err.contains(": line 2 "), "{}", ran.err);
}

#[test]
fn finding_10_report_reads_a_trace() {
    let room = Room::new("finding-10-trace");
    room.put("evening.trace", looped());
    let ran = room.run(&["report", "evening.trace"]);
    assert_eq!((ran.status, &*ran.err), (0, ""));
    assert!(ran.out.starts_with("evening.trace: a trace"), "{}", ran.out);
    assert!(ran.out.contains("\n  blocks               6\n"));
}

#[test]
fn finding_10_swapped_files_are_named() {
    let room = Room::new("finding-10-swapped");
    room.put("a.trace", looped());
    room.put("a.log", replayed(&room, &looped()));
    let ran = room.run(&["audit", "a.log", "a.trace"]);
    assert_eq!((ran.status, &*ran.out), (2, ""));
    assert!(ran.err.contains("the two files are swapped"), "{}", ran.err);
}

#[test]
fn finding_10_help_of_replay_is_replay_s() {
    let room = Room::new("finding-10-help");
    let help = room.run(&["help", "replay"]);
    assert_eq!((help.status, &*help.err), (0, ""));
    assert!(help.out.starts_with("cableowl replay "), "{}", help.out);
    assert_ne!(help.out, room.run(&["help"]).out);
}

#[test]
fn finding_13_the_audit_speaks_of_seconds_and_of_a_likely_cause() {
    let room = Room::new("finding-13");
    let records = evening(400);
    let ran = audited(&room, &trace(&records), &creeping(&records));
    assert_eq!((ran.status, &*ran.err), (1, ""));
    for part in [
        "the loop creeps: 2.6 s later after an hour",
        "first at block 2, 0.04 s into the evening",
        "a player that clears its fraction at block edges does this",
        "state=playing",
    ] {
        assert!(ran.out.contains(part), "{part} in {}", ran.out);
    }
    assert!(!ran.out.contains("proves"), "{}", ran.out);
    let healthy = replayed(&room, &trace(&records));
    let ran = audited(&room, &trace(&records), &healthy);
    assert!(
        ran.out.contains("8.5 s") && !ran.out.contains("proves"),
        "{}",
        ran.out
    );
}

#[test]
fn finding_14_explain_says_what_a_number_means_and_what_to_do() {
    let room = Room::new("finding-14-explain");
    for (word, begins) in [
        ("12", "refusal 12: "),
        ("refused=12", "refusal 12: "),
        ("state=6", "state 6: stopped"),
        ("stopped", "state 6: stopped"),
    ] {
        let ran = room.run(&["explain", word]);
        assert_eq!((ran.status, &*ran.err), (0, ""));
        assert!(ran.out.starts_with(begins), "{}", ran.out);
        for part in ["\n  means       ", "\n  what to do  "] {
            assert!(ran.out.contains(part), "{}", ran.out);
        }
    }
}

#[test]
fn finding_14_a_summary_has_states_by_name_and_lines_have_numbers() {
    let room = Room::new("finding-14-summary");
    let ran = room.run_on(&["replay", "--summary", "-"], &three());
    assert_eq!((ran.status, &*ran.err), (0, ""));
    assert!(
        ran.out.contains("stopped, at frame 3 (3.000 s)") && !ran.out.contains("state="),
        "{}",
        ran.out
    );
    let stopped = format!(" state={} ", PlaybackState::Stopped.number());
    assert!(replayed(&room, &three()).contains(&stopped));
}

#[test]
fn finding_14_settings_are_saved_in_seconds_and_shown_in_both() {
    let room = Room::new("finding-14-save");
    let ran = room.run(&[
        "settings",
        "save",
        "--loop",
        "6.2s..10.9s",
        "--rate",
        "44100",
        "a",
    ]);
    assert_eq!((ran.status, &*ran.err), (0, ""));
    let ran = room.run(&["settings", "show", "--rate", "44100", "a"]);
    let line = "from frame 273,420 (6.200 s) up to frame 480,690 (10.900 s), 207,270 frames (4.700 s) long";
    assert!(ran.out.contains(line), "{}", ran.out);
}

/// The report's page of these files.
fn page(room: &Room, files: &[&str]) -> (String, Ran) {
    let words = ["report", "--rate", "1", "--html", "page.html"];
    let ran = room.run(&[&words[..], files].concat());
    assert_eq!(ran.status, 0, "{}", ran.err);
    (room.read("page.html"), ran)
}

/// The number after this word.
fn number(text: &str, word: &str) -> Option<f64> {
    let (_, rest) = text.split_once(word)?;
    let digits = rest.split(|letter: char| !letter.is_ascii_digit()).next()?;
    digits.parse().ok()
}

#[test]
fn finding_15_no_text_of_a_plot_is_under_11_px_at_500_px() {
    let room = Room::new("finding-15-sizes");
    room.put("a.log", replayed(&room, &looped()));
    let (page, _) = page(&room, &["a.log"]);
    // The page's width of 500 px minus 1.25 rem, 20 px, on each side; a drawing has this width.
    let drawn = number(&page, "viewBox=\"0 0 ").expect("a drawing");
    let scale = (500.0 - 2.0 * 20.0) / drawn;
    let mut size = number(&page, "svg text{font:").expect("its text");
    for rules in page.split("@media (max-width:").skip(1) {
        let width = number(&format!("={rules}"), "=").expect("a width");
        let rules = rules.split("}}").next().unwrap_or_default();
        if let (true, Some(narrow)) = (width >= 500.0, number(rules, "svg text{font-size:")) {
            size = narrow;
        }
    }
    let size = scale * size;
    assert!(size >= 11.0, "{size:.1} px");
}

#[test]
fn finding_15_the_page_is_dark_where_the_reader_s_screen_is() {
    let room = Room::new("finding-15-dark");
    room.put("a.log", FIRST);
    let (page, _) = page(&room, &["a.log"]);
    assert!(page.contains("prefers-color-scheme:dark"));
}

#[test]
fn finding_15_links_lead_to_each_evening() {
    let room = Room::new("finding-15-links");
    room.put("a.log", FIRST);
    room.put("b.log", replayed(&room, &looped()));
    let (page, _) = page(&room, &["a.log", "b.log"]);
    let links = page.split("<a href=\"#").skip(1);
    let links: Vec<&str> = links.filter_map(|link| link.split('"').next()).collect();
    assert!(links.len() >= 2, "{links:?}");
    for link in links {
        assert!(page.contains(&format!("id=\"{link}\"")), "{link}");
    }
}

#[test]
fn finding_15_places_are_drawn_in_seconds() {
    let room = Room::new("finding-15-seconds");
    room.put("a.log", replayed(&room, &looped()));
    let (page, _) = page(&room, &["a.log"]);
    assert!(
        page.contains(">4 s</text>"),
        "places in seconds of the sound"
    );
}

#[test]
fn finding_15_one_block_is_not_1_blocks() {
    let room = Room::new("finding-15-plural");
    let ran = audited(&room, &three(), FIRST);
    assert_eq!(ran.status, 0);
    assert!(!ran.out.contains(" 1 blocks"), "{}", ran.out);
    let (page, ran) = page(&room, &["a.log"]);
    for text in [page, ran.out] {
        for wrong in [" 1 blocks", " 1 logs", " 1 frames"] {
            assert!(!text.contains(wrong), "{wrong}");
        }
    }
}

#[test]
fn finding_15_the_same_log_given_twice_is_said() {
    let room = Room::new("finding-15-twice");
    room.put("a.log", FIRST);
    let (page, ran) = page(&room, &["a.log", "./a.log"]);
    assert_eq!(ran.err.lines().count(), 1, "{}", ran.err);
    assert!(ran.err.contains("given twice"), "{}", ran.err);
    assert!(page.contains("given twice"));
}

#[test]
fn finding_18_salvage_without_a_complete_record_writes_an_empty_file() {
    let room = Room::new("finding-18");
    room.put("in", b"\xa5");
    room.run(&["salvage", "in", "out"])
        .says("in: 0 records kept, 1 byte skipped, the first at byte 0; written to out\n");
    assert_eq!(room.read("out"), "");
}
