//! Logs: good, empty, damaged, of any bytes.

use std::fs;

use random::Random;

use crate::room::Room;

const FIRST: &str = "block=1 frames=6 steps=6 state=6 position=3\n";
const SECOND: &str = "log=2\nblock=1 frames=6 steps=6 state=6 position=3 lowest=0 forward=0 backward=0 started=1 created=1 seeks=0 restarts=0\n";

const THIRD: &str = "log=3\nblock=1 frames=6 steps=6 state=6 position=3 lowest=0 forward=0 backward=0 started=1 played=4 paused=0 silent=2 still=1 loop_start=0 loop_end=0 direction=0 steps_back=0 ended=1 created=1 seeks=0 restarts=0 pauses=0\n";

#[test]
fn damage_is_told_by_its_line() {
    let room = Room::new("log-damaged");
    let more = " lowest=4 forward=1 backward=0 started=1 created=0 seeks=0 restarts=0\n";
    let cases = [
        (
            "\n".into(),
            "line 1 (byte 0): column 1: 'block=' must stand here",
        ),
        (
            format!("{FIRST}\n"),
            "line 2 (byte 44): column 1: 'block=' must stand here",
        ),
        (
            format!("{FIRST}hello"),
            "line 2 (byte 44): these last bytes begin no line of a log",
        ),
        (
            FIRST.replace('\n', "\r\n"),
            "line 1 (byte 0): column 44: a carriage return: a log's lines end with a line feed alone",
        ),
        (
            format!("{FIRST}{FIRST}"),
            "line 2 (byte 44): block 1 follows block 1: lines are missing or stand twice",
        ),
        (
            "block=7 refused=1\n".into(),
            "line 1 (byte 0): block 7 is the first, and 1 must be: lines are missing",
        ),
        (
            format!("{FIRST}refused=15 at=9\nblock=2 refused=1\n"),
            "line 3 (byte 60): a line after the one where the run ended",
        ),
        (
            "log=4\n".into(),
            "line 1: this form of a log is not known: the forms 1, 2 and 3 are",
        ),
        (
            THIRD.replace("paused=0", "paused=1"),
            "line 2 (byte 6): column 119: played, paused and silent frames are not all frames together",
        ),
        (
            THIRD.replace("still=1", "still=5"),
            "line 2 (byte 6): column 119: more frames at a rate of 0 than were played",
        ),
        (
            THIRD.replace("loop_start=0", "loop_start=3"),
            "line 2 (byte 6): column 143: the loop ends before it starts",
        ),
        (
            THIRD.replace("steps_back=0", "steps_back=7"),
            "line 2 (byte 6): column 167: the number of 'steps_back=' is above 6",
        ),
        (
            SECOND.replace(" seeks=0", ""),
            "line 2 (byte 6): column 94: 'seeks=' must stand here",
        ),
        (
            SECOND.replace("log=2\n", ""),
            "line 1 (byte 0): column 44: the line must end here",
        ),
        (
            format!("{SECOND}block=2 refused=12\n"),
            "line 3 (byte 119): column 19: 'created=' must stand here",
        ),
        (
            format!(
                "log=2\nblock=1 frames=1 steps=1 state=0 position=3{}block=2 frames=1 steps=1 state=0 position=3{more}",
                more.replace("forward=1", "forward=2")
            ),
            "line 3 (byte 119): a count of wraps is lower than before, and no voice was created",
        ),
        (
            "x".repeat(700),
            "line 1 (byte 0): no line of a log has more than 576 bytes: this is no log",
        ),
    ];
    for (log, expected) in cases {
        room.run_on(&["report", "-"], log.as_bytes())
            .refuses(&format!("standard input: {expected}"));
    }
}

#[test]
fn a_log_that_a_power_loss_cut_is_reported_up_to_its_last_whole_line() {
    let room = Room::new("log-cut");
    let two = format!("{FIRST}block=2 frames=6 steps=0 state=6 position=3\n");
    room.put("whole.log", FIRST);
    let whole = room.run(&["report", "--csv", "whole.log"]).out;
    for length in FIRST.len() + 1..two.len() {
        room.put("cut.log", &two[..length]);
        let ran = room.run(&["report", "--csv", "--html", "page.html", "cut.log"]);
        assert_eq!(
            (ran.status, &*ran.err),
            (
                0,
                "cableowl: cut.log: line 2 (byte 44) breaks off, as after a power loss: the lines before it are reported\n"
            ),
            "{length} bytes"
        );
        assert_eq!(ran.out.replace("cut.log", "whole.log"), whole);
        let said = "The log was cut short: line 2 (byte 44) breaks off.";
        assert!(room.read("page.html").contains(said));
    }
    // The first line of all, and the line that names the form.
    for (log, line) in [("blo", 1), ("log=", 1), ("log=3", 1), ("log=3\nb", 2)] {
        let ran = room.run_on(&["report", "-"], log.as_bytes());
        assert_eq!(ran.status, 0);
        assert!(
            ran.err
                .starts_with(&format!("cableowl: standard input: line {line} (byte "))
        );
    }
}

#[test]
fn an_empty_log_is_an_evening_without_blocks() {
    let room = Room::new("log-empty");
    for log in ["", "log=2\n", "log=3\n"] {
        let ran = room.run_on(
            &["report", "--csv", "--html", "page.html", "-"],
            log.as_bytes(),
        );
        assert_eq!((ran.status, &*ran.err), (0, ""));
        assert!(ran.out.contains("\nlog,standard input,"), "{}", ran.out);
        assert!(
            room.read("page.html")
                .contains("No block of this log was played")
        );
    }
}

/// Any bytes, mostly similar to a log: changed, cut, repeated.
fn any(random: &mut Random) -> Vec<u8> {
    let logs = [
        FIRST,
        SECOND,
        THIRD,
        "block=2 refused=12\n",
        "refused=18 at=97\n",
    ];
    let mut bytes = logs[random.below(5)].as_bytes().to_vec();
    for _ in 0..random.below(6) {
        let at = random.below(bytes.len() + 1);
        match random.below(5) {
            0 if at < bytes.len() => bytes[at] = random.word() as u8,
            1 => bytes.truncate(at),
            2 => bytes.insert(at, b"0123456789= \n\r-"[random.below(15)]),
            3 => {
                let part = bytes[at..].to_vec();
                bytes.extend(part);
            }
            _ => {
                bytes.drain(at..bytes.len().min(at + 1 + random.below(9)));
            }
        }
    }
    bytes
}

#[test]
fn any_bytes_are_answered_in_one_sentence() {
    let room = Room::new("log-any");
    let path = room.0.join("any.log");
    let page = room.0.join("page.html");
    let mut random = Random::new(104);
    let (mut good, mut cut, mut refused) = (0, 0, 0);
    for round in 0..8_000 {
        let bytes = any(&mut random);
        fs::write(&path, &bytes).unwrap();
        let mut words = vec!["report".into()];
        if round % 100 == 0 {
            words.extend(["--html".into(), page.clone().into_os_string()]);
        }
        words.push(path.clone().into_os_string());
        let (mut out, mut err) = (Vec::new(), Vec::new());
        let status = command::run(words, &mut out, &mut err);
        let err = String::from_utf8(err).expect("a sentence is text");
        let shown = String::from_utf8_lossy(&bytes);
        match status {
            0 if err.is_empty() => good += 1,
            0 => {
                assert_eq!(err.lines().count(), 1, "{shown:?}: {err}");
                assert!(err.contains(") breaks off"), "{shown:?}: {err}");
                cut += 1;
            }
            _ => {
                assert_eq!(
                    (status, err.lines().count(), out.len()),
                    (1, 1, 0),
                    "{shown:?}: {err}"
                );
                assert!(err.contains(": line "), "{shown:?}: {err}");
                refused += 1;
            }
        }
    }
    assert!(
        good > 500 && cut > 500 && refused > 3_000,
        "{good}, {cut} and {refused}"
    );
    eprintln!(
        "8,000 logs of any bytes: {good} read, {cut} read up to where they break off, {refused} refused in one sentence"
    );
}
