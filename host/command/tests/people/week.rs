//! A week of many boxes: `report --by` and `audit FOLDER`.

use std::{collections::BTreeSet, fs, process::Command};

use crate::{
    audit::evening,
    exact,
    report::{cell, csv},
    room::{CABLEOWL, Room, trace},
    students::{CREEPING, Known, RATE, Session, made},
};

/// A log of form 3 with one block and this many restarts.
fn session(restarts: u64, ended: bool) -> String {
    format!(
        "log=3\nblock=1 frames=600 steps=500 state=0 position=9 lowest={} forward=7 backward=0 started=1 played=500 paused=100 silent=0 still=0 loop_start=0 loop_end=64 direction=0 steps_back=0 ended={} created=1 seeks={restarts} restarts={restarts} pauses=1\n",
        if ended { 1 } else { 4 },
        u8::from(ended)
    )
}

#[test]
fn two_to_nine_in_a_hundred_is_seen_as_a_change() {
    let room = Room::new("week-report");
    fs::create_dir(room.0.join("logs")).unwrap();
    for (day, restarted) in [("2026-11-09", 2), ("2026-11-16", 9)] {
        for index in 0..100 {
            let restarts = u64::from(index < restarted) * 3;
            let name = format!("logs/box{index:02}_{day}.log");
            room.put(&name, session(restarts, index % 4 == 0));
        }
    }
    let ran = room.run(&["report", "--by", "week", "--rate", "10", "logs"]);
    ran.says(
        "200 sessions by week, read at 10 frames a second; shares in percent, with a 95 percent interval\n\
         week      sessions  minutes  played  restarted   95 percent  reached the end  with a tail  wraps a minute  seeks  pauses  refused\n\
         2026-W46       100  100.000  83.333        2.0   0.6 to 7.0             25.0         25.0            8.40      6     100        0\n\
         2026-W47       100  100.000  83.333        9.0  4.8 to 16.2             25.0         25.0            8.40     27     100        0\n\
         from 2026-W46 to 2026-W47: +7.0 restarted of 100 sessions, 95 percent 0.5 to 14.4: a change\n",
    );
    let rows = csv(&room.run(&["report", "--csv", "--by", "day", "logs"]).out);
    assert_eq!(rows.len(), 3);
    assert_eq!(
        (cell(&rows[1], "restarted"), cell(&rows[1], "restarted_of")),
        ("9", "100")
    );
    assert_eq!(cell(&rows[2], "row"), "difference");
    assert_eq!(
        (cell(&rows[2], "group"), cell(&rows[2], "since")),
        ("2026-11-16", "2026-11-09")
    );
    let rows = csv(&room.run(&["report", "--csv", "--by", "box", "logs"]).out);
    assert_eq!(rows.len(), 100 + 99);
    // A change from two to three of thirty is not.
    let mut table = String::new();
    for index in 0..30 {
        table += &format!("box{index:02}_2026-11-09.log,first\n");
        table += &format!("box{:02}_2026-11-16,then\n", (index + 6) % 100);
    }
    room.put("groups.csv", table);
    let ran = room.run(&["report", "--groups", "groups.csv", "logs"]);
    assert_eq!(
        (ran.status, ran.err.lines().count()),
        (1, 140),
        "the others have no group"
    );
    let last = ran.out.lines().last().unwrap();
    assert!(
        last.starts_with("from first to then: +3.3 restarted of 100 sessions"),
        "{last}"
    );
    assert!(last.ends_with(": no change is shown"), "{last}");
}

#[test]
fn a_trace_has_the_group_and_the_figures_of_its_log() {
    let room = Room::new("week-traces");
    room.put("hall1_2026-11-09.trace", trace(&evening(4)));
    let log = room.run(&["replay", "--log", "3", "hall1_2026-11-09.trace"]);
    room.put("hall1_2026-11-09.log", log.out);
    let by_day = |file: &str| {
        let ran = room.run(&["report", "--csv", "--by", "day", file]);
        assert_eq!((ran.status, &*ran.err), (0, ""), "{file}");
        ran.out
    };
    let of_trace = by_day("hall1_2026-11-09.trace");
    assert_eq!(cell(&csv(&of_trace)[0], "group"), "2026-11-09");
    assert_eq!(of_trace, by_day("hall1_2026-11-09.log"));
}

/// The figures of a group of the invented week, from what is known about its students.
fn is_known(row: &[(String, String)], sessions: &[&Session]) {
    let group = cell(row, "group");
    let sum = |of: fn(&Known) -> u64| {
        let each = sessions.iter().map(|session| of(&session.evening.known));
        each.sum::<u64>().to_string()
    };
    let all = sessions.len().to_string();
    for (column, known) in [
        ("sessions", all.clone()),
        ("restarted", sum(|known| u64::from(known.restarts > 0))),
        ("restarted_of", all.clone()),
        ("seeks", sum(|known| known.seeks)),
        ("pauses", sum(|known| known.pauses)),
        ("refused", sum(|known| known.refused)),
        ("ended", sum(|known| u64::from(known.ended))),
        ("ended_of", all),
        ("tails", sum(|known| u64::from(known.ended))),
        ("misfits", "0".into()),
    ] {
        assert_eq!(cell(row, column), known, "{column} of {group}");
    }
}

fn share_of(row: &[(String, String)]) -> exact::Share {
    let number = |column| cell(row, column).parse().unwrap();
    (number("restarted"), number("restarted_of"))
}

/// Compares the ends of an interval with the second computation, as precisely as the values show them.
fn has_ends(row: &[(String, String)], ends: [(&str, i128); 3]) {
    for (column, end) in ends {
        let printed: f64 = cell(row, column).parse().unwrap();
        let apart = printed / 100.0 - end as f64 / exact::ONE as f64;
        assert!(apart.abs() < 6e-7, "{column}: {printed}, {end}");
    }
}

#[test]
fn a_made_week_is_reported_as_it_was_made_and_only_the_creeping_boxes_differ() {
    let room = Room::new("week-made");
    let sessions = made();
    // The files are made in two orders.
    for (folder, backward) in [("week", false), ("again", true)] {
        fs::create_dir(room.0.join(folder)).unwrap();
        let mut order: Vec<&Session> = sessions.iter().collect();
        if backward {
            order.reverse();
        }
        for session in order {
            let name = format!("{folder}/{}", session.name());
            room.put(&format!("{name}.trace"), &session.evening.trace);
            room.put(&format!("{name}.log"), &session.evening.log);
        }
    }
    for by in ["box", "day", "week"] {
        let group_of = |session: &Session| match by {
            "box" => format!("box{:02}", session.box_number),
            "day" => session.day.to_owned(),
            _ => session.week.to_owned(),
        };
        let words = ["report", "--csv", "--rate", RATE, "--by", by];
        let ran = room.run(&[&words[..], &["week"]].concat());
        assert_eq!((ran.status, &*ran.err), (0, ""));
        assert_eq!(ran.out, room.run(&[&words[..], &["again"]].concat()).out);
        let rows = csv(&ran.out);
        let mut names: Vec<String> = sessions.iter().map(group_of).collect();
        names.sort();
        names.dedup();
        let (groups, changes) = rows.split_at(names.len());
        for (row, name) in groups.iter().zip(&names) {
            assert_eq!(cell(row, "group"), name);
            let of_it = sessions.iter().filter(|session| group_of(session) == *name);
            is_known(row, &of_it.collect::<Vec<_>>());
            let share = share_of(row);
            let (low, high) = exact::wilson(share);
            let value = i128::from(share.0) * exact::ONE / i128::from(share.1);
            has_ends(
                row,
                [("restarted_per_100", value), ("low", low), ("high", high)],
            );
        }
        assert_eq!(changes.len(), names.len() - 1);
        for (row, pair) in changes.iter().zip(groups.windows(2)) {
            let (value, low, high) = exact::newcombe(share_of(&pair[0]), share_of(&pair[1]));
            has_ends(
                row,
                [("restarted_per_100", value), ("low", low), ("high", high)],
            );
        }
    }
    let ran = room.run(&["report", "--rate", RATE, "--by", "week", "week"]);
    let last = ran.out.lines().last().unwrap();
    assert!(last.ends_with(": a change"), "2 to 9 in a hundred: {last}");
    restarts_are_those_that_were_made(&room, &sessions);
    exactly_the_creeping_boxes_differ(&room, &sessions);
}

/// Evening by evening, from the log and from the replayed trace.
fn restarts_are_those_that_were_made(room: &Room, sessions: &[Session]) {
    let ran = room.run(&["report", "--csv", "--rate", RATE, "week"]);
    let rows = csv(&ran.out);
    let mut by_name: Vec<&Session> = sessions.iter().collect();
    by_name.sort_by_key(|session| session.name());
    for (row, session) in rows.iter().zip(&by_name) {
        let (name, known) = (session.name(), session.evening.known);
        assert_eq!(cell(row, "name"), format!("week/{name}.log"));
        assert_eq!(cell(row, "restarts"), known.restarts.to_string(), "{name}");
    }
    let traces: Vec<String> = by_name
        .iter()
        .map(|s| format!("week/{}.trace", s.name()))
        .collect();
    let words: Vec<&str> = traces.iter().map(String::as_str).collect();
    let ran = room.run(&[&["report", "--csv", "--rate", RATE], &words[..]].concat());
    assert_eq!((ran.status, &*ran.err), (0, ""));
    for (row, session) in csv(&ran.out).iter().zip(&by_name) {
        for (column, known) in [
            ("restarts", session.evening.known.restarts),
            ("seeks", session.evening.known.seeks),
            ("refused", session.evening.known.refused),
        ] {
            let name = session.name();
            assert_eq!(cell(row, column), known.to_string(), "{column} of {name}");
        }
    }
}

fn exactly_the_creeping_boxes_differ(room: &Room, sessions: &[Session]) {
    let audit = |folder: &str, processors: Option<&str>| {
        let ran = match processors {
            None => room.run(&["audit", "--csv", folder]),
            Some(list) => room.run_by("taskset", &["-c", list, CABLEOWL, "audit", "--csv", folder]),
        };
        assert_eq!((ran.status, &*ran.err), (1, ""), "{folder}");
        ran.out.replace(folder, "FOLDER")
    };
    let out = audit("week", None);
    assert_eq!(out, audit("again", None), "made in another order");
    match Command::new("taskset").arg("--version").output() {
        Ok(_) => assert_eq!(out, audit("week", Some("0")), "on one processor"),
        Err(_) => eprintln!("SKIPPED: no taskset here, so no audit on one processor"),
    }
    let mut found = BTreeSet::new();
    for session in sessions {
        let line = out
            .lines()
            .find(|line| line.contains(&session.name()))
            .unwrap();
        let creeps = CREEPING.contains(&session.box_number);
        let verdict = if creeps { ",DIFFERS," } else { ",AGREES," };
        assert!(line.contains(verdict), "{line}");
        if creeps {
            // A box that passes the end of its sound at another time differs in its state too.
            let ended = session.evening.known.ended;
            assert!(ended || line.contains("the loop creeps"), "{line}");
            found.insert(session.box_number);
        }
    }
    assert_eq!(found, BTreeSet::from(CREEPING));
    let share = out.lines().find(|line| line.starts_with("share,")).unwrap();
    assert!(
        share.starts_with("share,differ,,,,,,30,300,10.0000,"),
        "{share}"
    );
    let (low, high) = exact::wilson((30, 300));
    let ends = [low, high].map(|end| format!("{:.4}", end as f64 * 100.0 / exact::ONE as f64));
    assert!(share.ends_with(&ends.join(",")), "{share} {ends:?}");
    // The creep's quantiles are rows of their own, each the creep of one of the evenings.
    let creep = |line: &str| line.split(',').nth(4).unwrap().parse::<f64>().unwrap();
    let differ = out.lines().filter(|line| line.contains(",DIFFERS,"));
    let mut creeps: Vec<f64> = differ.map(creep).collect();
    creeps.sort_by(f64::total_cmp);
    let quantiles = out.lines().filter(|line| line.starts_with("quantile,"));
    let quantiles: Vec<f64> = quantiles.map(creep).collect();
    assert_eq!(quantiles, [0, 7, 14, 22, 29].map(|rank| creeps[rank]));
    assert!(creeps[0] > 0.0, "every one of them is behind");
}

#[test]
fn an_evening_without_its_pair_is_named() {
    let room = Room::new("week-pairs");
    fs::create_dir(room.0.join("week")).unwrap();
    let none =
        "cableowl: no file NAME.trace or NAME.log in these folders: nothing is said of any box\n";
    let ran = room.run(&["audit", "week"]);
    assert_eq!((ran.status, &*ran.err, &*ran.out), (3, none, ""));
    let records = evening(4);
    room.put("week/a.trace", trace(&records));
    room.put("week/a.log", room.run(&["replay", "week/a.trace"]).out);
    assert_eq!(room.run(&["audit", "week"]).status, 0);
    room.put("week/b.trace", trace(&records));
    room.put("week/c.log", "");
    room.put("week/d.trace", &trace(&records)[..700]);
    room.put("week/d.log", room.read("week/a.log"));
    let ran = room.run(&["audit", "week"]);
    assert_eq!((ran.status, &*ran.err), (3, ""));
    let says: Vec<&str> = ran.out.lines().skip(6).collect();
    assert_eq!(
        says[..2],
        ["week/b: it has no log", "week/c: it has no trace"]
    );
    assert!(
        says[2].starts_with("week/d: week/d.trace and week/d.log: the trace is damaged at byte ")
    );
    assert_eq!(
        says[3],
        "4 evenings: 1 agree, 0 differ, 1 unknown, 2 without a trace or a log"
    );
}
