//! `cableowl report`: its figures compared with a second count, the quantiles, and the three kinds of output.

use std::{
    collections::BTreeMap,
    fs::File,
    io::{BufWriter, Write},
    process::Command,
};

use random::Random;

use crate::room::{CABLEOWL, Room, looped};

#[test]
fn one_evening_in_words() {
    let room = Room::new("report-one");
    let log = room.run_on(&["replay", "--log", "3", "-"], &looped()).out;
    room.put("evening.log", log);
    room.run(&["report", "--rate", "1", "evening.log"]).says(
        "evening.log: a log of form 3, read at 1 frame a second\n\
         \x20 blocks               6\n\
         \x20 frames               15, 0.250 minutes\n\
         \x20 played               0.250 minutes\n\
         \x20 paused               0.000 minutes\n\
         \x20 silent               0.000 minutes\n\
         \x20 steps                15\n\
         \x20 wraps                3\n\
         \x20 seeks                2\n\
         \x20 restarts by hand     2\n\
         \x20 pauses               0\n\
         \x20 lowest window count  4\n\
         \x20 refused blocks       1 with 10\n\
         \x20 reached the end      no\n",
    );
    let log = room.run_on(&["replay", "-"], &looped()).out;
    let ran = room.run_on(&["report", "-"], log.as_bytes());
    assert_eq!(ran.out.matches("not in the log").count(), 5, "{}", ran.out);
    assert!(
        ran.out.contains("\n  jumps                2\n"),
        "{}",
        ran.out
    );
}

/// An evening as numbers: its log in the three forms, and its figures counted in another way, by the names of the
/// columns.
#[derive(Default)]
struct Made {
    logs: [Vec<String>; 3],
    /// What all forms contain that contain it at all.
    all: Sums,
    /// What only one form contains.
    each: [Sums; 3],
}

type Sums = BTreeMap<&'static str, u64>;

fn add(sums: &mut Sums, column: &'static str, more: u64) {
    *sums.entry(column).or_default() += more;
}

/// What a block of this state counts as in the forms 1 and 2.
fn counts_as(started: bool, state: usize, steps: u64) -> &'static str {
    match (started, state) {
        (false, _) => "silent",
        (_, 2 | 3) => "paused",
        (_, 6) if steps == 0 => "silent",
        _ => "played",
    }
}

/// A random evening: blocks in a state, and what a report must say about them.
fn made(random: &mut Random) -> Made {
    let mut made = Made::default();
    made.logs[1].push("log=2".into());
    made.logs[2].push("log=3".into());
    for sums in &mut made.each {
        for column in ["played", "paused", "silent"] {
            add(sums, column, 0);
        }
    }
    add(&mut made.each[0], "jumps", 0);
    add(&mut made.each[2], "still", 0);
    add(&mut made.each[2], "pauses", 0);
    add(&mut made.each[2], "ended", 0);
    for column in [
        "frames",
        "steps",
        "rounds",
        "seeks",
        "restarts",
        "refused_1",
        "refused_12",
        "refused_other",
    ] {
        add(&mut made.all, column, 0);
    }
    let (mut lowest, mut turns, mut before) = (4, 0, None::<u64>);
    let mut created = 1;
    for number in 1..=random.below(300) {
        let (seeks, restarts) = match random.below(10) {
            0 => (1 + random.below(2) as u64, random.below(2) as u64),
            _ => (0, 0),
        };
        let since = format!(" created={created} seeks={seeks} restarts={restarts}");
        let pauses = random.below(3) as u64;
        add(&mut made.each[2], "pauses", pauses);
        add(&mut made.all, "seeks", seeks);
        add(&mut made.all, "restarts", restarts);
        if created > 0 {
            turns = 0;
        }
        if random.one_in(12) {
            let (refusal, column) =
                [(1, "refused_1"), (12, "refused_12"), (24, "refused_other")][random.below(3)];
            add(&mut made.all, column, 1);
            let line = format!("block={number} refused={refusal}");
            made.logs[1].push(format!("{line}{since}"));
            made.logs[2].push(format!("{line}{since} pauses={pauses}"));
            made.logs[0].push(line);
            created = 0;
            continue;
        }
        let frames = random.below(4_097) as u64;
        let (state, started) = (random.below(7), !random.one_in(9));
        let steps = random.below(900) as u64 * u64::from(random.coin());
        let position = random.below(1_000) as u64;
        let gone = random.below(3) as u64;
        turns += gone;
        lowest = lowest.min(random.below(5) as u64);
        let line = format!(
            "block={number} frames={frames} steps={steps} state={state} position={position}"
        );
        let second = format!(
            "{line} lowest={lowest} forward={turns} backward=0 started={}",
            u8::from(started)
        );
        let played = random.below(frames as usize + 1) as u64;
        let paused = random.below((frames - played) as usize + 1) as u64;
        let (silent, still) = (
            frames - played - paused,
            random.below(played as usize + 1) as u64,
        );
        let ended = u64::from(random.one_in(200));
        let so_far = made.each[2]["ended"];
        made.each[2].insert("ended", so_far.max(ended));
        let third = format!(
            "{second} played={played} paused={paused} silent={silent} still={still} loop_start=3 loop_end=9 direction=0 steps_back=0 ended={ended}"
        );
        made.logs[0].push(line);
        made.logs[1].push(format!("{second}{since}"));
        made.logs[2].push(format!("{third}{since} pauses={pauses}"));
        add(&mut made.all, "frames", frames);
        add(&mut made.all, "steps", steps);
        add(&mut made.all, "rounds", gone);
        add(&mut made.each[0], counts_as(true, state, steps), frames);
        add(&mut made.each[1], counts_as(started, state, steps), frames);
        for (column, more) in [
            ("played", played),
            ("paused", paused),
            ("silent", silent),
            ("still", still),
        ] {
            add(&mut made.each[2], column, more);
        }
        let jumped = before.is_some_and(|before| before.abs_diff(position) > steps);
        add(&mut made.each[0], "jumps", jumped.into());
        before = Some(position);
        created = u64::from(random.one_in(40));
    }
    add(&mut made.all, "lowest_count", lowest);
    made
}

fn text(lines: &[String]) -> String {
    lines.iter().map(|line| format!("{line}\n")).collect()
}

/// The rows of comma separated values, by their first two cells and then by column.
pub fn csv(out: &str) -> Vec<Vec<(String, String)>> {
    let mut lines = out.lines();
    let columns: Vec<&str> = lines.next().expect("a first line").split(',').collect();
    let rows = lines.map(|line| {
        let cells = cells(line);
        assert_eq!(cells.len(), columns.len(), "{line}");
        let columns = columns.iter().map(|column| (*column).to_owned());
        columns.zip(cells).collect()
    });
    rows.collect()
}

/// The cells of a line; a comma inside quotes does not separate them.
fn cells(line: &str) -> Vec<String> {
    let (mut cells, mut quoted) = (vec![String::new()], false);
    for letter in line.chars() {
        match letter {
            '"' => quoted = !quoted,
            ',' if !quoted => cells.push(String::new()),
            _ => cells.last_mut().expect("one").push(letter),
        }
    }
    cells
}

pub fn cell<'a>(row: &'a [(String, String)], column: &str) -> &'a str {
    let found = row.iter().find(|(name, _)| name == column);
    &found.unwrap_or_else(|| panic!("no column {column}")).1
}

/// A row's figure is this; minutes are rounded to thousandths.
fn is_told(row: &[(String, String)], column: &str, number: u64) {
    let minutes = format!("minutes_{column}");
    match row.iter().any(|(held, _)| *held == minutes) {
        true => {
            let printed: f64 = cell(row, &minutes).parse().unwrap();
            let ours = number as f64 / 60_000.0;
            assert!(
                (printed - ours).abs() < 0.00051,
                "{column}: {printed} {ours}"
            );
        }
        false => assert_eq!(cell(row, column), number.to_string(), "{column}"),
    }
}

/// What earlier forms do not contain.
fn unsaid(form: usize) -> &'static [&'static str] {
    match form {
        1 => &[
            "rounds",
            "seeks",
            "restarts",
            "lowest_count",
            "pauses",
            "ended",
            "misfits",
            "minutes_still",
        ],
        2 => &["jumps", "minutes_still", "pauses", "ended", "misfits"],
        _ => &["jumps"],
    }
}

#[test]
fn figures_are_those_of_a_second_count() {
    let room = Room::new("report-figures");
    let mut random = Random::new(103);
    let evenings: Vec<Made> = (0..200).map(|_| made(&mut random)).collect();
    for form in 1..=3 {
        let mut words = ["report", "--csv", "--rate", "1000"]
            .map(str::to_owned)
            .to_vec();
        for (index, evening) in evenings.iter().enumerate() {
            let name = format!("{index:03}.log");
            room.put(&name, text(&evening.logs[form - 1]));
            words.push(name);
        }
        let words: Vec<&str> = words.iter().map(String::as_str).collect();
        let ran = room.run(&words);
        assert_eq!((ran.status, &*ran.err), (0, ""));
        let rows = csv(&ran.out);
        assert_eq!(rows.len(), 200 + 1 + 5 + 1);
        for (row, evening) in rows.iter().zip(&evenings) {
            for (column, number) in evening.all.iter().chain(&evening.each[form - 1]) {
                if !unsaid(form).contains(column) {
                    is_told(row, column, *number);
                }
            }
            for column in unsaid(form) {
                assert_eq!(cell(row, column), "", "{column}");
            }
            let blocks = evening.logs[0].len().to_string();
            assert_eq!(cell(row, "blocks"), blocks);
        }
        over_all(&rows[200..], &evenings, form);
    }
}

/// The total, the quantiles, and how many logs contain each figure.
fn over_all(rows: &[Vec<(String, String)>], evenings: &[Made], form: usize) {
    let total = &rows[0];
    assert_eq!(
        (cell(total, "row"), cell(total, "name")),
        ("total", "total")
    );
    for column in ["steps", "seeks", "rounds", "lowest_count"] {
        if unsaid(form).contains(&column) {
            assert!(rows[..6].iter().all(|row| cell(row, column).is_empty()));
            assert_eq!(cell(&rows[6], column), "0");
            continue;
        }
        let mut sorted: Vec<u64> = evenings.iter().map(|evening| evening.all[column]).collect();
        sorted.sort_unstable();
        let sum = match column {
            "lowest_count" => sorted[0],
            _ => sorted.iter().sum(),
        };
        assert_eq!(cell(total, column), sum.to_string(), "{column}");
        for (row, rank) in rows[1..6].iter().zip([0, 49, 99, 149, 199]) {
            assert_eq!(cell(row, column), sorted[rank].to_string(), "{column}");
        }
        assert_eq!(cell(&rows[6], column), "200");
    }
}

#[test]
fn a_line_whose_steps_turns_and_places_disagree_is_named() {
    let room = Room::new("report-misfit");
    let block = |number: u64, position: u64, turns: u64, more: &str| {
        format!(
            "block={number} frames=8 steps=8 state=0 position={position} lowest=4 forward={turns} backward=0 started=1 played=8 paused=0 silent=0 still=0 loop_start=2 loop_end=8 direction=0 steps_back=0 ended=0 {more} restarts=0 pauses=0\n"
        )
    };
    let still = "created=0 seeks=0";
    let fits = [
        "log=3\n".to_owned(),
        block(1, 3, 0, "created=1 seeks=0"),
        block(2, 5, 1, still),
        block(3, 7, 2, still),
        // After a seek, and from outside the loop, the lines do not contain enough.
        block(4, 1, 2, "created=0 seeks=1"),
        block(5, 9, 9, still),
    ];
    let printed = |log: String| {
        room.put("a.log", log);
        let ran = room.run(&["report", "a.log"]);
        assert_eq!((ran.status, &*ran.err), (0, ""));
        let last = ran.out.lines().last().unwrap_or_default().to_owned();
        last.trim_start().to_owned()
    };
    assert_eq!(printed(fits.concat()), "reached the end      no");
    let says = "1 line does not fit: steps, wraps and positions disagree, first at block 3";
    let mut wrong = fits.clone();
    wrong[3] = block(3, 7, 1, still);
    assert_eq!(printed(wrong[..4].concat()), says);
    let mut wrong = fits.clone();
    wrong[3] = block(3, 6, 2, still);
    assert_eq!(printed(wrong[..4].concat()), says);
    // With several logs, and with groups, it is named too.
    room.put("hall_2026-11-09.log", wrong[..4].concat());
    room.put("hall_2026-11-10.log", fits.concat());
    let files = ["hall_2026-11-09.log", "hall_2026-11-10.log"];
    let named = format!("hall_2026-11-09.log: {says}");
    for words in [&["report"][..], &["report", "--by", "box"]] {
        let ran = room.run(&[words, &files].concat());
        assert_eq!((ran.status, &*ran.err), (0, ""));
        assert_eq!(ran.out.lines().last(), Some(&*named));
    }
    let words = ["report", "--csv", "--by", "box", "--html", "page.html"];
    let rows = csv(&room.run(&[&words[..], &files].concat()).out);
    assert_eq!(cell(&rows[0], "misfits"), "1");
    assert!(
        room.read("page.html")
            .contains(&format!("<p class=\"bad\">{says}</p>"))
    );
}

#[test]
fn a_total_over_part_of_the_logs_says_over_how_many() {
    let room = Room::new("report-part");
    let mut names = Vec::new();
    for index in 0..4 {
        let form = if index == 2 { "1" } else { "3" };
        let log = room.run_on(&["replay", "--log", form, "-"], &looped()).out;
        room.put(&format!("{index}.log"), log);
        names.push(format!("{index}.log"));
    }
    let mut words = vec!["report", "--html", "page.html", "--rate", "1"];
    words.extend(names.iter().map(String::as_str));
    let ran = room.run(&words);
    assert_eq!((ran.status, &*ran.err), (0, ""));
    let line = |name: &str| {
        let mut lines = ran.out.lines().filter(|line| line.starts_with(name));
        let line = lines.next().unwrap_or_default();
        line.split_whitespace()
            .map(str::to_owned)
            .collect::<Vec<_>>()
    };
    // Three wraps, two seeks and two restarts in each of the three logs that contain them.
    assert_eq!(line("total")[7..], ["9", "6", "6", "4", "4"]);
    assert_eq!(line("median")[7..], ["3", "2", "2", "1", "4"]);
    let says = "wraps, seeks, restarts, lowest: over 3 of 4 logs, since the others do not say it";
    assert_eq!(ran.out.lines().last(), Some(says));
    let page = room.read("page.html");
    let says = "Wraps, Seeks, Restarts by hand, Reached the end, Lines that do not fit, Lowest window count: over 3 of 4 logs";
    assert!(page.contains(says));
    words[1] = "--csv";
    words.remove(2);
    let rows = csv(&room.run(&words).out);
    let cells = |column: &str| [4, 10].map(|row| cell(&rows[row], column).to_owned());
    assert_eq!(cells("row"), ["total", "logs"]);
    assert_eq!(cells("restarts"), ["6", "3"]);
    assert_eq!(cells("steps"), ["60", "4"]);
    assert_eq!(cells("jumps"), ["2", "1"]);
}

#[test]
fn a_damaged_log_among_others_is_named_and_left_out() {
    let room = Room::new("report-among");
    room.put("a.log", "block=1 frames=6 steps=6 state=6 position=3\n");
    room.put("b.log", "block=1 frames=6\n");
    room.put("c.log", "block=1 refused=12\nrefused=18 at=97\n");
    let ran = room.run(&["report", "a.log", "b.log", "c.log"]);
    assert_eq!(
        ran.err,
        "cableowl: b.log: line 1 (byte 0): column 17: 'steps=' must stand here\n"
    );
    assert_eq!(ran.status, 1);
    assert_eq!(
        ran.out,
        "2 logs, read at 48,000 frames a second; - means that the log does not contain it\n\
         log             blocks  minutes  played  paused  silent  steps  wraps  seeks  restarts  refused  lowest\n\
         a.log                1    0.000   0.000   0.000   0.000      6      -      -         -        0       -\n\
         c.log                1    0.000   0.000   0.000   0.000      0      -      -         -        1       -\n\
         \n\
         total                2    0.000   0.000   0.000   0.000      6      -      -         -        1       -\n\
         lowest               1    0.000   0.000   0.000   0.000      0      -      -         -        0       -\n\
         quarter              1    0.000   0.000   0.000   0.000      0      -      -         -        0       -\n\
         median               1    0.000   0.000   0.000   0.000      0      -      -         -        0       -\n\
         three quarters       1    0.000   0.000   0.000   0.000      6      -      -         -        1       -\n\
         highest              1    0.000   0.000   0.000   0.000      6      -      -         -        1       -\n"
    );
}

#[test]
fn names_mean_themselves() {
    let room = Room::new("report-names");
    let name = "<script>alert('a, \"b\"')<!--&.log";
    room.put(name, "block=1 frames=6 steps=6 state=6 position=3\n");
    let ran = room.run(&["report", "--csv", "--html", "page.html", name]);
    assert_eq!((ran.status, &*ran.err), (0, ""));
    assert!(
        ran.out
            .contains("\nlog,\"<script>alert('a, \"\"b\"\"')<!--&.log\",1,"),
        "{}",
        ran.out
    );
    let page = room.read("page.html");
    assert!(
        page.contains("<h3>&lt;script&gt;alert(&#39;a, &quot;b&quot;&#39;)&lt;!--&amp;.log</h3>")
    );
    assert_eq!(page.matches("<script").count(), 1, "the page's own script");
    for word in ["http:", "https:", "//", "url(", "@import", "<link", "src="] {
        assert!(!page.contains(word), "the page fetches nothing: {word}");
    }
}

#[test]
fn the_page_has_links_seconds_and_right_plurals() {
    let room = Room::new("report-page");
    room.put("a.trace", looped());
    room.put("b.log", room.run(&["replay", "--log", "3", "a.trace"]).out);
    for files in [&["a.trace"][..], &["a.trace", "b.log"]] {
        let words = [&["report", "--rate", "1", "--html", "page.html"], files].concat();
        assert_eq!(room.run(&words).status, 0);
        let page = room.read("page.html");
        let links: Vec<&str> = page
            .split("<a href=\"#")
            .skip(1)
            .filter_map(|link| link.split('"').next())
            .collect();
        let rows = if files.len() > 1 { files.len() } else { 0 };
        assert_eq!(links.len(), rows, "a row opens its plots: {links:?}");
        for link in &links {
            let there = page.matches(&format!("id=\"{link}\"")).count();
            assert_eq!(there, 1, "{link}");
        }
        assert_eq!(page.matches("<svg ").count(), files.len());
        assert!(page.contains("at 1 frame a second"), "not 1 frames");
        assert!(page.contains("Refusal 10: the time step, "));
        assert!(page.contains(" of a loop of 4 frames, 4.000 s"));
        assert!(page.contains(">4 s</text>"), "positions are in seconds");
        assert!(page.contains("prefers-color-scheme:dark"));
        let inline = page.matches("style=\"").count();
        assert_eq!(inline, 0, "each colour has a dark one");
    }
    let guessed = ", for a log at 1 frame a second, the box&#39;s: --sound-rate gives";
    assert!(room.read("page.html").contains(guessed));
    room.run(&["report", "--html", "page.html", "a.trace"]);
    assert!(
        !room.read("page.html").contains("--sound-rate"),
        "a trace knows it"
    );
}

#[test]
fn a_folder_stands_for_its_logs() {
    let room = Room::new("report-folder");
    std::fs::create_dir(room.0.join("logs")).unwrap();
    room.run(&["report", "logs"])
        .refuses("logs: no file NAME.log is in this folder");
    let log = room.run_on(&["replay", "--log", "3", "-"], &looped()).out;
    for name in ["b.log", "a.log", "c.trace", "notes.txt"] {
        room.put(&format!("logs/{name}"), &log);
    }
    let of_folder = room.run(&["report", "--csv", "logs"]);
    assert_eq!((of_folder.status, &*of_folder.err), (0, ""));
    let of_files = room.run(&["report", "--csv", "logs/a.log", "logs/b.log"]);
    assert_eq!(of_folder.out, of_files.out);
}

/// This many logs of a busy evening of 400 blocks. In each, the student wraps, seeks, pauses or is refused. Returns
/// their names.
pub fn busy(room: &Room, logs: usize) -> Vec<String> {
    let mut random = Random::new(300);
    let mut log = String::from("log=3\n");
    let (mut start, mut turns) = (0, 0);
    for number in 1..=400 {
        let created = u64::from(number == 1);
        let since = format!(
            "created={created} seeks={} restarts=0 pauses=0",
            random.below(2)
        );
        if random.one_in(3) {
            let refusal = [1, 9, 10, 11, 12, 24][random.below(6)];
            log += &format!("block={number} refused={refusal} {since}\n");
            continue;
        }
        if random.one_in(5) {
            start = random.below(9_000_000);
        }
        let (length, paused) = (200_000, 48_000 * random.below(2));
        let (end, position) = (start + length, start + random.below(length));
        turns += random.below(3);
        let (lowest, played) = (random.below(5), 48_000 - paused);
        log += &format!(
            "block={number} frames=48000 steps=44100 state=0 position={position} lowest={lowest} forward={turns} backward=0 started=1 played={played} paused={paused} silent=0 still=0 loop_start={start} loop_end={end} direction=0 steps_back=0 ended=0 {since}\n"
        );
    }
    let names = (0..logs).map(|index| format!("box{index:04}_2026-11-09.log"));
    let names: Vec<String> = names.collect();
    for name in &names {
        room.put(name, &log);
    }
    names
}

#[test]
fn hundreds_of_evenings_stay_below_2_mb() {
    let room = Room::new("report-hundreds");
    let names = busy(&room, 300);
    for count in [1, 100, 300] {
        let words: Vec<&str> = names[..count].iter().map(String::as_str).collect();
        let ran = room.run(&[&["report", "--html", "page.html"], &words[..]].concat());
        assert_eq!((ran.status, &*ran.err), (0, ""));
        let size = room.read("page.html").len();
        println!("{count} busy evenings: a page of {size} bytes");
        assert!(size < 2_000_000, "{count}: {size}");
    }
}

#[test]
fn a_huge_log_is_read_in_little_memory() {
    let room = Room::new("report-huge");
    let mut file = BufWriter::new(File::create(room.0.join("huge.log")).unwrap());
    for block in 1..=500_000 {
        writeln!(
            file,
            "block={block} frames=512 steps=470 state=0 position={}",
            block * 470 % 99_991
        )
        .unwrap();
    }
    drop(file);
    let limited =
        format!("ulimit -v 40000; exec {CABLEOWL} report --csv --html page.html huge.log");
    let output = Command::new("sh")
        .args(["-c", &limited])
        .current_dir(&room.0)
        .output()
        .unwrap();
    assert_eq!(String::from_utf8_lossy(&output.stderr), "");
    let rows = csv(&String::from_utf8_lossy(&output.stdout));
    assert_eq!(cell(&rows[0], "frames"), "256000000");
    assert_eq!(cell(&rows[0], "steps"), "235000000");
    assert!(room.read("page.html").len() < 200_000);
}
