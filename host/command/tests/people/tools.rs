//! docs/guide/TOOLS.md: runs each example on it and compares what it prints.

use std::fs;

use cableowl::{
    Commands, Hall, ResumeCommand, SavedSettings, Settings, SettingsVersion, SharedLoops,
    trace::{Block, Lesson, Record},
};

use crate::{
    audit::{creeping, evening},
    room::{Room, creation, trace},
    sound::raw,
};

const PAGE: &str = include_str!("../../../../docs/guide/TOOLS.md");

/// The box's frames a second.
const RATE: usize = 48_000;

/// An evening being made: its records, and how far it is.
struct Script {
    records: Vec<Record<'static>>,
    clock: usize,
    next: Block,
}

impl Script {
    /// A lesson of eight seconds, eight frames a second.
    fn new() -> Self {
        Self {
            records: vec![creation(Settings::new(8), 64)],
            clock: 0,
            next: Block::new(1_024, 1.0 / RATE as f64),
        }
    }

    /// Plays up to this second.
    fn until(&mut self, second: usize) {
        while self.clock < second * RATE {
            let frames = 1_024.min(second * RATE - self.clock);
            let block = Block {
                frames,
                ..self.next
            };
            self.records.push(Record::Block(block));
            self.clock += frames;
            self.next.finished = false;
        }
    }

    fn command(&mut self, commands: Commands) {
        let resumes = commands.resume == ResumeCommand::AtOnce;
        self.next.finished = commands.pause || commands.stop || resumes;
        self.records.push(Record::Commands(commands));
    }

    /// Blocks that no player accepts: a time step of 0.
    fn refused(&mut self, blocks: usize) {
        let block = Record::Block(Block::new(1_024, 0.0));
        self.records.extend((0..blocks).map(|_| block));
    }
}

/// A student loops a sentence, slows it, steps back, restarts it, and lets the lesson end.
fn monday() -> Vec<u8> {
    let mut script = Script::new();
    script.until(3);
    script.command(Commands::new().set_loop_region(2.0..5.5));
    script.until(60);
    script.next.rate = 0.7;
    script.until(75);
    script.command(Commands::new().pause());
    script.until(85);
    script.command(Commands::new().seek_by(-1.0).resume());
    script.until(100);
    script.refused(3);
    script.command(Commands::new().seek_to(2.0));
    script.until(115);
    script.command(Commands::new().clear_loop_region());
    script.until(125);
    trace(&script.records)
}

/// Another student wraps more often and leaves early.
fn tuesday() -> Vec<u8> {
    let mut script = Script::new();
    script.command(Commands::new().set_loop_region(1.0..2.0));
    script.until(50);
    script.command(Commands::new().stop());
    script.until(60);
    trace(&script.records)
}

/// The files of the page's examples.
fn files(room: &Room) {
    let monday = monday();
    room.put("monday.trace", &monday);
    let log = |trace: &[u8], form| room.run_on(&["replay", "--log", form, "-"], trace).out;
    room.put("monday.log", log(&monday, "3"));
    room.put("tuesday.log", log(&tuesday(), "3"));
    room.put("wednesday.log", log(&tuesday(), "1"));
    let mut broken = monday;
    broken[100_000..100_050].fill(0xff);
    room.put("broken.trace", broken);
    let records = evening(400);
    room.put("box.trace", trace(&records));
    room.put("box.log", log(&trace(&records), "1"));
    room.put("creeping.log", creeping(&records));
    for folder in ["logs", "week"] {
        fs::create_dir(room.0.join(folder)).unwrap();
    }
    room.put("logs/hall1_2026-11-09.log", room.read("tuesday.log"));
    room.put("logs/hall1_2026-11-16.log", room.read("monday.log"));
    for (name, log) in [("hall1", "box.log"), ("hall2", "creeping.log")] {
        room.put(&format!("week/{name}.trace"), trace(&records));
        room.put(&format!("week/{name}.log"), room.read(log));
    }
    room.put("week/hall3.log", room.read("monday.log"));
    let saved = SavedSettings {
        start: 44_100,
        loop_region: Some((273_420, 480_690)),
        playback_rate: 0.75,
        pitch: -2,
        ..SavedSettings::default()
    };
    let mut record = [0; 26];
    saved.store(SettingsVersion::Second, &mut record).unwrap();
    room.put("lesson.settings", record);
    room.put("cut.settings", &record[..20]);
    loops(room);
    lessons(room);
}

/// A lesson of two seconds, another sound, and two boxes that played the lesson and a third sound.
fn lessons(room: &Room) {
    let samples = (0..2 * 88_200).map(|index| (index % 128) as f32 / 64.0 - 1.0);
    let lesson = Lesson::new(samples.collect::<Vec<f32>>()).unwrap();
    let third = Lesson::new(vec![0.5; lesson.samples().len()]).unwrap();
    for folder in ["lessons", "sounds"] {
        fs::create_dir(room.0.join(folder)).unwrap();
    }
    for name in ["lesson.f32", "sounds/lesson.f32"] {
        room.put(name, raw(lesson.samples()));
    }
    room.put("other.f32", raw(&[0.25; 20]));
    for (name, sound) in [("hall1", lesson.id()), ("hall2", third.id())] {
        let settings = Settings::new(44_100);
        let block = Record::Block(Block::new(1_024, 1.0 / RATE as f64));
        let mut records = vec![Record::GivenCreation { settings, sound }];
        records.extend((0..90).map(|_| block));
        let trace = trace(&records);
        let log = room.run_on(&["replay", "-"], &trace).out;
        room.put(&format!("lessons/{name}.log"), log);
        room.put(&format!("lessons/{name}.trace"), &trace);
        if name == "hall1" {
            room.put("lesson.trace", trace);
        }
    }
}

/// The folders of loops: an empty one, a copy of what the page puts there, and a damaged copy.
fn loops(room: &Room) {
    for folder in ["loops", "backup", "damaged"] {
        fs::create_dir(room.0.join(folder)).unwrap();
    }
    let backup = room.0.join("backup");
    let mut at_a = SharedLoops::open(&backup, Hall::A, 480_690, &[]).unwrap();
    at_a.write(0, 273_420..480_690, "greeting").unwrap();
    let mut at_b = SharedLoops::open(&backup, Hall::B, 480_690, &[]).unwrap();
    at_b.write(8, 0..110_250, "question").unwrap();
    room.put(
        "damaged/hall-a.loops",
        fs::read(backup.join("hall-a.loops")).unwrap(),
    );
    room.put(
        "damaged/hall-b.loops",
        &fs::read(backup.join("hall-b.loops")).unwrap()[..300],
    );
}

/// The examples: the words after `$ cableowl`, and the lines below them up to the next or the end.
fn examples() -> Vec<(String, String)> {
    let mut found = Vec::new();
    for block in PAGE.split("```").skip(1).step_by(2) {
        for example in block.split("$ cableowl ").skip(1) {
            let (words, says) = example.split_once('\n').expect("a line");
            found.push((words.to_owned(), says.to_owned()));
        }
    }
    found
}

/// What a shell does with the words: `| cableowl` passes the output on, `; echo $?` prints the status.
fn shell(room: &Room, words: &str) -> String {
    let (words, tells) = match words.strip_suffix("; echo $?") {
        Some(words) => (words, true),
        None => (words, false),
    };
    let mut input = String::new();
    let mut all = String::new();
    let mut status = 0;
    for part in words.split(" | cableowl ") {
        let words: Vec<&str> = part.split(' ').collect();
        let ran = room.run_on(&words, input.as_bytes());
        input = ran.out;
        all += &ran.err;
        status = ran.status;
    }
    let status = if tells {
        format!("{status}\n")
    } else {
        String::new()
    };
    input + &all + &status
}

#[test]
fn the_page_s_examples_print_what_it_says() {
    let room = Room::new("tools");
    files(&room);
    let examples = examples();
    assert!(examples.len() > 10, "only {} found", examples.len());
    let mut wrong = String::new();
    for (words, says) in &examples {
        let said = shell(&room, words);
        // Three dots mean lines that are left out.
        let same = match says.split_once("...\n") {
            Some((begins, ends)) => said.starts_with(begins) && said.ends_with(ends),
            None => said == *says,
        };
        if !same {
            let lines: Vec<&str> = said.lines().collect();
            let first = lines[..lines.len().min(30)].join("\n");
            let last = lines[lines.len().saturating_sub(3)..].join("\n");
            wrong += &format!("{words} prints:\n{first}\n and last:\n{last}\n");
        }
    }
    assert!(wrong.is_empty(), "{wrong}");
    for page in ["week.html", "creep.html"] {
        assert!(fs::metadata(room.0.join(page)).is_ok(), "{page}");
    }
}
