//! Two boxes over one folder, or over two folders that an unreliable copier keeps in step, compared with one shared
//! table. The boxes are processes: they run this program again, with their task in the environment.

use std::{
    env, fs,
    io::{BufRead, BufReader, Write},
    path::{Path, PathBuf},
    process::{self, Child, Command, Stdio},
    sync::atomic::{AtomicU32, Ordering},
    thread,
    time::{Duration, Instant},
};

use cableowl::{
    Hall, Lanes, LoopHalf, LoopTable, LoopsFault, Refusal, Settings, SharedLoops, Signals, Start,
    StaticSound, Theirs,
};
use random::Random;

const FRAMES: u64 = 64;
const FILES: [&str; 2] = ["hall-a.loops", "hall-b.loops"];

/// A folder for one test, in memory if possible. It is removed at the end.
struct Folder(PathBuf);

impl Folder {
    fn new() -> Self {
        static COUNT: AtomicU32 = AtomicU32::new(0);
        let memory = Path::new("/dev/shm");
        let within = match memory.is_dir() {
            true => memory.to_owned(),
            false => env::temp_dir(),
        };
        let count = COUNT.fetch_add(1, Ordering::Relaxed);
        let path = within.join(format!("cableowl-loops-{}-{count}", process::id()));
        fs::create_dir_all(&path).expect("a folder");
        Self(path)
    }

    fn open(&self, hall: Hall) -> SharedLoops {
        let mut loops = SharedLoops::open(&self.0, hall, FRAMES, &[]).expect("loops");
        loops.refresh().expect("the other hall");
        loops
    }

    fn file(&self, hall: Hall) -> PathBuf {
        self.0.join(FILES[hall as usize])
    }
}

impl Drop for Folder {
    fn drop(&mut self) {
        let _ = fs::remove_dir_all(&self.0);
    }
}

/// A hall's edits, one after the other.
struct Edits {
    hall: Hall,
    random: Random,
}

impl Edits {
    fn new(hall: Hall, seed: u64) -> Self {
        let random = Random::new(seed);
        Self { hall, random }
    }

    /// The next edit: a slot, and its loop or none.
    fn next(&mut self) -> (usize, Option<std::ops::Range<u64>>) {
        let slot = self.random.below(8) + 8 * self.hall as usize;
        let start = self.random.below(FRAMES as usize - 1) as u64;
        let end = start + 1 + self.random.below((FRAMES - start) as usize) as u64;
        let is_clear = self.random.below(4) == 0;
        (slot, (!is_clear).then_some(start..end))
    }
}

fn edit(loops: &mut SharedLoops, edits: &mut Edits) -> Result<(), LoopsFault> {
    let (slot, frames) = edits.next();
    match frames {
        Some(frames) => {
            let name = format!("{} to {}", frames.start, frames.end);
            loops.write(slot, frames, &name)
        }
        None => loops.clear(slot),
    }
}

/// A voice that takes loops from a hall's own slots, and the digest of its frames.
struct Voice {
    sound: Vec<f32>,
    voice: StaticSound,
    lanes: Lanes,
    digest: u64,
}

impl Voice {
    fn new() -> Self {
        let sound: Vec<f32> = (0..2 * FRAMES)
            .map(|i| (i * i % 31) as f32 / 31.0)
            .collect();
        let voice = StaticSound::new(Settings::new(1), &sound).expect("a voice");
        let lanes = Lanes::new();
        let digest = 0xcbf2_9ce4_8422_2325;
        Self {
            sound,
            voice,
            lanes,
            digest,
        }
    }

    fn play(&mut self, table: &LoopTable, slot: usize) {
        let taken = self.voice.take_loop(&self.sound, table, slot);
        assert!(
            matches!(taken, Ok(_) | Err(Refusal::EmptySlot)),
            "{taken:?}"
        );
        let mut out = [0.0; 16];
        let block_lanes = self.lanes.frames(8).rate(0.7);
        let signals = Signals::default();
        let block = self
            .voice
            .process(&self.sound, block_lanes, 1.0, signals, &mut out);
        block.expect("a block");
        for sample in out {
            self.digest = (self.digest ^ u64::from(sample.to_bits())).wrapping_mul(0x100_0000_01b3);
        }
    }
}

// ---- the processes

/// The task of a process. The test of this name runs nothing else in it.
const ASKED: &str = "CABLEOWL_SHARED_LOOPS";

fn process(folder: &Path, hall: Hall, seed: u64, edits: usize) -> Command {
    let mut command = Command::new(env::current_exe().expect("this program"));
    command
        .args(["--exact", "a_process_of_its_own", "--nocapture", "--quiet"])
        .env(
            ASKED,
            format!("{} {seed} {edits} {}", hall as u32, folder.display()),
        )
        .stdin(Stdio::piped())
        .stdout(Stdio::piped());
    command
}

#[test]
fn a_process_of_its_own() {
    let Ok(asked) = env::var(ASKED) else { return };
    let mut words = asked.splitn(4, ' ');
    let mut word = || words.next().expect("a word");
    let hall = [Hall::A, Hall::B][word().parse::<usize>().expect("a hall")];
    let seed = word().parse().expect("a seed");
    let count: usize = word().parse().expect("a number of edits");
    let folder = word();
    let mut loops = SharedLoops::open(folder, hall, FRAMES, &[]).expect("loops");
    let mut edits = Edits::new(hall, seed);
    let mut voice = Voice::new();
    for number in 0..count {
        edit(&mut loops, &mut edits).expect("an edit");
        if number % 16 == 0 {
            loops.refresh().expect("the other hall");
            voice.play(&loops.table(), 8 * hall as usize + number / 16 % 8);
        }
    }
    println!("\nedited {:016x}", voice.digest);
    let _ = std::io::stdin().read_line(&mut String::new());
    loops.refresh().expect("the other hall");
    let slots: Vec<String> = (0..16).map(|slot| shown(&loops.table(), slot)).collect();
    println!("ended {}", slots.join(" "));
}

fn shown(table: &LoopTable, slot: usize) -> String {
    table
        .read(slot)
        .map_or("-".into(), |held| format!("{}..{}", held.start, held.end))
}

/// The rest of a line that begins with this word.
fn line(lines: &mut impl BufRead, begins: &str) -> String {
    let mut line = String::new();
    loop {
        line.clear();
        assert_ne!(lines.read_line(&mut line).expect("a line"), 0, "{begins}");
        if let Some(rest) = line.strip_prefix(begins) {
            return rest.trim().to_owned();
        }
    }
}

/// Two processes that edit at the same time. `between` runs meanwhile, and a last time when both have finished. Returns
/// their digests and their final tables.
fn run(
    folders: [&Folder; 2],
    seeds: [u64; 2],
    edits: usize,
    mut between: impl FnMut(bool),
) -> ([String; 2], [String; 2]) {
    let halls = [Hall::A, Hall::B];
    let mut boxes: Vec<Child> = (0..2)
        .map(|at| {
            process(&folders[at].0, halls[at], seeds[at], edits)
                .spawn()
                .expect("a process")
        })
        .collect();
    let mut outputs: Vec<_> = boxes
        .iter_mut()
        .map(|child| BufReader::new(child.stdout.take().expect("its output")))
        .collect();
    let digests = thread::scope(|scope| {
        let waits: Vec<_> = outputs
            .iter_mut()
            .map(|output| scope.spawn(|| line(output, "edited ")))
            .collect();
        while waits.iter().any(|wait| !wait.is_finished()) {
            between(false);
        }
        waits
            .into_iter()
            .map(|wait| wait.join().expect("a digest"))
            .collect::<Vec<_>>()
    });
    between(true);
    let ends: Vec<String> = boxes
        .iter_mut()
        .zip(&mut outputs)
        .map(|(child, output)| {
            child
                .stdin
                .take()
                .expect("its input")
                .write_all(b"\n")
                .expect("a line");
            line(output, "ended ")
        })
        .collect();
    for child in &mut boxes {
        assert!(child.wait().expect("its end").success());
    }
    (
        digests.try_into().expect("two"),
        ends.try_into().expect("two"),
    )
}

/// What one shared table would contain.
fn shared(seeds: [u64; 2], edits: usize) -> String {
    let mut table = LoopTable::new(FRAMES);
    for (hall, seed) in [Hall::A, Hall::B].into_iter().zip(seeds) {
        let mut row = Edits::new(hall, seed);
        for _ in 0..edits {
            let (slot, frames) = row.next();
            match frames {
                Some(frames) => table.write(hall, slot, frames).expect("a write"),
                None => table.clear(hall, slot).expect("a clear"),
            }
        }
    }
    let slots: Vec<String> = (0..16).map(|slot| shown(&table, slot)).collect();
    slots.join(" ")
}

fn over_one_folder(edits: usize) {
    let mut digests = Vec::new();
    for seeds in [[1, 2], [3, 2]] {
        let folder = Folder::new();
        let pause = |_| thread::sleep(Duration::from_millis(1));
        let (played, ends) = run([&folder, &folder], seeds, edits, pause);
        assert_eq!(ends, [shared(seeds, edits), shared(seeds, edits)]);
        digests.push(played);
    }
    // B's frames do not depend on A's edits.
    assert_eq!(digests[0][1], digests[1][1]);
    assert_ne!(digests[0][0], digests[1][0]);
}

fn over_copied_folders(edits: usize) {
    let mut digests = Vec::new();
    for seeds in [[1, 2], [3, 2]] {
        let folders = [Folder::new(), Folder::new()];
        let mut random = Random::new(seeds[0]);
        let mut kept: [Vec<Vec<u8>>; 2] = [Vec::new(), Vec::new()];
        let between = |is_last: bool| {
            for (hall, kept) in [Hall::A, Hall::B].into_iter().zip(&mut kept) {
                let Ok(bytes) = fs::read(folders[hall as usize].file(hall)) else {
                    continue;
                };
                kept.push(bytes);
                // A copy is lost, or an earlier one comes again; at the end the last one comes.
                let sent = match is_last {
                    true => kept.len() - 1,
                    false if random.below(3) == 0 => continue,
                    false => random.below(kept.len()),
                };
                let to = folders[1 - hall as usize].file(hall);
                let beside = to.with_extension("copy");
                fs::write(&beside, &kept[sent]).expect("a copy");
                fs::rename(&beside, &to).expect("a copy");
                if kept.len() > 64 {
                    kept.remove(random.below(32));
                }
            }
            thread::sleep(Duration::from_micros(200));
        };
        let (played, ends) = run([&folders[0], &folders[1]], seeds, edits, between);
        assert_eq!(ends, [shared(seeds, edits), shared(seeds, edits)]);
        digests.push(played);
    }
    assert_eq!(digests[0][1], digests[1][1]);
}

#[test]
fn two_processes_over_one_folder() {
    over_one_folder(2_000);
}

#[test]
fn two_processes_over_copied_folders() {
    over_copied_folders(2_000);
}

#[test]
#[ignore = "the whole run: minutes"]
fn a_hundred_thousand_edits_each() {
    let begun = Instant::now();
    over_one_folder(100_000);
    println!(
        "one folder, four times 100,000 edits: {:?}",
        begun.elapsed()
    );
    let begun = Instant::now();
    over_copied_folders(100_000);
    println!(
        "copied folders, four times 100,000 edits: {:?}",
        begun.elapsed()
    );
}

// ---- faults

/// Kills a writer this many times. Its file must be whole each time, and contain what its number of edits says.
fn kills(times: usize) {
    let folder = Folder::new();
    let mut random = Random::new(9);
    let mut reader = folder.open(Hall::B);
    let mut last = 0;
    let (mut moved, mut cut) = (0, 0);
    for _ in 0..times {
        let seed = random.below(1 << 30) as u64;
        let mut writer = process(&folder.0, Hall::A, seed, usize::MAX)
            .stdin(Stdio::null())
            .spawn()
            .expect("a writer");
        let begun = Instant::now();
        let before = fs::read(folder.file(Hall::A)).ok();
        // It has begun to write; it is killed at any moment after that.
        while fs::read(folder.file(Hall::A)).ok() == before && begun.elapsed().as_secs() < 10 {
            thread::yield_now();
        }
        thread::sleep(Duration::from_micros(random.below(400) as u64));
        writer.kill().expect("a kill");
        writer.wait().expect("its end");
        cut += u32::from(folder.0.join(".hall-a.loops.new").exists());
        reader.refresh().expect("a whole half");
        let half = reader.half(Hall::A);
        assert!(half.changes() >= last, "no number falls");
        moved += u32::from(half.changes() > last);
        last = half.changes();
        for slot in 0..8 {
            let name = half.read(slot).map_or(String::new(), |held| {
                format!("{} to {}", held.start, held.end)
            });
            assert_eq!(half.name(slot), name, "loop and name are of one edit");
        }
    }
    println!("{times} kills: {moved} after an edit, {cut} inside a write, {last} edits");
    assert!(moved > 0);
}

#[test]
fn a_killed_writer_leaves_a_whole_half() {
    kills(100);
}

#[test]
#[ignore = "the whole run: a minute"]
fn a_thousand_killed_writers() {
    kills(1_000);
}

fn refusal_of<T: std::fmt::Debug>(answer: Result<T, LoopsFault>) -> Option<Refusal> {
    answer.expect_err("a fault").refusal()
}

#[test]
fn files_of_any_bytes_leave_the_last_good_table() {
    let folder = Folder::new();
    let (mut at_a, mut at_b) = (folder.open(Hall::A), folder.open(Hall::B));
    at_a.write(0, 1..5, "one").unwrap();
    assert_eq!(at_b.refresh().unwrap(), Theirs::Newer { changes: 1 });
    let good = at_b.table();
    let whole = fs::read(folder.file(Hall::A)).unwrap();
    let mut half_of_b = folder.open(Hall::B);
    half_of_b.write(8, 1..2, "").unwrap();
    let other_hall = fs::read(folder.file(Hall::B)).unwrap();
    let mut random = Random::new(5);
    let mut any: Vec<(Vec<u8>, Refusal)> = vec![
        (Vec::new(), Refusal::Truncated),
        (whole[..665].to_vec(), Refusal::Truncated),
        (vec![0; 666], Refusal::Mark),
        (other_hall, Refusal::SavedField),
        (
            LoopHalf::new(Hall::A, FRAMES + 1).store().to_vec(),
            Refusal::OtherFrames,
        ),
    ];
    for _ in 0..200 {
        let mut bytes = whole.clone();
        bytes[5 + random.below(661)] ^= 1 << random.below(8);
        any.push((bytes, Refusal::SavedField));
    }
    for (bytes, refusal) in any {
        fs::write(folder.file(Hall::A), &bytes).unwrap();
        assert_eq!(refusal_of(at_b.refresh()), Some(refusal));
        assert_eq!(at_b.table(), good);
        // The box of hall A does not read its own file, and its next write repairs it.
    }
    at_a.write(1, 2..3, "two").unwrap();
    assert_eq!(at_b.refresh().unwrap(), Theirs::Newer { changes: 2 });
    fs::remove_file(folder.file(Hall::A)).unwrap();
    assert_eq!(at_b.refresh().unwrap(), Theirs::Absent);
    assert_eq!(at_b.table().read(1), Ok(2..3));
}

#[test]
fn a_box_starts_with_the_newest_of_its_own_halves() {
    let (folder, backup) = (Folder::new(), Folder::new());
    let copies = [backup.0.clone()];
    let open = |copies: &[PathBuf]| SharedLoops::open(&folder.0, Hall::A, FRAMES, copies);
    let mut at_a = open(&copies).unwrap();
    assert_eq!(*at_a.start(), Start::New);
    at_a.write(0, 1..5, "old").unwrap();
    let old = fs::read(folder.file(Hall::A)).unwrap();
    at_a.clear(1).unwrap();
    at_a.write(0, 1..6, "new").unwrap();
    fs::copy(folder.file(Hall::A), backup.file(Hall::A)).unwrap();
    let mut at_b = folder.open(Hall::B);
    assert_eq!(at_b.half(Hall::A).changes(), 3);

    // A backup is restored; a copy has the newer half.
    fs::write(folder.file(Hall::A), &old).unwrap();
    let again = open(&copies).unwrap();
    let path = backup.file(Hall::A);
    let start = Start::Copy {
        path: path.clone(),
        changes: 3,
        own: Some(1),
    };
    assert_eq!(
        (again.start(), again.half(Hall::A).name(0)),
        (&start, "new")
    );
    assert!(
        start
            .to_string()
            .ends_with("its own file is older, after 1 change")
    );
    assert_eq!(
        fs::read(folder.file(Hall::A)).unwrap(),
        fs::read(&path).unwrap()
    );

    // No copy has it: the number starts again below what B has seen, and B says so.
    fs::write(folder.file(Hall::A), &old).unwrap();
    let mut again = open(&[]).unwrap();
    assert_eq!(*again.start(), Start::Own { changes: 1 });
    assert_eq!(at_b.refresh().unwrap(), Theirs::Back { seen: 3, now: 1 });
    assert_eq!(at_b.half(Hall::A).name(0), "new");
    again.write(0, 1..7, "again").unwrap();
    assert_eq!(at_b.refresh().unwrap(), Theirs::Back { seen: 3, now: 2 });
    // Two halves with the same number are reported, and neither is chosen.
    again.clear(5).unwrap();
    assert_eq!(refusal_of(at_b.refresh()), Some(Refusal::TwoHalves));
    assert_eq!(at_b.half(Hall::A).name(0), "new");
    again.clear(5).unwrap();
    assert_eq!(at_b.refresh().unwrap(), Theirs::Newer { changes: 4 });
    assert_eq!(at_b.half(Hall::A).name(0), "again");

    // A damaged own file: a copy is used, and without one the box does not start.
    fs::write(folder.file(Hall::A), b"no loops").unwrap();
    assert_eq!(refusal_of(open(&[])), Some(Refusal::Mark));
    let start = Start::Copy {
        path,
        changes: 3,
        own: None,
    };
    assert_eq!(*open(&copies).unwrap().start(), start);
}

#[test]
fn names_have_64_bytes_at_most() {
    let folder = Folder::new();
    let mut loops = folder.open(Hall::A);
    loops.write(7, 0..1, &"é".repeat(32)).unwrap();
    let before = fs::read(folder.file(Hall::A)).unwrap();
    for name in ["é".repeat(33), "a\0b".into()] {
        assert_eq!(
            refusal_of(loops.write(7, 0..2, &name)),
            Some(Refusal::SavedField)
        );
    }
    assert_eq!(
        refusal_of(loops.write(8, 0..1, "")),
        Some(Refusal::OtherHall)
    );
    assert_eq!(refusal_of(loops.clear(16)), Some(Refusal::LoopSlot));
    assert_eq!(fs::read(folder.file(Hall::A)).unwrap(), before);
    assert_eq!(folder.open(Hall::B).half(Hall::A).name(7), "é".repeat(32));
    loops.clear(7).unwrap();
    assert_eq!(folder.open(Hall::B).half(Hall::A).name(7), "");
}

/// A change that cannot be written: the sentence says so, and neither the table nor the file changes.
fn unwritten(loops: &mut SharedLoops, file: &Path) -> String {
    let (table, before) = (loops.table(), fs::read(file).unwrap());
    let fault = loops.write(3, 0..9, "lost").expect_err("a fault");
    assert_eq!((loops.table(), loops.half(Hall::A).changes()), (table, 1));
    assert_eq!(fs::read(file).unwrap(), before);
    fault.to_string()
}

#[test]
fn a_folder_that_cannot_be_written() {
    let folder = Folder::new();
    let mut loops = folder.open(Hall::A);
    loops.write(0, 1..5, "kept").unwrap();
    // The file cannot be created beside its place, because a folder is there; root may write to a folder without
    // permission.
    fs::create_dir(folder.0.join(".hall-a.loops.new")).unwrap();
    let says = unwritten(&mut loops, &folder.file(Hall::A));
    assert!(
        says.contains("hall-a.loops: cannot be written: Is a directory"),
        "{says}"
    );
}

/// Runs this program again with a file size limit of 0. A write fails, as on a full disk.
#[test]
fn a_full_disk() {
    const FOLDER: &str = "CABLEOWL_FULL";
    if let Ok(path) = env::var(FOLDER) {
        let mut loops = SharedLoops::open(&path, Hall::A, FRAMES, &[]).unwrap();
        let says = unwritten(&mut loops, &Path::new(&path).join(FILES[0]));
        assert!(
            says.contains("hall-a.loops: cannot be written: File too large"),
            "{says}"
        );
        return;
    }
    let folder = Folder::new();
    folder.open(Hall::A).write(0, 1..5, "kept").unwrap();
    let ended = Command::new("sh")
        .args([
            "-c",
            "trap '' XFSZ; ulimit -f 0; exec \"$0\" --exact a_full_disk --quiet",
        ])
        .arg(env::current_exe().unwrap())
        .env(FOLDER, &folder.0)
        .stdout(Stdio::null())
        .status();
    assert!(ended.unwrap().success());
}

/// What a read of the other hall's file costs.
#[test]
#[ignore = "a measurement"]
fn a_refresh_takes() {
    let folder = Folder::new();
    let (mut at_a, mut at_b) = (folder.open(Hall::A), folder.open(Hall::B));
    at_a.write(0, 1..5, "one").unwrap();
    let begun = Instant::now();
    for _ in 0..10_000 {
        at_b.refresh().unwrap();
    }
    println!("a refresh: {:?}", begun.elapsed() / 10_000);
}
