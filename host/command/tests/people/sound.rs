//! `cableowl sound`.

use std::{
    fs::{self, File, OpenOptions},
    io::Write,
    os::unix::{fs::PermissionsExt, process::CommandExt},
    process::Command,
    sync::atomic::{AtomicBool, Ordering},
    thread,
    time::Duration,
};

use random::Random;

use crate::room::{CABLEOWL, Room, three};

/// The bytes of samples.
pub fn raw(samples: &[f32]) -> Vec<u8> {
    samples.iter().flat_map(|s| s.to_le_bytes()).collect()
}

/// What `sha256sum` prints for a file of the folder, if the program is installed.
fn sha256sum(room: &Room, name: &str) -> Option<String> {
    let output = Command::new("sha256sum").arg(room.0.join(name)).output();
    let Ok(output) = output else {
        eprintln!("SKIPPED: no sha256sum here, so no digest was compared with it");
        return None;
    };
    let text = String::from_utf8(output.stdout).unwrap();
    Some(text.split(' ').next().unwrap().to_owned())
}

#[test]
fn what_is_in_a_sound() {
    let room = Room::new("sound");
    room.put("three.f32", raw(&[1.0, 1.0, 2.0, 2.0, -3.0, 3.0]));
    let ran = room.run(&["sound", "--rate", "2", "three.f32"]);
    let digest = ran.out.lines().nth(3).unwrap().split_whitespace().last();
    let digest = digest.unwrap().to_owned();
    ran.says(&format!(
        "sound               three.f32\n\
         frames              3\n\
         length              1.500 s at 2 frames a second\n\
         digest              {digest}\n\
         largest magnitude   3.0\n\
         NaN or infinity     none\n"
    ));
    if let Some(expected) = sha256sum(&room, "three.f32") {
        assert_eq!(digest, expected);
    }
    // Standard input has no length, and the result is the same.
    let piped = room.run_on(
        &["sound", "--rate", "2", "-"],
        &raw(&[1.0, 1.0, 2.0, 2.0, -3.0, 3.0]),
    );
    assert_eq!(piped.out, ran.out.replace("three.f32", "standard input"));
}

#[test]
fn numbers_that_are_none() {
    let room = Room::new("sound-nan");
    let bad = [f32::NAN, f32::INFINITY, f32::NEG_INFINITY];
    for (samples, largest, says) in [
        (vec![0.0, -0.0], "0.0", "none"),
        (vec![0.5, bad[0]], "0.5", "1 NaN, the first in frame 0"),
        (
            vec![0.5, 0.0, bad[1], -0.75],
            "0.75",
            "1 infinity, the first in frame 1",
        ),
        (
            vec![0.0, 0.0, bad[0], bad[0], bad[1], bad[2]],
            "0.0",
            "2 NaNs and 2 infinities, the first in frame 1",
        ),
        (vec![f32::MAX, 1e-40], "3.4028235e38", "none"),
    ] {
        room.put("s.f32", raw(&samples));
        let ran = room.run(&["sound", "s.f32"]);
        assert_eq!((ran.status, &*ran.err), (0, ""));
        let ends = format!("largest magnitude   {largest}\nNaN or infinity     {says}\n");
        assert!(ran.out.ends_with(&ends), "{}", ran.out);
    }
}

#[test]
fn digests_of_random_files_are_those_of_sha256sum() {
    let room = Room::new("sound-digests");
    let mut random = Random::new(380);
    for round in 0..24 {
        let frames = match round {
            0..=15 => 1 + round,
            _ => 1 + random.below(40_000),
        };
        let bytes: Vec<u8> = (0..8 * frames).map(|_| random.word() as u8).collect();
        room.put("s.f32", &bytes);
        let Some(expected) = sha256sum(&room, "s.f32") else {
            return;
        };
        let ran = room.run(&["sound", "s.f32"]);
        assert!(
            ran.out
                .contains(&format!("\ndigest              {expected}\n")),
            "{frames}: {}",
            ran.out
        );
    }
}

/// Files that are not sounds: a sentence each, status 1, and the others are shown.
#[test]
fn bad_files() {
    let room = Room::new("sound-bad");
    fs::create_dir(room.0.join("folder")).unwrap();
    room.put("empty.f32", "");
    room.put("odd.f32", [0; 12]);
    room.put("byte.f32", [0]);
    room.put("evening.trace", three());
    room.put("box.log", "block=1 frames=6 steps=6 state=6 position=3\n");
    room.put("lesson.wav", [&b"RIFF"[..], &[0; 44]].concat());
    let sparse = |name: &str, length: u64| {
        let file = File::create(room.0.join(name)).unwrap();
        file.set_len(length).unwrap();
    };
    sparse("most.f32", 8 * 16_777_216);
    sparse("long.f32", 8 * 16_777_217);
    sparse("huge.f32", 4 << 30);
    let more = "has more than 16,777,216 frames, the most that a sound can have: cut it";
    for (name, says) in [
        ("gone.f32", "cannot be read: no such file or directory"),
        ("folder", "cannot be read: it is a directory"),
        ("empty.f32", "is empty: a sound has at least one frame"),
        (
            "odd.f32",
            "has 12 bytes, which is no whole number of frames: a frame is two f32 samples, 8 bytes",
        ),
        (
            "byte.f32",
            "has 1 byte, which is no whole number of frames: a frame is two f32 samples, 8 bytes",
        ),
        ("long.f32", more),
        ("huge.f32", more),
        (
            "evening.trace",
            "this is a trace, not a sound: 'cableowl replay evening.trace' plays it",
        ),
        (
            "box.log",
            "this is a log, not raw samples: 'cableowl report box.log' reads it",
        ),
        (
            "lesson.wav",
            "this is a WAV file, not raw samples: 'ffmpeg -i lesson.wav -ac 2 -f f32le lesson.f32' makes raw samples of it",
        ),
    ] {
        let ran = room.run(&["sound", name]);
        ran.refuses(&format!("{name}: {says}"));
        assert_eq!(ran.out, "");
        let ran = room.run(&["replay", "--sound", name, "evening.trace"]);
        ran.refuses(&format!("{name}: {says}"));
        assert_eq!(ran.out, "", "nothing is played");
    }
    room.run_on(&["sound", "-"], &[0; 9])
        .refuses("standard input: has 9 bytes, which is no whole number of frames: a frame is two f32 samples, 8 bytes");
    room.run_on(&["sound", "-"], &[])
        .refuses("standard input: is empty: a sound has at least one frame");
    let endless = "head -c 134217736 /dev/zero | \"$0\" sound -";
    room.run_by("sh", &["-c", endless, CABLEOWL])
        .refuses(&format!("standard input: {more}"));
    // The good ones among them are shown.
    let ran = room.run(&["sound", "odd.f32", "most.f32", "empty.f32"]);
    assert_eq!((ran.status, ran.err.lines().count()), (1, 2));
    assert!(
        ran.out.contains("\nframes              16,777,216\n"),
        "{}",
        ran.out
    );
    room.run(&["replay", "--sound", "-", "evening.trace"])
        .is_no_use("--sound is a file on a disk, and cannot be '-'", "replay");
}

/// The largest sound is shown in little memory.
#[test]
fn a_long_sound_needs_no_memory() {
    let room = Room::new("sound-memory");
    let file = File::create(room.0.join("most.f32")).unwrap();
    file.set_len(8 * 16_777_216).unwrap();
    let limited = "ulimit -v 40000; exec \"$0\" sound most.f32";
    let ran = room.run_by("sh", &["-c", limited, CABLEOWL]);
    assert_eq!((ran.status, &*ran.err), (0, ""));
    assert!(ran.out.contains("16,777,216"), "{}", ran.out);
}

#[test]
fn a_file_that_changes_while_it_is_read() {
    let room = Room::new("sound-changes");
    let path = room.0.join("growing.f32");
    File::create(&path)
        .unwrap()
        .set_len(8 * 16_000_000)
        .unwrap();
    let ended = AtomicBool::new(false);
    thread::scope(|scope| {
        scope.spawn(|| {
            let mut file = OpenOptions::new().write(true).open(&path).unwrap();
            while !ended.load(Ordering::Relaxed) {
                // The same length, and other samples.
                file.write_all(&[1; 8]).unwrap();
                thread::sleep(Duration::from_millis(10));
            }
        });
        let ran = room.run(&["sound", "growing.f32"]);
        ended.store(true, Ordering::Relaxed);
        ran.refuses(
            "growing.f32: changed while it was read: run this again when nothing writes to it",
        );
        assert_eq!(ran.out, "");
    });
}

/// The user and group nobody.
const NOBODY: u32 = 65_534;

#[test]
fn a_sound_without_permission() {
    // Root can read everything, so a copy of the command is run as nobody, from a folder that nobody can enter.
    let folder = std::env::temp_dir().join(format!("cableowl-secret-{}", std::process::id()));
    let _ = fs::remove_dir_all(&folder);
    fs::create_dir(&folder).unwrap();
    fs::set_permissions(&folder, fs::Permissions::from_mode(0o755)).unwrap();
    let (command, secret) = (folder.join("cableowl"), folder.join("secret.f32"));
    fs::copy(CABLEOWL, &command).unwrap();
    fs::write(&secret, [0; 8]).unwrap();
    fs::set_permissions(&secret, fs::Permissions::from_mode(0o000)).unwrap();
    let mut run = Command::new(&command);
    run.args(["sound", "secret.f32"]).current_dir(&folder);
    if File::open(&secret).is_ok() {
        run.uid(NOBODY).gid(NOBODY);
    }
    match run.output() {
        Ok(output) => {
            let message = String::from_utf8_lossy(&output.stderr).into_owned();
            assert_eq!(
                message,
                "cableowl: secret.f32: cannot be read: permission denied\n"
            );
            assert_eq!(output.status.code(), Some(1));
        }
        Err(error) => eprintln!("SKIPPED: the command cannot be run as nobody here: {error}"),
    }
    fs::remove_dir_all(folder).unwrap();
}
