//! Files that cannot be read or written, wrong words, and a reader that closes the pipe.

use std::{
    fs::{self, File, OpenOptions},
    io::{Read, Write},
    os::unix::{fs::PermissionsExt, process::CommandExt},
    process::{Command, Stdio},
};

use crate::room::{CABLEOWL, Room, three};

/// Each command that reads a file, with words that read this one.
fn readers(file: &str) -> [Vec<String>; 6] {
    let words = |text: &str| {
        text.split(' ')
            .map(|word| word.replace("FILE", file))
            .collect()
    };
    [
        words("replay FILE"),
        words("salvage FILE new"),
        words("settings show FILE"),
        words("report FILE"),
        words("audit FILE good.log"),
        words("audit good.trace FILE"),
    ]
}

fn room(name: &str) -> Room {
    let room = Room::new(name);
    room.put("good.trace", three());
    room.put("good.log", "block=1 frames=6 steps=6 state=6 position=3\n");
    room
}

fn refused(room: &Room, file: &str, sentence: &str) {
    for words in readers(file) {
        refuses(room, &words, sentence);
    }
}

fn refuses(room: &Room, words: &[String], sentence: &str) {
    let words: Vec<&str> = words.iter().map(String::as_str).collect();
    let ran = room.run(&words);
    let (status, more) = match words[0] {
        "audit" => (3, ": nothing is said of the box"),
        _ => (1, ""),
    };
    assert_eq!(
        ran.err,
        format!("cableowl: {sentence}{more}\n"),
        "{words:?}"
    );
    assert_eq!((ran.status, &*ran.out), (status, ""), "{words:?}");
}

#[test]
fn a_directory_and_a_missing_file() {
    let room = room("unreadable");
    fs::create_dir(room.0.join("folder")).unwrap();
    // A report reads the logs of a folder (report.rs).
    for words in readers("folder")
        .iter()
        .filter(|words| words[0] != "report")
    {
        refuses(&room, words, "folder: cannot be read: it is a directory");
    }
    refused(
        &room,
        "gone",
        "gone: cannot be read: no such file or directory",
    );
    refused(
        &room,
        "good.log/x",
        "good.log/x: cannot be read: not a directory",
    );
}

/// The user and group nobody.
const NOBODY: u32 = 65_534;

#[test]
fn a_file_without_permission() {
    // Root can read everything, so a copy of the command is run as nobody, from a folder that nobody can enter.
    let folder = std::env::temp_dir().join(format!("cableowl-forbidden-{}", std::process::id()));
    let _ = fs::remove_dir_all(&folder);
    fs::create_dir(&folder).unwrap();
    fs::set_permissions(&folder, fs::Permissions::from_mode(0o755)).unwrap();
    let (command, secret) = (folder.join("cableowl"), folder.join("secret"));
    fs::copy(CABLEOWL, &command).unwrap();
    fs::write(&secret, three()).unwrap();
    fs::set_permissions(&secret, fs::Permissions::from_mode(0o000)).unwrap();
    let readable = File::open(&secret).is_ok();
    for words in readers("secret") {
        let mut run = Command::new(&command);
        run.args(&words).current_dir(&folder);
        if readable {
            run.uid(NOBODY).gid(NOBODY);
        }
        if words[0] == "audit" {
            continue;
        }
        let output = match run.output() {
            Ok(output) => output,
            Err(error) => {
                eprintln!("SKIPPED: the command cannot be run as nobody here: {error}");
                break;
            }
        };
        let message = String::from_utf8_lossy(&output.stderr).into_owned();
        assert_eq!(
            message, "cableowl: secret: cannot be read: permission denied\n",
            "{words:?}"
        );
        assert_eq!(output.status.code(), Some(1));
    }
    fs::remove_dir_all(folder).unwrap();
}

#[test]
fn a_disk_that_is_full() {
    let room = room("full");
    for words in [
        &["replay", "good.trace"][..],
        &["report", "good.log"],
        &["help"],
    ] {
        let full = OpenOptions::new().write(true).open("/dev/full").unwrap();
        let output = room.command(words).stdout(full).output().unwrap();
        let message = String::from_utf8_lossy(&output.stderr).into_owned();
        assert_eq!(
            message,
            "cableowl: standard output: cannot be written: no space left on device\n"
        );
        assert_eq!(output.status.code(), Some(1));
    }
}

/// A trace with three records and this many blocks more.
fn long_trace(blocks: usize) -> Vec<u8> {
    let mut trace = three();
    let block = trace[55..].to_vec();
    trace.extend(block.repeat(blocks));
    trace
}

/// Runs the command for a reader that closes the pipe after ten bytes. Returns the status and the length of the messages.
fn run_for_ten_bytes(room: &Room, words: &[&str]) -> (Option<i32>, usize) {
    let mut child = room
        .command(words)
        .stdout(Stdio::piped())
        .stderr(Stdio::piped())
        .spawn()
        .unwrap();
    let mut some = [0; 10];
    child.stdout.take().unwrap().read_exact(&mut some).unwrap();
    let output = child.wait_with_output().unwrap();
    (output.status.code(), output.stderr.len())
}

#[test]
fn a_reader_that_goes() {
    let room = Room::new("closed");
    room.put("long.trace", long_trace(100_000));
    let ended = run_for_ten_bytes(&room, &["replay", "long.trace"]);
    assert_eq!(ended, (Some(0), 0));
}

#[test]
fn an_audit_keeps_its_verdict_when_its_reader_goes() {
    let room = Room::new("closed-audit");
    room.put("long.trace", long_trace(20_000));
    let mut log = room.run(&["replay", "long.trace"]).out;
    let last = log.trim_end().rfind('\n').unwrap();
    log.replace_range(last + 1.., "block=20001 refused=1\n");
    room.put("long.log", log);
    let ended = run_for_ten_bytes(&room, &["audit", "--csv", "long.trace", "long.log"]);
    assert_eq!(ended, (Some(1), 0));
}

#[test]
fn wrong_words() {
    let room = room("words");
    let all = "replay, salvage, sound, settings, loops, report, audit, explain, help, version, man or completions";
    for (words, message, verb) in [
        (&[][..], &*format!("say what to do: {all}"), ""),
        (
            &["listen"],
            &format!("'listen' is not something that cableowl can do: say {all}"),
            "",
        ),
        (&["replay"], "replay needs TRACE: the trace", "replay"),
        (
            &["salvage", "a"],
            "salvage needs OUT: the new file",
            "salvage",
        ),
        (
            &["audit", "-", "-"],
            "standard input, '-', can be read only once",
            "audit",
        ),
        (
            &["report", "--html", "good.log", "good.log"],
            "--html names a file that is read",
            "report",
        ),
        (
            &["audit", "--html", "./good.trace", "good.trace", "good.log"],
            "--html names a file that is read",
            "audit",
        ),
    ] {
        room.run(words).is_no_use(message, verb);
    }
    let help = room.run(&["help"]);
    for words in [&["--help"][..], &["-h"]] {
        assert_eq!(room.run(words), help);
    }
    assert!(help.out.starts_with("cableowl: ") && help.status == 0);
    assert!(room.run(&["version"]).out.starts_with("cableowl 0."));
}

#[test]
fn progress_is_shown_on_a_terminal_alone() {
    let room = Room::new("progress");
    let slow =
        "(printf 'block=1 refused=1\\n'; sleep 2.6; printf 'block=2 refused=1\\n'; sleep 0.4)";
    let message = |command: &str| {
        let output = Command::new("sh")
            .args(["-c", command])
            .current_dir(&room.0)
            .stdin(Stdio::null())
            .output();
        let output = output.expect("a shell");
        let all = [output.stdout, output.stderr].concat();
        String::from_utf8_lossy(&all).into_owned()
    };
    let plain = message(&format!("{slow} | {CABLEOWL} report - >/dev/null"));
    assert_eq!(plain, "");
    if message("script --version").contains("script from") {
        let within = format!("{slow} | {CABLEOWL} report - >/dev/null");
        let shown = message(&format!(
            "script -qec \"{}\" /dev/null",
            within.replace('"', "\\\"")
        ));
        assert!(shown.contains("standard input: 0 MB read"), "{shown:?}");
        assert!(
            shown.trim_end().ends_with("\x1b[K"),
            "it is taken away again: {shown:?}"
        );
    } else {
        eprintln!("SKIPPED: no 'script' here, so progress on a terminal was not tried");
    }
}

#[test]
fn a_page_takes_no_other_file_s_place() {
    let room = room("page-names");
    room.put("letter.html", "<!DOCTYPE html>\nDear tutor");
    let message = "letter.html: exists already and is no page of this command, so it is not overwritten: name another file";
    room.run(&["report", "--html", "letter.html", "good.log"])
        .refuses(message);
    assert_eq!(room.read("letter.html"), "<!DOCTYPE html>\nDear tutor");
    for _ in 0..2 {
        let ran = room.run(&["report", "--html", "page.html", "good.log"]);
        assert_eq!((ran.status, &*ran.err), (0, ""));
    }
    let mut file = OpenOptions::new()
        .append(true)
        .open(room.0.join("page.html"))
        .unwrap();
    file.write_all(b"<!-- read by the tutor -->").unwrap();
    room.run(&["audit", "--html", "page.html", "good.trace", "good.log"]);
    assert!(!room.read("page.html").contains("tutor"));
    assert_eq!(
        room.names(),
        ["good.log", "good.trace", "letter.html", "page.html"]
    );
}
