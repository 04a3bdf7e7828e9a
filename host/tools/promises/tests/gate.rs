//! The gate's last line counts both halves, and agrees with its exit status. Tested with a kit, a cargo and a compiler
//! that print what a test asks for.

use std::{
    fs,
    os::unix::fs::PermissionsExt,
    path::{Path, PathBuf},
    process::Command,
    sync::{Mutex, PoisonError},
};

/// One gate at a time: a script cannot be run while another test writes it.
static TURN: Mutex<()> = Mutex::new(());

/// What the tools print and how they end.
struct Tools {
    machine: &'static str,
    /// What `rt ci` prints.
    rt: Option<&'static str>,
    /// What `rt check` of the only crate with its control prints.
    control: &'static str,
    /// The text that the first control replaces; the crate has `one`.
    old: &'static str,
    arm: &'static str,
    documents: &'static str,
    cargo_test: &'static str,
    rustc: &'static str,
}

const PROVED: &str = "[ $# = 1 ] && echo 'rt: ok; handles allowed: none; must-fail edits: 1 refused; every proof and must-fail edit was done in this run' && echo '206 passed, 0 failed'";
const ACCEPTED: &str =
    "echo 'crate leaf: modules loaded=9 checked=2'; echo 'logic=proved functions=2'";
const TESTED: &str = "echo 'test result: ok. 4 passed; 0 failed; 0 ignored'; echo 'test result: ok. 3 passed; 0 failed; 0 ignored'";
const LINKS: &str =
    r#"while [ "$1" != -o ]; do shift; done; printf '#!/bin/sh\n' >"$2"; chmod +x "$2""#;

impl Default for Tools {
    fn default() -> Self {
        Self {
            machine: "x86_64",
            rt: Some(PROVED),
            control: ACCEPTED,
            old: "one",
            arm: "true",
            documents: "true",
            cargo_test: TESTED,
            rustc: LINKS,
        }
    }
}

/// The gate's last line, whether it reports success, and everything that it wrote.
fn gate(name: &str, tools: &Tools) -> (String, bool, String) {
    let _turn = TURN.lock().unwrap_or_else(PoisonError::into_inner);
    let room = Room::new(name, tools.old);
    let bin = room.0.join("bin");
    let script = |name: &str, text: &str| {
        let path = bin.join(name);
        fs::write(&path, format!("#!/bin/sh\n{text}\n")).unwrap();
        fs::set_permissions(path, fs::Permissions::from_mode(0o755)).unwrap();
    };
    script(
        "uname",
        &format!("[ $1 = -m ] && echo {} || echo Linux", tools.machine),
    );
    if let Some(ci) = tools.rt {
        script(
            "rt",
            &format!(
                "case $1 in version) echo kit ;; ci) {ci} ;; check) {} ;; esac",
                tools.control
            ),
        );
    }
    script(
        "rustc",
        &format!(
            "case $1 in --version) echo rustc ;; *) {} ;; esac",
            tools.rustc
        ),
    );
    script(
        "cargo",
        &format!(
            "case \"$1 $2 $3\" in 'test -p promises') {} ;; test*) {} ;; esac",
            tools.documents, tools.cargo_test
        ),
    );
    let arm = room.0.join("tools/arm");
    fs::write(&arm, format!("#!/bin/sh\n{}\n", tools.arm)).unwrap();
    fs::set_permissions(arm, fs::Permissions::from_mode(0o755)).unwrap();
    let run = Command::new("bash")
        .arg(room.0.join("tools/gate"))
        .env("PATH", format!("{}:/usr/bin:/bin", bin.display()))
        .output()
        .unwrap();
    let text = String::from_utf8_lossy(&run.stdout);
    let last = text.lines().last().unwrap_or("").to_owned();
    let all = format!("{text}{}", String::from_utf8_lossy(&run.stderr));
    (last, run.status.success(), all)
}

/// A repository with the gate and a crate with one edit and its control, removed at the end.
struct Room(PathBuf);

impl Room {
    fn new(name: &str, old: &str) -> Self {
        let path =
            std::env::temp_dir().join(format!("cableowl-gate-{name}-{}", std::process::id()));
        for folder in [
            "bin",
            "tools/controls",
            "host",
            "crates/leaf/must-fail",
            "crates/leaf/src",
        ] {
            fs::create_dir_all(path.join(folder)).unwrap();
        }
        for (file, text) in [
            ("KIT", "kit\n"),
            ("crates.txt", "leaf:\n"),
            ("crates/leaf/must-fail/slip.edit", ""),
            ("crates/leaf/src/lib.rt", "one\n"),
            (
                "tools/controls/leaf.edit",
                &format!(
                    "# slip: said otherwise\nfile: src/lib.rt\nold: {old}\nnew: 1\n# other: as well\nfile: src/lib.rt\nold: gone\nnew: 2\n"
                ),
            ),
        ] {
            fs::write(path.join(file), text).unwrap();
        }
        let tools = Path::new(env!("CARGO_MANIFEST_DIR")).join("../../../tools");
        for tool in ["gate", "apply-edit", "controls/accepted", "controls/try"] {
            fs::copy(tools.join(tool), path.join("tools").join(tool)).unwrap();
        }
        Self(path)
    }
}

impl Drop for Room {
    fn drop(&mut self) {
        let _ = fs::remove_dir_all(&self.0);
    }
}

#[track_caller]
fn ends(name: &str, tools: &Tools, last: &str) -> String {
    let (found, well, all) = gate(name, tools);
    assert_eq!(found, last, "{all}");
    assert_eq!(well, last.ends_with(" 0 failed"), "{all}");
    all
}

#[test]
fn both_halves_are_counted() {
    ends("well", &Tools::default(), "215 passed, 0 failed");
    let tools = Tools {
        arm: "echo 'arm: the archive for Arm has other functions'; exit 1",
        ..Tools::default()
    };
    ends("arm", &tools, "214 passed, 1 failed");
}

#[test]
fn a_failing_rust_test_is_seen_in_the_last_line() {
    let cargo_test = "echo 'test result: FAILED. 4 passed; 2 failed; 0 ignored'; echo 'test result: ok. 3 passed; 0 failed; 0 ignored'; exit 101";
    let all = ends(
        "test",
        &Tools {
            cargo_test,
            ..Tools::default()
        },
        "213 passed, 2 failed",
    );
    assert!(all.contains("2 tests of host/ failed"), "{all}");
}

#[test]
fn a_rust_side_that_does_not_build_is_a_failure() {
    let cargo_test = "echo 'error: could not compile'; exit 101";
    ends(
        "build",
        &Tools {
            cargo_test,
            ..Tools::default()
        },
        "206 passed, 1 failed",
    );
    ends(
        "none",
        &Tools {
            cargo_test: "true",
            ..Tools::default()
        },
        "206 passed, 1 failed",
    );
}

#[test]
fn a_failing_proof_or_edit_is_seen_in_the_last_line() {
    let rt =
        Some("echo 'rt: FAILED: sound_lanes sound_state'; echo '180 passed, 2 failed'; exit 1");
    ends(
        "proof",
        &Tools {
            rt,
            ..Tools::default()
        },
        "187 passed, 2 failed",
    );
    let rt = Some("echo 'rt: a fault in rt'; exit 2");
    ends(
        "fault",
        &Tools {
            rt,
            ..Tools::default()
        },
        "7 passed, 1 failed",
    );
    let rt = Some("echo '206 passed, 0 failed'; exit 1");
    ends(
        "status",
        &Tools {
            rt,
            ..Tools::default()
        },
        "213 passed, 1 failed",
    );
}

#[test]
fn an_edit_that_rt_did_not_refuse_is_a_failure() {
    for (name, rt, last, words) in [
        (
            "bad",
            "echo 'rt: leaf/slip.edit: BAD EDIT: an old text is not there'; echo 'rt: ok; handles allowed: none; must-fail edits: 0 refused, 1 bad; every proof was done in this run'; echo '205 passed, 0 failed'",
            "212 passed, 1 failed",
            "1 of the 1 must-fail edits are bad",
        ),
        (
            "lost",
            "echo 'rt: ok; handles allowed: none; every proof and must-fail edit was done in this run'; echo '205 passed, 0 failed'",
            "212 passed, 1 failed",
            "rt ci refused 0 must-fail edits, and crates/ has 1",
        ),
        (
            "not-ok",
            "echo '205 passed, 0 failed'",
            "212 passed, 1 failed",
            "without its line 'rt: ok'",
        ),
    ] {
        let tools = Tools {
            rt: Some(rt),
            ..Tools::default()
        };
        let all = ends(name, &tools, last);
        assert!(all.contains(words), "{all}");
    }
    let limited = "echo 'rt: ok; handles allowed: none; must-fail edits: 1 refused, 1 of them only by a limit, 0 bad; rest'; echo '206 passed, 0 failed'";
    let tools = Tools {
        rt: Some(limited),
        ..Tools::default()
    };
    ends("limited", &tools, "215 passed, 0 failed");
}

#[test]
fn a_control_that_is_not_accepted_is_a_failure() {
    for (name, control, words) in [
        (
            "refused",
            "echo 'fn leaf::one: not proved'; exit 1",
            "leaf: NOT accepted: not proved\n  fn leaf::one: not proved",
        ),
        (
            "no-verdict",
            "echo 'crate leaf: modules loaded=9 checked=2'",
            "leaf: NOT accepted: not proved",
        ),
        (
            "unchanged",
            "echo 'crate leaf: modules loaded=9 checked=0'; echo 'logic=proved functions=2'",
            "leaf: NOT accepted: its control changes no module",
        ),
        (
            "original",
            "grep -q one src/lib.rt && echo 'logic=proved functions=2'",
            "leaf: NOT accepted: not proved",
        ),
    ] {
        let tools = Tools {
            control,
            ..Tools::default()
        };
        let all = ends(name, &tools, "213 passed, 1 failed");
        assert!(all.contains(words), "{all}");
        // The second control of the crate is not tried.
        assert!(!all.contains("gone"), "{all}");
    }
}

#[test]
fn a_control_that_cannot_be_applied_is_a_failure() {
    let tools = Tools {
        old: "two",
        ..Tools::default()
    };
    let all = ends("unread", &tools, "213 passed, 1 failed");
    let words = "leaf: NOT accepted: not found in src/lib.rt: two";
    assert!(all.contains(words), "{all}");
}

#[test]
fn what_will_not_do_is_said_before_anything_is_proved() {
    let none = "0 passed, 1 failed";
    let without_kit = ends(
        "kit",
        &Tools {
            rt: None,
            ..Tools::default()
        },
        none,
    );
    assert!(without_kit.contains("no 'rt' on PATH"), "{without_kit}");
    let another = ends(
        "processor",
        &Tools {
            machine: "aarch64",
            ..Tools::default()
        },
        none,
    );
    assert!(another.contains("aarch64"), "{another}");
    let rustc = "echo 'linker `cc` not found'; exit 1";
    let unlinked = ends(
        "linker",
        &Tools {
            rustc,
            ..Tools::default()
        },
        none,
    );
    assert!(unlinked.contains("linker `cc` not found"), "{unlinked}");
    let untrue = ends(
        "documents",
        &Tools {
            documents: "echo 'README has no row'; exit 101",
            ..Tools::default()
        },
        none,
    );
    assert!(untrue.contains("README has no row"), "{untrue}");
}
