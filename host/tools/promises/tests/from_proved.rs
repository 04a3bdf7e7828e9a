//! tools/from-proved and tools/together: only the check of an edit begins with what was checked before, with its own crate's
//! modules; edits that cannot disturb each other are checked once, and each is judged by its own errors; edits are checked as
//! soon as their crate is proved. Tried with a kit that says what it was called with, and refuses each function whose body has
//! a 9 and each field of a record whose type has one.

use std::{
    fs,
    os::unix::fs::PermissionsExt,
    path::{Path, PathBuf},
    process::Command,
};

/// In place of `rattle`: tells its words, and checks the crate `leaf` over the modules in the folder given to keep them in.
/// The file `calls` gets a line for each such check. `third` calls `first`, so it falls with it. With SLOW, a check ahead does
/// not end; the file that SLOW names gets its process. With PROVES, each proof ends well.
const RATTLE: &str = r#"#!/bin/sh
echo "$*"
[ "$1 $PROVES" != 'build yes' ] || exit 0
root=$4 kept=''
case $SLOW$root in /*/edits/leaf/*) echo $$ >"$SLOW" && exec sleep 100 ;; esac
while [ $# -gt 0 ]; do
  [ "$1" != --incremental ] || { kept=$2/modules-3 && mkdir -p "$kept" && echo "kept: $(ls "$kept" | wc -l)"; }
  shift
done
case $root in */must-fail/leaf/* | */edits/leaf/*) ;; *) exit 7 ;; esac
where=${root%/src/*}
echo check >>"$CALLS"
files=$root
[ ! -d "$where/specs" ] || files="$root $where/specs/Promises.antt $where/proofs/Promises.antt"
awk -v kept="$kept" -v where="$where" -v blamed="$BLAMED" -v beside="$BESIDE" -v words="${WORDS:-expected}" '
  function whole(name) { return "Rattle·leaf·" (name ~ /^specs/ ? "" : "proofs.proofs.") name }
  function write(name, text, imported) {
    file = kept "/" whole(name) ".oantt"
    system("rm -f \"" file "\"")
    printf "--@ module %s\n--@ source %s\n", whole(name), text >file
    if (imported != "") printf "--@ import %s -\n", whole(imported) >file
    print "--@ body 0" >file
    close(file)
  }
  function refuse(name, words) {
    print where "/proofs/" name "/Proof.antt:1:1: error: " words
    print "  of " name
    bad = 1
  }
  /^fn / { name = $2; sub(/\(.*/, "", name) }
  /^    [0-9]/ {
    text = $0; gsub(/ /, "", text)
    write(name ".Code", text, name == "third" ? "first.Proof" : "")
    write(name ".Proof", "proof", name ".Code")
    if (text ~ /9/) { refuse(blamed == "" ? name : blamed, "`returns`"); wrong[name] }
  }
  FILENAME ~ /specs.Promises.antt$/ {
    specs = specs "." $0; gsub(/ /, "", specs)
    if ($1 == "pub" && $3 == ":") field = $2
    if ($0 ~ /9/) wrong_fields[++fields] = field
  }
  FILENAME ~ /proofs.Promises.antt$/ && $2 == "=" { proof_at[$1] = FNR }
  END {
    if (specs != "") {
      write("Promises", "proof", "specs.specs.Promises")
      write("specs.specs.Promises", specs)
      for (k = 1; k <= fields; k++) {
        print where "/proofs/Promises.antt:" proof_at[wrong_fields[k]] ":14: error: `kept`: " words
        print "  of " wrong_fields[k]
        bad = 1
      }
    }
    if ("first" in wrong) refuse("third", "`first` was not admitted")
    if (beside != "") write("Beside", bad + 0)
    print "logic=" (bad ? "not-proved" : "proved")
    exit bad
  }' $files
"#;

/// In place of `rt`: tries each edit of leaf and tells its status, or calls the kit's `rattle` with its own words. `ci` proves
/// leaf first, waits until AHEAD checks have begun, does what THEN says, and tries the edits with the words in ASKED.
const RT: &str = r#"#!/bin/sh
rattle=$RATTLE_HOME/on/$(uname -m)/bin/rattle
edits() {
  for edit in crates/leaf/must-fail/*.edit; do
    label=$(basename "$edit" .edit) where=$PWD/target/must-fail/leaf/$(basename "$edit" .edit)
    mkdir -p "$where" && cp -R crates/leaf/* "$where" && rm -r "$where/must-fail" || exit
    "$APPLY" "$edit" "$where" >/dev/null || exit
    "$rattle" check --crate-name leaf "$where/src/lib.rt" "$@" >"$where.log" 2>&1
    echo "$label $?"
  done
}
case $1 in
edits) edits ;;
ci)
  "$rattle" build --crate-name leaf "$PWD/crates/leaf/src/lib.rt" --extern one -o "$PWD/target/rlib/leaf.rlib" >built || exit
  for _ in $(seq 200); do
    [ "$(cat "$CALLS" 2>/dev/null | wc -l)" -lt "$AHEAD" ] || break
    sleep 0.05
  done
  eval "$THEN"
  edits $ASKED
  ;;
*) exec "$rattle" "$@" ;;
esac
"#;

struct Room(PathBuf);

impl Room {
    /// A kit, and a tree with the proved crate `leaf` and these edits of it: label, function and new body.
    fn new(name: &str, edits: &[(&str, &str, &str)]) -> Self {
        let path = std::env::temp_dir().join(format!(
            "cableowl-from-proved-{name}-{}",
            std::process::id()
        ));
        let machine = path.join("kit/on").join(std::env::consts::ARCH).join("bin");
        let checked = path.join("target/rlib/leaf.rlib/toolchain/checked");
        let leaf = path.join("crates/leaf");
        for folder in [
            &path.join("kit/bin"),
            &machine,
            &checked,
            &leaf.join("src"),
            &leaf.join("must-fail"),
            &path.join("tools/controls"),
        ] {
            fs::create_dir_all(folder).unwrap();
        }
        for (file, text) in [
            (path.join("kit/bin/rt"), RT),
            (machine.join("rattle"), RATTLE),
        ] {
            fs::write(&file, text).unwrap();
            fs::set_permissions(file, fs::Permissions::from_mode(0o755)).unwrap();
        }
        let mut source = String::new();
        for (number, function) in ["first", "second", "third"].iter().enumerate() {
            source += &format!(
                "fn {function}() -> u8\n    ensures {{ λ r. ⌜ r ≡ {number} ⌝ }}\n{{\n    {number} + 0\n}}\n"
            );
            let module = format!("Rattle·leaf·proofs.proofs.{function}");
            let calls = if *function == "third" {
                "--@ import Rattle·leaf·proofs.proofs.first.Proof -\n"
            } else {
                ""
            };
            for (part, text) in [
                (
                    "Code",
                    format!("--@ module {module}.Code\n--@ source {number}+0\n{calls}--@ body 0\n"),
                ),
                (
                    "Proof",
                    format!(
                        "--@ module {module}.Proof\n--@ source proof\n--@ import {module}.Code -\n--@ body 0\n"
                    ),
                ),
            ] {
                fs::write(checked.join(format!("{module}.{part}.oantt")), text).unwrap();
            }
        }
        fs::write(leaf.join("src/lib.rt"), source).unwrap();
        let room = Self(path);
        for (label, function, body) in edits {
            room.edit(
                &format!("crates/leaf/must-fail/{label}.edit"),
                function,
                body,
            );
        }
        room
    }

    /// Gives leaf a record of promises, its one value, and these edits of it: label, old and new text.
    fn promises(&self, record: &str, value: &str, edits: &[(&str, &str, &str)]) {
        let leaf = self.0.join("crates/leaf");
        let checked = self.0.join("target/rlib/leaf.rlib/toolchain/checked");
        for (folder, text) in [("specs", record), ("proofs", value)] {
            fs::create_dir_all(leaf.join(folder)).unwrap();
            fs::write(leaf.join(folder).join("Promises.antt"), text).unwrap();
        }
        let specs: String = record
            .lines()
            .map(|line| format!(".{}", line.replace(' ', "")))
            .collect();
        let of_specs = "Rattle·leaf·specs.specs.Promises";
        let of_proofs = "Rattle·leaf·proofs.proofs.Promises";
        for (module, text) in [
            (of_specs, format!("--@ source {specs}\n")),
            (
                of_proofs,
                format!("--@ source proof\n--@ import {of_specs} -\n"),
            ),
        ] {
            let text = format!("--@ module {module}\n{text}--@ body 0\n");
            fs::write(checked.join(format!("{module}.oantt")), text).unwrap();
        }
        for (label, old, new) in edits {
            let text = format!("file: specs/Promises.antt\nold: {old}\nnew: {new}\n");
            fs::write(leaf.join(format!("must-fail/{label}.edit")), text).unwrap();
        }
    }

    fn edit(&self, file: &str, function: &str, body: &str) {
        let number = ["first", "second", "third"]
            .iter()
            .position(|f| *f == function)
            .unwrap();
        let text = format!(
            "# slip: {function}\nfile: src/lib.rt\nold:     {number} + 0\nnew:     {body}\n"
        );
        fs::write(self.0.join(file), text).unwrap();
    }

    /// What `rt WORDS` says through tools/from-proved, and its status.
    fn said(&self, words: &[&str], settings: &[(&str, &str)]) -> (String, Option<i32>) {
        let left = self.0.join("left");
        fs::create_dir_all(&left).unwrap();
        let tools = Path::new(env!("CARGO_MANIFEST_DIR")).join("../../../tools");
        let bin = self.0.join("kit/bin");
        let run = Command::new("bash")
            .arg(tools.join("from-proved"))
            .arg("rt")
            .args(words)
            .current_dir(&self.0)
            .env_remove("RATTLE_HOME")
            .env("PATH", format!("{}:/usr/bin:/bin", bin.display()))
            .env("CALLS", self.0.join("calls"))
            .env("APPLY", tools.join("apply-edit"))
            .env("TMPDIR", &left)
            .env_remove("CABLEOWL_EDITS")
            .envs(["BLAMED", "BESIDE", "SLOW", "PROVES", "WORDS"].map(|name| (name, "")))
            .envs([("AHEAD", "0"), ("THEN", ""), ("ASKED", "--extern one")])
            .envs(settings.iter().copied())
            .output()
            .unwrap();
        assert!(run.stderr.is_empty(), "{run:?}");
        assert_eq!(fs::read_dir(left).unwrap().count(), 0, "something is left");
        (
            String::from_utf8_lossy(&run.stdout).into_owned(),
            run.status.code(),
        )
    }

    fn checks(&self) -> usize {
        let calls = fs::read_to_string(self.0.join("calls")).unwrap_or_default();
        calls.lines().count()
    }

    /// Tries all edits, and counts the checks.
    fn tried(&self, settings: &[(&str, &str)]) -> (String, usize) {
        let (said, _) = self.said(&["edits"], settings);
        (said, self.checks())
    }

    /// Proves leaf, waits for this many checks ahead, does what `then` says, tries all edits, and counts the checks.
    fn proved_and_tried(&self, ahead: &str, then: &str, asked: &str) -> (String, usize) {
        let settings = [
            ("PROVES", "yes"),
            ("AHEAD", ahead),
            ("THEN", then),
            ("ASKED", asked),
        ];
        let (said, status) = self.said(&["ci"], &settings);
        assert_eq!(status, Some(0), "{said}");
        (said, self.checks())
    }

    fn log(&self, label: &str) -> String {
        fs::read_to_string(self.0.join(format!("target/must-fail/leaf/{label}.log"))).unwrap()
    }
}

impl Drop for Room {
    fn drop(&mut self) {
        let _ = fs::remove_dir_all(&self.0);
    }
}

#[test]
fn an_edit_begins_with_its_crates_modules() {
    let room = Room::new("edit", &[("slip", "first", "9")]);
    let (said, checks) = room.tried(&[]);
    assert_eq!((said.as_str(), checks), ("slip 1\n", 1));
    assert!(room.log("slip").contains("kept: 6\n"));
    // What was proved stays as it was.
    let checked = room.0.join("target/rlib/leaf.rlib/toolchain/checked");
    assert_eq!(fs::read_dir(&checked).unwrap().count(), 6);
    let code = fs::read_to_string(checked.join("Rattle·leaf·proofs.proofs.first.Code.oantt"));
    assert!(code.unwrap().contains("--@ source 0+0\n"));
}

#[test]
fn every_other_call_is_the_kits_own() {
    let room = Room::new("others", &[]);
    let edited = room.0.join("target/must-fail/twig/slip/src/lib.rt");
    let source = room.0.join("crates/leaf/src/lib.rt");
    for words in [
        // A proof; a check of the crate as it stands; an edit of a crate that has no proof here.
        ["build", "--crate-name", "leaf", source.to_str().unwrap()],
        ["check", "--crate-name", "leaf", source.to_str().unwrap()],
        ["check", "--crate-name", "twig", edited.to_str().unwrap()],
    ] {
        let (said, status) = room.said(&words, &[]);
        assert_eq!(status, Some(7));
        assert_eq!(said, format!("{}\n", words.join(" ")));
    }
}

#[test]
fn edits_of_functions_apart_are_checked_once_and_have_their_own_errors() {
    let edits = [("one", "first", "9"), ("two", "second", "9 + 9")];
    let room = Room::new("apart", &edits);
    let (said, checks) = room.tried(&[]);
    assert_eq!((said.as_str(), checks), ("one 1\ntwo 1\n", 1));
    for (label, own, other) in [("one", "first", "second"), ("two", "second", "first")] {
        let log = room.log(label);
        let where_ =
            format!("must-fail/leaf/{label}/proofs/{own}/Proof.antt:1:1: error: `returns`");
        assert!(log.contains(&where_), "{log}");
        assert!(log.contains(&format!("  of {own}\n")), "{log}");
        assert!(!log.contains(&format!("  of {other}\n")), "{log}");
        assert!(
            log.ends_with("checked together: one two\nlogic=not-proved\n"),
            "{log}"
        );
    }
    // Alone, each has its own check.
    let room = Room::new("alone", &edits);
    let (said, checks) = room.tried(&[("CABLEOWL_EDITS", "alone")]);
    assert_eq!((said.as_str(), checks), ("one 1\ntwo 1\n", 2));
}

#[test]
fn a_harmless_edit_among_wrong_ones_is_not_refused() {
    let room = Room::new(
        "harmless",
        &[("one", "first", "9"), ("two", "second", "0 + 1")],
    );
    let (said, checks) = room.tried(&[]);
    assert_eq!((said.as_str(), checks), ("one 1\ntwo 0\n", 2));
    // One that calls a refused function, and falls with it.
    let room = Room::new(
        "caller",
        &[("one", "first", "9"), ("three", "third", "0 + 2")],
    );
    assert_eq!(room.tried(&[]).0, "one 1\nthree 0\n");
}

#[test]
fn two_edits_of_one_function_are_checked_apart() {
    let room = Room::new(
        "same",
        &[("again", "first", "8 + 1"), ("one", "first", "9")],
    );
    let (said, checks) = room.tried(&[]);
    assert_eq!((said.as_str(), checks), ("again 0\none 1\n", 2));
}

#[test]
fn a_changed_module_that_no_edit_owns_has_each_tried_alone() {
    let edits = [("one", "first", "9"), ("two", "second", "9 + 9")];
    let room = Room::new("unclear", &edits);
    let (said, checks) = room.tried(&[("BESIDE", "yes")]);
    assert_eq!((said.as_str(), checks), ("one 1\ntwo 1\n", 3));
}

#[test]
fn errors_given_to_the_wrong_edit_are_seen_by_the_control() {
    let room = Room::new("blamed", &[("one", "first", "9")]);
    room.edit("tools/controls/leaf.edit", "second", "0 + 1");
    assert_eq!(room.tried(&[]).0, "one 1\n");
    let (said, _) = room.tried(&[("BLAMED", "second")]);
    assert_eq!(said, "one 2\n");
    assert!(room.log("one").contains("a control has an error"));
}

#[test]
fn edits_are_checked_as_soon_as_their_crate_is_proved() {
    let edits = [
        ("again", "first", "8 + 1"),
        ("one", "first", "9"),
        ("two", "second", "9 + 9"),
    ];
    // `again` is harmless, and in one copy with `two`: it is tried once more, alone.
    let verdicts = "again 0\none 1\ntwo 1\n";
    let room = Room::new("ahead", &edits);
    let (said, checks) = room.proved_and_tried("3", "", "--extern one");
    assert_eq!((said.as_str(), checks), (verdicts, 3));
    assert!(room.log("one").ends_with("logic=not-proved\n"));
    assert!(
        room.log("one")
            .contains("must-fail/leaf/one/proofs/first/Proof.antt:1:1: error: `returns`")
    );
    // rt may ask before they are checked.
    let room = Room::new("soon", &edits);
    let (said, checks) = room.proved_and_tried("0", "", "--extern one");
    assert_eq!((said.as_str(), checks), (verdicts, 3));
}

#[test]
fn an_edit_of_a_contract_is_checked_ahead() {
    let room = Room::new("contract", &[]);
    let text = "file: src/lib.rt\nold: r ≡ 1\nnew: r ≡ 2\n";
    fs::write(room.0.join("crates/leaf/must-fail/contract.edit"), text).unwrap();
    let (said, checks) = room.proved_and_tried("1", "", "--extern one");
    assert_eq!((said.as_str(), checks), ("contract 0\n", 1));
}

#[test]
fn an_answer_counts_for_the_text_and_the_words_that_were_checked() {
    let one = [("one", "first", "9")];
    let two = [("one", "first", "9"), ("two", "second", "9 + 9")];
    // An edit that is another one by now.
    let then = "sed -i 's/new:     9$/new:     8/' crates/leaf/must-fail/one.edit";
    let room = Room::new("edit-changed", &one);
    let (said, checks) = room.proved_and_tried("1", then, "--extern one");
    assert_eq!((said.as_str(), checks), ("one 0\n", 2));
    let room = Room::new("edit-changed-beside", &two);
    let (said, _) = room.proved_and_tried("1", then, "--extern one");
    assert_eq!(said, "one 0\ntwo 1\n");
    // Another line or another file of the crate; other words.
    let line = "sed -i 's/2 + 0/2 + 00/' crates/leaf/src/lib.rt";
    let file = "touch crates/leaf/src/more.rt";
    for (name, then, words) in [
        ("line", line, "--extern one"),
        ("file", file, "--extern one"),
        ("words", "", "--extern two"),
    ] {
        let room = Room::new(&format!("{name}-changed"), &one);
        let (said, checks) = room.proved_and_tried("1", then, words);
        assert_eq!((said.as_str(), checks), ("one 1\n", 2), "{name}");
        let room = Room::new(&format!("{name}-changed-beside"), &two);
        let (said, checks) = room.proved_and_tried("1", then, words);
        assert_eq!(said, "one 1\ntwo 1\n", "{name}");
        assert!(checks >= 3, "{name}");
    }
}

#[test]
fn nothing_is_checked_ahead_where_edits_are_checked_alone() {
    let room = Room::new("not-ahead", &[("one", "first", "9")]);
    let settings = [
        ("PROVES", "yes"),
        ("CABLEOWL_EDITS", "alone"),
        ("THEN", "sleep 1; cat \"$CALLS\" 2>/dev/null"),
    ];
    assert_eq!(room.said(&["ci"], &settings).0, "one 1\n");
}

/// Is this process there?
fn runs(process: &str) -> bool {
    // One that has ended and that nobody has asked for has no words.
    fs::read(format!("/proc/{}/cmdline", process.trim())).is_ok_and(|words| !words.is_empty())
}

#[test]
fn a_check_ahead_keeps_no_proof_waiting_and_ends_with_the_command() {
    for (name, then, status) in [
        ("fails", "exit 5", Some(5)),
        ("stopped", "kill -TERM $PPID; sleep 1; exit", None),
    ] {
        let room = Room::new(&format!("slow-{name}"), &[("one", "first", "9")]);
        let slow = room.0.join("slow");
        let then = format!(
            "until [ -s \"$SLOW\" ]; do sleep 0.05; done
             timeout 20 \"$rattle\" build --crate-name twig \"$PWD/crates/twig/src/lib.rt\" -o twig.rlib >proof || exit 6
             {then}"
        );
        let settings = [
            ("PROVES", "yes"),
            ("SLOW", slow.to_str().unwrap()),
            ("RT_JOBS", "1"),
            ("THEN", then.as_str()),
        ];
        let (said, ended) = room.said(&["ci"], &settings);
        assert_eq!((said.as_str(), ended), ("", status), "{name}");
        let process = fs::read_to_string(slow).unwrap();
        assert!(!runs(&process), "{name}: {process} is still there");
    }
}

const RECORD: &str = "use lib.{a}\n\npub record Promises : Type 0 where\n  pub low : a ≡ 1\n  -- words\n  pub high : (k : a)\n      → k ≡ 2\n  pub both : high ≡ 3\n";
const VALUE: &str = "use Rattle·leaf·specs.specs.Promises.{Promises}\n\npub kept : Promises\nkept =\n    record {\n      low = one;\n      high =\n        two;\n      both = three;\n    }\n";
const LOW: (&str, &str, &str) = ("low_is_nine", "a ≡ 1", "a ≡ 9");
const HIGH: (&str, &str, &str) = ("high_is_nine", "k ≡ 2", "k ≡ 9");

#[test]
fn edits_of_two_fields_are_checked_once_and_have_their_own_errors() {
    let room = Room::new("fields", &[]);
    room.promises(RECORD, VALUE, &[LOW, HIGH]);
    let (said, checks) = room.tried(&[("WORDS", "expected")]);
    assert_eq!(
        (said.as_str(), checks),
        ("high_is_nine 1\nlow_is_nine 1\n", 1)
    );
    for (label, line, own, other) in [
        ("low_is_nine", 6, "low", "high"),
        ("high_is_nine", 7, "high", "low"),
    ] {
        let log = room.log(label);
        let error = format!("must-fail/leaf/{label}/proofs/Promises.antt:{line}:14: error: `kept`");
        assert!(log.contains(&error), "{log}");
        assert!(log.contains(&format!("  of {own}\n")), "{log}");
        assert!(!log.contains(&format!("  of {other}\n")), "{log}");
    }
}

#[test]
fn a_harmless_edit_of_a_field_among_wrong_ones_is_not_refused() {
    let room = Room::new("field-harmless", &[]);
    room.promises(RECORD, VALUE, &[LOW, ("high_again", "k ≡ 2", "k ≡ 1 + 1")]);
    let (said, checks) = room.tried(&[]);
    assert_eq!(
        (said.as_str(), checks),
        ("high_again 0\nlow_is_nine 1\n", 2)
    );
}

#[test]
fn edits_of_fields_that_can_disturb_each_other_are_checked_apart() {
    let both = ("both_is_nine", "high ≡ 3", "high ≡ 9");
    let plain = ("name_changed", "use lib.{a}", "use lib.{ a}");
    let lemma = format!("{VALUE}\nweaker : Promises → a\nweaker x = a\n");
    for (name, value, edits) in [
        // A type that names another field; a line of the file that is in no field; a record that a law needs; one field twice.
        ("named", VALUE, [LOW, both]),
        ("beside", VALUE, [LOW, plain]),
        ("law", lemma.as_str(), [LOW, HIGH]),
        ("twice", VALUE, [LOW, ("low_is_90", "a ≡ 1", "a ≡ 90")]),
    ] {
        let room = Room::new(&format!("field-{name}"), &[]);
        room.promises(RECORD, value, &edits);
        assert_eq!(room.tried(&[]).1, 2, "{name}");
    }
    // An error that another may have made is no field's own.
    for words in ["`x` was not admitted", "it\\n  ran out of the steps"] {
        let room = Room::new("field-words", &[]);
        room.promises(RECORD, VALUE, &[LOW, HIGH]);
        let (said, checks) = room.tried(&[("WORDS", words)]);
        assert_eq!(
            (said.as_str(), checks),
            ("high_is_nine 1\nlow_is_nine 1\n", 3)
        );
    }
}
