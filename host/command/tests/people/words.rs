//! The table of verbs: help, man pages and completions contain the same for each verb, and each shell reads its
//! completions.

use std::{collections::BTreeSet, process::Command};

use crate::room::{CABLEOWL, Room};

/// What the command prints.
fn printed(words: &[&str]) -> String {
    let output = Command::new(CABLEOWL).args(words).output().unwrap();
    assert!(output.status.success(), "{words:?}");
    String::from_utf8(output.stdout).unwrap()
}

/// The verbs, from the first help: the words before an option or an argument.
fn verbs() -> Vec<String> {
    let help = printed(&["help"]);
    let lines = help
        .lines()
        .filter_map(|line| line.strip_prefix("  cableowl "));
    let lower = |word: &&str| word.chars().all(|letter| letter.is_ascii_lowercase());
    let verbs = lines.map(|line| {
        let words: Vec<&str> = line.split(' ').take_while(lower).collect();
        words.join(" ")
    });
    let mut verbs: Vec<String> = verbs.collect();
    // A verb that can be called in two ways has two lines.
    verbs.dedup();
    verbs
}

fn of_verb(first: &str, verb: &str, last: &[&str]) -> String {
    let words = [first].into_iter().chain(verb.split(' '));
    let words: Vec<&str> = words.filter(|word| !word.is_empty()).collect();
    printed(&[&words, last].concat())
}

type Options = BTreeSet<(String, Option<String>)>;

/// The options that a verb's help lists, each with its value's name.
fn help_options(help: &str) -> Options {
    let (_, options) = help.split_once("\nOptions:\n").expect("its options");
    let options = options.split("\n\n").next().expect("a list");
    let lines = options.lines().filter_map(|line| line.strip_prefix("  --"));
    let option = |line: &str| {
        let spelt = line.split("  ").next().unwrap_or(line);
        let (name, value) = match spelt.split_once(' ') {
            Some((name, value)) => (name, Some(value.to_owned())),
            None => (spelt, None),
        };
        (format!("--{name}"), value)
    };
    lines.map(option).collect()
}

/// The same of a man page.
fn man_options(page: &str) -> Options {
    let page = page.replace("\\-", "-");
    let (_, options) = page.split_once(".SH OPTIONS\n").expect("its options");
    let options = options.split(".SH ").next().expect("a section");
    let lines = options.lines().filter_map(|line| {
        let rest = line.strip_prefix(".B").filter(|rest| rest.contains("--"))?;
        let words: Vec<&str> = rest.trim_start_matches('I').split_whitespace().collect();
        match *words.as_slice() {
            [name] => Some((name.to_owned(), None)),
            [name, _, value] => Some((name.to_owned(), Some(value.trim_matches('"').to_owned()))),
            _ => panic!("{line}"),
        }
    });
    lines.collect()
}

/// The names of the options of a verb in bash's completions.
fn bash_options(completions: &str, verb: &str) -> BTreeSet<String> {
    let (_, arms) = completions.split_once("case $verb in\n").expect("verbs");
    let (_, arm) = arms
        .split_once(&format!("    '{verb}')\n"))
        .expect("the verb");
    let (_, words) = arm.split_once("compgen -W '").expect("its options");
    let words = words.split('\'').next().expect("their end");
    words.split(' ').map(str::to_owned).collect()
}

/// The same of zsh.
fn zsh_options(completions: &str, verb: &str) -> BTreeSet<String> {
    let (_, arm) = completions
        .split_once(&format!("    '{verb}')\n"))
        .expect("the verb");
    let arm = arm.split(";;").next().expect("its end");
    // A star marks an option that can be given several times.
    let lines = arm.lines().filter_map(|line| {
        let option = line.trim().strip_prefix('\'')?;
        option.trim_start_matches('*').strip_prefix("--")
    });
    let names = lines.map(|line| line.split(['=', '[']).next().expect("a name"));
    names.map(|name| format!("--{name}")).collect()
}

/// The same of fish.
fn fish_options(completions: &str, verb: &str) -> BTreeSet<String> {
    let words = verb.split(' ');
    let seen: Vec<String> = words
        .map(|word| format!("__fish_seen_subcommand_from {word}"))
        .collect();
    let begins = format!("complete -c cableowl -n '{}' -l ", seen.join("; and "));
    let lines = completions
        .lines()
        .filter_map(|line| line.strip_prefix(&begins));
    let names = lines.map(|line| line.split(' ').next().expect("a name"));
    names.map(|name| format!("--{name}")).collect()
}

#[test]
fn help_man_pages_and_completions_come_from_one_table() {
    let verbs = verbs();
    assert_eq!(verbs.len(), 16, "{verbs:?}");
    let shells = ["bash", "zsh", "fish"].map(|shell| printed(&["completions", shell]));
    let first = printed(&["man"]).replace("\\-", "-");
    let mut options = 0;
    for verb in &verbs {
        let help = of_verb("help", verb, &[]);
        assert_eq!(help, of_verb("", verb, &["--help"]), "{verb}");
        assert_eq!(help, of_verb("", verb, &["-h"]), "{verb}");
        let page = of_verb("man", verb, &[]);
        let listed = help_options(&help);
        assert_eq!(listed, man_options(&page), "{verb}");
        let names: BTreeSet<String> = listed.iter().map(|(name, _)| name.clone()).collect();
        assert!(names.contains("--help"), "{verb}");
        assert_eq!(names, bash_options(&shells[0], verb), "{verb}");
        assert_eq!(names, zsh_options(&shells[1], verb), "{verb}");
        assert_eq!(names, fish_options(&shells[2], verb), "{verb}");
        // The lines before it show how it is called: options in brackets, words in capitals.
        let says = help.lines().find(|line| {
            let has_words = line.chars().any(char::is_lowercase);
            line.starts_with("    ") && !line.contains('[') && has_words
        });
        let says = says.expect("what it does").trim();
        let plain = page.replace("\\-", "-");
        assert!(plain.contains(&format!(" - {says}")), "{verb}: {says}");
        assert!(
            first.contains(&format!(".B {verb}\n{says}")),
            "{verb}: {says}"
        );
        assert!(first.contains(&format!(".BR cableowl-{} (1)", verb.replace(' ', "-"))));
        for (name, value) in &listed {
            options += 1;
            // The parser knows it: without its value it asks for one.
            let words: Vec<&str> = verb.split(' ').chain([name.as_str()]).collect();
            let output = Command::new(CABLEOWL).args(&words).output().unwrap();
            let err = String::from_utf8(output.stderr).unwrap();
            match value {
                Some(value) => assert!(
                    err.contains(&format!("{name} needs a word after it, {value};")),
                    "{words:?}: {err}"
                ),
                None => assert!(!err.contains("option"), "{words:?}: {err}"),
            }
        }
    }
    eprintln!("{} verbs, {options} options in six places", verbs.len());
}

#[test]
fn help_of_one_verb() {
    let room = Room::new("help-one");
    let help = room.run(&["help", "replay"]);
    assert_eq!((help.status, &*help.err), (0, ""));
    assert!(
        help.out.starts_with(
            "cableowl replay [--log FORM] [--summary] [--sound FILE].. [--sounds FOLDER]\n    [--out OUT] TRACE\n"
        )
    );
    assert_ne!(help, room.run(&["help"]));
    assert_eq!(help, room.run(&["replay", "--help"]));
    let long = help.out.lines().map(str::len).max();
    assert!(long <= Some(78), "{long:?}");
}

/// A shell, or none, with a loud message.
fn shell(name: &str) -> Option<Command> {
    let there = Command::new(name).args(["-c", "exit 0"]).output();
    if there.is_ok_and(|output| output.status.success()) {
        return Some(Command::new(name));
    }
    eprintln!("SKIPPED: no {name} here, so it did not read its completions");
    None
}

#[test]
fn bash_completes_verbs_options_values_and_files() {
    let Some(_) = shell("bash") else {
        return;
    };
    let room = Room::new("complete-bash");
    room.put("a b.log", "");
    room.put("evening.trace", "");
    room.put("cableowl.bash", printed(&["completions", "bash"]));
    let completed = |words: &[&str]| {
        let script = format!(
            "source ./cableowl.bash; COMP_WORDS=(cableowl {}); COMP_CWORD=$((${{#COMP_WORDS[@]}} - 1)); _cableowl; printf '%s\\n' \"${{COMPREPLY[@]}}\"",
            words.join(" ")
        );
        let output = shell("bash")
            .unwrap()
            .args(["--norc", "-euc", &script])
            .current_dir(&room.0)
            .output()
            .unwrap();
        assert_eq!(String::from_utf8_lossy(&output.stderr), "", "{words:?}");
        let out = String::from_utf8(output.stdout).unwrap();
        let mut found: Vec<String> = out.lines().map(str::to_owned).collect();
        found.retain(|word| !word.is_empty());
        found.sort();
        found
    };
    for (words, found) in [
        (&["re"][..], &["replay", "report"][..]),
        (&["settings", "s"], &["save", "show"]),
        (
            &["replay", "--"],
            &[
                "--help",
                "--log",
                "--out",
                "--sound",
                "--sounds",
                "--summary",
            ],
        ),
        (&["replay", "--sound", "ev"], &["evening.trace"]),
        (
            &["replay", "--sound", "a", "--sounds", "ev"],
            &["evening.trace"],
        ),
        (&["so"], &["sound"]),
        (&["sound", "--"], &["--help", "--rate"]),
        (&["salvage", "--version", "''"], &["1", "2"]),
        (&["replay", "--log", "''"], &["1", "3"]),
        (&["replay", "--log", "="], &["1", "3"]),
        (&["replay", "--log", "=", "3"], &["3"]),
        (&["replay", "ev"], &["evening.trace"]),
        (&["report", "--html", "a"], &["a b.log"]),
        (&["report", "--rate", "''"], &[]),
        (&["settings", "save", "--p"], &["--pitch"]),
        (&["settings", "show", "ev"], &["evening.trace"]),
        (&["explain", "pau"], &["paused", "pausing"]),
        (&["help", "sal"], &["salvage"]),
        (&["completions", "f"], &["fish"]),
        (&["version", "''"], &[]),
    ] {
        assert_eq!(completed(words), found, "{words:?}");
    }
}

#[test]
fn fish_completes_verbs_options_and_values() {
    let Some(_) = shell("fish") else {
        return;
    };
    let room = Room::new("complete-fish");
    room.put("evening.trace", "");
    room.put("cableowl.fish", printed(&["completions", "fish"]));
    for (line, found) in [
        ("re", &["replay", "report"][..]),
        ("settings s", &["save", "show"]),
        ("replay --log ", &["1", "3"]),
        ("replay ev", &["evening.trace"]),
        ("settings save --p", &["--pitch"]),
        ("completions f", &["fish"]),
    ] {
        let script = format!("source cableowl.fish; complete -C 'cableowl {line}'");
        let output = shell("fish")
            .unwrap()
            .args(["--no-config", "-c", &script])
            .env("HOME", &room.0)
            .current_dir(&room.0)
            .output()
            .unwrap();
        let out = String::from_utf8(output.stdout).unwrap();
        let words = out.lines().filter_map(|line| line.split('\t').next());
        let words: BTreeSet<&str> = words.collect();
        assert_eq!(words, found.iter().copied().collect(), "{line}");
    }
}

#[test]
fn zsh_reads_its_completions() {
    let Some(mut zsh) = shell("zsh") else {
        return;
    };
    let room = Room::new("complete-zsh");
    room.put("_cableowl", printed(&["completions", "zsh"]));
    let output = zsh.args(["-n", "_cableowl"]).current_dir(&room.0).output();
    let output = output.unwrap();
    assert!(output.status.success(), "{output:?}");
    assert_eq!(String::from_utf8_lossy(&output.stderr), "");
}

#[test]
fn man_pages_are_read_without_a_warning() {
    let groff = Command::new("groff").arg("--version").output();
    if groff.is_err() {
        eprintln!("SKIPPED: no groff here, so no man page was set");
        return;
    }
    let room = Room::new("man");
    for verb in [String::new()].into_iter().chain(verbs()) {
        room.put("page.1", of_verb("man", &verb, &[]));
        let output = Command::new("groff")
            .args(["-man", "-Tascii", "-ww", "-P-cbou", "page.1"])
            .current_dir(&room.0)
            .output()
            .unwrap();
        assert_eq!(String::from_utf8_lossy(&output.stderr), "", "{verb}");
        let page = String::from_utf8_lossy(&output.stdout).into_owned();
        for section in ["NAME", "SYNOPSIS", "DESCRIPTION", "EXIT STATUS", "SEE ALSO"] {
            assert!(page.contains(section), "{verb}: {section}\n{page}");
        }
    }
}
