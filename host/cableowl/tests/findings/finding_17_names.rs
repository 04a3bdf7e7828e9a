//! A name of kira's led nowhere in the rustdoc.

use std::{fs, path::Path};

/// What kira's users look for: names of its static sound and what belongs to it.
const NAMES: [&str; 67] = [
    "AudioManager",
    "ClockTime",
    "Decibels",
    "Delayed",
    "Easing",
    "EndPosition",
    "Frame",
    "IDENTITY",
    "Immediate",
    "InOutPowf",
    "InOutPowi",
    "InPowf",
    "InPowi",
    "Linear",
    "OutPowf",
    "OutPowi",
    "Panning",
    "Paused",
    "Pausing",
    "PlaybackPosition",
    "PlaybackRate",
    "PlaybackState",
    "Playing",
    "Region",
    "Resuming",
    "SILENCE",
    "Samples",
    "Seconds",
    "Semitones",
    "Sound",
    "StartTime",
    "StaticSoundData",
    "StaticSoundHandle",
    "StaticSoundSettings",
    "Stopped",
    "Stopping",
    "Tween",
    "WaitingToResume",
    "as_amplitude",
    "delay",
    "duration",
    "easing",
    "fade_in_tween",
    "finished",
    "from_cursor",
    "from_file",
    "loop_region",
    "on_start_processing",
    "panning",
    "pause",
    "play",
    "playback_rate",
    "position",
    "process",
    "resume",
    "resume_at",
    "reverse",
    "seek_by",
    "seek_to",
    "set_loop_region",
    "set_panning",
    "set_playback_rate",
    "set_volume",
    "slice",
    "start_position",
    "start_time",
    "state",
];

/// The sources of the library.
fn sources(folder: &Path, text: &mut String) {
    for entry in fs::read_dir(folder).unwrap() {
        let path = entry.unwrap().path();
        match path.is_dir() {
            true => sources(&path, text),
            false => *text += &fs::read_to_string(path).unwrap(),
        }
    }
}

#[test]
fn each_name_of_kira_leads_to_ours() {
    let mut text = String::new();
    sources(
        &Path::new(env!("CARGO_MANIFEST_DIR")).join("src"),
        &mut text,
    );
    let leads = |name: &&str| {
        let alias = format!("#[doc(alias = \"{name}\")]");
        text.lines().map(str::trim).any(|line| {
            let item = [
                "pub fn ",
                "pub const fn ",
                "pub struct ",
                "pub enum ",
                "pub const ",
                "pub ",
            ]
            .iter()
            .find_map(|word| line.strip_prefix(word))
            // A variant has a line of its own.
            .unwrap_or(if line.ends_with(',') { line } else { "" });
            let rest = item.strip_prefix(*name);
            line == alias
                || rest.is_some_and(|rest| rest.starts_with(['(', '<', ':', ' ', ',', ';']))
        })
    };
    let missing: Vec<&&str> = NAMES.iter().filter(|name| !leads(name)).collect();
    assert!(missing.is_empty(), "no item and no alias: {missing:?}");
}
