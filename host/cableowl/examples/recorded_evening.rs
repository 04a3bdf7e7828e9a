//! Records an evening of a player and saves settings, in the folder it is run in: `evening.trace` and `saved.settings`.
//! `tools/installed` builds it against the packaged crate, and the packaged command then reads both files.
//!
//! `cd host && cargo run --release --offline -p cableowl --example recorded_evening`

use std::{error::Error, fs};

use cableowl::{
    Command, Frames, RecordedPlayer, SavedSettings, Settings, SettingsVersion, Tween, trace::Lesson,
};

fn main() -> Result<(), Box<dyn Error>> {
    let lesson = Lesson::new([0.5; 16])?;
    let mut buffer = vec![0; 65_536];
    let settings = Settings::new(1_000).loop_region(Frames(2)..Frames(6));
    let mut player = RecordedPlayer::play(settings, 1_000, &lesson, &mut buffer)?;
    let mut out = [0.0; 40];
    for _ in 0..20 {
        player.process(&mut out, |_| ()).recorded?;
    }
    player.command(Command::Pause(Tween::from_millis(4)))?;
    player
        .process(&mut out, |line| println!("{line}"))
        .recorded?;
    fs::write("evening.trace", player.bytes())?;
    let mut record = [0; 26];
    let saved = SavedSettings {
        loop_region: Some((2, 8)),
        ..SavedSettings::default()
    };
    saved.store(SettingsVersion::Second, &mut record)?;
    Ok(fs::write("saved.settings", record)?)
}
