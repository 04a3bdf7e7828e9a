//! `cableowl settings show` and `settings save`.

use std::fs;

use cableowl::{Lanes, Refusal, SavedSettings, SettingsVersion, Signals, StaticSound};

use crate::room::Room;

fn saved(version: SettingsVersion, saved: SavedSettings) -> Vec<u8> {
    let mut record = vec![0; version.size()];
    saved.store(version, &mut record).unwrap();
    record
}

#[test]
fn both_versions_are_shown() {
    let room = Room::new("settings");
    let looped = SavedSettings {
        start: 44_100,
        loop_region: Some((273_420, 480_690)),
        playback_rate: 0.75,
        ..SavedSettings::default()
    };
    room.put("first", saved(SettingsVersion::First, looped));
    room.run(&["settings", "show", "--rate", "44100", "first"]).says(
        "version             1\n\
         start               frame 44,100 (1.000 s)\n\
         loop                from frame 273,420 (6.200 s) up to frame 480,690 (10.900 s), 207,270 frames (4.700 s) long\n\
         direction           forward\n\
         rate                0.75\n\
         pitch               0 semitones\n\
         rate with the pitch 0.75\n\
         seconds             at 44,100 frames a second; --rate HZ gives another\n",
    );
    let pitched = SavedSettings {
        reverse: true,
        playback_rate: -1.5,
        pitch: -12,
        ..SavedSettings::default()
    };
    let mut bytes = saved(SettingsVersion::Second, pitched);
    bytes.extend_from_slice(b"more");
    room.run_on(&["settings", "show", "-"], &bytes).says(
        "version             2\n\
         start               0 frames (0.000 s) before the sound's last frame\n\
         loop                none\n\
         direction           forward: reverse, and the minus sign of the rate turns it round again\n\
         rate                -1.5\n\
         pitch               -12 semitones\n\
         rate with the pitch -0.75\n\
         seconds             at 48,000 frames a second; --rate HZ gives another\n\
         bytes follow the record, from byte 26 on, and were not read\n",
    );
}

/// The direction of a voice that is created with these settings: the sign of its first move.
fn way(settings: SavedSettings) -> bool {
    let sound = [0.5; 40];
    let created = settings.settings(1).start_position(10.0);
    let mut voice = StaticSound::new(created, &sound).unwrap();
    let before = voice.state().position;
    let (mut lanes, mut out) = (Lanes::new(), [0.0; 2]);
    voice
        .process(&sound, lanes.frames(1), 1.0, Signals::new(), &mut out)
        .unwrap();
    voice.state().position > before
}

#[test]
fn settings_show_says_the_direction_in_which_the_voice_plays() {
    let room = Room::new("settings-direction");
    for reverse in [false, true] {
        for playback_rate in [1.0, -1.5, 0.0, -0.0, 5e-324, -5e-324] {
            let settings = SavedSettings {
                reverse,
                playback_rate,
                pitch: -24,
                ..SavedSettings::default()
            };
            let bytes = saved(SettingsVersion::Second, settings);
            let ran = room.run_on(&["settings", "show", "-"], &bytes);
            let said = ran
                .out
                .lines()
                .find_map(|line| line.strip_prefix("direction"));
            let said = said.unwrap().trim_start();
            let way = if way(settings) { "forward" } else { "backward" };
            assert!(said.starts_with(way), "{reverse} {playback_rate:?}: {said}");
        }
    }
}

#[test]
fn settings_show_says_that_an_infinite_rate_is_refused() {
    let room = Room::new("settings-infinite");
    let settings = SavedSettings {
        playback_rate: f64::MAX,
        pitch: 12,
        ..SavedSettings::default()
    };
    let created = StaticSound::new(settings.settings(48_000), &[0.5; 40]);
    assert_eq!(created.unwrap_err(), Refusal::PlaybackRate);
    let ran = room.run_on(
        &["settings", "show", "-"],
        &saved(SettingsVersion::Second, settings),
    );
    assert_eq!((ran.status, &*ran.err), (0, ""));
    for line in [
        "direction           none: no voice can be created with this rate\n",
        "rate with the pitch inf: creation refuses it (refusal 7: the playback rate must be finite): lower the rate or the pitch\n",
    ] {
        assert!(ran.out.contains(line), "{}", ran.out);
    }
}

#[test]
fn settings_are_saved_in_seconds_or_frames() {
    let room = Room::new("settings-save");
    let seconds =
        "settings save --start 1s --loop 6.2s..10.9s --speed 0.75 --pitch=-2 --rate 44100 a";
    let frames = "settings save --start 44100f --loop 273420f..480690f --speed 0.75 --pitch -2 --rate 44100 b";
    let printed = |words: &str| {
        let words: Vec<&str> = words.split(' ').collect();
        let ran = room.run(&words);
        assert_eq!((ran.status, &*ran.err), (0, ""), "{words:?}");
        ran.out
    };
    let (by_seconds, by_frames) = (printed(seconds), printed(frames));
    assert_eq!(
        by_seconds.replace("to          a", "to          b"),
        by_frames
    );
    let expected = SavedSettings {
        start: 44_100,
        loop_region: Some((273_420, 480_690)),
        playback_rate: 0.75,
        pitch: -2,
        ..SavedSettings::default()
    };
    for name in ["a", "b"] {
        let bytes = fs::read(room.0.join(name)).unwrap();
        let loaded = SavedSettings::load(SettingsVersion::Second, &bytes).unwrap();
        assert_eq!(loaded, (expected, SettingsVersion::Second));
        let shown = printed(&format!("settings show --rate 44100 {name}"));
        assert!(by_seconds.starts_with(&shown), "{by_seconds}");
    }
    printed("settings save --format 1 --reverse c");
    assert_eq!(fs::read(room.0.join("c")).unwrap().len(), 25);
    room.run(&["settings", "save", "a"])
        .refuses("a: exists already, and nothing is overwritten: name another file");
    let ran = room.run(&["settings", "save", "--loop", "2s..1s", "d"]);
    assert!(
        ran.err
            .starts_with("cableowl: d: these settings cannot be saved: refusal 24: ")
    );
    let ran = room.run(&["settings", "save", "--format", "1", "--pitch", "3", "d"]);
    assert!(
        ran.err
            .starts_with("cableowl: d: these settings cannot be saved: refusal 24: ")
    );
    room.run(&["settings", "save", "--start", "99999s", "d"])
        .is_no_use(
            "99999s is too far: the last frame is 4,294,967,295",
            "settings save",
        );
    assert_eq!(room.names(), ["a", "b", "c"]);
}

#[test]
fn damaged_settings_are_told_by_their_place_and_number() {
    let room = Room::new("settings-damaged");
    let good = saved(SettingsVersion::Second, SavedSettings::default());
    let with = |at: usize, byte: u8| {
        let mut bytes = good.clone();
        bytes[at] = byte;
        bytes
    };
    let cases = [
        (Vec::new(), 0, 18),
        (good[..25].to_vec(), 25, 18),
        (with(0, 0), 0, 15),
        (with(1, 0), 1, 15),
        (with(2, 9), 2, 23),
        (with(3, 21), 3, 24),
        (with(8, 1), 8, 24),
        (with(16, 2), 16, 24),
        (with(24, 0x7f), 17, 24),
        (with(25, 25), 25, 24),
    ];
    for (mut bytes, at, number) in cases {
        if number == 24 && at == 17 {
            bytes[23] = 0xf0;
        }
        let ran = room.run_on(&["settings", "show", "-"], &bytes);
        let printed = format!("cableowl: standard input: at byte {at}: refusal {number}: ");
        assert!(ran.err.starts_with(&printed), "{} for {printed}", ran.err);
        assert_eq!((ran.status, ran.err.lines().count(), &*ran.out), (1, 1, ""));
    }
}
