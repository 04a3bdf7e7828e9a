// A whole player as bytes. ../findings/finding_9.rs tests a voice's state that is given to a player.

use cableowl::{Command, Easing, Frames, Player, Settings, SharedPlayer, Tween, Unreadable};
use random::Random;

use crate::evening::{Evening, bits, seeds};

/// CRC-32, as in zip.
fn check(bytes: &[u8]) -> [u8; 4] {
    let step = |crc: u32, _| (crc >> 1) ^ (0xedb8_8320 * (crc & 1));
    let crc = bytes.iter().fold(u32::MAX, |crc, byte| {
        (0..8).fold(crc ^ u32::from(*byte), step)
    });
    (!crc).to_le_bytes()
}

/// The bytes with a new length and check.
fn mended(mut bytes: Vec<u8>) -> Vec<u8> {
    if let (length, Some(field)) = (bytes.len() as u32, bytes.get_mut(5..9)) {
        field.copy_from_slice(&length.to_le_bytes());
    }
    let body = bytes.len().saturating_sub(4);
    let made = check(&bytes[..body]);
    bytes.truncate(body);
    bytes.extend(made);
    bytes
}

#[test]
fn a_player_made_from_its_bytes_goes_on_bit_for_bit() {
    let (mut frames, mut queued) = (0, 0);
    for seed in seeds(2_000) {
        let random = &mut Random::new(seed);
        let evening = Evening::any(random);
        let mut player = evening.player();
        let mut out = vec![0.0; 2 * evening.frames];
        let saved_at = random.below(evening.commands.len() + 1);
        let (mut clock, mut saved) = (0, None);
        let last = [(evening.frames, Command::ClearLoopRegion)];
        for (number, (frame, command)) in evening.commands.iter().chain(&last).enumerate() {
            let next = *frame;
            if number == saved_at {
                // Between two commands, or right after one, with a queue.
                let some = clock + random.below(next - clock + 1) * random.below(2);
                player
                    .process(&evening.sound, &mut out[2 * clock..2 * some])
                    .unwrap();
                clock = some;
                let bytes = player.to_bytes();
                queued += usize::from(bytes.len() > 453);
                let again = Player::from_bytes(&bytes, &evening.sound).unwrap();
                assert_eq!(again.to_bytes(), bytes, "seed {seed}");
                saved = Some((clock, number, again));
            }
            player
                .process(&evening.sound, &mut out[2 * clock..2 * next])
                .unwrap();
            clock = next;
            if number < evening.commands.len() {
                let _ = player.command(*command);
            }
        }
        let (from, number, mut again) = saved.unwrap();
        let mut other = vec![0.0; 2 * evening.frames];
        let mut clock = from;
        for (frame, command) in &evening.commands[number..] {
            again
                .process(&evening.sound, &mut other[2 * clock..2 * frame])
                .unwrap();
            clock = *frame;
            let _ = again.command(*command);
        }
        again
            .process(&evening.sound, &mut other[2 * clock..])
            .unwrap();
        assert_eq!(
            bits(&out[2 * from..]),
            bits(&other[2 * from..]),
            "seed {seed}"
        );
        assert_eq!(player.to_bytes(), again.to_bytes(), "seed {seed}");
        frames += evening.frames;
    }
    println!("{frames} frames; {queued} saved with seeks that wait");
}

#[test]
fn any_bytes_are_refused_with_a_reason_or_played() {
    let random = &mut Random::new(35);
    let (mut taken, mut reasons) = (0, [0; 6]);
    for round in 0..60_000 {
        let evening = Evening::any(&mut Random::new(round / 100));
        let mut player = evening.player();
        let before = evening.commands.first().map_or(0, |(frame, _)| *frame);
        player
            .process(&evening.sound, &mut vec![0.0; 2 * before.min(100)])
            .unwrap();
        for (_, command) in &evening.commands {
            let _ = player.command(*command);
        }
        let mut bytes = player.to_bytes();
        for _ in 0..random.below(4) {
            let place = random.below(bytes.len());
            bytes[place] = [0, 1, 2, 255, random.below(256) as u8][random.below(5)];
        }
        match random.below(6) {
            0 => bytes.truncate(random.below(bytes.len() + 1)),
            1 => bytes.insert(random.below(bytes.len()), random.below(256) as u8),
            2 => {
                bytes = (0..random.below(600))
                    .map(|_| random.below(256) as u8)
                    .collect()
            }
            _ => {}
        }
        if !random.one_in(4) {
            bytes = mended(bytes);
        }
        let sound = match random.one_in(20) {
            true => &evening.sound[2..],
            false => &evening.sound[..],
        };
        match Player::from_bytes(&bytes, sound) {
            Ok(mut player) => {
                taken += 1;
                assert_eq!(player.to_bytes(), bytes, "round {round}");
                let mut out = [0.0; 200];
                for command in evening.commands.iter().map(|(_, command)| *command) {
                    player.process(sound, &mut out).unwrap();
                    let _ = player.command(command);
                }
                player.process(sound, &mut out).unwrap();
            }
            Err(reason) => {
                assert!(reason.to_string().starts_with("refusal 1: "));
                reasons[match reason {
                    Unreadable::Mark => 0,
                    Unreadable::Version(_) => 1,
                    Unreadable::Length => 2,
                    Unreadable::Check => 3,
                    Unreadable::Value => 4,
                    _ => 5,
                }] += 1;
            }
        }
    }
    println!("{taken} taken; mark, version, length, check, value, sound: {reasons:?}");
    assert!(
        taken > 1_000 && reasons.iter().all(|count| *count > 20),
        "{reasons:?}"
    );
}

#[test]
fn bytes_that_no_player_writes_are_refused_for_it() {
    let sound = [0.5; 40];
    let mut player = Player::play(Settings::new(1_000), 1_000, &sound).unwrap();
    player.set_loop_region(Frames(2)..Frames(6)).unwrap();
    player.seek_to(0.003).unwrap();
    player.pause(Tween::from_millis(5).easing(Easing::OutPowf(1.5)));
    let bytes = player.to_bytes();
    let refused = |bytes: &[u8]| Player::from_bytes(bytes, &sound).unwrap_err();
    let changed = |place: usize, byte: u8| {
        let mut bytes = bytes.clone();
        bytes[place] = byte;
        bytes
    };
    assert_eq!(refused(&[]), Unreadable::Mark);
    assert_eq!(refused(b"COwP"), Unreadable::Length);
    assert_eq!(refused(&changed(4, 2)), Unreadable::Version(2));
    assert_eq!(refused(&bytes[..bytes.len() - 1]), Unreadable::Length);
    assert_eq!(refused(&[&bytes[..], &[0]].concat()), Unreadable::Length);
    assert_eq!(refused(&changed(200, 9)), Unreadable::Check);
    let longer = [&bytes[..bytes.len() - 4], &[0; 5]].concat();
    assert_eq!(refused(&mended(longer)), Unreadable::Length);
    let other = Player::from_bytes(&bytes, &sound[2..]).unwrap_err();
    assert_eq!(other, Unreadable::Sound);
    // The output rate 0, a lowest count of 5, a press of kind 4, an easing of kind 7.
    let (rate, count, press) = (165, 165 + 4 + 8 + 9, 165 + 4 + 8 + 9 + 52 + 4 * 41);
    let value = |place, byte| refused(&mended(changed(place, byte)));
    let mut none = bytes.clone();
    none[rate..rate + 4].fill(0);
    assert_eq!(refused(&mended(none)), Unreadable::Value);
    assert_eq!(value(count, 5), Unreadable::Value);
    assert_eq!(value(press, 4), Unreadable::Value);
    assert_eq!(value(press + 18, 7), Unreadable::Value);
    assert_eq!(
        value(press + 1, 2),
        Unreadable::Value,
        "after the second seek"
    );
}

#[test]
fn a_shared_player_is_made_from_bytes() {
    let sound: std::sync::Arc<[f32]> = vec![0.5; 400].into();
    let player = SharedPlayer::play(Settings::new(1_000), 1_000, std::sync::Arc::clone(&sound));
    let mut player = player.unwrap().fade_in_tween(Tween::from_millis(50));
    let mut out = [0.0; 20];
    player.process(&mut out).unwrap();
    let mut again = SharedPlayer::from_bytes(&player.to_bytes(), sound).unwrap();
    let mut other = out;
    player.process(&mut out).unwrap();
    again.process(&mut other).unwrap();
    assert_eq!(bits(&out), bits(&other));
    assert!(out[0] > 0.0 && out[19] < 0.1, "it fades in");
}
