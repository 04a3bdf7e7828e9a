//! Records loaded and stored, compared with the second implementation: short inputs exhaustively, then changed, cut and
//! random ones.

use random::Random;
use saved::{Words, load, loaded, store, stored};

fn compare(bytes: &[u8]) {
    for reader in [1, 2] {
        assert_eq!(
            load(reader, bytes),
            loaded(reader, bytes),
            "reader {reader}: {bytes:x?}"
        );
    }
}

/// Some correct ones of both versions.
fn good() -> Vec<Words> {
    let plain = Words {
        start: 44_100,
        rate: 0.75_f64.to_bits(),
        version: 1,
        ..Words::default()
    };
    let looped = Words {
        has_loop: 1,
        loop_start: 273_420,
        loop_end: 480_690,
        ..plain
    };
    let reverse = Words {
        reverse: 1,
        rate: (-1.5_f64).to_bits(),
        ..plain
    };
    let limits = Words {
        start: u32::MAX.into(),
        has_loop: 1,
        loop_end: u32::MAX.into(),
        rate: f64::MAX.to_bits(),
        ..plain
    };
    let minus_zero = Words {
        rate: (-0.0_f64).to_bits(),
        ..plain
    };
    let first = [plain, looped, reverse, limits, minus_zero];
    let second = |words: Words, pitch| Words {
        pitch,
        version: 2,
        ..words
    };
    let pitches = [0, -1, 24, -24, 5];
    let second = first
        .iter()
        .zip(pitches)
        .map(|(&words, pitch)| second(words, pitch));
    first.into_iter().chain(second).collect()
}

fn record(words: &Words) -> Vec<u8> {
    let mut buffer = vec![9; 40];
    assert_eq!(store(words, &mut buffer), 0);
    let bytes = stored(words, 40).unwrap();
    assert_eq!(buffer[..bytes.len()], bytes);
    assert!(buffer[bytes.len()..].iter().all(|byte| *byte == 9));
    bytes
}

#[test]
fn examples_of_the_page() {
    let hex = |text: &str| -> Vec<u8> {
        text.split(' ')
            .map(|byte| u8::from_str_radix(byte, 16).unwrap())
            .collect()
    };
    let page = include_str!("../../../../docs/formats/SETTINGS.md");
    let records: Vec<&str> = page
        .lines()
        .filter(|line| line.starts_with("5E 71 0"))
        .collect();
    assert_eq!(records.len(), 2);
    let (_, first) = load(1, &hex(records[0]));
    assert_eq!(first, good()[1]);
    let (_, second) = load(2, &hex(records[1]));
    assert_eq!(
        second,
        Words {
            pitch: -5,
            version: 2,
            ..good()[2]
        }
    );
    for (bytes, refusals) in [
        (&[][..], [18, 18]),
        (&[0x5e], [18, 18]),
        (&[0x5e, 0x72], [15, 15]),
        (&[0x5e, 0x71, 0], [23, 23]),
        (&[0x5e, 0x71, 2], [23, 18]),
        (&[0x5e, 0x71, 1, 0x16], [24, 24]),
        (&[0x5e, 0x71, 1, 0x15], [18, 18]),
    ] {
        assert_eq!([1, 2].map(|reader| load(reader, bytes).0), refusals);
    }
}

#[test]
fn every_input_of_at_most_three_bytes() {
    random::short_inputs(compare);
}

#[test]
fn every_change_of_one_byte_and_every_cut() {
    for words in good() {
        let bytes = record(&words);
        assert_eq!(load(2, &bytes), (0, words));
        for at in 0..bytes.len() {
            compare(&bytes[..at]);
            let mut changed = bytes.clone();
            for byte in 0..=255 {
                changed[at] = byte;
                compare(&changed);
            }
        }
        // What follows a record is not read.
        for byte in 0..=255 {
            let longer = [&bytes[..], &[byte; 30]].concat();
            compare(&longer);
            assert_eq!(load(2, &longer), (0, words));
        }
    }
}

fn any_words(random: &mut Random) -> Words {
    let frames = |random: &mut Random| match random.below(6) {
        0 => 0,
        1 => u64::from(u32::MAX) + random.below(2) as u64,
        2 => random.word(),
        _ => random.below(1_000_000) as u64,
    };
    let flag = |random: &mut Random| match random.one_in(20) {
        true => random.word() >> random.below(64),
        false => random.below(2) as u64,
    };
    let has_loop = flag(random);
    let [loop_start, loop_end] = match has_loop == 0 && !random.one_in(20) {
        true => [0, 0],
        false => [(); 2].map(|()| frames(random)),
    };
    Words {
        start: frames(random),
        has_loop,
        loop_start,
        loop_end,
        reverse: flag(random),
        rate: match random.below(8) {
            0 => random.word(),
            1 => [f64::INFINITY, f64::NAN, -0.0, f64::MAX][random.below(4)].to_bits(),
            _ => (random.unit() * 4.0 - 2.0).to_bits(),
        },
        pitch: match random.below(8) {
            0 => random.word().cast_signed(),
            1 => 0,
            _ => random.below(53) as i64 - 26,
        },
        version: match random.one_in(20) {
            true => random.word() >> random.below(64),
            false => 1 + random.below(2) as u64,
        },
    }
}

#[test]
fn any_words_and_any_room() {
    let mut random = Random::new(113);
    let mut accepted = 0;
    for _ in 0..2_000_000 {
        let words = any_words(&mut random);
        let mut buffer = [9; 30];
        let room = match random.below(3) {
            0 => random.below(31),
            _ => 25 + random.below(6),
        };
        let refusal = store(&words, &mut buffer[..room]);
        let written = match stored(&words, room) {
            Ok(bytes) => {
                assert_eq!(refusal, 0, "{words:?}");
                assert_eq!(buffer[..bytes.len()], bytes);
                assert_eq!(load(2, &buffer), (0, words));
                accepted += 1;
                bytes.len()
            }
            Err(expected) => {
                assert_eq!(refusal, expected, "{words:?} in {room}");
                0
            }
        };
        assert!(buffer[written..].iter().all(|byte| *byte == 9));
    }
    assert!(accepted > 100_000, "{accepted}");
}

#[test]
fn random_bytes_like_records() {
    let mut random = Random::new(114);
    let mut refusals = [0; 25];
    for _ in 0..3_000_000 {
        let mut bytes = [0; 32];
        for byte in &mut bytes {
            *byte = random.word() as u8;
        }
        let version = 1 + random.below(2) as u8;
        bytes[..4].copy_from_slice(&[0x5e, 0x71, version, 20 + version]);
        // Almost correct: small numbers, flags, finite rates.
        if random.coin() {
            bytes[6..8].fill(0);
            bytes[10..12].fill(0);
            bytes[14..16].fill(1);
        }
        bytes[16] %= 3;
        if !random.one_in(8) {
            bytes[24] = 0x3f;
        }
        if random.coin() {
            bytes[25] = (random.below(53) as u8).wrapping_sub(26);
        }
        if random.one_in(4) {
            bytes[random.below(26)] = random.word() as u8;
        }
        let length = match random.one_in(4) {
            true => random.below(33),
            false => 32,
        };
        let bytes = &bytes[..length];
        compare(bytes);
        refusals[load(2, bytes).0 as usize] += 1;
        // What is loaded is stored as the same bytes.
        let (refusal, words) = load(2, bytes);
        if refusal == 0 {
            let again = record(&words);
            assert_eq!(bytes[..again.len()], again);
        }
    }
    for number in [0, 15, 18, 23, 24] {
        assert!(refusals[number] > 1_000, "{number}: {refusals:?}");
    }
}
