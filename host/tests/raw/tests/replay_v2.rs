//! Steps of a replay of version 2: the examples of docs/formats/TRACE.md, "Version 2", and each way to be refused.
#![allow(missing_docs)]

use oracle::{Answer, Lanes, Signals};
use raw::{CableowlReplay, CableowlReplayed, ReplayBytes, StateBytes};

const PLAYED: u64 = 0;
const REFUSED: u64 = 4;

/// The page's creation over a given sound of three frames, without its checksum.
const CREATION: &str = "A5 1D 04 41 00 01 00 00 00 00 00 00 00 00 00 00 00 00 00 00 00 00 00 00 00 00 00 F0 3F 00 03 00 00 00 \
    46 84 AF A9 FD F3 69 FC AD 25 C4 A4 C5 FF 53 5F D8 1A 53 FB 02 F7 D4 B5 4F 47 A9 83 23 A3 0A 09";
/// The page's block of two frames, in which the fade falls from 1 to 0.5, without its checksum.
const BLOCK: &str = "A5 1D 05 41 00 02 00 00 00 00 00 00 00 F0 3F 00 00 00 \
    00 00 80 3F 00 00 80 3F 00 00 80 3F 00 00 80 3F 00 00 00 00 00 00 F0 3F \
    00 00 00 3F 00 00 80 3F 00 00 80 3F 00 00 80 3F 00 00 00 00 00 00 F0 3F";
/// The page's creation and block of version 1.
const THREE_FRAMES: &str = "A5 1D 01 32 00 01 00 00 00 00 00 00 00 00 00 00 00 00 00 00 00 00 00 00 00 00 00 F0 3F 00 03 \
    00 00 80 3F 00 00 80 3F 00 00 00 40 00 00 00 40 00 00 40 40 00 00 40 40 \
    A5 1D 03 25 00 06 00 00 00 80 3F 00 00 80 3F 00 00 80 3F 00 00 80 3F \
    00 00 00 00 00 00 F0 3F 00 00 00 00 00 00 F0 3F 00 00 00";
const SOUND: [f32; 6] = [1.0, 1.0, 2.0, 2.0, 3.0, 3.0];

fn bytes(text: &str) -> Vec<u8> {
    let byte = |word| u8::from_str_radix(word, 16).unwrap();
    text.split_whitespace().map(byte).collect()
}

/// The record with its checksum.
fn sealed(mut record: Vec<u8>) -> Vec<u8> {
    let mut crc = u32::MAX;
    for byte in &record[2..] {
        crc ^= u32::from(*byte);
        for _ in 0..8 {
            crc = (crc >> 1) ^ (0xedb8_8320 & (crc & 1).wrapping_neg());
        }
    }
    record.extend((!crc).to_le_bytes());
    record
}

fn creation() -> Vec<u8> {
    sealed(bytes(CREATION))
}

fn creation_with(at: usize, value: u32) -> Vec<u8> {
    let mut record = bytes(CREATION);
    record[at..at + 4].copy_from_slice(&value.to_le_bytes());
    sealed(record)
}

const RATE: usize = 5;
const FRAMES: usize = 30;

fn block() -> Vec<u8> {
    sealed(bytes(BLOCK))
}

struct Host {
    replay: CableowlReplay,
    sound: Vec<f32>,
    out: Vec<f32>,
}

impl Host {
    fn new() -> Self {
        Self {
            replay: raw::replay_v2(),
            sound: vec![0.25; 128],
            out: vec![0.5; 2_048],
        }
    }

    fn step(&mut self, bytes: &[u8], given: &[f32], sounds: u32) -> CableowlReplayed {
        let (sound, out) = (&mut self.sound, &mut self.out);
        let did = raw::replay_step_v2(self.replay, bytes, true, sound, given, sounds, out);
        self.replay = did.replay;
        did
    }
}

/// What a step returns besides samples.
fn numbers(did: &CableowlReplayed) -> [u64; 14] {
    let (replay, voice) = (&did.replay, &did.replay.voice);
    [
        did.what,
        did.kind,
        did.refusal,
        did.size,
        did.frames,
        did.steps,
        did.lowest_count,
        replay.samples,
        replay.blocks,
        replay.offset,
        u64::from(replay.given),
        u64::from(voice.state),
        voice.position,
        u64::from(voice.count),
    ]
}

#[test]
fn the_page_s_examples() {
    assert_eq!(creation()[66..], [0xe8, 0xd8, 0xce, 0xd6]);
    assert_eq!(block()[66..], [0x44, 0xbf, 0x79, 0xd0]);
    let mut host = Host::new();
    let made = host.step(&creation(), &SOUND, 1);
    assert_eq!(
        (made.what, made.kind, made.refusal, made.size),
        (PLAYED, 4, 0, 70)
    );
    assert_eq!(
        (made.replay.given, made.replay.samples, made.replay.offset),
        (1, 6, 70)
    );
    let played = host.step(&block(), &SOUND, 0);
    assert_eq!(
        (played.what, played.kind, played.refusal, played.size),
        (PLAYED, 5, 0, 70)
    );
    assert_eq!(
        (played.frames, played.replay.blocks, played.replay.offset),
        (2, 1, 140)
    );

    // What the voice's own entries return.
    let lanes = Lanes {
        fade: &[1.0, 0.5],
        volume: &[1.0; 2],
        left: &[1.0; 2],
        right: &[1.0; 2],
        rate: &[1.0; 2],
    };
    let mut out = [0.0; 4];
    let signals = raw::convert::signals_in(
        Signals {
            finished: false,
            start: Answer::Waiting,
            resume: Answer::Waiting,
        },
        None,
    );
    let wanted = raw::process(made.replay.voice, &SOUND, &lanes, 1.0, signals, &mut out);
    assert_eq!((wanted.refusal, wanted.steps), (0, played.steps));
    assert_eq!(wanted.state.to_bytes(), played.replay.voice.to_bytes());
    assert_eq!(u64::from(wanted.lowest_count), played.lowest_count);
    assert_eq!(host.out[..4], out);
    assert_eq!(host.out[4..], [0.5; 2_044]);
    assert_eq!(host.sound, [0.25; 128]);
}

#[test]
fn without_a_sound_only_samples_differ() {
    let (mut heard, mut silent) = (Host::new(), Host::new());
    for record in [creation(), block(), block()] {
        let with = heard.step(&record, &SOUND, 1);
        let without = silent.step(&record, &[0.0; 6], 0);
        assert_eq!(numbers(&with), numbers(&without));
    }
    // A longer buffer is enough, a shorter one is not.
    let mut host = Host::new();
    let before = host.replay.to_bytes();
    let refused = host.step(&creation(), &[0.0; 5], 0);
    assert_eq!(
        (refused.what, refused.refusal, refused.kind),
        (REFUSED, 19, 0)
    );
    assert_eq!(host.replay.to_bytes(), before);
    assert_eq!(host.step(&creation(), &[0.0; 9], 0).refusal, 0);
    assert_eq!(host.replay.samples, 6);
}

#[test]
fn another_sound_is_refused_with_26() {
    for (given, sounds) in [
        (&SOUND[..], 2),
        (&SOUND[..], u32::MAX),
        (&SOUND[..4], 1),
        (&SOUND[..5], 1),
        (&[1.0; 7], 1),
        (&[], 1),
        (&[], 2),
    ] {
        let mut host = Host::new();
        host.step(&creation(), &SOUND, 1);
        let refused = host.step(&creation(), given, sounds);
        assert_eq!(
            (refused.what, refused.kind, refused.refusal),
            (PLAYED, 4, 26)
        );
        assert_eq!((refused.replay.given, refused.replay.samples), (1, 0));
        let blank = raw::replay_v2().voice.to_bytes();
        assert_eq!(refused.replay.voice.to_bytes(), blank);
        // The replay continues: a block is refused and counted, and a creation makes a voice.
        let played = host.step(&block(), &[], 0);
        assert_eq!((played.what, played.kind, played.refusal), (PLAYED, 5, 1));
        assert_eq!((played.replay.blocks, played.frames), (1, 2));
        assert_eq!(host.step(&creation(), &SOUND, 1).refusal, 0);
    }
}

#[test]
fn the_order_of_refusals() {
    // 26 before 2; 2 before 3; 0 frames and too many frames are 3, whatever is given.
    for (at, value, given, sounds, refusal) in [
        (RATE, 0, &SOUND[..4], 1, 26),
        (RATE, 0, &SOUND[..], 1, 2),
        (RATE, 0, &[0.0; 6], 0, 2),
        (FRAMES, 0, &[], 1, 3),
        (FRAMES, 0, &[], 0, 3),
        (FRAMES, 0, &SOUND[..], 0, 3),
        (FRAMES, 0, &SOUND[..], 1, 26),
        (FRAMES, 16_777_217, &[], 0, 3),
        (FRAMES, 16_777_217, &SOUND[..], 1, 26),
        (FRAMES, u32::MAX, &[], 0, 3),
    ] {
        let mut host = Host::new();
        let did = host.step(&creation_with(at, value), given, sounds);
        assert_eq!((did.what, did.kind, did.refusal), (PLAYED, 4, refusal));
        let samples = if at == RATE && refusal != 26 { 6 } else { 0 };
        assert_eq!((did.replay.given, did.replay.samples), (1, samples));
    }
    // The largest sound, and one frame more: the host has it, and the player refuses it.
    let mut host = Host::new();
    let most = vec![0.0; 2 * 16_777_217];
    let last = &most[..2 * 16_777_216];
    assert_eq!(
        host.step(&creation_with(FRAMES, 16_777_216), last, 1)
            .refusal,
        0
    );
    assert_eq!(host.replay.samples, 2 * 16_777_216);
    assert_eq!(
        host.step(&creation_with(FRAMES, 16_777_217), &most, 1)
            .refusal,
        3
    );
    assert_eq!(host.replay.samples, 0);
}

#[test]
fn a_shorter_sound_after_a_longer_one() {
    let mut host = Host::new();
    host.step(&creation_with(FRAMES, 9), &[0.0; 18], 1);
    assert_eq!(host.replay.samples, 18);
    // The voice needs its sound; a creation does not.
    let refused = host.step(&block(), &SOUND, 1);
    assert_eq!((refused.what, refused.refusal), (REFUSED, 1));
    assert_eq!(host.step(&creation(), &SOUND, 1).refusal, 0);
    assert_eq!(host.step(&block(), &SOUND, 1).refusal, 0);
    let trace = bytes(THREE_FRAMES);
    assert_eq!(host.step(&trace, &[], 0).kind, 1);
    assert_eq!((host.replay.given, host.replay.samples), (0, 6));
}

#[test]
fn kinds_1_to_3_as_version_1() {
    let trace = bytes(THREE_FRAMES);
    let (mut old, mut new) = (raw::replay(), Host::new());
    let (mut sound, mut out) = (vec![0.25; 128], vec![0.5; 2_048]);
    let mut at = 0;
    loop {
        let did = raw::replay_step(old, &trace[at..], true, &mut sound, &mut out);
        let also = new.step(&trace[at..], &[7.0; 3], at as u32);
        assert_eq!(numbers(&did), numbers(&also));
        assert_eq!((&sound, &out), (&new.sound, &new.out));
        let mut after = also.replay;
        after.reader = 1;
        assert_eq!(did.replay.to_bytes(), after.to_bytes());
        old = did.replay;
        at += did.size as usize;
        if did.what != PLAYED {
            assert_eq!(did.what, 2);
            break;
        }
    }
    assert_eq!(at, 97);
}

#[test]
fn numbers_of_another_reader() {
    let refusal = |replay: CableowlReplay| {
        let mut host = Host::new();
        host.replay = replay;
        let did = host.step(&creation(), &SOUND, 1);
        assert_eq!(did.replay.to_bytes(), replay.to_bytes());
        (did.what, did.refusal)
    };
    assert_eq!(refusal(raw::replay()), (REFUSED, 1));
    let two = |given, samples| CableowlReplay {
        given,
        samples,
        ..raw::replay_v2()
    };
    assert_eq!(refusal(two(2, 0)), (REFUSED, 1));
    assert_eq!(refusal(two(0, 129)), (REFUSED, 1));
    let (mut sound, mut out) = ([0.0; 128], [0.0; 2_048]);
    let did = raw::replay_step(raw::replay_v2(), &creation(), true, &mut sound, &mut out);
    assert_eq!((did.what, did.refusal), (REFUSED, 1));
    // Reader 1 does not know the kinds.
    let did = raw::replay_step(raw::replay(), &creation(), true, &mut sound, &mut out);
    assert_eq!((did.what, did.refusal), (3, 16));
}

#[test]
fn any_end_of_the_bytes() {
    let trace: Vec<u8> = [creation(), block()].concat();
    for end in 0..70 {
        let mut host = Host::new();
        let (sound, out) = (&mut host.sound, &mut host.out);
        let step = |ended, sound: &mut [f32], out: &mut [f32]| {
            raw::replay_step_v2(host.replay, &trace[..end], ended, sound, &SOUND, 1, out)
        };
        assert_eq!(step(false, sound, out).what, 1);
        let last = step(true, sound, out);
        assert_eq!(
            (last.what, last.refusal),
            if end == 0 { (2, 0) } else { (3, 18) }
        );
    }
}

/// Any bytes as a replay, any number of sounds, any lengths: a call is refused and changes nothing, or it is answered.
#[test]
fn any_bytes_are_a_replay() {
    let mut seed = 1_u64;
    let mut word = move || {
        seed ^= seed << 13;
        seed ^= seed >> 7;
        seed ^= seed << 17;
        seed
    };
    let records = [
        creation(),
        block(),
        bytes(THREE_FRAMES),
        bytes(THREE_FRAMES)[55..].to_vec(),
    ];
    let mut seen = [0; 5];
    for _ in 0..20_000 {
        let mut host = Host::new();
        for record in &records[..word() as usize % 3] {
            host.step(record, &SOUND, word() as u32 % 3);
        }
        let mut state = host.replay.to_bytes();
        for _ in 0..word() % 3 {
            state[word() as usize % state.len()] = word() as u8;
        }
        host.replay = CableowlReplay::from_bytes(state);
        host.sound.truncate(if word() % 8 == 0 { 127 } else { 128 });
        host.out
            .truncate(if word() % 8 == 0 { 2_047 } else { 2_048 });
        let given = &SOUND[..word() as usize % 7];
        let mut record = records[word() as usize % 4].clone();
        if word() % 4 == 0 {
            let at = word() as usize % record.len();
            record[at] = word() as u8;
        }
        record.truncate(
            record
                .len()
                .saturating_sub((word() % 2 * (word() % 70)) as usize),
        );
        let (before, sound, out) = (host.replay, host.sound.clone(), host.out.clone());
        let did = host.step(&record, given, word() as u32 % 4);
        seen[did.what as usize] += 1;
        assert_eq!(host.sound.len(), sound.len());
        if did.what != PLAYED {
            assert_eq!(did.replay.to_bytes(), before.to_bytes());
            assert_eq!(
                (did.size, did.kind, did.frames, did.steps, did.lowest_count),
                (0, 0, 0, 0, 4)
            );
            let bits = |samples: &[f32]| samples.iter().map(|x| x.to_bits()).collect::<Vec<_>>();
            assert_eq!(
                (bits(&host.sound), bits(&host.out)),
                (bits(&sound), bits(&out))
            );
        }
        if did.what == REFUSED {
            assert!(matches!(did.refusal, 1 | 19));
        }
    }
    assert!(
        seen[0] > 1_000 && seen[3] > 1_000 && seen[4] > 1_000,
        "{seen:?}"
    );
}
