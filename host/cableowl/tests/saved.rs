// Saved states: bytes that are read back, and bytes that are refused.

use cableowl::{
    Commands, Frames, Lanes, Refusal, Settings, Signals, State, StaticSound, Unreadable, Wraps,
};

const SOUND: [f32; 40] = [0.25; 40];

fn state() -> State {
    let settings = Settings::new(44_100)
        .slice(Frames(1)..Frames(19))
        .start_position(Frames(15))
        .loop_region(Frames(2)..Frames(9));
    let mut voice = StaticSound::new(settings.reverse(true), &SOUND).unwrap();
    let mut lanes = Lanes::new();
    let lanes = lanes.frames(5).rate(0.3);
    voice
        .process(
            &SOUND,
            lanes,
            1.0 / 44_100.0,
            Signals::new(),
            &mut [0.0; 10],
        )
        .unwrap();
    voice
        .on_start_processing(&SOUND, Commands::new().set_playback_rate(-0.75).pause())
        .unwrap();
    voice.state()
}

/// The check of zip and PNG, by its table.
fn crc_32(bytes: &[u8]) -> u32 {
    let mut table = [0_u32; 256];
    for (byte, entry) in (0..).zip(&mut table) {
        *entry = (0..8).fold(byte, |crc, _| match crc & 1 {
            1 => (crc >> 1) ^ 0xedb8_8320,
            _ => crc >> 1,
        });
    }
    !bytes.iter().fold(!0, |crc: u32, &byte| {
        (crc >> 8) ^ table[((crc ^ u32::from(byte)) & 0xff) as usize]
    })
}

/// The bytes with one changed, and a new check.
fn with(at: usize, byte: u8) -> Vec<u8> {
    let mut bytes = state().to_bytes();
    bytes[at] = byte;
    checked(bytes)
}

/// The bytes with the check of the others as their last four.
fn checked(mut bytes: Vec<u8>) -> Vec<u8> {
    let body = bytes.len() - 4;
    let check = crc_32(&bytes[..body]).to_le_bytes();
    bytes[body..].copy_from_slice(&check);
    bytes
}

/// The state as version 1 wrote it: without the counts.
fn version_1(state: &State) -> Vec<u8> {
    let mut bytes = state.to_bytes();
    bytes.drain(144..152);
    bytes[4] = 1;
    checked(bytes)
}

#[test]
fn the_layout() {
    let state = state();
    let bytes = state.to_bytes();
    let number = |at: usize| u64::from_le_bytes(bytes[at..at + 8].try_into().unwrap());
    let word = |at: usize| u32::from_le_bytes(bytes[at..at + 4].try_into().unwrap());
    assert_eq!(bytes.len(), 156);
    assert_eq!(bytes[..8], [0x43, 0x4f, 0x77, 0x6c, 2, 1, 0b11111, 0]);
    assert_eq!((word(8), word(12)), (44_100, 4));
    assert_eq!(
        [16, 24, 32, 40].map(number),
        [20, 1, 19, state.position as u64]
    );
    assert_eq!([48, 56].map(number), [2, 9]);
    assert_eq!(number(64), (-0.75_f64).to_bits());
    assert_eq!(number(72), state.fractional_position.to_bits());
    for (at, recent) in (80..).step_by(16).zip(state.window) {
        let frame = [recent.frame.left, recent.frame.right].map(f32::to_bits);
        assert_eq!([word(at), word(at + 4)], frame);
        assert_eq!(number(at + 8), recent.frame_index as u64);
    }
    assert_eq!([word(144), word(148)], [0, state.wraps.backward]);
    assert_ne!(state.wraps.backward, 0);
    assert_eq!(word(152), crc_32(&bytes[..152]));
}

#[test]
fn read_back() {
    let state = state();
    assert_eq!(State::from_bytes(&state.to_bytes()), Ok(state));
    let plain = StaticSound::new(Settings::new(1), &SOUND).unwrap().state();
    assert_eq!(State::from_bytes(&plain.to_bytes()), Ok(plain));
    assert_eq!(
        State::from_bytes(&State::default().to_bytes()),
        Ok(State::default())
    );
}

#[test]
fn version_1_is_read_with_no_wraps() {
    let mut state = state();
    let saved = version_1(&state);
    assert_eq!((saved.len(), saved[4]), (148, 1));
    state.wraps = Wraps::default();
    assert_eq!(State::from_bytes(&saved), Ok(state));
    // Each version has its own length.
    assert_eq!(State::from_bytes(&with(4, 1)), Err(Unreadable::Length));
    assert_eq!(State::from_bytes(&saved[..147]), Err(Unreadable::Length));
    let mut as_version_2 = saved;
    as_version_2[4] = 2;
    assert_eq!(
        State::from_bytes(&checked(as_version_2)),
        Err(Unreadable::Length)
    );
}

#[test]
fn any_flipped_bit_is_found() {
    let bytes = state().to_bytes();
    for bit in 0..8 * bytes.len() {
        let mut flipped = bytes.clone();
        flipped[bit / 8] ^= 1 << (bit % 8);
        let reason = State::from_bytes(&flipped).unwrap_err();
        let expected = match bit / 8 {
            0..4 => Unreadable::Mark,
            4 => Unreadable::Version(flipped[4]),
            _ => Unreadable::Check,
        };
        assert_eq!((reason, reason.number()), (expected, 1));
    }
}

#[test]
fn other_lengths_and_values_are_refused() {
    let bytes = state().to_bytes();
    for length in 0..bytes.len() {
        let reason = State::from_bytes(&bytes[..length]).unwrap_err();
        let expected = if length < 4 {
            Unreadable::Mark
        } else {
            Unreadable::Length
        };
        assert_eq!(reason, expected);
    }
    let longer = [bytes.as_slice(), &[0]].concat();
    assert_eq!(State::from_bytes(&longer), Err(Unreadable::Length));
    assert_eq!(State::from_bytes(&with(4, 3)), Err(Unreadable::Version(3)));
    for (at, byte) in [(5, 7), (6, 32), (7, 1)] {
        assert_eq!(State::from_bytes(&with(at, byte)), Err(Unreadable::Value));
    }
    // No slice is given, but its numbers are not 0.
    assert_eq!(State::from_bytes(&with(6, 0b10111)), Err(Unreadable::Value));
}

#[test]
fn what_is_read_is_judged_over_its_sound() {
    let other_position = State::from_bytes(&with(43, 255)).unwrap();
    let refused = StaticSound::from_state(other_position, &SOUND);
    assert_eq!(refused.unwrap_err(), Refusal::State);
    let refused: Result<State, Refusal> = State::from_bytes(&[]).map_err(Into::into);
    assert_eq!(refused, Err(Refusal::State));
}
