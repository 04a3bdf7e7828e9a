//! Compares the compiled writer with the page: random records written and read back, every length of the buffer, and
//! each field of the Rust crate's record.

use cableowl::{
    Commands, EndPosition, Frames, LoopCommand, PlaybackPosition, Refusal, Region, ResumeCommand,
    Settings, StartAnswer,
    trace::{self, Block, Record, ShortSound},
};
use random::Random;
use traced::{Values, make, page, runs::COMPILED};

#[test]
fn random_records_out_and_back() {
    let tally = COMPILED.writes(105, 60_000).unwrap();
    println!("{tally}");
    for refusal in [0, 16, 17, 19] {
        assert!(tally.refused[refusal] > 1_000, "{tally}");
    }
}

/// Every length of the buffer from 0 to the record's end, at several offsets: 19 and nothing is written, then an exact
/// fit.
#[test]
fn every_room() {
    let mut random = Random::new(1_050);
    for round in 0..60 {
        let (kind, values) = make::well_formed(&mut random);
        let bytes = page::bytes(kind, &values).unwrap();
        let (record, _) = trace::read(&bytes, 0).unwrap();
        let at = round % 5;
        for room in 0..=at + bytes.len() {
            let mut buffer = vec![0x77; room];
            let sent = trace::write(&record, &mut buffer, at);
            if room < at + bytes.len() {
                assert_eq!(sent, Err(Refusal::Room));
                assert!(buffer.iter().all(|byte| *byte == 0x77));
            } else {
                assert_eq!(sent, Ok(room));
                assert_eq!(buffer[at..], bytes);
                assert!(buffer[..at].iter().all(|byte| *byte == 0x77));
            }
        }
        // An offset beyond the end, up to the largest.
        for at in [bytes.len() + 1, usize::MAX - 574, usize::MAX] {
            let mut buffer = vec![0x77; bytes.len()];
            assert_eq!(trace::write(&record, &mut buffer, at), Err(Refusal::Room));
        }
    }
}

#[test]
fn limits_come_before_room() {
    let block = Record::Block(Block::new(1_025, 1.0));
    assert_eq!(trace::write(&block, &mut [], 0), Err(Refusal::Record));
    let block = Record::Block(Block::new(1_024, 1.0));
    assert_eq!(trace::write(&block, &mut [], 0), Err(Refusal::Room));
    for (samples, fits) in [(0, true), (1, false), (2, true), (127, false), (128, true)] {
        assert_eq!(ShortSound::new(&vec![0.0; samples]).is_ok(), fits);
    }
    for samples in [129, 130, 1_000] {
        let long = ShortSound::new(&vec![0.0; samples]);
        assert_eq!(long.unwrap_err(), Refusal::Record);
    }
}

/// The region of a tag, and its numbers.
fn region(tag: u64) -> (Region, [u64; 3]) {
    let [frame_2, frame_7] = [2, 7].map(PlaybackPosition::Samples);
    let [second_1, second_4] = [1.0, 4.0].map(PlaybackPosition::Seconds);
    let [one, four] = [1.0_f64, 4.0].map(f64::to_bits);
    let until = EndPosition::Custom;
    let ((start, first), (end, last)) = match tag {
        1 => ((frame_2, 2), (EndPosition::EndOfAudio, 0)),
        2 => ((second_1, one), (EndPosition::EndOfAudio, 0)),
        3 => ((frame_2, 2), (until(frame_7), 7)),
        4 => ((second_1, one), (until(frame_7), 7)),
        5 => ((frame_2, 2), (until(second_4), four)),
        _ => ((second_1, one), (until(second_4), four)),
    };
    (Region { start, end }, [tag, first, last])
}

fn is_written(record: Record, kind: u64, numbers: &[u64]) {
    let mut values: Values = [0; 80];
    values[..numbers.len()].copy_from_slice(numbers);
    let expected = page::bytes(kind, &values).unwrap();
    let mut bytes = vec![0; expected.len()];
    assert_eq!(trace::write(&record, &mut bytes, 0), Ok(bytes.len()));
    assert_eq!(bytes, expected, "{record:?}");
    let (back, _) = trace::read(&bytes, 0).unwrap();
    assert_eq!(back, record);
    // Their texts show each field.
    assert_eq!(format!("{back:?}"), format!("{record:?}"));
}

#[test]
fn each_field_of_a_creation() {
    let samples = [0.25, f32::from_bits(0x7fa0_0001), -0.0, 1e-40];
    let sound = ShortSound::new(&samples).unwrap();
    let [left, right, left_2, right_2] = samples.map(|sample| u64::from(sample.to_bits()));
    for tag in 0..=6 {
        let mut settings = Settings::new(44_100).playback_rate(-0.75);
        let (mut slice, mut looped) = ([0; 3], [0; 3]);
        if tag > 0 {
            let ((slice_region, numbers), (loop_region, loop_numbers)) =
                (region(tag), region(7 - tag));
            settings = settings.slice(slice_region).loop_region(loop_region);
            (slice, looped) = (numbers, loop_numbers);
        }
        let reverse = tag % 2 == 0;
        settings = settings.reverse(reverse).start_waits(!reverse);
        let (settings, start) = match reverse {
            true => (settings.start_position(Frames(9)), [0, 9]),
            false => (settings.start_position(0.5), [1, 0.5_f64.to_bits()]),
        };
        let rest = [
            reverse.into(),
            (-0.75_f64).to_bits(),
            (!reverse).into(),
            2,
            left | right << 32,
            left_2 | right_2 << 32,
        ];
        let numbers = [&[44_100], &slice[..], &start, &looped, &rest].concat();
        is_written(Record::Creation { settings, sound }, 1, &numbers);
    }
}

#[test]
fn each_field_of_a_command_set() {
    let resumes = [
        ResumeCommand::No,
        ResumeCommand::AtOnce,
        ResumeCommand::Waiting,
    ];
    for tag in 0..=7 {
        for flags in 0..64_u64 {
            let is = |bit: u64| flags >> bit & 1 == 1;
            let given = |bit: u64, seconds: f64| match is(bit) {
                true => (Some(seconds), [1, seconds.to_bits()]),
                false => (None, [0; 2]),
            };
            let (rate, rate_numbers) = given(0, 0.5);
            let (by, by_numbers) = given(1, -1.5);
            let (to, to_numbers) = given(2, f64::NAN);
            let (looped, mut loop_numbers) = match tag {
                0 => (LoopCommand::Keep, [0; 3]),
                1 => (LoopCommand::Clear, [1, 0, 0]),
                _ => {
                    let (region, numbers) = region(tag - 1);
                    (LoopCommand::Set(region), numbers)
                }
            };
            loop_numbers[0] = tag;
            let mut commands = Commands::new();
            commands.playback_rate = rate;
            commands.loop_region = looped;
            commands.pause = is(3);
            commands.resume = resumes[flags as usize % 3];
            commands.stop = is(4);
            commands.seek_by = by;
            commands.seek_to = to;
            let flags = [is(3).into(), flags % 3, is(4).into()];
            let numbers = [
                &rate_numbers[..],
                &loop_numbers,
                &flags,
                &by_numbers,
                &to_numbers,
            ];
            is_written(Record::Commands(commands), 2, &numbers.concat());
        }
    }
}

#[test]
fn each_field_of_a_block() {
    let answers = [StartAnswer::Waiting, StartAnswer::Now, StartAnswer::Never];
    for (start, first) in answers.into_iter().zip(0..) {
        for (resume, second) in answers.into_iter().zip(0..) {
            for finished in [false, true] {
                let block = Block {
                    frames: 513,
                    fade: 0.125,
                    volume: 0.25,
                    left: 0.5,
                    right: f32::NAN,
                    rate: -2.0,
                    time_step: 1.0 / 48_000.0,
                    finished,
                    start,
                    resume,
                };
                let singles = [0.125_f32, 0.25, 0.5, f32::NAN];
                let singles = singles.map(|single| u64::from(single.to_bits()));
                let doubles = [-2.0, 1.0 / 48_000.0].map(f64::to_bits);
                let signals = [finished.into(), first, second];
                let numbers = [&[513], &singles[..], &doubles, &signals].concat();
                is_written(Record::Block(block), 3, &numbers);
            }
        }
    }
}
