// Compares the C entries of the loop table with a model: every call over 1 to 4 frames, long sequences of calls, any
// bytes.

use random::Random;
use raw::{
    CableowlCommands, CableowlLoopSlot, CableowlLoopTable, CableowlPlace, CableowlRegion,
    CableowlSettings, CableowlState, StateBytes, clear_loop, loop_table, read_loop, write_loop,
};

const EMPTY: CableowlLoopSlot = CableowlLoopSlot { start: 0, end: 0 };

#[derive(Debug, Clone, Copy)]
enum Call {
    Write(u32, u64, u64, u64),
    Clear(u32, u64),
    Read(u64),
}

/// The result of a call: its refusal, the table after it, and the returned loop.
type Answer = (u32, CableowlLoopTable, CableowlLoopSlot);

fn answered(table: CableowlLoopTable, call: Call) -> Answer {
    match call {
        Call::Write(hall, slot, start, end) => {
            let changed = write_loop(table, hall, slot, start, end);
            (changed.refusal, changed.table, EMPTY)
        }
        Call::Clear(hall, slot) => {
            let changed = clear_loop(table, hall, slot);
            (changed.refusal, changed.table, EMPTY)
        }
        Call::Read(slot) => {
            let found = read_loop(table, slot);
            (found.refusal, table, found.slot)
        }
    }
}

/// The rules of the request, checked in its order.
fn expected(table: CableowlLoopTable, call: Call) -> Answer {
    let is_loop = |start, end| start < end && end <= table.num_frames;
    let good = |slot: &CableowlLoopSlot| *slot == EMPTY || is_loop(slot.start, slot.end);
    let mut after = table;
    let mut found = EMPTY;
    let number = match call {
        _ if !table.slots.iter().all(good) => 1,
        Call::Write(hall, ..) | Call::Clear(hall, _) if hall > 1 => 1,
        Call::Write(_, _, start, end) if !is_loop(start, end) => 6,
        Call::Write(_, slot, ..) | Call::Clear(_, slot) | Call::Read(slot) if slot > 15 => 20,
        Call::Write(hall, slot, ..) | Call::Clear(hall, slot)
            if u64::from(hall) != u64::from(slot >= 8) =>
        {
            21
        }
        Call::Write(_, slot, start, end) => {
            after.slots[slot as usize] = CableowlLoopSlot { start, end };
            0
        }
        Call::Clear(_, slot) => {
            after.slots[slot as usize] = EMPTY;
            0
        }
        Call::Read(slot) if table.slots[slot as usize] == EMPTY => 22,
        Call::Read(slot) => {
            found = table.slots[slot as usize];
            0
        }
    };
    (number, after, found)
}

fn check(table: CableowlLoopTable, call: Call) -> CableowlLoopTable {
    let (ours, model) = (answered(table, call), expected(table, call));
    assert_eq!(ours, model, "{call:?} of {table:?}");
    ours.1
}

/// Every call over this many frames, with halls and slots up to one past the last.
fn calls(frames: u64) -> Vec<Call> {
    let mut all = Vec::new();
    for slot in 0..=16 {
        all.push(Call::Read(slot));
        for hall in 0..=2 {
            all.push(Call::Clear(hall, slot));
            for start in 0..=frames + 1 {
                all.extend((0..=frames + 1).map(|end| Call::Write(hall, slot, start, end)));
            }
        }
    }
    all
}

#[test]
fn every_call_after_every_call() {
    let mut made = 0u64;
    for frames in 0..=4 {
        let calls = calls(frames);
        let empty = loop_table(frames);
        assert_eq!(empty.num_frames, frames);
        assert_eq!(empty.slots, [EMPTY; 16]);
        for first in &calls {
            let table = check(empty, *first);
            for second in &calls {
                check(table, *second);
            }
            made += 1 + calls.len() as u64;
        }
    }
    println!("{made} calls");
}

fn any_call(random: &mut Random, frames: u64) -> Call {
    let slot = match random.below(20) {
        0 => random.word(),
        1 => 16,
        _ => random.below(16) as u64,
    };
    let hall = match random.below(40) {
        0 => random.word() as u32,
        _ => random.below(2) as u32,
    };
    let mut place = || match random.below(30) {
        0 => random.word(),
        _ => random.below(frames as usize + 2) as u64,
    };
    let (start, end) = (place(), place());
    match random.below(5) {
        0 => Call::Clear(hall, slot),
        1 => Call::Read(slot),
        _ => Call::Write(hall, slot, start, end),
    }
}

#[test]
fn long_rows_of_calls() {
    let mut random = Random::new(109);
    let mut numbers = [0u64; 23];
    for _ in 0..100 {
        let frames = [0, 1, 2, 9, 48_000, u64::from(u32::MAX)][random.below(6)];
        let mut table = loop_table(frames);
        for _ in 0..5_000 {
            let call = any_call(&mut random, frames);
            numbers[expected(table, call).0 as usize] += 1;
            table = check(table, call);
        }
    }
    println!("answers by number: {numbers:?}");
    assert!([0, 6, 20, 21, 22].iter().all(|k| numbers[*k] > 1_000));
}

#[test]
fn any_bytes() {
    let mut random = Random::new(1_090);
    let mut numbers = [0u64; 23];
    for _ in 0..1_000_000 {
        let frames = match random.below(8) {
            0 => random.word(),
            _ => random.below(5) as u64,
        };
        let wild = random.one_in(3);
        let mut table = loop_table(frames);
        for slot in &mut table.slots {
            let (a, b) = (random.below(6) as u64, random.below(6) as u64);
            *slot = match random.below(if wild { 24 } else { 12 }) {
                0..=5 => EMPTY,
                12 => CableowlLoopSlot { start: a, end: b },
                13 => CableowlLoopSlot {
                    start: random.word(),
                    end: random.word(),
                },
                _ if frames == 0 => EMPTY,
                _ => CableowlLoopSlot {
                    start: a.min(frames - 1),
                    end: (a.min(frames - 1) + 1 + b).min(frames),
                },
            };
        }
        let call = any_call(&mut random, frames.min(5));
        numbers[expected(table, call).0 as usize] += 1;
        check(table, call);
    }
    println!("answers by number: {numbers:?}");
    assert!([0, 1, 6, 20, 21, 22].iter().all(|k| numbers[*k] > 1_000));
}

#[test]
fn a_take_is_a_read_and_a_command_set() {
    let mut random = Random::new(10_900);
    let sound = [0.5, -0.5, 0.25, -0.25, 1.0, -1.0, 0.0, 0.125, 2.0, -2.0];
    let settings = CableowlSettings {
        sample_rate: 1,
        playback_rate: 1.0,
        start: place(0),
        ..CableowlSettings::default()
    };
    // Over a slice, a slot that the table accepts may still be refused with 6.
    let sliced = CableowlSettings {
        has_slice: 1,
        slice: region(1, 4),
        ..settings
    };
    let created = [settings, sliced].map(|settings| raw::new(settings, &sound));
    assert!(created.iter().all(|created| created.refusal == 0));
    let mut numbers = [0u64; 23];
    for _ in 0..300_000 {
        let mut table = loop_table(5);
        for slot in &mut table.slots {
            if random.coin() {
                let (start, end) = (random.below(5) as u64, random.below(6) as u64);
                *slot = write_loop(loop_table(5), 0, 0, start, end).table.slots[0];
            }
        }
        if random.one_in(20) {
            table.slots[random.below(16)].start = random.word();
        }
        let mut bytes = created[random.below(2)].state.to_bytes();
        for _ in 0..random.below(3) {
            bytes[random.below(bytes.len())] ^= 1 << random.below(8);
        }
        let state = CableowlState::from_bytes(bytes);
        let slot = random.below(18) as u64;
        let taken = raw::take_loop(table, slot, state, &sound);
        numbers[taken.refusal as usize] += 1;
        let read = read_loop(table, slot);
        let (number, after, position) = if read.refusal != 0 {
            (read.refusal, state, 0.0)
        } else {
            let commands = CableowlCommands {
                loop_command: 2,
                loop_region: region(read.slot.start, read.slot.end),
                ..CableowlCommands::default()
            };
            let commanded = raw::on_start_processing(state, &sound, commands);
            (commanded.refusal, commanded.state, commanded.position)
        };
        assert_eq!(taken.refusal, number);
        assert_eq!(taken.state.to_bytes(), after.to_bytes());
        assert_eq!(taken.position.to_bits(), position.to_bits());
    }
    println!("answers by number: {numbers:?}");
    assert!([0, 1, 6, 20, 22].iter().all(|k| numbers[*k] > 1_000));
}

/// A position in frames.
fn place(samples: u64) -> CableowlPlace {
    CableowlPlace {
        kind: 1,
        samples,
        ..CableowlPlace::default()
    }
}

/// A region in frames.
fn region(start: u64, end: u64) -> CableowlRegion {
    CableowlRegion {
        start: place(start),
        end: place(end),
    }
}
