// Two halls at one table: the order of refusals, a voice that takes a loop, and pairs of call sequences that differ
// only in one hall's calls.

use std::ops::Range;

use cableowl::{
    Commands, Frames, Hall, Lanes, LoopTable, PlaybackPosition, Refusal, Settings, Signals,
    StaticSound,
};
use random::Random;

const FRAMES: u64 = 12;

fn sound() -> Vec<f32> {
    (0..2 * FRAMES)
        .map(|i| (i * i % 31) as f32 / 31.0)
        .collect()
}

#[test]
fn refusals_in_their_order() {
    let mut table = LoopTable::new(10);
    let before = table;
    assert_eq!(table.write(Hall::A, 16, 4..4), Err(Refusal::LoopRegion));
    assert_eq!(table.write(Hall::A, 16, 0..11), Err(Refusal::LoopRegion));
    assert_eq!(table.write(Hall::A, 16, 0..10), Err(Refusal::LoopSlot));
    assert_eq!(table.write(Hall::B, 7, 0..10), Err(Refusal::OtherHall));
    assert_eq!(table.write(Hall::A, 8, 0..10), Err(Refusal::OtherHall));
    assert_eq!(table.clear(Hall::A, 16), Err(Refusal::LoopSlot));
    assert_eq!(table.clear(Hall::A, 8), Err(Refusal::OtherHall));
    assert_eq!(table.clear(Hall::A, 0), Ok(()));
    assert_eq!(table.read(16), Err(Refusal::LoopSlot));
    assert_eq!(table.read(15), Err(Refusal::EmptySlot));
    assert_eq!(table, before);
    assert_eq!(
        LoopTable::new(0).write(Hall::A, 0, 0..1),
        Err(Refusal::LoopRegion)
    );
}

#[test]
fn a_write_replaces_and_a_clear_leaves_nothing_of_it() {
    let mut table = LoopTable::new(10);
    let empty = table;
    table.write(Hall::A, 7, 2..5).unwrap();
    table.write(Hall::A, 7, 0..10).unwrap();
    assert_eq!(table.read(7), Ok(0..10));
    table.clear(Hall::A, 7).unwrap();
    assert_eq!(table, empty);
}

#[test]
fn a_taken_loop_is_the_command_s() {
    let sound = sound();
    let mut table = LoopTable::new(FRAMES);
    table.write(Hall::B, 9, 2..12).unwrap();
    let voice = StaticSound::new(Settings::new(1), &sound).unwrap();
    let (mut taker, mut commanded) = (voice.clone(), voice.clone());
    let commands = Commands::new()
        .set_loop_region(PlaybackPosition::Samples(2)..PlaybackPosition::Samples(12));
    assert_eq!(
        taker.take_loop(&sound, &table, 9),
        commanded.on_start_processing(&sound, commands)
    );
    assert_eq!(taker.state(), commanded.state());
    assert_eq!(taker.state().loop_region, Some((2, 12)));
}

#[test]
fn a_refused_take_changes_nothing() {
    let sound = sound();
    let mut table = LoopTable::new(FRAMES);
    table.write(Hall::A, 0, 2..12).unwrap();
    let voice = StaticSound::new(Settings::new(1).slice(Frames(0)..Frames(6)), &sound).unwrap();
    let another = &sound[2..];
    for (sound, slot, refusal) in [
        (&sound[..], 16, Refusal::LoopSlot),
        (&sound, 1, Refusal::EmptySlot),
        // The table checks a loop against all frames, the voice against its slice.
        (&sound, 0, Refusal::LoopRegion),
        // The table's refusal comes first.
        (another, 1, Refusal::EmptySlot),
        (another, 0, Refusal::State),
    ] {
        let mut taker = voice.clone();
        assert_eq!(taker.take_loop(sound, &table, slot), Err(refusal));
        assert_eq!(taker.state(), voice.state());
    }
}

/// A call of the sequence, by a hall or by a voice that takes one hall's loops.
#[derive(Debug, Clone)]
enum Call {
    Write(Hall, usize, Range<u64>),
    Clear(Hall, usize),
    Read(usize),
    Take(usize),
    Block(usize, f64),
}

/// What a call returned, and every sample and number of the voice.
#[derive(Debug, Clone, PartialEq)]
enum Answer {
    Number(Result<(), Refusal>),
    Loop(Result<Range<u64>, Refusal>),
    Position(Result<u64, Refusal>),
    Played(Result<u64, Refusal>, Vec<u32>),
}

struct World {
    table: LoopTable,
    voice: StaticSound,
    sound: Vec<f32>,
}

impl World {
    fn answer(&mut self, call: &Call) -> Answer {
        match call.clone() {
            Call::Write(hall, slot, frames) => Answer::Number(self.table.write(hall, slot, frames)),
            Call::Clear(hall, slot) => Answer::Number(self.table.clear(hall, slot)),
            Call::Read(slot) => Answer::Loop(self.table.read(slot)),
            Call::Take(slot) => Answer::Position(
                self.voice
                    .take_loop(&self.sound, &self.table, slot)
                    .map(f64::to_bits),
            ),
            Call::Block(frames, rate) => {
                let mut lanes = Lanes::new();
                let mut out = vec![0.0; 2 * frames];
                let block_lanes = lanes.frames(frames).rate(rate);
                let signals = Signals::default();
                let block = self
                    .voice
                    .process(&self.sound, block_lanes, 1.0, signals, &mut out);
                let bits = out.iter().map(|x| x.to_bits()).collect();
                Answer::Played(block.map(|block| block.steps), bits)
            }
        }
    }

    /// The eight slots of a hall.
    fn half(&self, hall: Hall) -> Vec<Result<Range<u64>, Refusal>> {
        own(hall).map(|slot| self.table.read(slot)).collect()
    }
}

fn own(hall: Hall) -> Range<usize> {
    match hall {
        Hall::A => 0..8,
        Hall::B => 8..16,
    }
}

fn other(hall: Hall) -> Hall {
    match hall {
        Hall::A => Hall::B,
        Hall::B => Hall::A,
    }
}

/// A write, a clear or a read by a hall, of its own slots and sometimes of any.
fn any_change(random: &mut Random, hall: Hall) -> Call {
    let slot = match random.below(8) {
        0 => random.below(18),
        _ => own(hall).start + random.below(8),
    };
    let mut place = || random.below(FRAMES as usize + 2) as u64;
    let (start, end) = (place(), place());
    match random.below(4) {
        0 => Call::Clear(hall, slot),
        _ => Call::Write(hall, slot, start..end),
    }
}

/// A call that concerns a hall: its writes and clears, reads of its slots, and a voice that takes loops from them.
fn any_own(random: &mut Random, hall: Hall) -> Call {
    let slot = own(hall).start + random.below(8);
    match random.below(5) {
        0 => Call::Read(slot),
        1 => Call::Take(slot),
        2 => Call::Block(random.below(6), random.below(5) as f64 / 2.0),
        _ => any_change(random, hall),
    }
}

/// Plays a sequence with the other hall's calls between, and keeps the results of the calls that concern the hall.
fn run(random: &mut Random, hall: Hall, mine: &[Call], others: usize) -> (World, Vec<Answer>) {
    let sound = sound();
    let voice = StaticSound::new(Settings::new(1), &sound).unwrap();
    let table = LoopTable::new(FRAMES);
    let mut world = World {
        table,
        voice,
        sound,
    };
    let mut answers = Vec::new();
    for call in mine {
        for _ in 0..random.below(others + 1) {
            let disturbing = any_change(random, other(hall));
            world.answer(&disturbing);
        }
        answers.push(world.answer(call));
    }
    (world, answers)
}

#[test]
fn halls_do_not_disturb_each_other() {
    let mut random = Random::new(22);
    let (mut calls, mut moved) = (0, 0);
    for round in 0..2_000 {
        let hall = [Hall::A, Hall::B][round % 2];
        let mine: Vec<Call> = (0..40).map(|_| any_own(&mut random, hall)).collect();
        let (alone, quiet) = run(&mut random, hall, &mine, 0);
        let (first, heard) = run(&mut random, hall, &mine, 3);
        let (second, again) = run(&mut random, hall, &mine, 3);
        assert_eq!(heard, quiet);
        assert_eq!(again, quiet);
        for world in [&first, &second] {
            assert_eq!(world.half(hall), alone.half(hall));
            assert_eq!(world.voice.state(), alone.voice.state());
        }
        calls += 3 * mine.len();
        moved += usize::from(first.half(other(hall)) != second.half(other(hall)));
    }
    println!("{calls} calls compared; the other half differed in {moved} rounds of 2,000");
    assert!(moved > 1_900);
}
