//! Two halls share one loop table. Each has a thread that edits its own slots and a voice that takes loops from them. The
//! evening is played with hall A quiet, busy and busier, and B's frames have the same digest each time.
//!
//! `cd host && cargo run --release --offline -p cableowl --example two_halls`

use std::{sync::Mutex, thread};

use cableowl::{Hall, Lanes, LoopTable, Refusal, Settings, Signals, StaticSound};

const FRAMES: u64 = 48_000;
const BLOCKS: u64 = 200;
const BLOCK: usize = 256;

/// FNV-1a over the bits of every sample.
#[derive(Debug, Clone, Copy, PartialEq, Eq)]
struct Digest(u64);

impl Digest {
    fn add(&mut self, samples: &[f32]) {
        for byte in samples.iter().flat_map(|x| x.to_bits().to_le_bytes()) {
            self.0 = (self.0 ^ u64::from(byte)).wrapping_mul(0x0100_0000_01b3);
        }
    }
}

/// A hall's evening. Before each block the hall makes its edits, then its voice takes a loop and plays.
fn evening(
    hall: Hall,
    edits: u64,
    table: &Mutex<LoopTable>,
    sound: &[f32],
) -> Result<Digest, Refusal> {
    let first = match hall {
        Hall::A => 0,
        Hall::B => 8,
    };
    let mut voice = StaticSound::new(Settings::new(48_000), sound)?;
    let mut lanes = Lanes::new();
    let mut out = [0.0; 2 * BLOCK];
    let mut digest = Digest(0xcbf2_9ce4_8422_2325);
    for turn in 0..BLOCKS {
        for edit in 0..edits {
            let slot = first + ((turn + edit) % 8) as usize;
            let start = (turn * 997 + edit * 131 + first as u64 * 1_013) % (FRAMES - 100);
            // The lock is held for one call.
            table
                .lock()
                .unwrap()
                .write(hall, slot, start..start + 100)?;
        }
        let slot = first + (turn % 8) as usize;
        let now = *table.lock().unwrap();
        match voice.take_loop(sound, &now, slot) {
            Ok(_) | Err(Refusal::EmptySlot) => {}
            Err(refusal) => return Err(refusal),
        }
        let signals = Signals::default();
        voice.process(
            sound,
            lanes.frames(BLOCK),
            1.0 / 48_000.0,
            signals,
            &mut out,
        )?;
        digest.add(&out);
    }
    Ok(digest)
}

/// Both halls at once; A makes this many edits per block, B one.
fn both(edits_of_a: u64, sound: &[f32]) -> Result<(Digest, Digest), Refusal> {
    let table = Mutex::new(LoopTable::new(FRAMES));
    let (a, b) = thread::scope(|scope| {
        let a = scope.spawn(|| evening(Hall::A, edits_of_a, &table, sound));
        let b = scope.spawn(|| evening(Hall::B, 1, &table, sound));
        (a.join().unwrap(), b.join().unwrap())
    });
    Ok((a?, b?))
}

fn main() -> Result<(), Refusal> {
    let sound: Vec<f32> = (0..2 * FRAMES)
        .map(|i| (i * i % 4_001) as f32 / 4_001.0 - 0.5)
        .collect();
    let quiet = both(0, &sound)?;
    println!("A's edits a block   A's frames         B's frames");
    for edits in [0, 1, 20] {
        let (a, b) = both(edits, &sound)?;
        println!("{edits:<19} {:016x}   {:016x}", a.0, b.0);
        assert_eq!(b, quiet.1, "what A writes moved B's frames");
        assert_eq!(a == quiet.0, edits == 0, "A's own frames follow A");
    }
    println!("B heard the same each time.");
    Ok(())
}
