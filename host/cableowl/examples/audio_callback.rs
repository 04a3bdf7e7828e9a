//! A host shaped like an audio callback: interleaved f32 output of any length, and commands from another thread through
//! a bounded channel. Nothing in the callback waits or allocates; a counting allocator checks this.
//!
//! The callback notes at which frame it got each command. Afterwards the evening is played again with the same commands
//! at the same frames, in as few calls as possible, and must have the same samples. So the host only decides when a
//! command takes effect. Commands come faster than callbacks, so several can come before one frame. All are obeyed in
//! their order, and the result is the same with an empty call between them.
//!
//! `cd host && cargo run --release --offline -p cableowl --example audio_callback`

use std::{
    alloc::{GlobalAlloc, Layout, System},
    cell::Cell,
    error::Error,
    sync::{
        Arc,
        mpsc::{self, Receiver, SyncSender, TrySendError},
    },
    thread,
    time::Duration,
};

use cableowl::{Command, Level, Region, Settings, SharedPlayer, Tween};
use random::Random;

const OUTPUT_RATE: u32 = 48_000;
/// Ten seconds of output.
const FRAMES: usize = 10 * OUTPUT_RATE as usize;
/// The largest output that the device asks for, in frames.
const MOST: usize = 6_000;

thread_local! {
    static CALLS: Cell<usize> = const { Cell::new(0) };
}

/// The system's allocator; each thread counts its calls, frees included.
struct Counting;

// SAFETY: every call is passed on unchanged to the system's allocator.
unsafe impl GlobalAlloc for Counting {
    unsafe fn alloc(&self, layout: Layout) -> *mut u8 {
        CALLS.set(CALLS.get() + 1);
        unsafe { System.alloc(layout) }
    }

    unsafe fn dealloc(&self, pointer: *mut u8, layout: Layout) {
        CALLS.set(CALLS.get() + 1);
        unsafe { System.dealloc(pointer, layout) }
    }
}

#[global_allocator]
static ALLOCATOR: Counting = Counting;

/// What the audio thread owns.
struct Audio {
    player: SharedPlayer,
    commands: Receiver<Command>,
    /// Which command came at which frame; allocated beforehand.
    heard: Vec<(u64, Command)>,
    refused: usize,
}

impl Audio {
    /// The callback: applies the commands that have come, then plays the requested frames.
    fn callback(&mut self, out: &mut [f32]) {
        // A note must fit without allocating; otherwise the command waits for a later call.
        while self.heard.len() < self.heard.capacity() {
            let Ok(command) = self.commands.try_recv() else {
                break;
            };
            match self.player.command(command) {
                Ok(()) => self.heard.push((self.player.frames(), command)),
                Err(_) => self.refused += 1,
            }
        }
        if self.player.process(out).is_err() {
            out.fill(0.0);
        }
    }
}

/// What the student does while the device plays. If the channel is full it tries again and does not block, so that the
/// callback need not wake a thread.
fn student(commands: &SyncSender<Command>, plays: impl Fn() -> bool) {
    let fade = Tween::from_millis(40);
    let evening = [
        Command::SetVolume(Level::FULL, fade),
        Command::SetLoopRegion(Region::from(0.5..1.25)),
        Command::SetPlaybackRate(0.7, Tween::from_millis(300)),
        Command::Pause(fade),
        Command::SeekBy(-0.25),
        Command::SeekBy(-0.25),
        Command::Resume(fade),
        Command::SetPanning(-0.4, Tween::from_millis(500)),
        Command::SeekTo(f64::NAN),
        Command::SetPlaybackRate(-1.0, Tween::from_millis(200)),
        Command::SetPlaybackRate(1.0, Tween::AT_ONCE),
    ];
    for (number, command) in evening.into_iter().cycle().take(66).enumerate() {
        while plays() && matches!(commands.try_send(command), Err(TrySendError::Full(_))) {
            thread::sleep(Duration::from_micros(50));
        }
        // Three commands in a row, then a pause.
        if number % 3 == 2 {
            thread::sleep(Duration::from_micros(600));
        }
    }
}

/// A device that asks for outputs of any length, and how often its callback called the allocator.
fn device(mut audio: Audio) -> (Audio, Vec<f32>, usize) {
    let mut samples = vec![0.0; 2 * FRAMES];
    let (mut rest, mut random) = (samples.as_mut_slice(), Random::new(27));
    let mut calls = 0;
    while !rest.is_empty() {
        let asked = 2 * (1 + random.below(MOST));
        let (out, later) = rest.split_at_mut(asked.min(rest.len()));
        let before = CALLS.get();
        audio.callback(out);
        calls += CALLS.get() - before;
        rest = later;
        // No sound card sets the pace here.
        thread::sleep(Duration::from_micros(100));
    }
    (audio, samples, calls)
}

/// The evening, then the same again.
pub fn main() -> Result<(), Box<dyn Error>> {
    let sound: Arc<[f32]> = (0..2 * 88_200)
        .map(|i| (i / 2 % 101) as f32 / 101.0 - 0.5)
        .collect();
    let settings = Settings::new(44_100).loop_region(..);
    let player = SharedPlayer::play(settings, OUTPUT_RATE, Arc::clone(&sound))?;
    let mut again = player.clone();
    let (sender, commands) = mpsc::sync_channel(4);
    let audio = Audio {
        player,
        commands,
        heard: Vec::with_capacity(100),
        refused: 0,
    };
    let audio = thread::spawn(move || device(audio));
    student(&sender, || !audio.is_finished());
    let (audio, samples, calls) = audio.join().map_err(|_| "the audio thread broke off")?;

    let mut whole = vec![0.0; samples.len()];
    let mut rest = whole.as_mut_slice();
    for (frame, command) in &audio.heard {
        let until = 2 * (frame - again.frames()) as usize;
        let (out, later) = rest.split_at_mut(until);
        again.process(out)?;
        again.command(*command)?;
        rest = later;
    }
    again.process(rest)?;
    let differ = samples.iter().zip(&whole);
    let differ = differ.filter(|(a, b)| a.to_bits() != b.to_bits()).count();

    let (heard, refused) = (audio.heard.len(), audio.refused);
    let pairs = audio.heard.windows(2);
    let together = pairs.filter(|pair| pair[0].0 == pair[1].0).count();
    println!(
        "{FRAMES} frames in outputs of 1 to {MOST}; {heard} commands heard, {together} of them before the same frame as the one before; {refused} refused"
    );
    println!("{calls} calls of the allocator in the callback");
    println!("{differ} samples differ from the same evening in as few calls as there can be");
    match (calls, differ, together) {
        (0, 0, 1..) => Ok(()),
        _ => Err("a callback allocated, or its cuts are heard".into()),
    }
}
