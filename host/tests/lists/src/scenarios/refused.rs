// Refused calls, with the refusals of the rules: each number by each of its faults, and the lower of two.

use oracle::{
    Commands, EndPosition, Entry, LIMIT,
    PlaybackPosition::{Samples, Seconds},
    Region, Settings, State,
};

use super::{
    known::{created, frames, ramp, unit},
    scene::{Block, Scene},
    words::Words,
};

pub fn write(list: &mut Words) {
    creations(list);
    odd_sounds(list);
    command_sets(list);
    blocks(list);
    mixes(list);
    states(list);
    other_sounds(list);
}

/// A refusal's number, and the fault that causes it.
type Fault<T> = (u64, fn(&mut T));

/// Each fault alone, then with one of each higher number: the lower number is returned.
fn faulty<T: Clone>(good: &T, faults: &[Fault<T>], mut refuse: impl FnMut(&T, u64)) {
    for (place, (number, spoil)) in faults.iter().enumerate() {
        let mut given = good.clone();
        spoil(&mut given);
        refuse(&given, *number);
        let higher = faults[place..].iter().filter(|fault| fault.0 > *number);
        // One fault of each higher number is enough, a different one each time.
        if let Some((_, spoil_too)) = higher.clone().nth(place % higher.count().max(1)) {
            let mut given = good.clone();
            spoil_too(&mut given);
            spoil(&mut given);
            refuse(&given, *number);
        }
    }
}

/// A region in seconds.
fn seconds(start: f64, end: f64) -> Region {
    Region {
        start: Seconds(start),
        end: EndPosition::Custom(Seconds(end)),
    }
}

/// The faults of a creation over 10 frames, except those of the sound.
const CREATIONS: [Fault<Settings>; 22] = [
    (2, |s| s.sample_rate = 0),
    (2, |s| s.sample_rate = 768_001),
    (2, |s| s.sample_rate = u32::MAX),
    (4, |s| s.slice = Some(frames(4, 4))),
    (4, |s| s.slice = Some(frames(5, 4))),
    (4, |s| s.slice = Some(frames(0, 11))),
    (4, |s| s.slice = Some(seconds(0.0, f64::NAN))),
    (4, |s| s.slice = Some(seconds(f64::NEG_INFINITY, 4.0))),
    (4, |s| s.slice = Some(seconds(0.0, 1e300))),
    (5, |s| s.start = Samples(10)),
    (5, |s| s.start = Samples(usize::MAX)),
    (5, |s| s.start = Seconds(9.5)),
    (5, |s| s.start = Seconds(f64::INFINITY)),
    (5, |s| {
        s.slice = Some(frames(2, 6));
        s.start = Samples(4);
    }),
    (6, |s| s.loop_region = Some(frames(4, 4))),
    (6, |s| s.loop_region = Some(frames(4, 11))),
    (6, |s| s.loop_region = Some(seconds(f64::NAN, 4.0))),
    (6, |s| {
        s.slice = Some(frames(2, 6));
        s.loop_region = Some(frames(0, 5));
    }),
    (6, |s| {
        s.loop_region = Some(Region {
            start: Samples(10),
            end: EndPosition::EndOfAudio,
        });
    }),
    (7, |s| s.rate = f64::NAN),
    (7, |s| s.rate = f64::INFINITY),
    (7, |s| s.rate = f64::NEG_INFINITY),
];

fn creations(list: &mut Words) {
    let mut scene = Scene::begin(list, &ramp(0, 10));
    faulty(&Settings::new(1), &CREATIONS, |settings, number| {
        scene.create_refused(settings, number);
    });
    // The blank state is not well formed.
    scene.command_refused(&Commands::default(), 1);
    scene.block_refused(&unit(2, 1.0), 4, 1);
    scene.mix_refused(&unit(2, 1.0), 8, 1, 1);
    scene.stretch();
}

/// Invalid sounds: refused with 3, unless the sample rate is wrong too.
fn odd_sounds(list: &mut Words) {
    for samples in [0, 1, 5, 31] {
        let sound = vec![1.0; samples];
        let mut scene = Scene::begin(list, &sound);
        scene.create_refused(&Settings::new(1), 3);
        for (number, spoil) in [CREATIONS[1], CREATIONS[6], CREATIONS[12], CREATIONS[19]] {
            let mut settings = Settings::new(1);
            spoil(&mut settings);
            scene.create_refused(&settings, number.min(3));
        }
    }
}

/// The faults of a command set at 1 Hz, at position 3 of 10 frames.
const COMMANDS: [Fault<Commands>; 16] = [
    (6, |c| c.loop_region = Some(Some(frames(4, 4)))),
    (6, |c| c.loop_region = Some(Some(frames(4, 11)))),
    (6, |c| {
        c.loop_region = Some(Some(seconds(0.0, f64::INFINITY)));
    }),
    (6, |c| c.loop_region = Some(Some(seconds(0.4, -3.0)))),
    (7, |c| c.rate = Some(f64::NAN)),
    (7, |c| c.rate = Some(f64::INFINITY)),
    (7, |c| c.rate = Some(f64::NEG_INFINITY)),
    (8, |c| c.seek_by = Some(f64::NAN)),
    (8, |c| c.seek_by = Some(f64::NEG_INFINITY)),
    (8, |c| c.seek_by = Some(LIMIT as f64 - 3.0)),
    (8, |c| c.seek_by = Some(1e300)),
    (8, |c| c.seek_to = Some(f64::NAN)),
    (8, |c| c.seek_to = Some(f64::INFINITY)),
    (8, |c| c.seek_to = Some(f64::NEG_INFINITY)),
    (8, |c| c.seek_to = Some(LIMIT as f64)),
    (8, |c| {
        c.seek_by = Some(1.0);
        c.seek_to = Some(f64::MAX);
    }),
];

fn command_sets(list: &mut Words) {
    let mut scene = Scene::begin(list, &ramp(0, 10));
    scene.create(&Settings::new(1));
    let busy = Commands {
        pause: true,
        seek_by: Some(1.0),
        ..Commands::default()
    };
    for good in [Commands::default(), busy] {
        faulty(&good, &COMMANDS, |commands, number| {
            scene.command_refused(commands, number);
        });
    }
    scene.pass(18);
    scene.command_refused(&busy, 1);
    faulty(&busy, &COMMANDS, |commands, _| {
        scene.command_refused(commands, 1);
    });
    scene.pass(20);
    scene.command(&busy);
    scene.give(&State {
        position: LIMIT - 1,
        playing: false,
        ..created(0, 10)
    });
    scene.command_refused(&busy, 8);
}

/// A block and its output's length.
#[derive(Clone)]
struct Placed {
    block: Block,
    samples: usize,
}

/// The faults of a block of 3 frames at 1 Hz.
const BLOCKS: [Fault<Placed>; 37] = [
    (9, |b| b.samples = 5),
    (9, |b| b.samples = 7),
    (9, |b| b.samples = 4),
    (9, |b| b.samples = 8),
    (9, |b| b.samples = 0),
    (9, |b| b.block.lanes.fade.push(1.0)),
    (9, |b| b.block.lanes.volume.push(1.0)),
    (9, |b| b.block.lanes.left.truncate(2)),
    (9, |b| b.block.lanes.right.clear()),
    (9, |b| b.block.lanes.rate.push(1.0)),
    (9, |b| b.block.lanes.rate.clear()),
    (10, |b| b.block.dt = 0.0),
    (10, |b| b.block.dt = -0.0),
    (10, |b| b.block.dt = -1.0),
    (10, |b| b.block.dt = f64::NAN),
    (10, |b| b.block.dt = f64::INFINITY),
    (10, |b| b.block.dt = -f64::from_bits(1)),
    (11, |b| b.block.lanes.fade[0] = -0.0),
    (11, |b| b.block.lanes.fade[2] = f32::NAN),
    (11, |b| b.block.lanes.volume[1] = -1.0),
    (11, |b| b.block.lanes.volume[2] = f32::INFINITY),
    (11, |b| b.block.lanes.left[2] = f32::NEG_INFINITY),
    (11, |b| b.block.lanes.left[0] = -f32::from_bits(1)),
    (11, |b| b.block.lanes.right[1] = -0.0),
    (11, |b| b.block.lanes.right[2] = -f32::NAN),
    (11, |b| b.block.lanes.rate[0] = f64::NAN),
    (11, |b| b.block.lanes.rate[1] = f64::INFINITY),
    (11, |b| b.block.lanes.rate[2] = f64::NEG_INFINITY),
    (12, |b| b.block.lanes.rate[0] = 256f64.next_up()),
    (12, |b| b.block.lanes.rate[1] = -256f64.next_up()),
    (12, |b| b.block.lanes.rate[2] = 1e300),
    (12, |b| b.block.lanes.rate[2] = f64::MIN),
    (12, |b| b.block.dt = 256f64.next_up()),
    (12, |b| b.block.dt = f64::MAX),
    (12, |b| {
        b.block.dt = 512.0;
        b.block.lanes.rate[1] = -0.75;
    }),
    (12, |b| {
        b.block.dt = 128.0;
        b.block.lanes.rate[0] = 3.0;
    }),
    (12, |b| {
        b.block.dt = 1e200;
        b.block.lanes.rate[0] = 1e200;
    }),
];

fn placed(frames: usize) -> Placed {
    Placed {
        block: unit(frames, 1.0),
        samples: 2 * frames,
    }
}

fn blocks(list: &mut Words) {
    let mut scene = Scene::begin(list, &ramp(0, 10));
    scene.create(&Settings::new(1));
    faulty(&placed(3), &BLOCKS, |given, number| {
        scene.block_refused(&given.block, given.samples, number);
    });
    // A block is checked in full even when it would be silent.
    scene.give(&State {
        started: false,
        ..created(0, 10)
    });
    for (number, spoil) in [BLOCKS[0], BLOCKS[11], BLOCKS[17], BLOCKS[28]] {
        let mut given = placed(3);
        spoil(&mut given);
        scene.block_refused(&given.block, given.samples, number);
    }
    scene.pass(18);
    scene.block_refused(&unit(3, 1.0), 6, 1);
    faulty(&placed(3), &BLOCKS[..18], |given, _| {
        scene.block_refused(&given.block, given.samples, 1);
    });
    scene.pass(20);
    scene.block(&unit(3, 1.0));
    // At 2 Hz only the first product is infinite.
    scene.give(&State {
        sample_rate: 2,
        ..created(0, 10)
    });
    let mut given = unit(1, f64::MAX);
    given.dt = f64::from_bits(1);
    scene.block_refused(&given, 2, 12);
}

/// The faults of a block that are not in its output's length, and the positions in a mix without enough space.
fn mixes(list: &mut Words) {
    let mut scene = Scene::begin(list, &ramp(0, 10));
    scene.create(&Settings::new(1));
    for (samples, from) in [
        (12, 4),
        (12, 6),
        (12, 7),
        (12, usize::MAX),
        (12, usize::MAX / 2),
        (11, 0),
        (13, 1),
        (4, 0),
        (0, 0),
    ] {
        scene.mix_refused(&unit(3, 1.0), samples, from, 9);
        let mut late = unit(3, 1.0);
        late.dt = f64::NAN;
        scene.mix_refused(&late, samples, from, 9);
    }
    scene.mix_refused(&unit(0, 1.0), 12, 7, 9);
    scene.mix_refused(&unit(0, 1.0), 0, 1, 9);
    for (number, spoil) in BLOCKS[5..].iter().filter(|fault| fault.0 != 9) {
        let mut given = placed(3);
        spoil(&mut given);
        scene.mix_refused(&given.block, 12, 2, *number);
    }
    for (number, spoil) in &BLOCKS[5..9] {
        let mut given = placed(3);
        spoil(&mut given);
        scene.mix_refused(&given.block, 12, 2, *number);
    }
    scene.pass(18);
    scene.mix_refused(&unit(3, 1.0), 12, 4, 1);
    scene.pass(20);
    scene.mix(&unit(3, 1.0), 12, 3);
}

/// The faults of a state over 10 frames with a full window.
const STATES: [Fault<State>; 30] = [
    (1, |s| s.sample_rate = 0),
    (1, |s| s.sample_rate = 768_001),
    (1, |s| s.total_frames = 0),
    (1, |s| s.total_frames = 9),
    (1, |s| s.total_frames = 16_777_217),
    (1, |s| s.slice = Some((4, 4))),
    (1, |s| s.slice = Some((6, 4))),
    (1, |s| s.slice = Some((0, 11))),
    (1, |s| s.loop_region = Some((4, 4))),
    (1, |s| s.loop_region = Some((0, 11))),
    (1, |s| {
        s.slice = Some((2, 8));
        s.loop_region = Some((0, 7));
    }),
    (1, |s| s.rate = f64::NAN),
    (1, |s| s.rate = f64::NEG_INFINITY),
    (1, |s| s.position = 10),
    (1, |s| {
        s.slice = Some((2, 8));
        s.position = 6;
    }),
    (1, |s| {
        s.playing = false;
        s.position = LIMIT + 1;
    }),
    (1, |s| s.window[0].number = LIMIT + 1),
    (1, |s| s.window[3].number = usize::MAX),
    (1, |s| s.fraction = -0.0),
    (1, |s| s.fraction = 1.0),
    (1, |s| s.fraction = -0.5),
    (1, |s| s.fraction = f64::NAN),
    (1, |s| s.fraction = f64::INFINITY),
    (1, |s| s.count = 5),
    (1, |s| s.count = usize::MAX),
    (1, |s| s.count = 3),
    (1, |s| s.count = 0),
    (1, |s| {
        s.count = 3;
        s.window[3] = silent_but(-0.0, 0.0);
    }),
    (1, |s| {
        s.count = 3;
        s.window[3] = silent_but(0.0, -0.0);
    }),
    (1, |s| {
        s.count = 3;
        s.window[3] = silent_but(f32::NAN, 0.0);
    }),
];

fn silent_but(left: f32, right: f32) -> Entry {
    Entry {
        left,
        right,
        number: 2,
    }
}

fn states(list: &mut Words) {
    let mut scene = Scene::begin(list, &ramp(1, 10));
    for (number, spoil) in STATES {
        let mut state = created(1, 10);
        spoil(&mut state);
        scene.give(&state);
        let fault = COMMANDS[8].1;
        let mut commands = Commands::default();
        scene.command_refused(&commands, number);
        fault(&mut commands);
        scene.command_refused(&commands, number);
        scene.block_refused(&unit(1, 1.0), 2, number);
        scene.mix_refused(&unit(1, 300.0), 3, 1, number);
        scene.stretch();
    }
}

/// A well formed state with another sound than the recorded one.
fn other_sounds(list: &mut Words) {
    let mut scene = Scene::begin(list, &ramp(1, 10));
    for slice in [None, Some((2, 5))] {
        scene.give(&State {
            slice,
            position: 1,
            ..created(1, 10)
        });
        for passed in [0, 10, 18, 19] {
            scene.pass(passed);
            scene.command_refused(&Commands::default(), 1);
            scene.block_refused(&unit(1, 1.0), 2, 1);
            scene.stretch();
        }
        scene.pass(20);
        scene.command(&Commands::default());
        scene.block(&unit(2, 1.0));
        scene.stretch();
    }
}
