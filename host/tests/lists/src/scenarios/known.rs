// Planned scenarios: the examples and readings of the rules, every state with every signal and command, every small
// loop.

use oracle::{
    Answer, Commands, EndPosition, Entry, LIMIT, LaneBuffers, Oracle,
    PlaybackPosition::{self, Samples, Seconds},
    PlaybackState, Region, Settings, Signals, State, Wraps,
};

use super::{
    scene::{Block, Scene},
    words::Words,
};

pub fn write(list: &mut Words) {
    examples(list);
    readings(list);
    places(list);
    signals(list);
    commands(list);
    steps(list);
    seeks(list);
    ends(list);
    fractions(list);
    limits(list);
    wraps(list);
}

/// A mono sound in both channels: `first`, `first + 1` and so on.
pub fn ramp(first: usize, frames: usize) -> Vec<f32> {
    (first..first + frames)
        .flat_map(|value| [value as f32; 2])
        .collect()
}

/// The region from `start` up to `end`, in frames.
pub fn frames(start: usize, end: usize) -> Region {
    Region {
        start: Samples(start),
        end: EndPosition::Custom(Samples(end)),
    }
}

/// A block of this many frames with unit lanes at a rate, a time step of 1 and no signals.
pub fn unit(n: usize, rate: f64) -> Block {
    Block {
        lanes: LaneBuffers::constant(n, 1.0, 1.0, (1.0, 1.0), rate),
        dt: 1.0,
        signals: Signals::default(),
    }
}

/// The state after a creation over a ramp of this many frames at 1 Hz.
pub fn created(first: usize, frames: usize) -> State {
    Oracle::create(&Settings::new(1), &ramp(first, frames)).state()
}

/// The marked examples of the rules.
fn examples(list: &mut Words) {
    let mut scene = Scene::begin(list, &ramp(1, 3));
    scene.create(&Settings::new(1));
    scene.block(&unit(6, 1.0));
    scene.create(&Settings::new(1));
    (0..6).for_each(|_| scene.block(&unit(1, 1.0)));

    let mut scene = Scene::begin(list, &ramp(0, 10));
    scene.create(&Settings {
        reverse: true,
        start: Samples(2),
        ..Settings::new(1)
    });
    scene.block(&unit(8, 1.0));
    scene.create(&Settings {
        start: Seconds(2.5),
        ..Settings::new(1)
    });
    for seconds in [2.5, 10.0, 2.0] {
        scene.command(&Commands {
            seek_to: Some(seconds),
            ..Commands::default()
        });
    }
    for looped in [frames(3, 6), frames(0, 10), frames(4, 5)] {
        scene.create(&Settings {
            loop_region: Some(looped),
            ..Settings::new(1)
        });
        scene.block(&unit(12, 1.0));
        scene.block(&unit(2, 256.0));
        scene.command(&Commands {
            rate: Some(-1.0),
            ..Commands::default()
        });
        scene.block(&unit(12, 1.0));
    }
    scene.create(&Settings::new(1));
    scene.block(&unit(8, 0.5));
}

/// The readings of docs/DECISIONS.md that have an example.
fn readings(list: &mut Words) {
    let here = Commands {
        seek_by: Some(0.0),
        ..Commands::default()
    };
    let mut scene = Scene::begin(list, &ramp(0, 16));
    for position in [14, 15] {
        scene.give(&State {
            sample_rate: 44_100,
            position,
            ..created(0, 16)
        });
        scene.command(&here);
    }
    scene.create(&Settings {
        waits: true,
        ..Settings::new(1)
    });
    for start in [
        Answer::Waiting,
        Answer::Never,
        Answer::Now,
        Answer::Never,
        Answer::Waiting,
    ] {
        scene.block(&Block {
            signals: Signals {
                start,
                ..Signals::default()
            },
            ..unit(2, 1.0)
        });
    }

    let mut scene = Scene::begin(list, &[-1.0; 8]);
    scene.create(&Settings::new(1));
    scene.block(&Block {
        lanes: LaneBuffers::constant(6, 0.0, 1.0, (1.0, 1.0), 1.0),
        ..unit(0, 1.0)
    });

    zeros(list);
}

/// Both zeros as held rates, with and without reverse: at creation, by a command before a block, and by a
/// command between the two parts of a cut block; and in the lanes.
fn zeros(list: &mut Words) {
    let held = |rate| Commands {
        rate: Some(rate),
        ..Commands::default()
    };
    for looped in [None, Some(frames(0, 3))] {
        let mut scene = Scene::begin(list, &ramp(0, 4));
        for (rate, reverse) in [(0.0, false), (-0.0, false), (0.0, true), (-0.0, true)] {
            scene.create(&Settings {
                start: Samples(1),
                loop_region: looped,
                rate,
                reverse,
                ..Settings::new(1)
            });
            scene.block(&unit(3, -0.0));
            scene.block(&unit(3, -1.0));
            scene.command(&held(-rate));
            scene.block(&unit(3, 1.0));
            scene.command(&held(rate));
            scene.block(&unit(2, -1.0));
        }
    }
    let mut scene = Scene::begin(list, &ramp(1, 3));
    scene.create(&Settings {
        start: Samples(1),
        rate: -0.0,
        ..Settings::new(1)
    });
    scene.block(&unit(4, 1.0));
}

/// Slices, their stretches, and positions in a mix.
fn places(list: &mut Words) {
    let quarter = |place: f64| PlaybackPosition::Seconds(place / 4.0);
    let slices = [
        None,
        Some(frames(2, 5)),
        Some(Region {
            start: Samples(3),
            end: EndPosition::EndOfAudio,
        }),
        Some(Region {
            start: quarter(0.5),
            end: EndPosition::Custom(quarter(6.5)),
        }),
        Some(Region {
            start: quarter(-8.0),
            end: EndPosition::Custom(Samples(1)),
        }),
    ];
    for slice in slices {
        let mut scene = Scene::begin(list, &ramp(1, 8));
        for reverse in [false, true] {
            scene.create(&Settings {
                slice,
                reverse,
                loop_region: Some(Region {
                    start: Samples(0),
                    end: EndPosition::EndOfAudio,
                }),
                ..Settings::new(4)
            });
            scene.stretch();
            let block = Block {
                dt: 0.25,
                ..unit(3, 1.0)
            };
            scene.mix(&block, 6, 0);
            scene.mix(&block, 14, 2);
            scene.mix(&block, 14, 4);
            let none = Block {
                dt: 0.25,
                ..unit(0, 1.0)
            };
            scene.mix(&none, 6, 3);
            scene.mix(&none, 0, 0);
            scene.command(&Commands {
                pause: true,
                ..Commands::default()
            });
            scene.mix(&block, 8, 1);
            let finished = Signals {
                finished: true,
                ..Signals::default()
            };
            scene.mix(
                &Block {
                    signals: finished,
                    ..block
                },
                8,
                1,
            );
            scene.stretch();
        }
    }
}

/// Every state, started or not, with every signal, in blocks of 0 and 1 frames.
fn signals(list: &mut Words) {
    let answers = [Answer::Waiting, Answer::Now, Answer::Never];
    for playback in PlaybackState::ALL {
        let mut scene = Scene::begin(list, &ramp(1, 2));
        for place in 0..36 {
            scene.give(&State {
                playback,
                started: place % 2 == 0,
                ..created(1, 2)
            });
            scene.block(&Block {
                signals: Signals {
                    finished: place / 2 % 2 == 0,
                    start: answers[place / 4 % 3],
                    resume: answers[place / 12],
                },
                ..unit((place + playback as usize) % 2, 1.0)
            });
        }
    }
}

/// Every state with every command, alone and all at once.
fn commands(list: &mut Words) {
    let none = Commands::default();
    let all = Commands {
        rate: Some(-0.5),
        loop_region: Some(Some(frames(1, 3))),
        pause: true,
        resume: Some(true),
        stop: true,
        seek_by: Some(-1.0),
        seek_to: Some(2.9),
    };
    let sets = [
        none,
        Commands {
            rate: all.rate,
            ..none
        },
        Commands {
            loop_region: all.loop_region,
            ..none
        },
        Commands {
            loop_region: Some(None),
            ..none
        },
        Commands {
            pause: true,
            ..none
        },
        Commands {
            resume: Some(false),
            ..none
        },
        Commands {
            resume: Some(true),
            ..none
        },
        Commands { stop: true, ..none },
        Commands {
            seek_by: all.seek_by,
            ..none
        },
        Commands {
            seek_to: all.seek_to,
            ..none
        },
        Commands {
            pause: true,
            resume: Some(false),
            ..none
        },
        Commands { stop: false, ..all },
        all,
    ];
    for playback in PlaybackState::ALL {
        let mut scene = Scene::begin(list, &ramp(1, 4));
        for set in sets {
            scene.give(&State {
                playback,
                loop_region: Some((0, 4)),
                ..created(1, 4)
            });
            scene.command(&set);
        }
    }
}

/// Every region of at most this many frames, and none.
fn small_loops(n: usize) -> Vec<Option<(usize, usize)>> {
    let regions = (0..n).flat_map(|start| (start + 1..=n).map(move |end| Some((start, end))));
    regions.chain([None]).collect()
}

/// Steps from every position with every loop, forward and backward.
fn steps(list: &mut Words) {
    for (rate, reverse) in [(1.0, false), (-1.0, false), (1.0, true), (-1.0, true)] {
        let mut scene = Scene::begin(list, &ramp(1, 3));
        for loop_region in small_loops(3) {
            for position in 0..3 {
                scene.give(&State {
                    rate,
                    reverse,
                    position,
                    loop_region,
                    ..created(1, 3)
                });
                scene.block(&unit(2, 1.0));
            }
        }
    }
}

/// Seeks from every position to every position with every loop.
fn seeks(list: &mut Words) {
    for position in 0..3 {
        let mut scene = Scene::begin(list, &ramp(1, 3));
        for loop_region in small_loops(3) {
            for target in 0..5 {
                scene.give(&State {
                    position,
                    loop_region,
                    ..created(1, 3)
                });
                scene.command(&Commands {
                    seek_to: Some(f64::from(target)),
                    ..Commands::default()
                });
            }
        }
    }
}

/// Sounds that end inside a block, in either direction.
fn ends(list: &mut Words) {
    for n in 1..=5 {
        let mut scene = Scene::begin(list, &ramp(1, n));
        for (rate, reverse, start) in [
            (1.0, false, 0),
            (1.0, true, 0),
            (-1.0, false, n - 1),
            (-1.0, true, n - 1),
        ] {
            scene.create(&Settings {
                rate,
                reverse,
                start: Samples(start),
                ..Settings::new(1)
            });
            scene.block(&unit(8, 1.0));
            scene.block(&unit(1, 1.0));
            scene.command(&Commands {
                seek_to: Some(0.0),
                resume: Some(false),
                ..Commands::default()
            });
        }
    }
}

/// Fractions that round when they are narrowed or summed.
fn fractions(list: &mut Words) {
    let mut scene = Scene::begin(list, &ramp(1, 8));
    let one = 1.0f64;
    for fraction in [
        one.next_down(),
        one - 2f64.powi(-25),
        one - 2f64.powi(-24),
        2f64.powi(-30),
        f64::MIN_POSITIVE,
        f64::from_bits(1),
        1.0 / 3.0,
    ] {
        for rate in [0.0, 1.0, 2f64.powi(-53), 2.5] {
            scene.give(&State {
                fraction,
                loop_region: Some((0, 8)),
                ..created(1, 8)
            });
            scene.block(&unit(2, rate));
        }
    }
    scene.give(&State {
        fraction: one.next_down(),
        loop_region: Some((2, 7)),
        ..created(1, 8)
    });
    scene.block(&unit(1, 256.0));
}

/// States just inside the limits of what is well formed.
fn limits(list: &mut Words) {
    let window = |count: usize| {
        std::array::from_fn(|place| Entry {
            left: if place < count { -0.0 } else { 0.0 },
            right: if place < count { f32::NAN } else { 0.0 },
            number: LIMIT,
        })
    };
    let mut scene = Scene::begin(list, &ramp(1, 2));
    for count in 0..=4 {
        for playing in [false, true] {
            scene.give(&State {
                position: if playing { 1 } else { LIMIT },
                playing,
                window: window(count),
                count,
                ..created(1, 2)
            });
            scene.command(&Commands::default());
            scene.block(&unit(5, 1.0));
        }
    }
    scene.give(&State {
        position: LIMIT - 1,
        playing: false,
        rate: f64::MAX,
        sample_rate: 768_000,
        ..created(1, 2)
    });
    for amount in [0.0, -1e300] {
        scene.command(&Commands {
            seek_by: Some(amount),
            ..Commands::default()
        });
    }
    scene.command(&Commands {
        seek_to: Some(5592.405333),
        ..Commands::default()
    });
}

/// Wraps counted: from creation on, one before the limit and at it, and through commands.
fn wraps(list: &mut Words) {
    let mut scene = Scene::begin(list, &ramp(1, 1));
    for (rate, reverse) in [(1.0, false), (-1.0, false), (1.0, true), (-1.0, true)] {
        scene.create(&Settings {
            loop_region: Some(frames(0, 1)),
            rate,
            reverse,
            ..Settings::new(1)
        });
        scene.block(&unit(2, 1.0));
    }
    let mut scene = Scene::begin(list, &ramp(1, 10));
    for rate in [1.0, -1.0] {
        for full in [0, 1, 2, u32::MAX - 1, u32::MAX] {
            scene.give(&State {
                position: 9,
                loop_region: Some((3, 6)),
                rate,
                wraps: Wraps {
                    forward: full,
                    backward: u32::MAX - full,
                },
                ..created(1, 10)
            });
            scene.block(&unit(8, 1.0));
            for seek_to in [8.0, 0.0] {
                scene.command(&Commands {
                    seek_to: Some(seek_to),
                    ..Commands::default()
                });
            }
            scene.command(&Commands {
                loop_region: Some(Some(frames(4, 5))),
                ..Commands::default()
            });
            scene.block(&unit(2, 1.0));
            scene.command(&Commands {
                loop_region: Some(None),
                ..Commands::default()
            });
        }
    }
}
